autocmd BufNewFile,BufRead *.ucon setfiletype ucon
