" Vim syntax file
" Language: documents of ucon: a policy, the line %%, a script of commands
" A word is coloured only where the grammar names it, since none is reserved. Of two matches at one place vim takes the later one.

if exists("b:current_syntax")
  finish
endif

" What no policy has outside of texts and comments.
syntax match uconWrong "[A-Z&|!?/%'@$\\^~`]\|[^\x00-\x7F]\|\r"

" The policy.
syntax match uconNumber "\<\d\+\>"
syntax match uconOperator "\.\.\|!=\|<=\|>=\|[=<>+*-]"
syntax match uconWord "\<\%(and\|or\|not\|in\)\>"
syntax match uconPlace "\<\%(s\|o\|env\)\s*\.\s*\l\w*"
syntax match uconSize "\<size\ze\s*("
syntax match uconDuty "\<done\ze\s\+\l\|\<\%(within\|every\|lasts\)\ze\s\+\d\|\<\%(by\|on\)\ze\s\+\""
syntax match uconKind ":\s*\zs\%(int\|text\|set\)\>\ze\s*\%(=\|-\|\d\)"

syntax match uconDeclaration "\<attr\ze\s\+[so]\s\+\l" nextgroup=uconSide skipwhite
syntax match uconSide "[so]" contained nextgroup=uconName skipwhite
syntax match uconDeclaration "\<env\ze\s\+\l\w*\s*:" nextgroup=uconName skipwhite
syntax match uconName "\l\w*" contained
syntax match uconDeclaration "\<right\ze\s\+\l\w*\s*{" nextgroup=uconRight skipwhite
syntax match uconRight "\l\w*" contained
syntax match uconPhase "\<\%(pre\|on\)\ze\s\+[abc]\s\+\l\w*\s*:" nextgroup=uconSort skipwhite
syntax match uconSort "[abc]" contained nextgroup=uconLabel skipwhite
syntax match uconLabel "\l\w*" contained
syntax match uconTime "\<\%(before\|during\|after_end\|after_revoke\)\ze\s\+[so]\s*\."

syntax region uconText start=+"+ end=+"+ oneline
syntax keyword uconTodo TODO FIXME contained
syntax match uconComment "#.*$" contains=uconTodo

" The script, from the divider to the end.
syntax region uconScript matchgroup=uconDivider start="^%%$" end="\%$" contains=uconHeading,uconCommand,uconLine,uconText,uconValue,uconBlank
syntax match uconHeading "^client \d\+$" contained
syntax match uconCommand "^\%(subject\|object\|env\|tick\|act\|try\|again\|beat\|end\|look\)\>" contained
syntax match uconCommand "^\%(set\|value\) \@=" contained nextgroup=uconOwner skipwhite
syntax match uconOwner "[so] \@=" contained
syntax match uconCommand "^amend \@=" contained nextgroup=uconAmendment skipwhite
syntax region uconAmendment start="\S" end="$" oneline keepend contained contains=TOP,uconScript
syntax match uconValue " \zs-\?\d\+$" contained
syntax match uconLine "^#.*$" contained
" What is refused although it is hard to see.
syntax match uconBlank "^\s\+\|\s\+$\|\r" contained

syntax sync fromstart

highlight default link uconWrong Error
highlight default link uconNumber Number
highlight default link uconOperator Operator
highlight default link uconWord Operator
highlight default link uconPlace Identifier
highlight default link uconSize Function
highlight default link uconDuty Keyword
highlight default link uconKind Type
highlight default link uconDeclaration Keyword
highlight default link uconSide Type
highlight default link uconName Identifier
highlight default link uconRight Function
highlight default link uconPhase Statement
highlight default link uconSort Type
highlight default link uconLabel Label
highlight default link uconTime Statement
highlight default link uconText String
highlight default link uconTodo Todo
highlight default link uconComment Comment
highlight default link uconDivider PreProc
highlight default link uconHeading PreProc
highlight default link uconCommand Statement
highlight default link uconOwner Type
highlight default link uconValue Number
highlight default link uconLine Comment
highlight default link uconBlank Error

let b:current_syntax = "ucon"
