"""A front end of the monitor: it knows who says something, and the monitor decides.

`config` reads words; `users` says who somebody is, and `limits` how much they may ask. `monitor` runs `converse` and starts it again, over
`protocol`, `telling` (JOURNAL.told) and `history` (the journal's steps). `sessions` says whose a session is, `readings` asks the monitor what
is there, `answers` says what a caller is told of a reply, and `repeats` gives a repeated request its first answer. `routes`, `admin`, `events`
and `metrics` are what is served, put together in `server` over `book` and `asking`; `console/` is the page.

Nothing here decides what the monitor decides. Python 3.11 and later, with aiohttp."""
