"""What stands around the program, by its modules.

Its words and help: `forms`. Which program is run: `which` chooses the proved one (`build`) or the one as it is written (`written`, over the kit's
tools in `kit`). Each is known by its `sources`, and `program` runs it, of a form by `running`. `bringing` has its document, where words bring
one, and `founding` looks at the one with which a journal begins.

What a person needs beside what it said: `hints`. It stands over `faults` (of policies and scripts), `amended`, `journals` and `replies`, and
these over `source`, `policy`, `script` and `near`. Tests of policies: `suite`. What may surprise in one: `lint`, over `formula` and `ranges`.

Of journals: `journal` reads them, and `heads` follows them. `reading` has the words that only read them: `log`, `in_force` and `backup`.
`operating` has those that need the program, too: `state`, `verify`, `amending` and `carry`, over `carried`. What they print goes through `output`.
`asking` asks the program for them, and `standing` for what stands in a journal: `pointed` reads that in a checkpoint, and `reported` in a
report. They write in a `room`, which is gone behind them. `keeping`, over `lock` and `told`, stands around each form that writes a journal.

`fronting` starts the front end, which is in front/.

Nothing here decides what the program prints. Python 3.8 and later."""
