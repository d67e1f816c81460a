"""The pages that `check` and `measure` write of what they printed."""
import contextlib
import io
import pathlib
import sys
from typing import Iterator, Optional, TextIO

HEAD = """# A monitor on several machines: what `{name}` printed

`examples/replicated/{name}` makes this page, by `--page FILE`: it is all that one call printed. The example's README says what it does.

```
"""


class Both(io.TextIOBase):
    """Hands on what is written, and keeps it."""

    def __init__(self, out: TextIO) -> None:
        self.out = out
        self.kept = io.StringIO()

    def write(self, text: str) -> int:
        self.out.write(text)
        return self.kept.write(text)

    def flush(self) -> None:
        self.out.flush()


def of(name: str, printed: str) -> str:
    """The page of a script that printed this."""
    return f"{HEAD.format(name=name)}{printed.rstrip()}\n```\n"


@contextlib.contextmanager
def kept(name: str, page: Optional[pathlib.Path]) -> Iterator[None]:
    """Writes the page of what a script prints meanwhile, once it is over, if there is to be one."""
    if page is None:
        yield
        return
    both = Both(sys.stdout)
    with contextlib.redirect_stdout(both):
        yield
    page.write_text(of(name, both.kept.getvalue()), encoding="utf-8")
