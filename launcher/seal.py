"""Whether a journal's front is to the byte what it was as its companion was written: one digest of all these bytes, which takes a tenth
of following the heads.

The seal is SHA-256 (FIPS 180-4) of the journal's first bytes, up to the gate behind the last record that was told, followed by the lines of
the companion before the seal's own. So it holds only where neither of the two was changed; then the head in the companion is that of the
journal, and nobody has to follow it again. Where it doesn't hold, the heads are followed, and tell what differs."""
import hashlib
from typing import Any, NamedTuple

from launcher.journal import Journal

PART = 1 << 20


class Front(NamedTuple):
    """So many bytes of a journal, and their digest, which is copied and never changed."""

    at: int
    digest: Any

    def sealed(self, lines: str) -> str:
        """The seal of these bytes and of a companion's lines."""
        digest = self.digest.copy()
        digest.update(lines.encode())
        return digest.hexdigest()


EMPTY = Front(0, hashlib.sha256())


def up_to(journal: Journal, at: int, front: Front = EMPTY) -> Front:
    """The journal's first bytes up to a place, of which those of a front were read before; fewer where it has fewer."""
    digest = front.digest.copy()
    for start in range(front.at, at, PART):
        digest.update(journal.read(start, min(PART, at - start)))
    return Front(at, digest)
