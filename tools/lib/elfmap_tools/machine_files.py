"""Files of this machine, for the tests that try them. A part of them is tried, the same each time:
those whose paths have the least sums."""

import hashlib
import re
from collections import Counter
from collections.abc import Iterable

from .suite import Tally

ELF_64 = b"\x7fELF\x02"


def some(paths: Iterable[str], count: int) -> list[str]:
    """So many of these paths, those of the least sums."""

    def sum_of(path: str) -> bytes:
        return hashlib.sha256(path.encode(errors="surrogateescape")).digest()

    return sorted(paths, key=sum_of)[:count]


def count_ends(tally: Tally, ends: list[str], good: str) -> None:
    """Counts how files ended, of which this pattern fits the good ends, and prints how many did
    how."""
    tally.count(len(ends), [it for it in ends if not re.fullmatch(good, it)])
    counts = sorted(Counter(it for it in ends if re.fullmatch(good, it)).items())
    tally.note(", ".join(f"{count} {it}" for it, count in counts))
