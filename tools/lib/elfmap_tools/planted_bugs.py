"""docs/generated/PLANTED_BUGS.md: of which crates the check has refused all bugs of mutations.txt.

To plant the bugs of all crates takes hours. So `tools/test mutations --all` writes a row for each
crate of which it refused all, with a sum of the texts that it checked, and the next run goes on
with the crates that have no row, or were changed since."""

import hashlib
import re
import textwrap
from typing import NamedTuple

from .building import sum_of
from .tree import TOP, read_bytes, read_text, write

PAGE = "docs/generated/PLANTED_BUGS.md"
TITLE = "# Planted bugs"
HEAD = [
    "`tools/test mutations --all` makes the tables of this page. Do not edit them by hand: run it "
    "again.",
    "A bug is a change of a line or a few in a function of a crate, which makes it wrong. The "
    "files `mutations.txt` have them. The check refuses each bug of these crates, at the function "
    "that it is planted in. The *sum* is that of all texts that were checked: of the crate, of "
    "those below it, of its bugs, and of the kit's version. A crate whose texts have changed since "
    "is planted again by the next run.",
]
TABLE = ["| crate | bugs, all refused | sum |", "|---|---|---|"]
COLUMNS = 140
ROW = re.compile(r"^\| `(\w+)` \| (\d+) \| `(\w+)` \|$", re.M)


class Row(NamedTuple):
    """How many bugs a crate has, and the sum of the texts."""

    bugs: int
    sum: str


def row_of(crate: str, count: int) -> Row:
    """The row of a crate that has so many bugs, as its texts are now."""
    bugs = read_bytes(f"{TOP}/crates/{crate}/mutations.txt")
    found = hashlib.sha256(sum_of(crate).encode() + bugs)
    return Row(count, found.hexdigest()[:16])


def rows() -> dict[str, Row]:
    """The rows of the page, by their crates."""
    found = ROW.findall(read_text(PAGE))
    return {crate: Row(int(count), own) for crate, count, own in found}


def is_known(crate: str, count: int) -> bool:
    """Whether the page says that all bugs of a crate, as its texts are now, were refused."""
    return rows().get(crate) == row_of(crate, count)


def note(crate: str, count: int) -> None:
    """Notes that the check refused all bugs of a crate."""
    found = rows() | {crate: row_of(crate, count)}
    lines = [f"| `{name}` | {it.bugs} | `{it.sum}` |" for name, it in sorted(found.items())]
    paragraphs = [textwrap.fill(it, COLUMNS) for it in HEAD]
    write(f"{TOP}/{PAGE}", "\n\n".join([TITLE, *paragraphs, "\n".join(TABLE + lines)]) + "\n")
