"""docs/generated/DEFINITIONS.md, the definitions that contracts name, beside the comments in
crates/*/specs/.

`tools/release definitions` brings the page up to the comments. The page lists the definitions: a
line "| `NAME`" in it becomes the definition's row. One without a comment of its own keeps the
sentence in its row."""

import functools
import glob
import os
import re

from .sources import Definition, definitions
from .tree import TOP, Options, read_text, write

DEFINITIONS = "docs/generated/DEFINITIONS.md"
# A row: its definition, and its sentence if it has one.
ROW = re.compile(r"^\| `([^`]+)`(?: \| (.*?) \|)?.*$", re.M)


@functools.cache
def known() -> dict[str, Definition]:
    """Every definition of specs/ by its name."""
    found: dict[str, Definition] = {}
    for path in sorted(glob.glob("crates/*/specs/*.antt", root_dir=TOP)):
        found |= definitions(path)[0]
    return found


def section_of(found: Definition) -> str:
    """The sections of the gABI that the comment of a definition's part of its file names (it ends
    at an empty line), or else the file's."""
    front = read_text(found.path).partition(found.text)[0]
    comments = re.findall(r"((?:^--.*\n)+)(?=\n|(?:pub )?use )", front, re.M)
    for comment in comments[-1:] + comments[:1]:
        words = re.sub(r"^-- *", "", comment, flags=re.M).split()
        named = re.search(r"\(gABI ([^)]*)\)", " ".join(words))
        if named:
            return named[1].rstrip(".")
    return ""


def word_row(own: re.Match[str]) -> str:
    """The row of a word, by the row that it has."""
    found = known()[own[1]]
    said = found.comment.replace("|", r"\|") or own[2] or ""
    crate = found.path.split("/")[1]
    name = os.path.basename(found.path).removesuffix(".antt")
    place = f"[`{crate}` {name}](../../{found.path})"
    return f"| `{own[1]}` | {said} | {section_of(found)} | {place} |"


def whole(page: str) -> str:
    """The page with each row as it has to be."""
    return ROW.sub(word_row, page)


def write_definitions(options: Options) -> None:
    """`tools/release definitions`."""
    write(f"{TOP}/{DEFINITIONS}", whole(read_text(DEFINITIONS)))
