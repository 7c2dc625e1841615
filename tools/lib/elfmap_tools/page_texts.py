"""The pages of the repository: which they are, and the code and the sentences in them."""

import glob
import re
from collections.abc import Iterator

from .tree import TOP

PATTERNS = (
    "README.md",
    "CONTRIBUTING.md",
    "CHANGELOG.md",
    "SECURITY.md",
    "docs/*.md",
    "docs/generated/*.md",
    "bindings/*/README.md",
)
# A block of code, fenced or indented. That comes after an empty line or more code; other indented
# lines continue an item.
FENCED = r"^(?P<fence> *)```.*\n(?P<fenced>(?:.*\n)*?) *```"
INDENTED = r"(?:\A|(?<=\n))\n(?P<indented>(?:    .*\n|\n(?=    ))+)"
CODE = re.compile(f"{FENCED}|{INDENTED}", re.M)
# Where a paragraph ends: an empty line, or the next item of a list.
PARAGRAPHS = re.compile(r"\n\s*\n|\n(?= *(?:[-*]|\d+\.) )")
# Where a sentence ends: at its mark, if what follows begins one.
SENTENCES = re.compile(r"(?<=[.!?])[\"')*]*\s+(?=[\"'(*`\[]*[A-Z`\[])")


def all_pages() -> list[str]:
    """The paths of the pages in the repository, README.md and the like first."""
    return [it for pattern in PATTERNS for it in sorted(glob.glob(pattern, root_dir=TOP))]


def sentences(text: str) -> list[str]:
    """The sentences of a page, each in one line: no code, tables, headings, images and targets of
    links."""
    prose = re.sub(r"^(?:#|\||<|!\[).*$", "", CODE.sub("\n", text), flags=re.M)
    prose = re.sub(r"\[([^\]]*)\]\([^)]*\)", r"\1", prose)
    found: list[str] = []
    for it in PARAGRAPHS.split(prose):
        line = re.sub(r"^(?:[-*]|\d+\.) ", "", " ".join(it.split()))
        found += filter(None, SENTENCES.split(line))
    return found


def blocks(text: str) -> Iterator[str]:
    """The blocks of code of a page, without their indentation."""
    for it in CODE.finditer(text):
        indent = 4 if it["fence"] is None else len(it["fence"])
        yield re.sub(f"^ {{{indent}}}", "", it["fenced"] or it["indented"], flags=re.M)
