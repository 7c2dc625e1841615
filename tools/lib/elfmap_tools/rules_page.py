"""The rules of docs/RULES.md, which has them in tables."""

import functools
import re
from typing import NamedTuple

from .tree import cells, read_text


class Rule(NamedTuple):
    """A rule: its number, its definition, its name, why something is refused, and with what is
    refused, and what to do."""

    number: int
    definition: str
    name: str
    words: str
    sentence: str
    advice: str


@functools.cache
def by_anchor() -> dict[str, Rule]:
    """The rules of docs/RULES.md by their anchors, as `image-33`."""
    found: dict[str, Rule] = {}
    refused = ""
    advice = ""
    for row in map(cells, read_text("docs/RULES.md").splitlines()):
        if row[0] == "rule":
            refused = row[2]
        anchor = re.match(r'<a id="(\w+-(\d+))"></a>', row[0])
        if anchor:
            advice = advice if row[4] == "the same" else row[4]
            definition, name, *_ = re.findall(r"`(\w+)`", row[1])
            sentence = f"{refused} {row[2]}"
            found[anchor[1]] = Rule(int(anchor[2]), definition, name, row[2], sentence, advice)
    return found


def rules_of(kind: str, numbers: range = range(1, 100)) -> list[Rule]:
    """The rules of a kind, as `image`, with these numbers."""
    of_kind = (it for anchor, it in by_anchor().items() if anchor.startswith(f"{kind}-"))
    return [it for it in of_kind if it.number in numbers]


def file_rules() -> list[Rule]:
    """Those of files: of images, of tables, and of objects."""
    return [
        *rules_of("image", range(1, 34)),
        *rules_of("table", range(40, 70)),
        *rules_of("object", range(70, 80)),
    ]
