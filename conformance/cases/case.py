"""A case of the suite, and how one is written down: a function that makes its file, in a byte
order. Its first line is the sentence for people."""

import os
import re
from collections.abc import Callable, Sequence
from typing import NamedTuple

from elf_conformance.build import ORDERS, Order

HERE = os.path.dirname(os.path.abspath(__file__))
Maker = Callable[[Order], bytes]
LinkMaker = Callable[[], list[bytes]]
ENDINGS = {"little": "le", "big": "be"}


class Rule(NamedTuple):
    """What is known of a rule: whose point it is, where the standard has it, and its words."""

    folder: str
    point: str
    part: str
    sentence: str


class Case(NamedTuple):
    """A case: its set and its name, the sentence for people, the files, the rule that it is about,
    whether it breaks it, and whose point that is."""

    set: str
    name: str
    about: str
    files: list[bytes]
    rule: int = 0
    breaks: bool = False
    point: str = "gABI"
    part: str = ""
    sentence: str = ""
    more: dict[str, object] = {}


def rules() -> dict[int, Rule]:
    """The rules of rules.txt."""
    found: dict[int, Rule] = {}
    with open(f"{HERE}/rules.txt", encoding="utf-8") as it:
        text = it.read()
    for head, sentence in re.findall(r"^(\d+ \|.*)\n(.*)$", text, re.M):
        rule, folder, point, part = (it.strip() for it in head.split("|"))
        found[int(rule)] = Rule(folder, point, part, sentence)
    return found


RULES = rules()
CASES: list[Case] = []


def about_of(function: Callable[..., object]) -> str:
    """The words of a function."""
    return " ".join((function.__doc__ or "").split())


def add_both(
    function: Maker, set: str, folder: str, rule: int, breaks: bool, point: str, why: str
) -> None:
    """Adds the cases of a function, in both byte orders."""
    known = RULES.get(rule)
    part = known.part if known else ""
    sentence = why or (known.sentence if known else "")
    number = f"{rule:02}-" if rule else ""
    for order in ORDERS:
        words = function.__name__.replace("_", "-")
        state = ("breaks-" if breaks else "keeps-") if rule else ""
        name = f"{folder}/{number}{state}{words}-{ENDINGS[order]}"
        own = point or (known.point if known else "gABI")
        case = Case(
            set, name, about_of(function), [function(order)], rule, breaks, own, part, sentence
        )
        CASES.append(case)


def breaks(rule: int, point: str = "", why: str = "") -> Callable[[Maker], Maker]:
    """A file that breaks a rule; whose point it is, if it is not that of the rule, and why."""

    def add(function: Maker) -> Maker:
        add_both(function, "rules", RULES[rule].folder, rule, True, point, why)
        return function

    return add


def keeps(rule: int, point: str = "", why: str = "") -> Callable[[Maker], Maker]:
    """A file that only just keeps a rule."""

    def add(function: Maker) -> Maker:
        add_both(function, "rules", RULES[rule].folder, rule, False, point, why)
        return function

    return add


def sound(folder: str, set: str = "readings") -> Callable[[Maker], Maker]:
    """A file that breaks no rule, and whose values are read."""

    def add(function: Maker) -> Maker:
        add_both(function, set, folder, 0, False, "gABI", "")
        return function

    return add


def single(
    set: str, name: str, function: Callable[..., object], files: Sequence[bytes], **more: object
) -> None:
    """Adds one case of these files."""
    point = str(more.pop("point", "gABI"))
    CASES.append(Case(set, name, about_of(function), list(files), point=point, more=more))
