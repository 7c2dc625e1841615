"""Findings, and how they are suppressed: by a rule's name or number, or by a baseline."""

from __future__ import annotations

import fnmatch
import os
import re
from collections import Counter
from collections.abc import Iterable, Iterator, Sequence
from typing import NamedTuple, Optional, TypedDict, Union

from elfmap._origin import Origin
from elfmap._rules import LINK_RULES, RULES, WARNINGS


class Rule(NamedTuple):
    """A rule of files or of the link, or a warning before a link. Each kind is numbered from 1 on.

    So 3 is WRONG_MAGIC of files, and TLS of the link. All that findings are of differ in
    their names.
    """

    is_of_link: bool
    number: int
    is_warning: bool = False

    @property
    def words(self) -> str:
        """Its number, as text has it."""
        kind = "warning " if self.is_warning else "link " if self.is_of_link else ""
        return f"{kind}{self.number}"

    @property
    def key(self) -> Union[int, str]:
        """Its number, as JSON and `--ignore` have it."""
        words = self.words
        return self.number if words.isdecimal() else words.replace(" ", "-")

    @property
    def level(self) -> str:
        """How SARIF and GitHub call what is found."""
        return "warning" if self.is_warning else "error"

    @property
    def place(self) -> str:
        """Where docs/RULES.md has it."""
        return f"docs/RULES.md#{self._kind}-{self.number}"

    @property
    def _kind(self) -> str:
        """What it is a rule of. Those of images are below 40, and those of tables below 70."""
        if self.is_of_link or self.is_warning:
            return "warning" if self.is_warning else "link"
        if self.number < 40:
            return "image"
        return "table" if self.number < 70 else "object"

    @property
    def table(self) -> dict[int, tuple[str, str, str]]:
        """All rules that are numbered with it: of each its name, its sentence and its advice."""
        if self.is_warning:
            return WARNINGS
        return LINK_RULES if self.is_of_link else RULES


NOWHERE = -1


class Finding(NamedTuple):
    """A rule that is broken, at an offset of a file or of a member of an archive.

    `path` is printed, as `lib.a(member.o)`. The bytes are in `file`, from `start` on; of one in a
    package that is NOWHERE.
    """

    path: bytes
    offset: int
    rule: Rule
    name: str
    message: str
    sections: tuple[str, ...]
    file: bytes
    start: int
    origin: Origin = Origin()


class Unread(NamedTuple):
    """What can't be read, or not to its end, and why."""

    path: bytes
    reason: str


class Damaged(Unread):
    """What can't be read due to the content of a file. A baseline may have it."""


class Counts(TypedDict):
    """The numbers of a run; those of known deviations by their names."""

    checked: int
    findings: int
    files_with_findings: int
    suppressed: int
    known_deviations: dict[str, int]
    not_elf: int
    class_32: int
    not_regular: int
    unreadable: int


class Summary(Counts, total=False):
    """These numbers, and whether the files link, if that was asked for and they could be read."""

    links: bool


class Report:
    """What a run, or a part of it, has found."""

    def __init__(self, checked: int = 0, unreadable: Iterable[Unread] = ()) -> None:
        self.checked = checked
        self.no_elf = 0
        self.class_32 = 0
        self.irregular = 0
        self.suppressed = 0
        # Known deviations, by their names.
        self.known = Counter[str]()
        self.findings: list[Finding] = []
        self.unreadable: list[Unread] = list(unreadable)
        # The files and members that were checked, where a format wants them.
        self.names: list[bytes] = []
        # Whether the files link, if that was asked for.
        self.links: Optional[bool] = None
        # The debug files that files name: of each its name and its CRC-32.
        self.debug_links: set[tuple[bytes, int]] = set()

    def add(self, other: Report) -> None:
        self.checked += other.checked
        self.no_elf += other.no_elf
        self.class_32 += other.class_32
        self.irregular += other.irregular
        self.suppressed += other.suppressed
        self.known += other.known
        self.findings += other.findings
        self.unreadable += other.unreadable
        self.names += other.names
        self.links = self.links if other.links is None else other.links
        self.debug_links |= other.debug_links

    def sort(self) -> None:
        """By paths, so that it does not matter which part was done first."""
        self.findings.sort()
        self.unreadable.sort()
        self.names.sort()

    def summary(self) -> Summary:
        found: Summary = {
            "checked": self.checked,
            "findings": len(self.findings),
            "files_with_findings": len({it.path for it in self.findings}),
            "suppressed": self.suppressed,
            "known_deviations": dict(sorted(self.known.items())),
            "not_elf": self.no_elf,
            "class_32": self.class_32,
            "not_regular": self.irregular,
            "unreadable": len(self.unreadable),
        }
        if self.links is not None:
            found["links"] = self.links
        return found


class BadWord(ValueError):
    """A usage error."""


class Globs:
    """Shell patterns: one with a slash is of a whole path, any other of a name in it."""

    def __init__(self, globs: Iterable[str]) -> None:
        words = [os.fsencode(it) for it in globs]
        self._whole = _pattern([it for it in words if b"/" in it])
        self._names = _pattern([it for it in words if b"/" not in it])

    def match(self, path: bytes) -> bool:
        if self._whole and self._whole.match(path):
            return True
        name = path.rstrip(b"/").rpartition(b"/")[2]
        return bool(self._names and self._names.match(name))


def _pattern(globs: Sequence[bytes]) -> Optional[re.Pattern[bytes]]:
    if not globs:
        return None
    # The translation is one of text: in Latin-1 each byte is a letter.
    text = "|".join(fnmatch.translate(it.decode("latin-1")) for it in globs)
    return re.compile(text.encode("latin-1"))


# The rules that a finding may be of.
ALL_RULES = [
    *(Rule(False, it) for it in RULES),
    *(Rule(True, it) for it in LINK_RULES),
    *(Rule(False, it, True) for it in WARNINGS),
]


def _words_of_rules() -> Iterator[tuple[str, Rule]]:
    """Each of them, by its name and by its number."""
    for rule in ALL_RULES:
        yield rule.table[rule.number][0], rule
        yield _plain(str(rule.key)), rule


def _plain(word: str) -> str:
    """A name in capitals, with `_` for `-`; or a number without zeros in front."""
    return word.lstrip("0") if word.isdecimal() else word.upper().replace("-", "_")


_RULES = dict(_words_of_rules())


def rules_of(word: str) -> list[Rule]:
    """All rules of this name or number."""
    plain = _plain(word)
    return [it for it in ALL_RULES if plain in (it.table[it.number][0], _plain(str(it.key)))]


def rule_of(word: str) -> Rule:
    """A rule by its name or its number, which is `link-3` for rule 3 of the link, and `warning-3`
    for a warning."""
    rule = _RULES.get(_plain(word))
    if not rule:
        raise BadWord(f"there is no rule {word!r}")
    return rule
