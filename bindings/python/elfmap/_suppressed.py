"""How findings are suppressed: by rules with conditions, or by a baseline."""

from __future__ import annotations

import fnmatch
import json
import os
import re
from collections import Counter
from collections.abc import Callable, Iterable, Sequence
from pathlib import Path
from typing import Any, NamedTuple, Optional

from elfmap._findings import BadWord, Damaged, Finding, Globs, Rule, Unread, rule_of
from elfmap._sources import reason_of
from elfmap._words import printable

# What a condition may be about, beside a GLOB alone, which is of the path.
_CONDITION = re.compile(r":(?=(?:machine|section|producer|path)=)")
_ANY_RULE = "*"
Test = Callable[[Finding], bool]


def _of_path(glob: str) -> Test:
    globs = Globs([glob])
    return lambda it: globs.match(it.path) or globs.match(it.file)


def _of_machine(glob: str) -> Test:
    """By the name of the machine, with or without `EM_`, in any case, with `-` or `_`."""
    wanted = glob.upper().replace("-", "_").removeprefix("EM_")
    return lambda it: fnmatch.fnmatchcase(it.origin.machine, wanted)


def _of_section(glob: str) -> Test:
    return lambda it: any(fnmatch.fnmatchcase(name, glob) for name in it.sections)


def _of_producer(glob: str) -> Test:
    return lambda it: any(fnmatch.fnmatchcase(name, glob) for name in it.origin.producers)


_TESTS: dict[str, Callable[[str], Test]] = {
    "path": _of_path,
    "machine": _of_machine,
    "section": _of_section,
    "producer": _of_producer,
}


class Ignored:
    """Rules that are suppressed, each where all its conditions hold: `RULE`, `RULE:GLOB`, or
    `RULE:machine=GLOB:section=GLOB`. The rule `*` is any."""

    def __init__(self, words: Iterable[str]) -> None:
        self._tests: dict[Optional[Rule], list[list[Test]]] = {}
        self.needs_sections = False
        for word in words:
            self._add(word)

    def _add(self, word: str) -> None:
        lead, *conditions = _CONDITION.split(word)
        rule, colon, glob = lead.partition(":")
        tests = [_of_path(glob)] if glob else []
        if colon and not glob:
            raise BadWord(f"GLOB is missing in {word!r}")
        for key, _, own in (it.partition("=") for it in conditions):
            if not own:
                raise BadWord(f"GLOB is missing in {word!r}")
            tests.append(_TESTS[key](own))
            self.needs_sections |= key == "section"
        known = None if rule == _ANY_RULE else rule_of(rule)
        self._tests.setdefault(known, []).append(tests)

    def match(self, finding: Finding) -> bool:
        for rule in (finding.rule, None):
            every = self._tests.get(rule, ())
            if any(all(test(finding) for test in tests) for tests in every):
                return True
        return False


# What of a finding stays the same where its file is built again: no offset.
Known = tuple[str, str, tuple[str, ...]]
# By what a finding is known in a file of another path: build id, member, rule, sections.
_ById = tuple[str, str, str, tuple[str, ...]]


def known(finding: Finding) -> Known:
    """What a finding is known by."""
    return os.fsdecode(finding.path), finding.name, finding.sections


def stripped(path: str, count: int) -> str:
    """A path without so many of its first components; the last one stays."""
    parts = [it for it in path.split("/") if it not in ("", ".")] if count else []
    return "/".join(parts[min(count, len(parts) - 1) :]) if parts else path


class _Entry(NamedTuple):
    """A finding in a baseline."""

    path: str
    rule: str
    sections: tuple[str, ...]
    build_id: str = ""
    member: str = ""

    @property
    def key(self) -> Known:
        return self.path, self.rule, self.sections

    @property
    def by_id(self) -> _ById:
        return self.build_id, self.member, self.rule, self.sections


def _parts(path: bytes, file: bytes) -> tuple[str, str]:
    """The path of a file, and what follows of the path of its member."""
    member = path[len(file) :] if path.startswith(file) else b""
    return os.fsdecode(path[: len(path) - len(member)]), os.fsdecode(member)


def _entry(finding: Finding, count: int) -> _Entry:
    """A finding as a baseline has it, without so many of the first components of its path."""
    file, member = _parts(finding.path, finding.file)
    path = stripped(file, count) + member
    return _Entry(path, finding.name, finding.sections, finding.origin.build_id, member)


def _text(value: object) -> str:
    if not isinstance(value, str):
        raise TypeError("no text")
    return value


class Baseline:
    """Findings that were there before, each as often as it was, and what could not be read.

    A finding is also known by its build id, its member, its rule and its sections. Of a path so
    many components are dropped as the baseline drops, or the caller, if these are more.
    """

    def __init__(self, entries: Sequence[_Entry], lost: Iterable[tuple[str, str]], count: int):
        self._count = count
        self._known = Counter(it.key for it in entries)
        self._lost = set(lost)
        by_id: dict[_ById, set[Known]] = {}
        for it in entries:
            if it.build_id:
                by_id.setdefault(it.by_id, set()).add(it.key)
        # The first one is at the end, where those that are used up are dropped.
        self._by_id = {key: sorted(own, reverse=True) for key, own in by_id.items()}

    @classmethod
    def read(cls, path: str, count: int = 0) -> Baseline:
        """The baseline of a file. Raises BadWord where it is none."""
        try:
            document = json.loads(Path(path).read_bytes())
            return cls._of(document, count)
        except OSError as fault:
            raise BadWord(f"{printable(os.fsencode(path))}: {reason_of(fault)}") from None
        except (ValueError, KeyError, TypeError, AttributeError, RecursionError):
            raise BadWord(f"{printable(os.fsencode(path))} is no baseline") from None

    @classmethod
    def _of(cls, document: Any, count: int) -> Baseline:
        own = document.get("strip_components", 0)
        if document.get("version", 1) != 1 or isinstance(own, bool) or not isinstance(own, int):
            raise TypeError("no number, or no version that is known here")
        if own < 0:
            raise TypeError("no number from 0 on")
        more = max(count - own, 0)
        entries = []
        for it in document["findings"]:
            path = _text(it["path"])
            member = _text(it.get("member", ""))
            file = path.removesuffix(member)
            rest = path[len(file) :]
            sections = tuple(map(_text, it["sections"]))
            build_id = _text(it.get("build_id", ""))
            name = stripped(file, more) + rest
            entries.append(_Entry(name, _text(it["rule"]), sections, build_id, member))
        lost = [
            (stripped(_text(it["path"]), more), _text(it.get("reason", "")))
            for it in document.get("unreadable", ())
        ]
        return cls(entries, lost, max(count, own))

    def match(self, finding: Finding) -> bool:
        own = _entry(finding, self._count)
        found = own.key if self._known[own.key] > 0 else self._of_another_path(own.by_id)
        if found is None:
            return False
        self._known[found] -= 1
        return True

    def _of_another_path(self, wanted: _ById) -> Optional[Known]:
        """The first entry with this build id that is not used up."""
        keys = self._by_id.get(wanted, [])
        while keys and self._known[keys[-1]] == 0:
            keys.pop()
        return keys[-1] if keys else None

    def accepts(self, lost: Unread) -> bool:
        """Whether it has that this can't be read, for this reason or for any."""
        path = stripped(os.fsdecode(lost.path), self._count)
        return isinstance(lost, Damaged) and not self._lost.isdisjoint(
            {(path, lost.reason), (path, "")}
        )


def baseline_text(
    findings: Iterable[Finding], lost: Iterable[Unread] = (), count: int = 0
) -> bytes:
    """A baseline of findings and of what can't be read, whose paths have so many components
    less."""
    document: dict[str, Any] = {"version": 1}
    if count:
        document["strip_components"] = count
    document["findings"] = [_written(_entry(it, count)) for it in findings]
    unreadable = [
        {"path": stripped(os.fsdecode(it.path), count), "reason": it.reason}
        for it in lost
        if isinstance(it, Damaged)
    ]
    if unreadable:
        document["unreadable"] = unreadable
    return json.dumps(document, indent=1).encode("ascii") + b"\n"


def _written(entry: _Entry) -> dict[str, Any]:
    found: dict[str, Any] = {
        "path": entry.path,
        "rule": entry.rule,
        "sections": list(entry.sections),
    }
    if entry.member:
        found["member"] = entry.member
    if entry.build_id:
        found["build_id"] = entry.build_id
    return found
