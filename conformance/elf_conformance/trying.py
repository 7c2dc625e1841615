"""Tries tools on cases: what each says, beside what is right."""

import os
from collections import Counter
from collections.abc import Callable, Iterator
from concurrent.futures import ProcessPoolExecutor
from functools import partial
from typing import Any, NamedTuple, TypeVar

from .adapter import (
    ACCEPTS,
    CRASHES,
    DIFFERS,
    HANGS,
    NOT_FOR_IT,
    NOT_UNDERSTOOD,
    REFUSES,
    Adapter,
    Answer,
)
from .comparing import differences
from .suite import GENERATED, Case, Suite

T = TypeVar("T")
R = TypeVar("R")
# The columns of the table, in their order.
RIGHT = "sound: right"
REFUSED_SOUND = "sound: refuses"
BROKEN_REFUSED = "broken: refuses"
BROKEN_ACCEPTED = "broken: accepts"
BROKEN_NOT_CLAIMED = "broken: does not claim to check"
PROFILE_REFUSED = "profile: refuses"
PROFILE_ACCEPTED = "profile: accepts"
OPEN = "open"
COLUMNS = (
    RIGHT,
    REFUSED_SOUND,
    DIFFERS,
    BROKEN_REFUSED,
    BROKEN_ACCEPTED,
    BROKEN_NOT_CLAIMED,
    PROFILE_REFUSED,
    PROFILE_ACCEPTED,
    OPEN,
    CRASHES,
    HANGS,
)
# The rules on the counts of a hash table.
COUNTED_BY_HASH = (65, 66)
IN_TWO_PLACES = ("dynamic", "hash", "needed")
# What is listed with its file.
LISTED = (DIFFERS, CRASHES, HANGS, REFUSED_SOUND)


class Found(NamedTuple):
    """What a tool says of a case: the column, the case, and why."""

    tool: str
    column: str
    number: int
    name: str
    about: str
    why: list[str]


def column_of(case: Case, answer: Answer, has_differences: bool, checks: bool) -> str:
    """The column of an answer."""
    if answer.kind in (CRASHES, HANGS):
        return answer.kind
    if has_differences:
        return DIFFERS
    is_refused = answer.kind == REFUSES
    if answer.kind == NOT_UNDERSTOOD:
        return OPEN
    if case.answer == "either" or case.answer == ACCEPTS and not case.is_sound and is_refused:
        # The file may be wrong by what the suite does not know.
        return OPEN
    if case.answer == ACCEPTS:
        return REFUSED_SOUND if is_refused else RIGHT
    if case.point != "gABI":
        return PROFILE_REFUSED if is_refused else PROFILE_ACCEPTED
    if is_refused:
        return BROKEN_REFUSED
    return BROKEN_ACCEPTED if checks else BROKEN_NOT_CLAIMED


def tried(case: Case, tool: Adapter) -> Found:
    """Tries a tool on a case."""
    if not tool.takes(case.problem):
        return Found(tool.name, NOT_FOR_IT, case.number, case.name, case.about, [])
    answer = tool.answer(case.problem)
    wrong: list[str] = []
    if answer.reading is not None:
        found = answer.reading
        if case.set == GENERATED and not case.is_sound:
            # What is in two places, as a section and by the dynamic array, may differ there.
            others = {*IN_TWO_PLACES, *(["symbols"] if tool.is_by_array else [])}
            found = {key: value for key, value in found.items() if key not in others}
        refused = case.entry.get("refused") or {}
        if refused.get("rule") in COUNTED_BY_HASH:
            # Some count the dynamic symbols by the hash table, which is wrong here.
            found = {key: value for key, value in found.items() if key != "symbols"}
        right = {**case.reading, "refused": case.entry.get("refused")}
        wrong = list(map(str, differences(right, found)))
    column = column_of(case, answer, bool(wrong), tool.checks)
    why = wrong or ([answer.why] if answer.why else [])
    return Found(tool.name, column, case.number, case.name, case.about, why)


def try_case(tools: list[Adapter], case: Case) -> list[Found]:
    """Tries all tools on a case."""
    return [tried(case, it) for it in tools]


def try_generated(tools: list[Adapter], suite: Suite, job: tuple[int, list[str]]) -> list[Found]:
    """Makes a generated file and tries all tools on it."""
    case = suite.generated(*job)
    try:
        return try_case(tools, case)
    finally:
        os.remove(case.paths[0])


class Results:
    """What was found of each tool: how often each column, and what is listed."""

    def __init__(self, tools: list[Adapter]) -> None:
        self.counts: dict[str, Counter[str]] = {it.name: Counter() for it in tools}
        self.found: dict[str, list[Found]] = {it.name: [] for it in tools}
        self.all: list[Found] = []

    def add(self, many: list[Found]) -> None:
        """Counts what was found of a case."""
        for it in many:
            if it.column == NOT_FOR_IT:
                continue
            self.counts[it.tool][it.column] += 1
            if it.column in LISTED:
                self.found[it.tool].append(it)
            if not it.name.startswith(GENERATED):
                self.all.append(it)

    def of_tool(self, tool: Adapter) -> dict[str, Any]:
        """The results of a tool, for JSON."""
        listed = [
            {"case": it.number, "name": it.name, "kind": it.column, "about": it.about}
            | {"why": it.why}
            for it in sorted(self.found[tool.name], key=lambda it: (it.column, it.name))
        ]
        counts = {column: self.counts[tool.name][column] for column in COLUMNS}
        return {
            "tool": tool.name,
            "version": tool.version(),
            "about": tool.about,
            "checks": tool.checks,
            "counts": counts,
            "found": listed,
        }


def each(function: Callable[[T], R], items: list[T], jobs: int) -> Iterator[R]:
    """What a function returns for each item, with so many calls at a time; one by one where
    processes can't be made to work together, as without /dev/shm."""
    if jobs > 1 and len(items) > 1:
        try:
            pool = ProcessPoolExecutor(jobs)
        except (ImportError, OSError):
            pool = None
        if pool:
            with pool:
                yield from pool.map(function, items, chunksize=4)
            return
    yield from map(function, items)


def try_all(
    suite: Suite, tools: list[Adapter], cases: list[Case], count: int, jobs: int
) -> Results:
    """Tries all tools on these cases, and on so many generated files."""
    results = Results(tools)
    for many in each(partial(try_case, tools), cases, jobs):
        results.add(many)
    of_generated = [it for it in tools if GENERATED in it.sets]
    if count and of_generated:
        answers = list(enumerate(suite.answers()[:count]))
        os.makedirs(suite.folder, exist_ok=True)
        for many in each(partial(try_generated, of_generated, suite), answers, jobs):
            results.add(many)
    return results
