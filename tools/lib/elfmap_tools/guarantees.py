"""`tools/test guarantees`: each name of docs/GUARANTEES.md exists, and each public call is in a row
of it. Each wrong body that the page names is there, and each public call has one that the gate
plants."""

import functools
import os
import re
from collections.abc import Iterator

from .guarantees_page import (
    GUARANTEES,
    SPAN,
    Key,
    Row,
    call,
    functions,
    functions_of,
    items_in,
    key_of,
    rows,
)
from .mutations import bugs_of
from .sources import PUBLIC_CRATES, WORD, Definition, Item, definition, reach
from .suite import TESTS, Tally, Test
from .tree import LIBRARIES_OF, TOP, Options, read_text

# A row of a table of wrong bodies: what it does or the call that it is planted in, its crate, its
# file, and its name there.
BODY = re.compile(r"^\| (.*) \| `(\w+)/(must-fail/\w+\.edit|mutations\.txt)(?:: (\w+))?` \|$", re.M)
# Calls in which no wrong body can be planted: what the machine's files give is known to no
# contract, and there is no other map at hand.
WITHOUT_WRONG_BODY = (
    "elf_tool::Opener::reader",
    "elf_tool::Opener::source",
    "elf_link::Linked::map",
    "elf_link::Mapped::map",
)
# Programs whose modules a test of `tools/test` calls. Modules of the other crates `tests_*` have
# tests, all of which `rt ci` runs.
CALLED_BY = {"tests_calls": "failing-calls"}


def definitions_of(item: Item) -> Iterator[Definition]:
    """The definitions that the clauses and the ghosts of an item name."""
    for word in WORD.findall("\n".join([*item.clauses, *item.ghosts])):
        found = definition(*item.uses[word]) if word in item.uses else None
        if found:
            yield found


@functools.cache
def words_of(path: str) -> frozenset[str]:
    """The clauses that the contract of a call has, or the contracts of all calls of a type, and the
    definitions that they name."""
    item = call(path)
    clauses: list[str] = []
    reached: dict[Definition, None] = {}
    for it in [*functions(path), *([item] if item else [])]:
        clauses += it.clauses
        for own in definitions_of(it):
            reach(own, reached)
    named = re.findall(r"^ensures (\w+) \{", "\n".join(clauses), re.M)
    return frozenset([*named, *(it.name for it in reached)])


def is_test_of_tools(name: str) -> bool:
    """Whether `tools/test` has it: the gate runs all of them, and one whose commands are missing
    fails."""
    return any(it.name == name for it in TESTS)


def runs(crate: str, module: str) -> bool:
    """Whether the gate runs a module of tests: the crate has it, and it has a test, or a test of
    `tools/test` calls its program."""
    if crate not in LIBRARIES_OF:
        return False
    source = f"{TOP}/crates/{crate}/src/{module}.rt"
    root = "main" if crate in CALLED_BY else "lib"
    if not os.path.isfile(source):
        return False
    modules = read_text(f"{TOP}/crates/{crate}/src/{root}.rt")
    if not re.search(rf"^mod {module};$", modules, re.M):
        return False
    if crate in CALLED_BY:
        return is_test_of_tools(CALLED_BY[crate])
    return "#[test]" in read_text(source)


def is_law_or_test(name: str) -> bool:
    """Whether a name of the page is that of a law, or of a test that runs."""
    if name.startswith("tools/test "):
        return is_test_of_tools(name.removeprefix("tools/test "))
    crate, _, path = name.partition("::")
    if crate.startswith("tests_"):
        return runs(crate, path)
    if crate in LIBRARIES_OF and any(it.name == path for it in functions_of(crate)):
        return True
    return len(functions(name)) == 1


def wrong_in(row: Row) -> Iterator[str]:
    """What is wrong in a row: names that are not there."""
    for it in row.calls:
        if call(it) is None:
            yield f"there is no call `{it}`"
    words = frozenset[str]().union(*map(words_of, row.calls))
    for it in row.contract:
        if it not in words:
            yield f"no contract of {', '.join(row.calls)} has `{it}`"
    for it in row.others:
        if not is_law_or_test(it):
            yield f"there is no law or test `{it}`"
    if not row.is_kept:
        yield "nothing keeps it"


def does_nothing(path: str, item: Item) -> bool:
    """Whether a call is there for its contract alone: a law, or a proof of what a value has in
    hand."""
    return item.source.endswith("/laws.rt") or path.rpartition("::")[2].startswith("prove_")


def calls_with_a_clause() -> Iterator[str]:
    """The calls of the public crates whose contract says something of a body."""
    seen = set[Key]()
    for crate in PUBLIC_CRATES:
        for path, item in items_in(f"elf_{crate}").items():
            says = item.kind == "fn" and any(it.startswith("ensures ") for it in item.clauses)
            if says and not does_nothing(path, item) and key_of(item) not in seen:
                seen.add(key_of(item))
                yield f"elf_{crate}::{path}"


def try_body(tally: Tally, said: str, crate: str, name: str) -> list[str]:
    """A wrong body of mutations.txt is there. If its row names calls, it is planted in each of
    them, in the gate: these calls."""
    bug = next((it for it in bugs_of(crate) if it.name == name), None)
    tally.check(bug, f"there is no wrong body {name} in {crate}/mutations.txt")
    if not bug or not said.startswith("`elf_"):
        return []
    calls = SPAN.findall(said)
    for path in calls:
        is_own = bug.function.rpartition("::")[2] == path.rpartition("::")[2]
        why = f"{crate}: {name} is not planted in {path}, or not in the gate"
        tally.check(is_own and bug.is_for_gate, why)
    return calls


def wrong_bodies(tally: Tally) -> None:
    """Each wrong body that the page names is there. Each public call has one that the gate plants,
    in the body of the call itself."""
    called = set(WITHOUT_WRONG_BODY)
    for said, crate, kind, name in BODY.findall(read_text(GUARANTEES)):
        if kind.startswith("mutations.txt"):
            called.update(try_body(tally, said, crate, name))
        else:
            is_there = os.path.isfile(f"{TOP}/crates/{crate}/{kind}")
            tally.check(is_there, f"there is no wrong body {crate}/{kind}")
    for path in calls_with_a_clause():
        tally.check(path in called, f"{path} has no wrong body that the gate plants in it")


def public_functions() -> Iterator[tuple[str, Item]]:
    """Every function that a public crate shows, and every one that the library for C exports."""
    for crate in (f"elf_{it}" for it in PUBLIC_CRATES):
        for path, item in items_in(crate).items():
            if item.kind == "fn":
                yield f"{crate}::{path}", item
    for crate in ("elf_c", "elf_c_engines"):
        for path, item in items_in(crate).items():
            if item.kind == "fn" and path.startswith("elfmap_"):
                yield f"{crate}::{path}", item


@Test("guarantees", "each name of docs/GUARANTEES.md exists, and each public call is in a row")
def try_guarantees(tally: Tally, options: Options) -> None:
    named: set[Key] = set()
    for row in rows():
        wrong = list(wrong_in(row))
        tally.check(not wrong, f"{row.said}: {'; '.join(wrong)}")
        named |= {key_of(it) for path in [*row.calls, *row.others] for it in functions(path)}
    for path, item in public_functions():
        tally.check(key_of(item) in named, f"{path} is in no row")
    wrong_bodies(tally)
