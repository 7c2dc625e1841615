"""docs/GUARANTEES.md, and the calls of the crates that it names."""

import functools
import re
from collections.abc import Iterator
from typing import NamedTuple

from .sources import PUBLIC_CRATES, Item, imports, items_of, signature_and_clauses, sources_of
from .tree import LIBRARIES_OF, cells, read_text

GUARANTEES = "docs/GUARANTEES.md"
SPAN = re.compile(r"`([^`]+)`")


class Row(NamedTuple):
    """A row of the page: what is guaranteed, and the names of its other columns."""

    said: str
    calls: list[str]
    contract: list[str]
    others: list[str]
    is_kept: bool


def rows() -> Iterator[Row]:
    """The rows of the page."""
    for line in read_text(GUARANTEES).splitlines():
        row = cells(line)
        if len(row) == 4 and row[0] != "guarantee" and not row[0].startswith("--"):
            said, calls, contract, others = row
            names = [it for it in SPAN.findall(calls) if "::" in it]
            is_kept = bool(contract or others)
            yield Row(said, names, SPAN.findall(contract), SPAN.findall(others), is_kept)


# A function, whichever crates show it: its source and its signature.
Key = tuple[str, str]


def key_of(item: Item) -> Key:
    """By what a function is known."""
    return item.source, "\n".join(item.text)


@functools.cache
def items_in(crate: str) -> dict[str, Item]:
    """The items of a crate by their paths: those that a public crate shows, or all of another one;
    and their members."""
    found: dict[str, Item] = {}
    items = items_of(crate) if crate.removeprefix("elf_") in PUBLIC_CRATES else functions_of(crate)
    for item in items:
        found[item.name] = item
        found.update({f"{item.name}::{it.name}": it for it in item.members})
    return found


def functions_of(crate: str) -> Iterator[Item]:
    """The functions of a crate, public or not, those of its types aside."""
    for path in sources_of(crate):
        text = read_text(path)
        for found in re.finditer(r'^(?:pub )?(?:extern "C" )?fn (\w+)', text, re.M):
            lines = text[found.start() :].splitlines()
            yield Item("fn", found[1], path, [], *signature_and_clauses(lines), imports(text))


def call(path: str) -> Item | None:
    """The call of a path; None where there is none."""
    crate, _, name = path.partition("::")
    return items_in(crate).get(name) if crate in LIBRARIES_OF else None


def functions(path: str) -> list[Item]:
    """The functions of a path: the call itself, or those of a type, a trait or a module."""
    item = call(path)
    if item is None:
        return []
    return [item] if item.kind == "fn" else [it for it in item.members if it.kind == "fn"]


@functools.cache
def guarantees_by_call() -> dict[Key, list[str]]:
    """The guarantees of each function."""
    found: dict[Key, list[str]] = {}
    for row in rows():
        for item in (it for path in row.calls for it in functions(path)):
            found.setdefault(key_of(item), []).append(row.said)
    return found
