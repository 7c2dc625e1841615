"""docs/generated/LEMMAS.md, the lemma files of all crates: the idea of each, by the comment at its
head, and the functions and laws whose proofs stand on it.

`tools/release lemmas` makes the page."""

import functools
import glob
import re
from collections.abc import Iterable
from typing import NamedTuple

from .tree import LIBRARIES_OF, TOP, Options, read_text, write

LEMMAS = "docs/generated/LEMMAS.md"
HEAD = """# Lemmas

`tools/release lemmas` makes the tables of this page. Do not edit them by hand: edit the comment at
the head of the lemma file.

A lemma file has what the proofs of several functions share. Its row has its idea, and then the laws
and functions of its crate whose proofs need it, laws first. Last are the crates above whose proofs
name it. [PROOF](../PROOF.md#where-proofs-are) says where proofs are.
"""
COLUMNS = "| file | idea | its crate's proofs | crates above |\n|---|---|---|---|\n"
MOST_NAMED = 6
# What an import of a proof names: a file of lemmas, and words of it.
IMPORT = re.compile(r"^(pub )?use Rattle\.(\w+)\.proofs\.(\w+)\.\{([^}]*)\}", re.M)
OWN_PROOF = re.compile(r"^crates/(\w+)/proofs/(.+)/(?:Answers|Invariants|Proof)\.antt$")
# A file of lemmas: its crate and its name.
Place = tuple[str, str]


def path_of(place: Place) -> str:
    """The path of a lemma file."""
    return f"crates/{place[0]}/proofs/{place[1]}.antt"


def lemma_files() -> list[Place]:
    """All lemma files, in the order of crates.txt."""
    found: list[Place] = []
    for crate in LIBRARIES_OF:
        for path in sorted(glob.glob("*.antt", root_dir=f"{TOP}/crates/{crate}/proofs")):
            name = path.removesuffix(".antt")
            if name not in ("Lib", "Public"):
                found.append((crate, name))
    return found


@functools.cache
def shown_by(crate: str) -> dict[str, Place]:
    """Where each word is from that a crate shows to the proofs of those above it."""
    path = f"crates/{crate}/proofs/Public.antt"
    found: dict[str, Place] = {}
    for _, owner, name, words in IMPORT.findall(read_text(path)):
        found |= {word: (owner, name) for word in words_of(words)}
    return found


def words_of(listed: str) -> list[str]:
    """The names of an import."""
    return [it.split(" as ")[0].strip() for it in listed.split(",")]


def imported(path: str) -> set[Place]:
    """The lemma files that a proof file names."""
    found: set[Place] = set()
    for _, crate, name, words in IMPORT.findall(read_text(path)):
        if crate not in LIBRARIES_OF:
            continue
        if name == "Public":
            found |= {shown_by(crate)[it] for it in words_of(words) if it in shown_by(crate)}
        else:
            found.add((crate, name))
    return found


@functools.cache
def below(place: Place) -> frozenset[Place]:
    """A lemma file, and all of its crate that it stands on."""
    found = {place}
    for it in imported(path_of(place)) - {place}:
        if it[0] == place[0]:
            found |= below(it)
    return frozenset(found)


class Needs(NamedTuple):
    """What needs a lemma file: laws and functions of its crate, and crates above."""

    proofs: set[str]
    crates: set[str]


def needs() -> dict[Place, Needs]:
    """What needs each lemma file."""
    found = {it: Needs(set(), set()) for it in lemma_files()}
    for path in sorted(glob.glob("crates/*/proofs/**/*.antt", root_dir=TOP, recursive=True)):
        crate = path.split("/")[1]
        own = OWN_PROOF.match(path)
        for place in imported(path) & found.keys():
            if place[0] != crate:
                found[place].crates.add(crate)
            elif own:
                for it in below(place):
                    found[it].proofs.add(own[2].replace("/", "::"))
    return found


def idea_of(place: Place) -> str:
    """The comment at the head of a lemma file."""
    lines = re.match(r"(?:--.*\n)*", read_text(path_of(place)))
    assert lines
    return " ".join(it.removeprefix("--").strip() for it in lines[0].splitlines())


def listed(names: Iterable[str]) -> str:
    """The first names of a list, and how many more there are."""
    found = [f"`{it}`" for it in names]
    more = len(found) - MOST_NAMED
    return ", ".join(found[:MOST_NAMED]) + (f", and {more} more" if more > 0 else "")


def row(place: Place, own: Needs) -> str:
    """The row of a lemma file."""
    proofs = sorted(own.proofs, key=lambda it: (not it.startswith("laws::"), it))
    crates = [it for it in LIBRARIES_OF if it in own.crates]
    idea = idea_of(place).replace("|", r"\|")
    link = f"[{place[1]}](../../{path_of(place)})"
    return f"| {link} | {idea} | {listed(proofs)} | {listed(crates)} |\n"


def whole() -> str:
    """The page."""
    page = HEAD
    crate = ""
    for place, own in needs().items():
        if place[0] != crate:
            crate = place[0]
            page += f"\n## `{crate}`\n\n{COLUMNS}"
        page += row(place, own)
    return page


def write_lemmas(options: Options) -> None:
    """`tools/release lemmas`."""
    write(f"{TOP}/{LEMMAS}", whole())
