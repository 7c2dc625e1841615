"""How a clause of an application names what the contracts of the library name, over the crate `elf`
alone or over a public crate.

`tools/release imports` writes, from what the public crates show, `specs/Types.antt` of those that
show internal crates, all of `specs/` of the crate `elf`, and docs/generated/IMPORTS.md. `tools/test
imports` fails where these are not current, and where a public clause names a definition or a type
of which they have no path."""

import functools
import os
import re
from collections.abc import Iterator
from typing import NamedTuple

from .sources import PUBLIC_CRATES, WORD, Item, home_of, items_of, shown_by, source
from .suite import Tally, Test
from .tree import TOP, Options, read_text, write

PAGE = "docs/generated/IMPORTS.md"
# Public crates that show internal crates alone; the others have definitions of their own.
SHOWING = [it for it in PUBLIC_CRATES if it not in ("field", "extent", "exec")]
MODULE = re.compile(r"^pub (?:mod (\w+)|use Rattle\.(\S+)\.specs\.(\S+))$", re.M)
TYPES = "Types"
HEAD = """# Import paths

`tools/release imports` makes the tables of this page. Do not edit them by hand: they have what the
public crates show.

A clause imports a definition by a line `ghost use`, as
`ghost use Rattle.elf.specs.image.Rules.{{IsFault}}`. The first table has the files of definitions
of each public crate. [DEFINITIONS](DEFINITIONS.md) has the names in them. The second table has the
structs and enums. A clause names the variants of an enum below `TheVariants`, as
`Rattle.elf.specs.image.Types.Fault.TheVariants.{{Rule}}`.

A crate that stands on a public crate and not on `elf` writes `Rattle.elf_image.specs` in place of
`Rattle.elf.specs.image`. There the structs and enums of `elf_field`, `elf_extent` and `elf_exec`
are below `declared`, at the path of their module.

## Definitions

{modules}

## Structs and enums

{types}
"""


class Declared(NamedTuple):
    """A struct or an enum, as a clause names it: its crate, the path of its module, its name."""

    crate: str
    module: str
    name: str

    @property
    def path(self) -> str:
        """Its path in its own crate."""
        place = ".".join(filter(None, [self.module, self.name]))
        return f"Rattle.{self.crate}.specs.declared.{place}"


def public_of(crate: str) -> str:
    """The public crate of an internal one: `image` of `elf_image_stream`."""
    return crate.split("_")[1]


def all_of(item: Item) -> Iterator[Item]:
    """An item, and all that is in it."""
    yield item
    for it in item.members:
        yield from all_of(it)


def items(public: str) -> Iterator[Item]:
    """All items of a public crate."""
    for it in items_of(f"elf_{public}"):
        yield from all_of(it)


def declared_at(path: str) -> Declared:
    """A type of a path of the logic, which may go on to its variants."""
    crate, _, place = path.partition(".specs.declared.")
    words = place.removesuffix(".TheVariants").split(".")
    return Declared(crate, ".".join(words[:-1]), words[-1])


def named(item: Item) -> Iterator[tuple[str, str]]:
    """What the clauses of an item name: a path and a name there."""
    for word in WORD.findall("\n".join([*item.clauses, *item.ghosts])):
        if word in item.uses and item.uses[word][0].startswith("elf_"):
            yield item.uses[word]


def shown_types(public: str) -> Iterator[Declared]:
    """The structs and enums that a public crate shows and that are no value of their own in the
    logic."""
    root = f"crates/elf_{public}/src/lib.rt"
    for _, place in shown_by(root):
        crate, path, name = home_of(f"elf_{public}", (), place)
        item = source(path)[1][name]
        module = re.sub(r"^.*/src/|\.rt$", "", path).replace("/", ".")
        if item.kind in ("struct", "enum"):
            yield Declared(crate, module.removesuffix("lib"), name)


@functools.cache
def types() -> dict[str, list[Declared]]:
    """The types of each public crate: those of itself and of its internal crates that a public
    crate shows, or that a public clause names."""
    found: dict[str, set[Declared]] = {it: set() for it in PUBLIC_CRATES}
    for public in PUBLIC_CRATES:
        own = list(shown_types(public))
        for item in items(public):
            own += [declared_at(path) for path, _ in named(item) if ".declared." in path]
        for it in own:
            found[public_of(it.crate)].add(it)
    return {public: sorted(own, key=lambda it: it.name) for public, own in found.items()}


@functools.cache
def modules(public: str) -> dict[str, str]:
    """The files of definitions of a public crate: of each the path that it has at home."""
    text = read_text(f"crates/elf_{public}/specs/Lib.antt")
    found: dict[str, str] = {}
    for own, crate, name in MODULE.findall(text):
        if own != TYPES:
            found[own or name] = f"{crate or f'elf_{public}'}.specs.{own or name}"
    return dict(sorted(found.items()))


def texts() -> Iterator[tuple[str, str]]:
    """The files of specs/ that are made: of each its path and its text."""
    for public, own in types().items():
        comment = f"-- The structs and enums of `elf_{public}`, as clauses name them.\n"
        lines = comment + "".join(f"pub use {it.path}\n" for it in own)
        is_showing = public in SHOWING
        folder = f"elf_{public}/specs" if is_showing else f"elf/specs/{public}"
        yield f"crates/{folder}/{TYPES}.antt", lines
        shown = [*modules(public), *([TYPES] if is_showing else [])]
        lines = f"-- The definitions of `elf_{public}`.\n"
        lines += "" if is_showing else f"pub mod {TYPES}\n"
        lines += "".join(f"pub use Rattle.elf_{public}.specs.{it}\n" for it in shown)
        yield f"crates/elf/specs/{public}.antt", lines
    lines = "-- The definitions in the contracts of the library, as `elf` shows its calls.\n"
    yield "crates/elf/specs/Lib.antt", lines + "".join(f"pub mod {it}\n" for it in PUBLIC_CRATES)


def page() -> str:
    """The page of all paths."""
    rows = ["| crate | below | files |", "|---|---|---|"]
    for public in PUBLIC_CRATES:
        files = ", ".join(f"`{it}`" for it in modules(public))
        rows.append(f"| `elf_{public}` | `Rattle.elf.specs.{public}` | {files} |")
    kinds = ["| crate | below | structs and enums |", "|---|---|---|"]
    for public, own in types().items():
        names = ", ".join(f"`{it.name}`" for it in own)
        kinds.append(f"| `elf_{public}` | `Rattle.elf.specs.{public}.{TYPES}` | {names} |")
    return HEAD.format(modules="\n".join(rows), types="\n".join(kinds))


def made() -> list[tuple[str, str]]:
    """All that is made: of each file its path and its text."""
    return [*texts(), (PAGE, page())]


def write_imports(options: Options) -> None:
    """`tools/release imports`."""
    for path, text in made():
        os.makedirs(os.path.dirname(f"{TOP}/{path}"), exist_ok=True)
        write(f"{TOP}/{path}", text)


def unnamed() -> Iterator[str]:
    """What a public clause names and no path leads to."""
    known = {path for it in PUBLIC_CRATES for path in modules(it).values()}
    for public in PUBLIC_CRATES:
        for item in items(public):
            for path, name in named(item):
                if ".declared." not in path and path not in known and name not in passed_on(known):
                    yield f"elf_{public}: {item.name} names {path}.{name}, which has no path"


@functools.cache
def names_in(path: str) -> frozenset[str]:
    """The names that a file of definitions takes from others: it passes them on."""
    crate, _, rest = path.partition(".specs.")
    text = read_text(f"crates/{crate}/specs/{rest.replace('.', '/')}.antt")
    found = re.findall(r"^pub use Rattle\.\S+\.\{([^}]*)\}", text, re.M)
    return frozenset(re.findall(r"[^\s,]+", ",".join(found)))


def passed_on(known: set[str]) -> frozenset[str]:
    """The names that files of definitions pass on."""
    return frozenset[str]().union(*map(names_in, known))


@Test("imports", "each definition that a public clause names has a path in the crate `elf`")
def try_imports(tally: Tally, options: Options) -> None:
    for path, text in made():
        is_current = os.path.isfile(f"{TOP}/{path}") and read_text(path) == text
        tally.check(is_current, f"{path} is not what `tools/release imports` makes")
    lacking = sorted(set(unnamed()))
    tally.check(not lacking, "\n".join(lacking))
