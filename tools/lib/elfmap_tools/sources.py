"""The public items of the crates, and the definitions that their contracts name, read from the
sources as `rt fmt` lays them out."""

import functools
import os
import re
import textwrap
from collections.abc import Iterator
from dataclasses import dataclass, field, replace
from itertools import takewhile
from typing import NamedTuple

from .tree import LIBRARIES_OF, TOP, read_text, texts_of

# The comment lines and the attributes above a text, and its lines.
Block = tuple[list[str], list[str], list[str]]
# What words of the logic mean: of each a path and a name there.
Uses = dict[str, tuple[str, str]]
# The public crates, in the order of the table at the head of the crate `elf`.
LISTED = re.findall(r"^//! \| \[`(\w+)`\]", read_text("crates/elf/src/lib.rt"), re.M)
PUBLIC_CRATES = [it for it in LISTED if f"elf_{it}" in LIBRARIES_OF]
HEAD = re.compile(r"pub (fn|struct|enum|trait|const|mod|type) (\w+)")
CLAUSE = re.compile(r" *(requires|ensures)\b")
# What holds no bracket that counts: strings, characters, comments.
LITERAL = re.compile(r"""b?"(?:\\.|[^"\\])*"|b?'(?:\\.[^']*|[^'\\])'|//.*""")
WORD = re.compile(r"(?<![\w.])[^\W\d]\w*")
IMPORT = re.compile(r"use Rattle\.([\w.]+)\.\{([^}]*)\}")
# A word, and what it is called here, if it is called otherwise.
NAMES = re.compile(r"([^\s,]+)(?: as ([^\s,]+))?")
# What a file shows: several names of a path, or one, or a module.
SHOWN = re.compile(r"^pub (?:use ([\w:]+)::\{([^}]*)\}|(?:use|mod) ([\w:]+(?: as \w+)?));", re.M)
DEFINITION = re.compile(
    r"^(?:(?:pub )?(?:abbrev|unfoldable|record|data) (?:pub )?([^\s(:]+)|(?:pub )?([^\s(:=]+) :)",
    re.M,
)


@dataclass
class Item:
    """An item of a source: its doc comment, its text up to its contract, its clauses, and what is
    in it."""

    kind: str
    name: str
    source: str
    docs: list[str]
    text: list[str]
    clauses: list[str] = field(default_factory=list)
    uses: Uses = field(default_factory=dict)
    ghosts: list[str] = field(default_factory=list)
    traits: list[str] = field(default_factory=list)
    members: "list[Item]" = field(default_factory=list)
    fields: list[tuple[list[str], str]] = field(default_factory=list)
    # Where it is on the page of the library.
    anchor: str = ""


def indent_of(line: str) -> int:
    """How many spaces a line begins with."""
    return len(line) - len(line.lstrip(" "))


def balance(line: str) -> int:
    """How many brackets a line opens more than it closes."""
    bare = LITERAL.sub("", line)
    return sum(bare.count(it) for it in "([{") - sum(bare.count(it) for it in ")]}")


def end_of(lines: list[str], start: int, ends: str) -> int:
    """After the last line of what begins at `start`: all brackets are closed, and it ends as such
    a text ends."""
    level = 0
    indent = indent_of(lines[start])
    for at in range(start, len(lines)):
        level += balance(lines[at])
        bare = LITERAL.sub("", lines[at]).rstrip()
        is_block = bare.endswith("}") and indent_of(lines[at]) == indent
        if level <= 0 and (bare.endswith(ends) or is_block):
            return at + 1
    return len(lines)


def blocks(lines: list[str], ends: str = ";") -> Iterator[Block]:
    """The texts of one level, each with the comment lines and attributes above it."""
    at = 0
    docs: list[str] = []
    marks: list[str] = []
    while at < len(lines):
        word = lines[at].strip()
        end = at + 1
        if word.startswith("///"):
            docs.append(word[3:].removeprefix(" "))
        elif word.startswith("//"):
            marks.append(word)
        elif word.startswith("#["):
            end = next(k for k in range(end, len(lines) + 1) if balance("".join(lines[at:k])) == 0)
            marks.append(" ".join(it.strip() for it in lines[at:end]))
        else:
            if word:
                end = end_of(lines, at, ends)
                yield docs, marks, lines[at:end]
            docs = []
            marks = []
        at = end


def inside(text: list[str]) -> list[str]:
    """The lines between the braces of a text."""
    first = next((at for at, line in enumerate(text) if line.rstrip().endswith("{")), len(text))
    return text[first + 1 : -1]


def unindented(lines: list[str]) -> list[str]:
    """Lines without the indentation that all have."""
    return [it.rstrip() for it in textwrap.dedent("\n".join(lines)).split("\n")]


def ends_signature(line: str) -> bool:
    """Whether a line ends the signature of a function, or begins what follows it."""
    return bool(CLAUSE.match(line)) or line.endswith(" {") or line.strip() == "where"


def signature_and_clauses(text: list[str]) -> tuple[list[str], list[str]]:
    """A function's signature, and the clauses after it."""
    lines = list(takewhile(lambda it: it.strip() not in ("{", "{}", ";"), text))
    count = next((k for k, it in enumerate(lines) if ends_signature(it)), len(lines))
    if count == len(lines) or not CLAUSE.match(lines[count]):
        signature = [it.removesuffix(" {") for it in lines[: count + 1] if it.strip() != "where"]
        return unindented(signature), []
    clauses: list[str] = []
    for it in re.split(r"\n(?= *(?:requires|ensures)\b)", "\n".join(lines[count:])):
        clauses.append("\n".join(unindented(it.split("\n"))).removesuffix(";"))
    return unindented(lines[:count]), clauses


def imports(text: str) -> Uses:
    """What the names of the logic in a text stand for, by its `use` lines: a path and a name
    there."""
    found: Uses = {}
    for path, names in IMPORT.findall(text):
        for name, alias in NAMES.findall(names):
            found[alias or name] = (path, name)
    return found


def members_of(text: list[str], source: str, is_trait: bool, uses: Uses) -> Iterator[Item]:
    """The public functions of an impl, or all of a trait."""
    lines = inside(text)
    uses = {**uses, **imports("\n".join(lines))}
    for docs, _, part in blocks(lines):
        match = re.match(r"(pub )?(fn|const|type) (\w+)", part[0].strip())
        if match and (match[1] or is_trait):
            yield Item(match[2], match[3], source, docs, *signature_and_clauses(part), uses)


def ghosts_of(text: list[str]) -> Iterator[str]:
    """The lines of a text that are of the logic alone, with their comments."""
    for _, marks, part in blocks(inside(text)):
        if re.match(" *ghost (?!use)", part[0]):
            comments = [it.replace("// ", "-- ", 1) for it in marks if it.startswith("//")]
            yield "\n".join([*comments, *unindented(part)]).removesuffix(";")


def fields_of(text: list[str]) -> Iterator[tuple[list[str], str]]:
    """The public fields of a struct or the variants of an enum, each with its doc."""
    is_enum = "enum " in text[0]
    for docs, _, part in blocks(inside(text), ","):
        if is_enum or part[0].strip().startswith("pub "):
            yield docs, "\n".join(unindented(part)).rstrip(",").removeprefix("pub ")


def item_of(docs: list[str], marks: list[str], text: list[str], source: str, uses: Uses) -> Item:
    """The item of a text."""
    kind, name = HEAD.findall(text[0])[0]
    if kind == "fn":
        return Item(kind, name, source, docs, *signature_and_clauses(text), uses)
    item = Item(kind, name, source, docs, unindented(text), uses=uses)
    if kind in ("struct", "enum", "trait"):
        derived = [it for it in marks if it.startswith("#[derive")]
        item.text = [*derived, text[0].rstrip().removesuffix(" {")]
    if kind in ("struct", "enum"):
        item.fields = list(fields_of(text))
    if kind == "trait":
        item.members = list(members_of(text, source, True, uses))
        item.ghosts = list(ghosts_of(text))
        item.uses = {**uses, **imports("\n".join(text))}
    return item


@functools.cache
def source(path: str) -> tuple[list[str], dict[str, Item], list[list[str]], Uses]:
    """The front doc of a source file, its public items by their names, its impls, and what the
    words of the logic in it stand for."""
    lines = read_text(path).splitlines()
    front = [it[3:].removeprefix(" ") for it in lines if it.startswith("//!")]
    parts = list(blocks([it for it in lines if not it.startswith(("//!", "#!["))]))
    used = [line for _, _, text in parts if "use " in text[0][:10] for line in text]
    uses = imports("\n".join(used))
    items: dict[str, Item] = {}
    for docs, marks, text in parts:
        if HEAD.match(text[0]):
            item = item_of(docs, marks, text, path, uses)
            items[item.name] = item
    impls = [text for _, _, text in parts if text[0].startswith("impl")]
    return front, items, impls, uses


def sources_of(crate: str) -> list[str]:
    """The sources of a crate, as paths of the repository."""
    own = f"{TOP}/crates/{crate}/src/"
    found = (it for it in texts_of(crate) if it.startswith(own) and it.endswith(".rt"))
    return [it[len(TOP) + 1 :] for it in found]


def with_impls(item: Item, crate: str) -> Item:
    """An item with the public functions of all its impls, the traits that it has, and its ghost
    view."""
    for path in sorted(sources_of(crate), key=lambda it: it != item.source):
        _, _, impls, uses = source(path)
        for text in impls:
            head = re.match(r"impl(?:<.*?>)? (?:([\w:]+)(?:<.*>)? for )?(\w+)(?:<.*>)? \{", text[0])
            if not head or head[2] != item.name:
                continue
            if not head[1]:
                item.members += members_of(text, path, False, uses)
            elif head[1] == "Model":
                item.ghosts += ghosts_of(text)
                item.uses = {**item.uses, **uses, **imports("\n".join(text))}
            else:
                item.traits.append(re.sub(r"^impl(<.*?>)? | for .*", "", text[0]))
    return item


def shown_by(path: str) -> Iterator[tuple[str, str]]:
    """What a file shows, modules of its own and what others have: each name with its path."""
    for line in SHOWN.finditer(read_text(path)):
        for place, alias in NAMES.findall(line[2] or line[3]):
            name = alias or place.rsplit("::", 1)[-1]
            yield name, f"{line[1]}::{place}" if line[1] else place


def module_file(crate: str, words: tuple[str, ...]) -> str:
    """The file of a module of a crate."""
    return f"crates/{crate}/src/{'/'.join(words or ('lib',))}.rt"


def home_of(crate: str, words: tuple[str, ...], place: str) -> tuple[str, str, str]:
    """The crate and the file in which the item of a path is defined, as a module of a crate names
    it, and its name there."""
    *rest, name = place.split("::")
    is_other = bool(rest) and os.path.isdir(f"{TOP}/crates/{rest[0]}")
    crate, words = (rest[0], tuple(rest[1:])) if is_other else (crate, (*words, *rest))
    path = module_file(crate, words)
    _, items, _, _ = source(path)
    if name in items:
        return crate, path, name
    return home_of(crate, words, dict(shown_by(path))[name])


@functools.cache
def item_at(crate: str, path: str, name: str) -> Item:
    """The item of a file of a crate, with all that belongs to it."""
    item = source(path)[1][name]
    if item.kind == "mod":
        return module(crate, (name,))
    return with_impls(item, crate) if item.kind in ("struct", "enum") else item


@functools.cache
def module(crate: str, words: tuple[str, ...]) -> Item:
    """A public module: its front doc, its constants, and the modules that it shows."""
    path = module_file(crate, words)
    front, items, _, _ = source(path)
    members = [it for it in items.values() if it.kind in ("const", "fn")]
    for shown, place in shown_by(path):
        own = item_at(*home_of(crate, words, place))
        members.append(replace(own, name=shown, text=[f"pub mod {shown}"]))
    return Item("mod", words[-1], path, front, [f"pub mod {words[-1]}"], members=members)


def items_of(crate: str) -> Iterator[Item]:
    """The items that a crate shows, in the order of its lib.rt."""
    return (item_at(*home_of(crate, (), place)) for _, place in shown_by(module_file(crate, ())))


class Definition(NamedTuple):
    """A definition of a file of specs/, with the comment above it and its own text."""

    name: str
    path: str
    comment: str
    text: str


def comment_of(lines: str) -> str:
    """The text of comment lines, without those that are a rule or a title."""
    bare = (it[2:].strip() for it in lines.splitlines())
    return " ".join(it for it in bare if not it.startswith("--"))


@functools.cache
def definitions(path: str) -> tuple[dict[str, Definition], Uses]:
    """The definitions of a file of specs/ by their names, constructors among them, and what it
    takes from other files."""
    if not os.path.isfile(f"{TOP}/{path}"):
        return {}, {}
    found: dict[str, Definition] = {}
    text = read_text(path)
    # Comment lines, and the lines below them up to an empty line or the next comment.
    for comment, lines in re.findall(r"((?:^--.*\n)*)((?:^(?!--).+\n)+)", text, re.M):
        match = DEFINITION.search(lines)
        if not match:
            continue
        own = lines[match.start() :].rstrip("\n")
        name = match[1] or match[2]
        found[name] = Definition(name, path, comment_of(comment), own)
        head = own.partition("\n")[0]
        if " data " in f" {head}":
            for constructor in re.findall(r"^  (?:pub )?([^\s(:]+) :", own, re.M):
                found[constructor] = found[name]
    return found, imports(text)


def definition(place: str, name: str) -> Definition | None:
    """The definition that a name of a path of the logic stands for; None where it is none of the
    repository's specs/."""
    crate, _, rest = place.partition(".specs.")
    path = f"crates/{crate}/specs/{rest.replace('.', '/')}.antt"
    front = f"crates/{crate}/specs/Lib.antt"
    if not os.path.isfile(f"{TOP}/{path}") and os.path.isfile(f"{TOP}/{front}"):
        # A file of specs/ that the crate shows of another one.
        line = rf"^pub use Rattle\.(\S+\.specs\.{re.escape(rest)})$"
        shown = re.search(line, read_text(front), re.M)
        return definition(shown[1], name) if shown else None
    return named_in(path, name)


def named_in(path: str, word: str) -> Definition | None:
    """The definition that a word in a file of specs/ represents."""
    own, uses = definitions(path)
    return own.get(word) or (definition(*uses[word]) if word in uses else None)


def reach(found: Definition, reached: dict[Definition, None]) -> None:
    """Adds a definition, and those that it is made of, to those that were reached."""
    if found in reached:
        return
    reached[found] = None
    for word in WORD.findall(found.text):
        named = named_in(found.path, word)
        if named:
            reach(named, reached)
