"""`tools/dev doc`: one page of the whole library, for a browser. For each of the crates that `elf`
shows it has the front doc and each public item: signature, doc comment, and contract as it is in
the source, where each word that is a definition of specs/ leads to that definition, at the end of
the page with its comment and text, below the path that a clause imports it from. It fails where an
item has no doc comment or is not in the page once."""

import functools
import re
import sys
from collections import Counter
from collections.abc import Callable
from html import escape

from .definitions_page import DEFINITIONS, ROW
from .guarantees_page import guarantees_by_call, key_of
from .import_paths import modules
from .rules_page import by_anchor
from .sources import (
    PUBLIC_CRATES,
    WORD,
    Definition,
    Item,
    Uses,
    definition,
    items_of,
    module_file,
    named_in,
    reach,
    source,
)
from .tree import Options, read_text

# Where a word leads to, and its title.
Place = tuple[str, str] | None
# Code, or a link: the sign of code, its words, and where it leads to.
MARK = re.compile(r"`[^`]+`|\[(`?)([^\]`]+)`?\](?:\(([^)]*)\))?")


class Page:
    """What is on the page: an anchor for each item by its public crate and name, and the
    definitions that were led to."""

    def __init__(self) -> None:
        self.anchors: dict[tuple[str, str], str] = {}
        self.wanted: dict[Definition, None] = {}
        self.faults: list[str] = []
        self.front = PublicCrate(self, "")
        self.crates = [PublicCrate(self, it) for it in PUBLIC_CRATES]
        homes: dict[tuple[str, str, str], str] = {}
        for crate in self.crates:
            self.anchors[crate.name, crate.name] = crate.name
            for item in crate.items:
                # An item that several public crates show has its place at the first one.
                home = homes.setdefault((item.source, item.name, item.kind), crate.name)
                self.add(crate.name, f"{home}.{item.name}", item.name, item)

    def add(self, public_crate: str, anchor: str, path: str, item: Item) -> None:
        """Adds the anchors of an item and of what is in it."""
        self.anchors[public_crate, path] = item.anchor = anchor
        for docs, text in [(item.docs, ""), *item.fields]:
            name = f"::{name_of(text)}" if text else ""
            self.anchors[public_crate, path + name] = anchor + name.replace("::", ".")
            if not "".join(docs).strip():
                self.faults.append(f"{item.source}: {path}{name} has no doc comment")
        for it in item.members:
            self.add(public_crate, f"{anchor}.{it.name}", f"{path}::{it.name}", it)

    def whole(self) -> str:
        """The page, by its template, which asks for the definitions after all that leads to
        them."""
        import jinja2

        environment = jinja2.Environment(trim_blocks=True, lstrip_blocks=True)
        template = environment.from_string(read_text("page/doc.html"))
        called = (anchor_of, head_of_contract, import_of, in_one_line, name_of, said_of, text_of)
        own = {it.__name__: it for it in called}
        files = {"style": read_text("page/doc.css"), "script": read_text("page/doc.js")}
        return str(template.render(page=self, **files, **own))


def anchor_of(found: Definition) -> str:
    """The anchor of a definition."""
    crate, _, rest = found.path.removeprefix("crates/").removesuffix(".antt").partition("/specs/")
    return f"{crate}/{rest.replace('/', '.')}.{found.name}"


def import_of(path: str) -> str:
    """Where a clause imports the definitions of a file from, over the crate `elf`; nothing where no
    public crate shows the file."""
    crate, _, rest = path.removeprefix("crates/").removesuffix(".antt").partition("/specs/")
    return import_paths().get(f"{crate}.specs.{rest.replace('/', '.')}", "")


@functools.cache
def import_paths() -> dict[str, str]:
    """The path over the crate `elf` of each file of definitions, by its path at home."""
    found: dict[str, str] = {}
    for public in PUBLIC_CRATES:
        for name, home in modules(public).items():
            found.setdefault(home, f"Rattle.elf.specs.{public}.{name}")
    return found


def name_of(text: str) -> str:
    """The name of a field or a variant."""
    return re.sub(r"(?s)\W.*", "", text)


def place_of(found: Definition) -> Place:
    """The place of a definition."""
    return anchor_of(found), said_of(found) or found.text


def text_of(found: Definition) -> str:
    """The text of a definition, where other definitions have their places."""

    def place_in(word: str) -> Place:
        other = named_in(found.path, word)
        return place_of(other) if other and other is not found else None

    return linked(found.text, place_in)


def linked(text: str, place: Callable[[str], Place]) -> str:
    """A text of code, each word of it with the anchor and the title that it has, if it has one."""

    def link(word: str) -> str:
        anchor, title = place(word) or ("", "")
        said = f' title="{escape(title)}"' if title else ""
        return f'<a href="#{escape(anchor)}"{said}>{escape(word)}</a>' if anchor else escape(word)

    parts = re.split(f"({WORD.pattern})", text)
    return "".join(link(it) if k % 2 else escape(it) for k, it in enumerate(parts))


def said_of(found: Definition) -> str:
    """What is said of a definition: the comment above it, or else its line in
    docs/generated/DEFINITIONS.md or docs/RULES.md."""
    return found.comment or table_words().get(found.name, "")


@functools.cache
def table_words() -> dict[str, str]:
    """The sentence for each word of the tables of docs/RULES.md and
    docs/generated/DEFINITIONS.md."""
    rules = {it.definition: f"rule {it.number}: {it.words}" for it in by_anchor().values()}
    return rules | dict(ROW.findall(read_text(DEFINITIONS)))


def in_one_line(text: str) -> str:
    """A field or a variant without comments."""
    lines = (it.strip() for it in text.splitlines())
    joined = " ".join(it for it in lines if not it.startswith("///"))
    return re.sub(r",? \}$", " }", joined)


def head_of_contract(item: Item) -> str:
    """What is in the contract of an item."""
    if item.ghosts:
        return "what it is in the logic"
    kinds = Counter(it.split()[0] for it in item.clauses)
    return f"contract: {', '.join(f'{count} {kind}' for kind, count in kinds.items())}"


class PublicCrate:
    """The part of the page that is of a public crate, or its front."""

    def __init__(self, page: Page, name: str) -> None:
        self.page = page
        self.name = name
        self.items = list(items_of(f"elf_{name}")) if name else []

    def text(self) -> str:
        """Its front doc."""
        crate = f"elf_{self.name}" if self.name else "elf"
        front, *_ = source(module_file(crate, ()))
        return self.told(front)

    def has(self, item: Item) -> bool:
        """Whether an item is here, and not at another crate that shows it too."""
        return item.anchor.startswith(f"{self.name}.")

    def anchor(self, path: str, owner: str = "") -> str:
        """Where a path of a doc comment or a signature leads to; nowhere where that is not on the
        page."""
        words = [owner if it == "Self" else it for it in path.split("::")]
        words = [it for it in words if it != "crate" and not it.startswith("elf_")]
        for name in ("::".join(words[-2:]), words[0] if words else ""):
            for public_crate in (self.name, *PUBLIC_CRATES):
                if anchor := self.page.anchors.get((public_crate, name)):
                    return anchor
        return ""

    def told(self, docs: list[str], owner: str = "") -> str:
        """A doc comment, whose links lead to what is on the page."""
        import markdown

        text = MARK.sub(lambda it: self.link(it, owner), "\n".join(docs))
        return str(markdown.markdown(text, extensions=["fenced_code", "tables"]))

    def marked(self, text: str) -> str:
        """One paragraph."""
        return self.told([text]).removeprefix("<p>").removesuffix("</p>")

    def link(self, mark: re.Match[str], owner: str) -> str:
        """A mark of a doc comment, as a link if it leads to something on the page."""
        if not mark[2]:
            return mark[0]
        words = f"{mark[1]}{mark[2]}{mark[1]}"
        anchor = self.anchor(mark[3] or mark[2], owner)
        if anchor:
            return f"[{words}](#{anchor})"
        return words if mark[1] or mark[3] else mark[0]

    def signature(self, item: Item) -> str:
        """The signature, where the types of the library lead to their place."""

        def place(word: str) -> Place:
            is_other_type = word[0].isupper() and word != item.name
            return (self.anchor(word), "") if is_other_type else None

        return linked("\n".join(item.text), place)

    def place_by(self, uses: Uses, word: str) -> Place:
        """Where a word of a contract leads to, by its source's `ghost use` lines. Definitions that
        it reaches get on the page."""
        place, name = uses.get(word, ("", ""))
        if ".declared." in place:
            return self.anchor(re.sub(r"\.TheVariants$", "", place).rsplit(".", 1)[-1]), ""
        found = definition(place, name) if place else None
        if not found:
            return None
        reach(found, self.page.wanted)
        return place_of(found)

    def guarantees(self, item: Item) -> list[str]:
        """What docs/GUARANTEES.md says of a function."""
        return [self.marked(it) for it in guarantees_by_call().get(key_of(item), [])]

    def contract(self, item: Item) -> str:
        """The clauses, or of a type what its value and its invariant are."""
        lines = "\n".join([*item.ghosts, *item.clauses])
        return linked(lines, functools.partial(self.place_by, item.uses))

    def trait(self, name: str) -> str:
        """The name of a trait, which leads to its place."""
        bare = re.sub("<.*", "", name)
        return linked(name, lambda it: (self.anchor(it), "") if it == bare else None)


def made() -> tuple[str, list[str]]:
    """The page, and what is wrong with it."""
    page = Page()
    text = page.whole()
    ids = Counter(re.findall(r' id="([^"]+)"', text))
    faults = list(dict.fromkeys(page.faults))
    for anchor in sorted(set(page.anchors.values())):
        if ids[anchor] != 1:
            faults.append(f"{anchor} is in the page {ids[anchor]} times")
    leads = set(re.findall(r' href="#([^"]+)"', text))
    faults += [f"{anchor} is nowhere in the page" for anchor in sorted(leads - set(ids))]
    return text, faults


def main(options: Options) -> int:
    """`tools/dev doc`: prints the page."""
    text, faults = made()
    print(text)
    print("".join(f"doc: {it}\n" for it in faults), end="", file=sys.stderr)
    return 1 if faults else 0
