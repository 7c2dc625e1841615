"""The tables of rules in the crates and the bindings, which `tools/release tables` makes of
docs/RULES.md: the names of the rules of files, objects and links, for the faults of the crates:
each `src/rule_names.rt`; and with their sentences for the bindings: bindings/rust/src/rules.rs and
bindings/python/elfmap/_rules.py. It makes the constants of the crate for Rust and those of the
page, too, and what both bindings and the page declare of include/elfmap.h."""

import functools
import glob
import os
import pprint
import textwrap
from collections.abc import Iterable, Iterator

from . import constants_in_rust, header_in_code, names_in_script
from .rules_page import Rule, file_rules, rules_of
from .tree import TOP, Options, read_text, write

filled = functools.partial(textwrap.wrap, break_long_words=False, break_on_hyphens=False)
MADE = "Made by `tools/release tables` from docs/RULES.md."
OF_TABLES = (
    "// The number, the name and the sentence of each rule, by ascending numbers: "
    "of files, and of links."
)
# The head and the end of a function that returns the name of a rule.
FUNCTION = """pub fn rule_name(rule: u16) -> &'static str {
    match NAMES.get(rule as usize) {
        Some(name) => name,
        None => "",
    }
}
"""


def rust_constants(rules: Iterable[Rule], indent: str = "") -> Iterator[str]:
    """A constant for each rule, with its sentence."""
    for it in rules:
        yield ""
        for line in filled(f"Rule {it.number}: {it.sentence}.", 90 - len(indent)):
            yield f"{indent}/// {line}"
        yield f"{indent}pub const {it.name}: u16 = {it.number};"


def rust_table(name: str, rules: list[Rule]) -> Iterator[str]:
    """A table of the number, the name and the sentence of each rule."""
    yield "#[rustfmt::skip]"
    yield f"pub(crate) const {name}: [(u16, &str, &str); {len(rules)}] = ["
    for it in rules:
        escaped = it.sentence.replace("\\", "\\\\").replace('"', '\\"')
        # A literal of several lines, each but the last of which ends with a space.
        literal = " \\\n         ".join(filled(escaped, 76))
        yield from ("    (", f"        {it.number},", f'        "{it.name}",')
        yield from (f'        "{literal}",', "    ),")
    yield "];"


def rust() -> str:
    """What the crate for Rust has."""
    of_links = list(rust_constants(rules_of("link"), "    "))
    lines = [
        f"//! The rules by their names. {MADE}",
        *rust_constants(file_rules()),
        "",
        "/// The rules of a link of objects.",
        "pub mod link {",
        *of_links[1:],
        "}",
        "",
        OF_TABLES,
        *rust_table("TABLE", file_rules()),
        "",
        *rust_table("LINK_TABLE", rules_of("link")),
        "",
    ]
    return "\n".join(lines)


def python_table(name: str, words: str, rules: list[Rule]) -> str:
    """A table of the name, the sentence and the advice of each rule."""
    found = {it.number: (it.name, it.sentence, it.advice) for it in rules}
    return f"\n# {words}\n{name} = {pprint.pformat(found, width=88)}\n"


def python() -> str:
    """What the Python package has."""
    words = "The name, the sentence and the advice of each rule of files."
    of_files = python_table("RULES", words, file_rules())
    of_links = python_table("LINK_RULES", "Those of each rule of links.", rules_of("link"))
    words = "Those of each warning before a link."
    warnings = python_table("WARNINGS", words, rules_of("warning"))
    return f'"""The rules by their numbers. {MADE}"""\n{of_files}{of_links}{warnings}'


def rattle(words: str, rules: list[Rule]) -> str:
    """A function that returns the names by their numbers."""
    names = {it.number: it.name for it in rules}
    count = max(names) + 1
    about = f"The name of a rule of {words}, as `{rules[0].name}` of 1"
    lines = [
        f"//! The names of rules by their numbers. {MADE}",
        "",
        *(f"/// {it}" for it in filled(f"{about}; empty where no rule has the number.", 136)),
        FUNCTION,
        f"const NAMES: [&str; {count}] = [",
        *(f'    "{names.get(number, "")}",' for number in range(count)),
        "];",
        "",
    ]
    return "\n".join(lines)


def tables() -> dict[str, str]:
    """What each file has to be."""
    of_images = "images (1 to 33), tables (40 to 69) and files read as objects (70 to 79)"
    of_crates = {
        "image": rattle(of_images, file_rules()),
        "object": rattle("objects", rules_of("object", range(1, 10))),
        "link": rattle("the link", rules_of("link")),
    }
    found = {
        constants_in_rust.PATH: constants_in_rust.rust(),
        "bindings/rust/src/rules.rs": rust(),
        "bindings/python/elfmap/_rules.py": python(),
        "bindings/rust/src/raw/declared.rs": header_in_code.rust(),
        "bindings/python/elfmap/_declared.py": header_in_code.python(),
        "page/declared.js": header_in_code.script(),
        names_in_script.PATH: names_in_script.script(),
    }
    for path in sorted(glob.glob("crates/elf_*/src/rule_names.rt", root_dir=TOP)):
        crate = path.split("/")[1]
        found[path] = of_crates[crate.split("_")[1]]
    return found


def write_tables(options: Options) -> None:
    """`tools/release tables`. A right file keeps its time, so that no crate is built again."""
    for path, text in tables().items():
        own = f"{TOP}/{path}"
        if not os.path.isfile(own) or read_text(own) != text:
            write(own, text)
