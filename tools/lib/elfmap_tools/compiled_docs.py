"""The examples in the docs of the libraries, and functions that must not compile, before the
compiler.

An example is a code block of a doc comment whose fence names no language. It is made the body of a
function that returns any error, in a crate for this alone. There it sees what its own crate shows,
before what crates below show, and what is named in `OF_STD`. What it uses and does not bind is a
parameter, of the type in `GIVEN`; a name that is not there is an unknown one. The crates are read
as they are, so none has to be built. The functions of cases/sources/outlives.rt.txt are beside the
examples: that they are refused shows that borrows are checked, and ends the compiler before proofs,
which take ten times as long."""

import os
import re
from collections.abc import Iterator
from typing import NamedTuple

from .building import kit
from .tree import LIBRARIES_OF, TOP, below, read_text, said, write

# The types of the parameters of examples, by their names.
GIVEN = {
    "rt": "&(impl Abort + Print)",
    "alloc": "Global",
    "hasher": "BuildHasherDefault<FoldHasher>",
    "reader": "impl Read + Drop",
    "writer": "impl Write + Drop",
    "file": "impl Read + Seek + Drop",
    "files": "impl Opener + Drop",
    "out": "Vec<u8>",
    "err": "Vec<u8>",
    "bytes": "&'a [u8]",
    "header": "[u8; 64]",
    "names": "Vec<&'a [u8]>",
    "symbols": "Vec<u32>",
    "object": "Object<'a>",
    "objects": "&'a [Object<'a>]",
    "options": "Options<'a>",
    "rules": "&'a [RelocRule]",
}
OF_STD = (
    "use std::{alloc::Global, hash::{BuildHasherDefault, FoldHasher}, "
    "io::{Print, Read, Seek, Write}, process::Abort};"
)
OUTLIVES = read_text("cases/sources/outlives.rt.txt")
FENCED = re.compile(
    r"^ *//[/!] ?```(?P<language>.*?) *\n(?P<lines>(?: *//[/!].*\n)*?) *//[/!] ?```", re.M
)


class Example(NamedTuple):
    """An example: its crate, its file, and a file that has it as a function."""

    crate: str
    path: str
    function: str


def parameters_of(lines: list[str]) -> str:
    """The parameters of an example: what it uses and does not bind."""
    bare = re.sub(r'"(?:\\.|[^"\\])*"|//.*', "", "\n".join(lines))
    # The names that can be values, but for members and fields.
    used = set(re.findall(r"(?<![.\w])[a-z_]\w*(?!\w|\s*:)", bare))
    used -= set(re.findall(r"\blet (?:mut )?(\w+)", bare))
    return ", ".join(f"mut {name}: {kind}" for name, kind in GIVEN.items() if name in used)


def examples_in(crate: str, path: str) -> Iterator[Example]:
    """The examples of a file. In its function each line has the number that it has in the docs."""
    text = read_text(path)
    for block in FENCED.finditer(text):
        if block["language"]:
            continue
        lines = re.findall(r"^ *//[/!] ?(.*)", block["lines"], re.M)
        imports = [f"use {it}::*;" for it in [crate, *below(crate)]]
        signature = f"example<'a>({parameters_of(lines)}) -> Result<(), std::test::Fail>"
        head = " ".join([*imports, OF_STD, f"pub fn {signature} {{ use {crate}::*;"])
        above = "\n" * text.count("\n", 0, block.start())
        body = [f"    {it}" for it in lines]
        function = "\n".join([head + above, *body, "    Ok(())", "}", ""])
        yield Example(crate, path, function)


def words(crates: list[str]) -> list[str]:
    """The arguments with which `rattle check` reads the examples over the sources of these crates
    and of those below them."""
    found = ["check", "--crate-name", "doc_examples", "src/lib.rt", "--only", ""]
    crates = list(dict.fromkeys(it for crate in crates for it in [*below(crate), crate]))
    of_kit = {it for crate in crates for it in LIBRARIES_OF[crate] if it not in LIBRARIES_OF}
    for name in ["core", "std", *sorted(of_kit)]:
        found += ["--extern", f"{name}={kit()}/rlibs/{name}.rlib"]
    for crate in crates:
        libraries = ",".join(["core", "std", *LIBRARIES_OF[crate]])
        found += ["--lib", f"{crate}:{libraries}={TOP}/crates/{crate}/src/lib.rt"]
    found += ["-L", f"dependency={kit()}/rlibs"]
    found += ["--antt-project", f"{kit()}/rattle/logic/antt-project.json"]
    return [*found, "--logic-built", f"{kit()}/logic_built"]


def output_of(examples: list[Example], room: str) -> str:
    """What the compiler says of these examples, and of the functions that must not compile; of
    borrows where names and types are right."""
    files = {f"example_{number}": it.function for number, it in enumerate(examples)}
    files["lib"] = OUTLIVES + "".join(f"pub mod {name};\n" for name in files)
    os.makedirs(f"{room}/src")
    for name, text in files.items():
        write(f"{room}/src/{name}.rt", text)
    crates = re.findall(r"^use (elf_\w+)::", OUTLIVES, re.M) + [it.crate for it in examples]
    return said(f"{kit()}/bin/rattle", *words(crates), folder=room).stdout
