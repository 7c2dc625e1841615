"""What a release has.

`tools/release pack`: what is built in one archive, elfmap-VERSION-x86_64-linux.tar.gz, which is
used on a Linux with the GNU C library and without the Rattle kit. docs/MANUAL.md lists what it has;
elfmap.html is in it if wasm-opt is installed. A page's link to a file that the archive lacks
becomes its words. VERSION is the first line of the file VERSION, unless another one is given. The
same program, library, version, texts and commit make the same archive."""

import functools
import glob
import os
import re
import shutil
import sys
import tempfile
from collections.abc import Callable, Iterator
from functools import partial

from . import doc_page, library, man, web_page
from .building import is_current, output_of
from .library import PACKERS
from .requirements import JINJA2, MARKDOWN
from .tree import PACKAGE, PROGRAM, TOP, files_below, filled, read_text, run, said, wanted, write

RUNNER = """#!/bin/sh
# elfmap WORDS..: the program elfmap, with settings of the C library's memory.
if [ "$#:$1" = 1:--version ]; then echo "elfmap {version}"; exit; fi
if [ -L "$0" ]; then here=$(readlink -f -- "$0"); else here=$0; fi
case $here in */*) ;; *) here=./$here ;; esac
{settings}exec "${{here%/*}}/../{program}" "$@"
"""
# A command of the Python package, and where a release has the package.
COMMAND = """#!{python}
import os, sys
{path}
from {module} import {function}

if __name__ == "__main__":
    sys.exit({function}())
"""
BESIDE = """
top = os.path.dirname(os.path.dirname(os.path.realpath(__file__)))
sys.path.insert(0, f"{top}/bindings/python")"""
PKG_CONFIG = partial(filled, read_text("include/elfmap.pc.in"))
# The files of the repository that it has: those of the bindings but for their tests, which need the
# repository.
FILES = """
README.md CONTRIBUTING.md CHANGELOG.md SECURITY.md docs/* rules/*.rules examples/*.c
include/elfmap.h
action.yml .pre-commit-hooks.yaml
bindings/c/*.[ch]
bindings/rust/Cargo.lock bindings/rust/Cargo.toml bindings/rust/README.md bindings/rust/build.rs
bindings/rust/examples/* bindings/rust/src/*.rs bindings/rust/src/raw/*.rs
bindings/python/README.md bindings/python/pyproject.toml bindings/python/examples/*
bindings/python/elfmap/*.py bindings/python/elfmap/py.typed
""".split()
PLAIN_MODE = "u=rwX,go=rX"
# The commands, and what Debian's python3 imports, by which all of it is made.
MAKERS = f"{PACKERS} {JINJA2} {MARKDOWN} pandoc wasm-opt"
# The commands of the Python package: of each its name, its module and its function.
COMMANDS = re.findall(
    r'^([\w-]+) = "([\w.]+):(\w+)"', read_text("bindings/python/pyproject.toml"), re.M
)
LINK = re.compile(r"(?<!!)\[((?:`[^`]*`|[^\]`])*)\]\((?!https?:|#)([^)#\s]+)[^)]*\)")
# What the program needs at run time.
C_LIBRARY = {"libc.so.6", "ld-linux-x86-64.so.2"}


def version_of(given: str | None = None) -> str:
    """The version that is given, or that of the repository."""
    version = given or read_text("VERSION").splitlines()[0]
    if not re.fullmatch(r"[0-9A-Za-z._+-]+", version):
        what = "no word of letters, digits, '.', '_', '+' and '-'"
        raise SystemExit(f"release: the version '{version}' is {what}")
    return version


@functools.cache
def epoch() -> int:
    """The time that all packed files have, in seconds: SOURCE_DATE_EPOCH, or else that of the
    commit, or of the file VERSION."""
    given = os.environ.get("SOURCE_DATE_EPOCH")
    if not given:
        given = run("git", "-C", TOP, "log", "-1", "--format=%ct").stdout.decode().strip()
    return int(given or os.path.getmtime(f"{TOP}/VERSION"))


def common_to_all() -> list[str]:
    """What bindings/python/README.md says of all commands."""
    text = read_text("bindings/python/README.md")
    return man.blocks(text.partition("\n## All commands\n")[2].partition("\n## ")[0])


def page_of(name: str, module: str, version: str) -> str:
    """The manual page of a command of the Python package: its help, in long lines, what all
    commands have in common, and the other commands."""
    wide = os.environ | {"COLUMNS": "300"}
    help = said(sys.executable, "-B", "-m", module, "--help", folder=PACKAGE, env=wide)
    usage, about, *rest = help.stdout.strip().split("\n\n")
    rows = re.findall(r"^  (\S.*?)(?:  +|\n +)(\S.*)$", "\n".join(rest[:-1]), re.M)
    text = ["# NAME", f"{name} - {about}", "# SYNOPSIS", f"`{usage.removeprefix('usage: ')}`"]
    text += ["# OPTIONS", *(f"`{head}`\n:   {words}" for head, words in rows)]
    text += ["# EXIT STATUS", rest[-1], "# ALL COMMANDS", *common_to_all()]
    others = [it for it in ("elfmap", *(it for it, _, _ in COMMANDS)) if it != name]
    text += ["# SEE ALSO", ", ".join(f"**{it}**(1)" for it in others)]
    return man.by_pandoc(name, version, list(map(man.with_tags, text)))


def put(path: str, text: str | bytes) -> None:
    """Writes a file, in a folder that is made if it is not there. A script can be run."""
    os.makedirs(os.path.dirname(path), exist_ok=True)
    os.chmod(write(path, text), 0o755 if text[:2] in ("#!", b"#!") else 0o644)


def copied(source: str, path: str) -> None:
    """Copies a file, or a folder, into a folder that is made if it is not there."""
    os.makedirs(os.path.dirname(path), exist_ok=True)
    wanted("cp", "-rLT", source, path)


def runner(version: str, program: str) -> str:
    """The script that runs the program, which is at this place beside the script's folder."""
    settings = re.search(
        r"^# Large pages.*?^export GLIBC_TUNABLES[^\n]*\n", read_text("elfmap"), re.M | re.S
    )
    if not settings:
        raise SystemExit("release: the script ./elfmap has no settings of memory")
    return RUNNER.format(version=version, settings=settings[0], program=program)


def kept(folder: str, page: str, link: re.Match[str]) -> str:
    """A link of a page, or its words where it leads to no file of the folder."""
    target = os.path.normpath(f"{os.path.dirname(page)}/{link[2]}")
    return link[0] if target.startswith(folder) and os.path.exists(target) else link[1]


def without_dead_links(folder: str) -> None:
    """Makes the links of the pages that lead to no file of the folder words."""
    for page in files_below(folder):
        if page.endswith(".md"):
            write(page, LINK.sub(partial(kept, folder, page), read_text(page)))


def anchors(text: str) -> set[str]:
    """The names of the places of a page that a link can lead to."""
    heads = [
        re.sub(r"[^\w\- ]", "", it.lower()).replace(" ", "-")
        for it in re.findall(r"^#+ (.*)", text, re.M)
    ]
    return {*heads, *re.findall(r'<a id="([^"]*)"', text)}


def is_there(link: str, page: str) -> bool:
    """Whether a link of a page leads to a file, and to a place in it."""
    path, _, anchor = link.partition("#")
    target = os.path.join(os.path.dirname(page), path) if path else page
    return os.path.exists(target) and (not anchor or anchor in anchors(read_text(target)))


def broken_links(page: str, text: str) -> Iterator[str]:
    """The links of a page that lead to no file of the repository, or to no place in it."""
    for link in re.findall(r"\]\(([^)\s]+)\)", text):
        if not link.startswith("https://") and not is_there(link, page):
            yield link


def try_built() -> None:
    """What a release is made of is built, and the program needs nothing but the C library."""
    for crate in ("elfmap", library.VERDICTS, library.ENGINES):
        if not is_current(crate, output_of(crate)):
            how = f"build it with tools/dev prove {crate}, which needs the Rattle kit's command rt"
            what = f"{output_of(crate)} is missing, or older than a text in crates/"
            raise SystemExit(f"release: {what}: {how}")
    if run(PROGRAM, "check", PROGRAM).returncode:
        raise SystemExit("release: the program does not accept itself")
    # It says what it needs at run time: each entry NEEDED (tag 1) of its dynamic array.
    lines = (it.split() for it in said(PROGRAM, "show", PROGRAM).stdout.splitlines())
    others = {it[4] for it in lines if it[0] == "dynamic" and it[2] == "1"} - C_LIBRARY
    if others:
        what = f"{sorted(others)}, which is no part of the C library"
        raise SystemExit(f"release: the program needs {what}")


def made_texts(version: str) -> dict[str, str]:
    """The texts of a release that are made, by their places in it."""
    library_page, faults = doc_page.made()
    if faults:
        raise SystemExit(f"release: the page of the library is not whole: {faults[0]}")
    prefix = "${pcfiledir}/../.."
    texts = {
        "VERSION": f"{version}\n",
        "bin/elfmap": runner(version, "elfmap"),
        "doc/elfmap-doc.html": f"{library_page}\n",
        "lib/pkgconfig/elfmap.pc": PKG_CONFIG(PREFIX=prefix, LIBDIR="lib", VERSION=version),
        "share/man/man1/elfmap.1": man.page(version),
    }
    python = "/usr/bin/env python3"
    for name, module, function in COMMANDS:
        words = {"python": python, "path": BESIDE, "module": module, "function": function}
        texts[f"bin/{name}"] = COMMAND.format(**words)
        texts[f"share/man/man1/{name}.1"] = page_of(name, module, version)
    if shutil.which("wasm-opt"):
        texts["elfmap.html"] = web_page.page()
    else:
        print("release: without elfmap.html: there is no wasm-opt", file=sys.stderr)
    return texts


def put_release(folder: str, version: str) -> None:
    """Puts a release into a folder."""
    try_built()
    texts = made_texts(version)
    copied(PROGRAM, f"{folder}/elfmap")
    for pattern in FILES:
        for it in glob.glob(pattern, root_dir=TOP):
            copied(f"{TOP}/{it}", f"{folder}/{it}")
    for place, text in texts.items():
        put(f"{folder}/{place}", text)
    library.shared(library.pack(f"{folder}/lib"), f"{folder}/lib")
    without_dead_links(folder)


# How an archive of an ending is compressed.
COMPRESSORS = {"crate": "gzip -9n", "gz": "gzip -9n", "xz": "xz -9e -T1"}


def archived(folder: str, path: str) -> str:
    """Packs a folder as an archive, compressed as its ending says, which is the same for the same
    files: its path."""
    parent, name = os.path.split(folder)
    owner = ["--sort=name", "--owner=0", "--group=0", "--numeric-owner"]
    plain = [f"--mode={PLAIN_MODE}", f"--mtime=@{epoch()}", "--format=gnu"]
    compressor = COMPRESSORS[path.rpartition(".")[2]]
    words = [*owner, *plain, "-I", compressor, "-cf", os.path.abspath(path)]
    wanted("tar", "-C", parent, *words, name)
    return path


def packed(folder: str, archive: str, put_all: Callable[[str], None]) -> str:
    """Packs an archive of this name into a folder, with what is put into a folder: its path."""
    os.makedirs(folder, exist_ok=True)
    with tempfile.TemporaryDirectory(prefix="elfmap-release-") as work:
        whole = f"{work}/{archive.rpartition('.tar.')[0]}"
        put_all(whole)
        return archived(whole, f"{folder}/{archive}")


def pack(folder: str, given: str | None = None) -> str:
    """Packs a release into a folder: the path of the archive."""
    version = version_of(given)
    return packed(
        folder, f"elfmap-{version}-x86_64-linux.tar.gz", lambda it: put_release(it, version)
    )
