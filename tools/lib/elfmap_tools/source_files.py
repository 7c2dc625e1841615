"""`tools/release sources`: packs the sources of the library, elfmap-sources-VERSION.tar.gz, for
crates outside of this repository. It has the crate `elf`, all crates below it, and a template of an
application. The same sources and commit make the same archive."""

import os

from .release_files import copied, packed, put, version_of, without_dead_links
from .tree import LIBRARIES_OF, TOP, below, files_below, read_bytes, read_text, texts_of

TEMPLATE = "examples/application"
# The template's crates.txt has another name here, where `rt ci` takes no second one.
LINES = "crates.template"
# The crate of this repository that is the template's, and its name there.
EXAMPLE = "example_report"
OWN = "report"
GUIDE = "docs/APPLICATIONS.md"
PAGES = [GUIDE, "docs/generated/IMPORTS.md", "docs/generated/DEFINITIONS.md", "CHANGELOG.md"]
README = f"""The sources of elfmap's library.

crates/ has its crates, and application/ a template of an application on them. {GUIDE}
says how to begin.
"""


def crates() -> list[str]:
    """The crates of the library, each after those that it needs."""
    return [*below("elf"), "elf"]


def put_crates(folder: str) -> None:
    """Puts the crates of the library into a folder, with their lines."""
    for crate in crates():
        for path in texts_of(crate):
            copied(path, f"{folder}/{path[len(TOP) + 1:]}")
    lines = [" ".join([f"{it}:", *LIBRARIES_OF[it]]) for it in crates()]
    put(f"{folder}/crates.txt", "\n".join([*lines, ""]))


def put_template(folder: str) -> None:
    """Puts the template of an application into a folder: its files, and its crate."""
    for path in files_below(f"{TOP}/{TEMPLATE}"):
        name = path[len(f"{TOP}/{TEMPLATE}/") :]
        copied(path, f"{folder}/{'crates.txt' if name == LINES else name}")
    copied(f"{TOP}/HANDLES", f"{folder}/HANDLES")
    copied(f"{TOP}/{GUIDE}", f"{folder}/elfmap-{os.path.basename(GUIDE)}")
    example = f"{TOP}/crates/{EXAMPLE}"
    for path in files_below(example):
        place = path[len(example) + 1 :]
        if place.split("/")[0] != "out":
            content = read_bytes(path).replace(EXAMPLE.encode(), OWN.encode())
            put(f"{folder}/crates/{OWN}/{place}", content)
    # It is taken elsewhere.
    without_dead_links(folder)


def put_sources(folder: str, version: str) -> None:
    """Puts the release of sources into a folder."""
    put(f"{folder}/VERSION", f"{version}\n")
    put(f"{folder}/README", README)
    put_crates(folder)
    put_template(f"{folder}/application")
    for it in PAGES:
        copied(f"{TOP}/{it}", f"{folder}/{it}")
    without_dead_links(folder)


def pack(folder: str, given: str | None = None) -> str:
    """Packs the sources into a folder: the path of the archive."""
    version = version_of(given)
    return packed(folder, f"elfmap-sources-{version}.tar.gz", lambda it: put_sources(it, version))
