"""`tools/test application`: an application outside of the repository, from the release of sources.

The release is packed twice, and unpacked in an empty folder. The template of an application there
takes the crates that it needs. They are those of this repository, byte for byte, so that they are
not proved here again: the template is proved over the libraries that are built of them, and its
program runs."""

import os
import shutil

from . import source_files
from .building import FolderOf, built_below, kit, link_words, words
from .release_files import broken_links
from .source_files import EXAMPLE, OWN
from .suite import Tally, Test
from .tree import (
    LIBRARIES_OF,
    TOP,
    Options,
    below,
    files_below,
    read_bytes,
    read_text,
    said,
    texts_of,
    write,
)

ABOUT = "an application outside of the repository, from the release of sources"
VERSION = "0-test"
PRINTED = "seven: begins at 0x400000\n"


def unpacked(tally: Tally) -> tuple[str, str]:
    """Packs the sources twice: the archive, and the folder that it unpacks to."""
    first = source_files.pack(f"{tally.folder}/first", VERSION)
    second = source_files.pack(f"{tally.folder}/second", VERSION)
    is_same = read_bytes(first) == read_bytes(second)
    tally.check(is_same, "the archive is another one the second time")
    empty = tally.new_folder("empty")
    ended = said("tar", "xf", first, folder=empty)
    tally.check(ended.returncode == 0, f"tar does not unpack the archive: {ended.stdout}")
    return first, f"{empty}/elfmap-sources-{VERSION}"


def try_pages(tally: Tally, folder: str) -> None:
    """The links of the pages lead to files of the folder."""
    for page in files_below(folder):
        if page.endswith(".md"):
            links = list(broken_links(page, read_text(page)))
            tally.check(not links, f"{page} has links that lead nowhere: {links}")


def taken(application: str, *release: str) -> str:
    """What the template's script says."""
    return said("./take-elfmap", *release, folder=application).stdout


def compare_crates(tally: Tally, application: str) -> None:
    """The template has its own crate and those that it needs, as they are here."""
    crates = below(EXAMPLE)
    found = sorted(os.listdir(f"{application}/crates"))
    tally.same("the crates that are there", found, sorted([OWN, *crates]))
    for crate in crates:
        right = {it[len(TOP) + 1 :]: read_bytes(it) for it in texts_of(crate)}
        paths = files_below(f"{application}/crates/{crate}")
        own = {it[len(application) + 1 :]: read_bytes(it) for it in paths}
        tally.check(own == right, f"the files of {crate} are others")
        line = " ".join([f"{crate}:", *LIBRARIES_OF[crate]])
        is_there = f"\n{line}\n" in read_text(f"{application}/crates.txt")
        tally.check(is_there, f"crates.txt has no line `{line}`")


def try_taking(tally: Tally, archive: str, release: str, application: str) -> None:
    """The script takes the crates from the archive, and the same again from the folder. What it
    can't take from it refuses."""
    right = f"elfmap {VERSION}: {len(below(EXAMPLE))} crates\n"
    tally.same("take-elfmap of the archive", taken(application, archive), right)
    compare_crates(tally, application)
    lines = read_text(f"{application}/crates.txt")
    tally.same("take-elfmap of the folder", taken(application, release), right)
    tally.same("crates.txt after it", read_text(f"{application}/crates.txt"), lines)
    compare_crates(tally, application)
    tally.check("RELEASE is" in taken(application), "take-elfmap without a word has no usage")
    for it in (f"{TOP}/docs", f"{TOP}/VERSION", f"{TOP}/nothing"):
        tally.check("is no release" in taken(application, it), f"{it} is a release of sources")
    write(f"{application}/crates.txt", "elf_field:\n")
    tally.check("has the name" in taken(application, release), "elf_field is two crates")
    write(f"{application}/crates.txt", "report:\n")
    tally.check("names a crate" in taken(application, release), "no crate is needed, and taken")
    write(f"{application}/crates.txt", lines)


def try_program(tally: Tally, folder: str, folder_of: FolderOf) -> None:
    """The template is proved over the libraries of this repository, and its program prints what
    its file `stdout` says."""
    out = f"{folder}/{OWN}"
    own = [it.replace(EXAMPLE, OWN) for it in words(EXAMPLE, folder_of)]
    command = [f"{kit()}/bin/rattle", "build", *own, "--toolchain", f"{kit()}/toolchain"]
    found = said(*command, "-o", f"{out}.o", folder=folder).stdout
    tally.check("\nlogic=proved " in found, f"the template is not proved: {found[-2000:]}")
    said(*link_words(out, f"{out}.o"), folder=folder)
    if tally.check(os.path.isfile(out), "the template's program is not built"):
        tally.same("the program", said(out, "seven", folder=f"{folder}/data").stdout, PRINTED)
    tally.same("its file stdout", read_text(f"{folder}/stdout"), PRINTED)


@Test("application", ABOUT, crates=EXAMPLE)
def try_application(tally: Tally, options: Options) -> None:
    archive, release = unpacked(tally)
    application = f"{tally.folder}/application"
    shutil.copytree(f"{release}/application", application)
    try_pages(tally, release)
    try_pages(tally, application)
    try_taking(tally, archive, release, application)
    folder_of, lacking = built_below([EXAMPLE])
    tally.check(not lacking, f"libraries are not built: {lacking}")
    try_program(tally, f"{application}/crates/{OWN}", folder_of)
