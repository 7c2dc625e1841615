"""`tools/test release`: packs a release of what is built twice, and unpacks the archive in an empty
folder. There all of it has to work, with nothing on the PATH but /usr/bin and /bin. MOST_SECONDS of
a processor have to be enough to pack it."""

import glob
import os
import re
import shutil
import sys

from .library import BOTH
from .release_files import COMMANDS, MAKERS, broken_links, pack, version_of
from .suite import Tally, Test, steps_of
from .tree import Options, files_below, read_bytes, read_text, said

# The version of the release that is tried.
VERSION = "0-test"
MOST_SECONDS = 30
MADE = [
    "elfmap.html",
    "VERSION",
    "bin/elfmap",
    "doc/elfmap-doc.html",
    "elfmap",
    "include/elfmap.h",
    "lib/libelfmap.a",
    "lib/libelfmap.so.0",
    "lib/pkgconfig/elfmap.pc",
    "share/man/man1/elfmap.1",
]
for command, *_ in COMMANDS:
    MADE += [f"bin/{command}", f"share/man/man1/{command}.1"]
# Files that other programs read at the top of a repository.
ALONE = ["action.yml", ".pre-commit-hooks.yaml"]
# What git has and a release has not: tests of the bindings, their planted bugs, files beside them;
# the template of an application, which is in the release of sources.
NOT_RELEASED = re.compile(
    r"^bindings/((rust|python)/tests/|[^/]*$|\w+/mutations\.txt$)|^examples/application/"
)
PLAIN = {"PATH": "/usr/bin:/bin", "LC_ALL": "C.UTF-8", "MANWIDTH": "80"}


def compare_names(tally: Tally, folder: str) -> None:
    """A release has what git has, and what is made."""
    names = {it[len(folder) + 1 :] for it in files_below(folder)}
    places = ["[A-Z]*.md", *ALONE, "docs", "rules", "bindings", "examples"]
    listed = said("git", "ls-files", *places).stdout
    right = {*MADE, *(it for it in listed.split() if not NOT_RELEASED.search(it))}
    more = f"and has beyond that {sorted(names - right)}"
    tally.check(names == right, f"the archive lacks {sorted(right - names)}, {more}")


def unpacked(tally: Tally) -> str:
    """Packs a release twice, and unpacks it in an empty folder: its folder."""
    room = tally.folder
    empty = tally.new_folder("empty")
    folder = f"{empty}/elfmap-{VERSION}-x86_64-linux"
    # The first one may build the module of the page.
    first = pack(f"{room}/first", VERSION)
    begun = sum(os.times()[:4])
    second = pack(f"{room}/second", VERSION)
    seconds = sum(os.times()[:4]) - begun
    is_fast = seconds < MOST_SECONDS
    tally.check(is_fast, f"a release is packed in {seconds:.0f} s of a processor")
    is_same = read_bytes(first) == read_bytes(second)
    tally.check(is_same, "the archive is another one the second time")
    ended = said("tar", "xf", first, folder=empty)
    tally.check(ended.returncode == 0, "tar does not unpack the archive")
    compare_names(tally, folder)
    has_version = read_text(f"{folder}/VERSION") == f"{VERSION}\n"
    tally.check(has_version, "the file VERSION has not the version")
    return folder


def help_of(folder: str, *words: str) -> str:
    """The help of the program, or of a command."""
    return said("./elfmap", *words, "--help", folder=folder, env=PLAIN).stdout


def usage_of(listed: str) -> str:
    """The usage of a command by its help, with its options in place of [OPTIONS]."""
    (own,) = re.findall(r"Usage: (.*)", listed)
    options = re.findall(r"^ +(?:-\w, )?(--\w+(?: <\w+>)?)", listed, re.M)
    given = [it for it in options if it != "--help" and it not in own]
    whole = own.replace("[OPTIONS]", " ".join(f"[{it}]" for it in given))
    return re.sub(r"[<>]", "", whole)


def compare_usages(tally: Tally, folder: str) -> None:
    """docs/MANUAL.md and the manual page have the usage of each command that the program has."""
    listed = help_of(folder).partition("Commands:")[2].partition("Options:")[0]
    commands = re.findall(r"^  (\w+) ", listed, re.M)
    manual = read_text(f"{folder}/docs/MANUAL.md").partition("\n## The commands\n")[2]
    usages = re.findall(r"^    (elfmap (\w+) .*)", manual, re.M)
    named = [it for _, it in usages]
    tally.same("the commands of docs/MANUAL.md, by the program", named, commands)
    page = read_text(f"{folder}/share/man/man1/elfmap.1").replace(r"\-", "-")
    synopsis = page.partition("\n.SH DESCRIPTION\n")[0].splitlines()
    for usage, command in usages:
        own = usage_of(help_of(folder, command))
        why = f"the program's usage is '{own}', and docs/MANUAL.md has '{usage}'"
        tally.check(words_of(own) == words_of(usage), why)
        tally.check(usage in synopsis, f"the manual page has not the usage '{usage}'")


def words_of(usage: str) -> list[str]:
    """The arguments and options of a usage, in any order."""
    return sorted(re.findall(r"\[[^\]]*\]|--\w+ [A-Z]+|\S+", usage))


def build_example(tally: Tally, folder: str, room: str) -> None:
    """The crate's example by cargo, which builds outside of the archive."""
    path = f"{os.path.dirname(shutil.which('cargo') or '')}:{PLAIN['PATH']}"
    env = {**os.environ, "PATH": path, "CARGO_TARGET_DIR": f"{room}/target"}
    words = ["cargo", "build", "--frozen", "--example", "symbols"]
    built = said(*words, folder=f"{folder}/bindings/rust", env=env)
    tally.check(built.returncode == 0, f"cargo build: {built.stdout}")


@Test(
    "release",
    "what a release has, and that all of it works",
    f"{MAKERS} nm git pkg-config cargo groff",
    f"elfmap {BOTH}",
)
def try_release(tally: Tally, options: Options) -> None:
    folder = unpacked(tally)
    room = tally.new_folder("elsewhere")
    for page in sorted(glob.glob(f"{folder}/**/*.md", recursive=True)):
        broken = list(broken_links(page, read_text(page)))
        tally.check(not broken, f"{page} has links to {broken}, which the archive lacks")
    compare_usages(tally, folder)
    build_example(tally, folder, room)
    marks = {
        "TOP": folder,
        "V": VERSION,
        "PACKAGE": version_of(),
        "COMMANDS": " ".join(it for it, *_ in COMMANDS),
        "PYTHON": os.path.dirname(sys.executable),
    }
    steps = steps_of("release.steps", **marks)
    tally.try_steps(steps, lambda it: said("sh", "-c", it, folder=room, env=PLAIN).stdout)
