"""`tools/test shown-commands`: runs the commands that the pages show, and compares what they print
with what is below them.

A command is a line of a code block that begins with `$ `, or with `>>> ` for Python; below it are
the lines that it prints, on standard output and standard error. There a line `..` means lines left
out, and ` ..` at the end of a line the rest of it. A page's commands run in its order in a folder
of their own. That is a release of the version VERSION, unpacked, whose bin/ is on the PATH, with
its archive, that of the sources, and the folders that the repository alone has. Commands within
prose are not looked at. Skipped are those of SKIPPED, and those of a page of which one needs a tool
of another version than README.md names, or a file of the machine of another length."""

import os
import re
import shutil
import sys
from collections.abc import Iterator
from typing import Any

from . import source_files
from .library import BOTH
from .page_texts import all_pages, blocks
from .release_files import MAKERS, broken_links, pack
from .suite import Tally, Test
from .tree import PROGRAM, TOP, Options, read_text, said, wanted, write

LONGEST = 60
# Commands that are not run here, and why.
LONG = "it proves, for minutes or seconds, with the Rattle kit"
PLANTED = (
    "tools/dev check elf_extent members_by_start  "
    "# sort_by_start, which it calls, sorts by the index in place of the start"
)
MEASURES = "it measures, for minutes"
MANUAL = "it shows a page; tools/test release has it formatted"
WHEEL = "tools/test packages installs the wheel"
SKIPPED = {
    "rt ci": LONG,
    "tools/dev prove elf_image_rules": LONG,
    "tools/dev prove tests_extent": LONG,
    "tools/dev check elf_extent  # a crate": LONG,
    PLANTED: "a bug",
    "tools/dev check tests_extent --test finds_the_next_place": LONG,
    "man -l elfmap-VERSION-x86_64-linux/share/man/man1/elfmap.1": MANUAL,
    "python3 -m venv venv && venv/bin/pip install elfmap-*.whl": WHEEL,
    "venv/bin/elfmap-gaps --most 20 /usr/lib": WHEEL,
    "bench/run": MEASURES,
    "bench/run --peers": MEASURES,
    "bench/growth crates/elfmap/out/elfmap": MEASURES,
    "bench/library": MEASURES,
    "bench/lint": MEASURES,
    "bench/view": MEASURES,
}
# Tools whose output depends on their version, and the packages by which README.md names that.
PACKAGES = {
    "gcc": "gcc",
    "g++": "gcc",
    "readelf": "binutils",
    "objcopy": "binutils",
    "ld": "binutils",
    "eu-elflint": "elfutils",
    "llvm-objcopy": "LLVM",
    "llvm-readobj": "LLVM",
}
TOOLS = " ".join([*PACKAGES, "pkg-config", MAKERS])
# Files of the machine, and how long they are where the pages' lines were printed (Debian 12).
MACHINE_FILES = {"/bin/true": 35664}
# A code line that begins so is a command.
COMMAND_LIKE = re.compile(
    r"^(?:\./|scripts/|tools/|bench/|\.ci/|rt |tar |man |gcc |cc |cargo |python3 ).*", re.M
)
# A command, which goes on in further lines, and the lines below it.
COMMAND = re.compile(r"^\$ ((?:.*\\\n)*.*)\n((?:(?!\$ ).*\n)*)", re.M)
# What stays for the next command, in a file of the page's folder.
STATE = """{before}
{command}
status=$?
{{ export -p; printf "cd %q\\n" "$PWD"; }} > "{state}"
exit $status"""


def commands(block: str) -> list[tuple[str, str]]:
    """The commands of a block, each with the lines below it."""
    found: list[tuple[str, str]] = []
    for command, shown in COMMAND.findall(block):
        found.append((re.sub(r"\\\n *", "", command), shown.rstrip("\n")))
    return found


def commands_of(text: str) -> list[str]:
    """The commands of a page."""
    return [command for block in blocks(text) for command, _ in commands(block)]


def is_as_shown(said: str, shown: str) -> bool:
    """Whether a command said what a page shows."""
    pattern = ""
    for line in shown.splitlines():
        whole = re.escape(line.removesuffix(" .."))
        if line == "..":
            pattern += r"(?:.*\n)*"
        elif line.endswith(" .."):
            pattern += rf"{whole}.*\n"
        else:
            pattern += rf"{whole}\n"
    lines = said + "\n" if said and not said.endswith("\n") else said
    return re.fullmatch(pattern, lines) is not None


def other_version(tool: str) -> str:
    """The version of a tool, beside that which README.md names; nothing if they are the same."""
    named = re.search(rf"\b{PACKAGES[tool]} (\d+(?:\.\d+)+)", read_text("README.md"))
    own = re.search(r"\d+\.\d[.\d]*", said(tool, "--version").stdout)
    if named and own and f"{own[0]}.".startswith(f"{named[1]}."):
        return ""
    right = named[1] if named else "named in README.md"
    return f"{tool} {own[0] if own else 'of no version'}, not {right}"


def foreign(commands: list[str]) -> Iterator[str]:
    """Tools and files of the machine that these commands need, and that are others where what the
    pages show was printed."""
    words = {it for command in commands for it in re.findall(r"[^\s|&;<>()]+", command)}
    for tool in PACKAGES:
        if tool in words and (other := other_version(tool)):
            yield other
    for path, length in MACHINE_FILES.items():
        if path in words and not (os.path.isfile(path) and os.path.getsize(path) == length):
            yield f"{path}, not {length} bytes long"


class Page:
    """A page, and the folder in which its commands run."""

    def __init__(self, tally: Tally, name: str, folder: str) -> None:
        self.tally = tally
        self.name = name
        self.folder = folder
        self.text = read_text(name)
        self.environment = os.environ | {
            "PATH": f"{folder}/bin:{os.environ['PATH']}",
            "XDG_CACHE_HOME": f"{folder}/.cache",
            "HOME": folder,
            "LC_ALL": "C.UTF-8",
            "ELFMAP": PROGRAM,
        }

    def run(self, command: str) -> str:
        """What a command says. The variables that it exports and the folder that it goes to stay
        for the next one."""
        state = f"{self.folder}/.state"
        before = f'. "{state}"' if os.path.exists(state) else ":"
        script = STATE.format(before=before, command=command, state=state)
        where: dict[str, Any] = {"folder": self.folder, "env": self.environment}
        return said("bash", "-c", script, timeout=LONGEST, **where).stdout

    def try_command(self, command: str, shown: str) -> None:
        """A command prints what is below it."""
        if command in SKIPPED:
            self.tally.note(f"skipped in {self.name}, {SKIPPED[command]}: {command}")
            return
        output = self.run(command)
        why = f"{self.name} shows below '{command}':\n{shown}\nand it says:\n{output}"
        self.tally.check(is_as_shown(output, shown), why)

    def try_python(self, block: str) -> None:
        """The lines of Python print what is below them, as doctest has it."""
        path = f"{self.folder}/shown.txt"
        write(path, re.sub(r" \.\.$", " ...", block, flags=re.M))
        own = f'PYTHONDONTWRITEBYTECODE=1 PYTHONPATH="{self.folder}/bindings/python"'
        output = self.run(f'{own} "{sys.executable}" -m doctest -o ELLIPSIS "{path}"')
        why = f"{self.name} shows other lines of Python than there are:\n{output}"
        self.tally.check(not output, why)

    def try_commands(self) -> None:
        """All commands of the page."""
        every = [it for it in commands_of(self.text) if it not in SKIPPED]
        if others := list(foreign(every)):
            what = f"the commands of {self.name}, here with {', '.join(others)}"
            self.tally.note(f"skipped: {what}")
            return
        for block in blocks(self.text):
            bare = COMMAND_LIKE.search(block)
            if bare and not commands(block):
                self.tally.fail(f"{self.name} has a command without its '$ ': {bare[0]}")
            for command, shown in commands(block):
                self.try_command(command, shown)
            # The pages of the bindings are tried by their own tests.
            if re.search("^>>> ", block, re.M) and not self.name.startswith("bindings/"):
                self.try_python(block)

    def try_names(self) -> None:
        """The files that the page names are there, and what its links lead to."""
        named = re.findall(r"`((?:scripts|tools|bench|reference)/[\w./-]*)", self.text)
        paths = {it.rstrip(".,:;") for it in named}
        gone = sorted(it for it in paths if not os.path.exists(f"{TOP}/{it}"))
        self.tally.check(not gone, f"{self.name} names what is not there: {gone}")
        links = list(broken_links(f"{TOP}/{self.name}", self.text))
        self.tally.check(not links, f"{self.name} has links that lead nowhere: {links}")

    def try_all(self) -> None:
        """The commands of the page, the picture that one of them makes, and its names."""
        self.try_commands()
        made = f"{self.folder}/answer.svg"
        if os.path.exists(made):
            is_same = read_text(made) == read_text("docs/picture.svg")
            self.tally.check(is_same, f"docs/picture.svg is not that of {self.name}")
        self.try_names()


@Test(
    "shown-commands",
    "the commands that the pages show print what is below them",
    TOOLS,
    f"elfmap {BOTH} example_edit example_symbols",
)
def try_shown_commands(tally: Tally, options: Options) -> None:
    every = {it for name in all_pages() for it in commands_of(read_text(name))}
    for command in SKIPPED:
        tally.check(command in every, f"no page shows the command that is skipped: {command}")
    archive = pack(tally.folder, "VERSION")
    sources = source_files.pack(tally.folder, "VERSION")
    for number, name in enumerate(all_pages()):
        folder = tally.new_folder(str(number))
        wanted("tar", "xf", archive, "--strip-components=1", folder=folder)
        # The folders that a release has not.
        for it in ("bench", "cases", "crates", "reference", "tools"):
            os.symlink(f"{TOP}/{it}", f"{folder}/{it}")
        shutil.copy(archive, folder)
        shutil.copy(sources, folder)
        Page(tally, name, folder).try_all()
