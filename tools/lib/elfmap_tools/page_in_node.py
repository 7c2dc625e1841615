"""The page's reader in node: what it and its check of tables say of files of this machine, of
cases/ and of changed copies of them is what `elfmap show` prints, line by line, but for the lines
of groups."""

import functools
import glob
import json
import os
import random
import re
import tempfile

from .changes import fuzzed
from .reference import verdict
from .suite import Tally
from .tree import PROGRAM, TOP, read_bytes, said, wanted, write
from .web_page import layout, module
from .written_cases import case_files

MACHINE_FILES = ["/bin/true", "/bin/ls", "/usr/lib/gcc/x86_64-linux-gnu/12/crtbegin.o"]
MACHINE_FILES += [
    f"/usr/lib/x86_64-linux-gnu/{it}"
    for it in ("crt1.o", "Scrt1.o", "crti.o", "libdl.so.2", "libutil.so.1")
]
LONGEST = 1 << 17


def files_for_node(room: str, count: int) -> list[str]:
    """Files of the cases and of this machine, and so many changed ones."""
    os.mkdir(f"{room}/files")
    contents = dict(case_files())
    for path in filter(os.path.isfile, MACHINE_FILES):
        contents.setdefault(read_bytes(path), path.replace("/", "-"))
    files = [write(f"{room}/files/{name}", content) for content, name in contents.items()]
    chance = random.Random(48)
    sound = [it for it in map(read_bytes, files) if len(it) <= LONGEST and verdict(it) is None]
    for k in range(count):
        changed = fuzzed(chance.choice(sound), chance)
        files.append(write(f"{room}/files/changed-{k}", changed))
    return files


def scripts_in_node(tally: Tally) -> None:
    """The tests of the page's scripts that need neither a module nor a browser."""
    ran = said("node", "--test", *sorted(glob.glob(f"{TOP}/page/tests/*.js")))
    passed, failed = (
        sum(int(it) for it in re.findall(rf"^# {word} (\d+)$", ran.stdout, re.M))
        for word in ("pass", "fail")
    )
    is_whole = passed and not failed and ran.returncode == 0
    tally.count(max(passed + failed, 1), [] if is_whole else [ran.stdout])


def read_in_node(tree: str, room: str, files: list[str]) -> dict[str, list[str]]:
    """What the page's reader in a tree says of these files."""
    layout_path = write(f"{room}/layout.json", json.dumps(layout()))
    # The script's folder is that of the tree, where it is a link too.
    script = ["node", "--preserve-symlinks-main", f"{tree}/cases/sources/page_reads_as_show.js"]
    texts: dict[str, str] = {}
    for k in range(0, len(files), 500):
        text = wanted(*script, module(), layout_path, *files[k : k + 500])
        texts |= dict(it.split("\n", 1) for it in f"\n{text}".split("\n-- ")[1:])
    return {path: texts[path].splitlines() for path in files}


def shown_by_program(path: str) -> list[str]:
    """The lines of `elfmap show`, without those of groups."""
    lines = said(PROGRAM, "show", path).stdout.splitlines()
    return [it for it in lines if not it.startswith("group ")]


def in_node(tally: Tally, room: str, count: int) -> None:
    """What the page's reader says of files is what `elfmap show` prints."""
    scripts_in_node(tally)
    for path, own in read_in_node(TOP, room, files_for_node(room, count)).items():
        lines = shown_by_program(path)
        different = [pair for pair in zip(own, lines) if pair[0] != pair[1]][:2]
        tally.check(own == lines, f"{path}: {different or (len(own), len(lines))}")


@functools.cache
def shown_of_cases(room: str) -> dict[str, list[str]]:
    """Files of the cases, and what `elfmap show` prints of each."""
    return {path: shown_by_program(path) for path in files_for_node(room, 0)}


def different_from_show(tree: str, room: str) -> str:
    """The files of the cases of which the page's reader in a tree says something else than
    `elfmap show`; nothing where there are none."""
    shown = shown_of_cases(room)
    try:
        with tempfile.TemporaryDirectory(dir=room) as own:
            texts = read_in_node(tree, own, [*shown])
    except SystemExit as fault:
        return str(fault)
    return "\n".join(path for path, lines in shown.items() if texts[path] != lines)
