"""`tools/dev coverage`: the branches of the Python package and of the page that their tests take.
Of each file it prints how many there are, and the lines from which one is not taken.

Debian's coverage counts those of Python, also in the commands that tests start. Node counts those
of the page, in its tests and in the reader beside `elfmap show`."""

import glob
import json
import os
import sys
import tempfile
from collections.abc import Iterator
from typing import Any

from .building import built
from .library import FOLDER, packed
from .page_in_node import files_for_node, read_in_node
from .requirements import COVERAGE, missing, words_of
from .suite import word
from .tree import PACKAGE, TOP, Options, read_text, run, write

PYTHON = "/usr/bin/python3"
# Each Python that a test starts imports this, and counts too.
STARTED = "import coverage\ncoverage.process_startup()\n"
SETTINGS = """\
[run]
branch = True
parallel = True
data_file = {folder}/data
source = {package}/elfmap
"""
# So many changed files are read by the page's reader.
CHANGED = 300


def line_of(path: str, total: int, taken: int, lines: set[int]) -> str:
    """What is printed of a file."""
    left = f": {' '.join(map(str, sorted(lines)))}" if lines else ""
    return f"{path}: {taken} of {total} branches{left}"


# ---- Python


def of_python(folder: str) -> Iterator[str]:
    """A line for each file of the Python package."""
    packed()
    settings = f"{folder}/settings"
    write(settings, SETTINGS.format(folder=folder, package=PACKAGE))
    os.mkdir(f"{folder}/started")
    write(f"{folder}/started/sitecustomize.py", STARTED)
    env = os.environ | {
        "COVERAGE_PROCESS_START": settings,
        "ELFMAP_LIB_DIR": FOLDER,
        "PYTHONDONTWRITEBYTECODE": "1",
        "PYTHONPATH": f"{folder}/started",
        "XDG_CACHE_HOME": f"{folder}/cache",
    }
    run(PYTHON, "-m", "unittest", "-q", folder=PACKAGE, env=env)
    counted = [PYTHON, "-m", "coverage"]
    run(*counted, "combine", f"--rcfile={settings}", folder=PACKAGE)
    written = f"{folder}/counts.json"
    run(*counted, "json", f"--rcfile={settings}", "-q", "-o", written, folder=PACKAGE)
    with open(written, encoding="utf-8") as it:
        files: dict[str, dict[str, Any]] = json.load(it)["files"]
    for path in sorted(files):
        of = files[path]["summary"]
        lines = {begin for begin, _ in files[path]["missing_branches"]}
        own = os.path.relpath(path, TOP)
        yield line_of(own, of["num_branches"], of["covered_branches"], lines)


# ---- The page


class Script:
    """A script of the page: where a branch or a function of it begins and ends, and which of its
    characters a test has reached."""

    def __init__(self, path: str) -> None:
        self.text = read_text(path)
        self.branches: set[tuple[int, int]] = set()
        self.reached = bytearray(len(self.text))

    def add(self, functions: list[dict[str, Any]]) -> None:
        """Adds a run: of each range how often it was entered, those in others after these."""
        ranges = [it for function in functions for it in function["ranges"]]
        own = bytearray(len(self.text))
        for it in sorted(ranges, key=lambda it: (it["startOffset"], -it["endOffset"])):
            place = it["startOffset"], it["endOffset"]
            self.branches.add(place)
            own[slice(*place)] = (b"\1" if it["count"] else b"\0") * (place[1] - place[0])
        both = int.from_bytes(self.reached, "big") | int.from_bytes(own, "big")
        self.reached = bytearray(both.to_bytes(len(own), "big"))

    def line(self, path: str) -> str:
        """What is printed of it."""
        left = [(start, end) for start, end in self.branches if not any(self.reached[start:end])]
        lines = {self.text.count("\n", 0, start) + 1 for start, _ in left}
        return line_of(path, len(self.branches), len(self.branches) - len(left), lines)


def of_page(folder: str) -> Iterator[str]:
    """A line for each script of the page."""
    built("elfmap")
    counts = f"{folder}/counts"
    os.environ["NODE_V8_COVERAGE"] = counts
    run("node", "--test", *sorted(glob.glob(f"{TOP}/page/tests/*.js")))
    read_in_node(TOP, folder, files_for_node(folder, CHANGED))
    del os.environ["NODE_V8_COVERAGE"]
    paths = sorted(glob.glob("page/*.js", root_dir=TOP))
    scripts = {f"file://{TOP}/{it}": Script(it) for it in paths}
    for path in glob.glob(f"{counts}/*.json"):
        for ran in json.loads(read_text(path))["result"]:
            if ran["url"] in scripts:
                scripts[ran["url"]].add(ran["functions"])
    for path in paths:
        yield scripts[f"file://{TOP}/{path}"].line(path)


PARTS = {"bindings/python": (of_python, COVERAGE), "page": (of_page, "node wasm-opt")}
WORD = word("parts", f"of these alone: {', '.join(PARTS)}", nargs="*", metavar="PART")


def main(options: Options) -> int:
    """Prints the branches of each file."""
    parts = options.parts or list(PARTS)
    if unknown := [it for it in parts if it not in PARTS]:
        print(f"coverage: none of {', '.join(PARTS)}: {' '.join(unknown)}", file=sys.stderr)
        return 2
    if lacking := missing(command for it in parts for command in PARTS[it][1].split()):
        print(f"coverage: {words_of(lacking)}", file=sys.stderr)
        return 3
    for it in parts:
        with tempfile.TemporaryDirectory(prefix="coverage-") as folder:
            for line in PARTS[it][0](folder):
                print(line, flush=True)
    return 0
