"""Planted bugs of what is around the proved crates: the packages for Python and Rust, the example
programs in C, and the page. No contract refuses them. So a bug of a file mutations.txt there names
a test, which has to fail with it and to pass without it. A bug is planted in a copy of its folder,
beside which all else of the repository is linked. A test that fails because the text is no program
any more shows nothing."""

import glob
import os
import re
import shutil
import subprocess
import sys
import tempfile
from collections.abc import Callable, Iterable, Iterator
from concurrent.futures import ThreadPoolExecutor
from typing import NamedTuple

from .building import built
from .edits import Edit, bugs_in
from .library import FOLDER, PACKERS, packed
from .page_in_node import different_from_show
from .requirements import missing
from .tree import PROCESSORS, TOP, Texts, read_text, said, write
from .web_page import module

# A test that takes longer has failed: a bug may make a loop endless.
MOST_SECONDS = 300
# What is said of a text that is no program.
NO_PROGRAM = re.compile(
    r"\b(?:(?:Syntax|Indentation|Name|UnboundLocal|Import|ModuleNotFound|Reference)Error|"
    r"could not compile)\b"
)
# Of a folder whose bugs are planted, a test, and a folder that is kept for all of them: how the
# test ended.
RunTest = Callable[[str, str, str], Texts]


class Part(NamedTuple):
    """A folder with a file mutations.txt: what its tests need, what they read a copy of, how one is
    run, and what is found in the output of one that failed. `at_once` is how many bugs are planted
    side by side."""

    commands: str
    copied: tuple[str, ...]
    run: RunTest
    failed: str
    at_once: int = min(4, PROCESSORS)


def by_unittest(tree: str, test: str, room: str) -> Texts:
    """A test of the Python package, as `test_lint.FormatTest.test_text`."""
    own = os.environ | {
        "ELFMAP_LIB_DIR": FOLDER,
        "XDG_CACHE_HOME": f"{room}/cache",
        "PYTHONDONTWRITEBYTECODE": "1",
    }
    words = [sys.executable, "-m", "unittest", f"tests.{test}"]
    return said(*words, folder=f"{tree}/bindings/python", env=own, timeout=MOST_SECONDS)


def by_cargo(tree: str, test: str, room: str) -> Texts:
    """A test of the crate for Rust: its file and its name, as `api a_map_has_lines`."""
    file, name = test.split()
    own = os.environ | {
        "ELFMAP_LIB_DIR": FOLDER,
        "CARGO_HOME": f"{room}/cargo",
        "CARGO_TARGET_DIR": f"{room}/target",
    }
    words = ["cargo", "test", "--frozen", "--test", file, name, "--", "--exact"]
    return said(*words, folder=f"{tree}/bindings/rust", env=own, timeout=MOST_SECONDS)


def by_node(tree: str, test: str, room: str) -> Texts:
    """A test of the page's scripts: the file in page/tests/ and its name, as `draw a gap is cut`;
    or `as_show`, the reader of the page beside `elfmap show`."""
    if test == "as_show":
        wrong = different_from_show(tree, room)
        said_of_all = f"not ok 1 - {test}\n{wrong}" if wrong else f"ok 1 - {test}\n"
        return Texts([], int(bool(wrong)), said_of_all)
    file, _, name = test.partition(" ")
    words = ["node", "--test", "--test-name-pattern", f"^{re.escape(name)}$"]
    return said(*words, f"{tree}/page/tests/{file}.js", timeout=MOST_SECONDS)


PARTS = {
    # The tests are in Python. A program that is not compiled is an error, and no failure.
    "bindings/c": Part(
        PACKERS, ("bindings/c", "bindings/python"), by_unittest, r"^FAILED \(failures=\d+\)$"
    ),
    "bindings/python": Part(
        f"{PACKERS} as clang g++ gcc ld readelf",
        ("bindings/python",),
        by_unittest,
        r"^Ran [1-9](?s:.*)^FAILED \(",
    ),
    # The crate is compiled again where it is, for one bug after the other.
    "bindings/rust": Part(
        f"{PACKERS} cargo", ("bindings/rust",), by_cargo, r"^test result: FAILED", at_once=1
    ),
    "page": Part("node wasm-opt", ("page",), by_node, r"^not ok \d+ - {name}$"),
}


def bugs_of_part(name: str) -> list[Edit]:
    """The bugs of a part."""
    return bugs_in(f"{TOP}/{name}/mutations.txt", name)


def lacking_commands(names: Iterable[str]) -> list[str]:
    """What the tests of these parts need, and this machine has not."""
    return missing(dict.fromkeys(it for name in names for it in PARTS[name].commands.split()))


def copy_tree(folder: str, copied: Iterable[str]) -> None:
    """Makes links to all of the repository in a folder, and copies of some of its folders."""
    inner = {os.path.dirname(it) for it in copied}
    for above in ("", *filter(None, inner)):
        os.makedirs(f"{folder}/{above}", exist_ok=True)
        for name in os.listdir(f"{TOP}/{above}"):
            path = os.path.join(above, name)
            if path in copied:
                ignored = shutil.ignore_patterns("__pycache__", "target", "mutations.txt")
                shutil.copytree(f"{TOP}/{path}", f"{folder}/{path}", ignore=ignored)
            elif path not in inner and not name.startswith("."):
                os.symlink(f"{TOP}/{path}", f"{folder}/{path}")


def has_failed(part: Part, test: str, ended: Texts) -> bool:
    """Whether this test failed, and not the whole text."""
    name = re.escape(test.partition(" ")[2] or test)
    is_failed = re.search(part.failed.replace("{name}", name), ended.stdout, re.M)
    return bool(ended.returncode and is_failed and not NO_PROGRAM.search(ended.stdout))


def planted(part: Part, bug: Edit, tree: str, room: str) -> str:
    """How a bug ended: "refused", or why not. The text is then as it was."""
    folder = f"{tree}/{bug.crate}"
    made, why = bug.texts(folder)
    if why:
        return why
    before = {file: read_text(f"{folder}/{file}") for file in made}
    try:
        for file, text in made.items():
            write(f"{folder}/{file}", text)
        ended = part.run(tree, bug.test, room)
    except subprocess.TimeoutExpired:
        return "refused"
    finally:
        for file, text in before.items():
            write(f"{folder}/{file}", text)
    if has_failed(part, bug.test, ended):
        return "refused"
    return f"NOT REFUSED: {bug.test} did not fail: {ended.stdout[-600:]}"


def without_bugs(part: Part, bugs: list[Edit], tree: str, room: str) -> Iterator[str]:
    """What is wrong with the tests that the bugs name, where none is planted."""
    for test in dict.fromkeys(it.test for it in bugs):
        ended = part.run(tree, test, room)
        name = test.partition(" ")[2]
        has_it = not name or name in ended.stdout
        if ended.returncode or not has_it:
            yield f"{test}: it fails without a bug, or is not there: {ended.stdout[-600:]}"


def build_for(name: str, bugs: list[Edit]) -> None:
    """Builds what the tests of these bugs need, where it is older than its texts."""
    if name != "page":
        packed()
    elif any(it.test == "as_show" for it in bugs):
        built("elfmap")
        module()


def try_part(name: str, bugs: list[Edit]) -> tuple[list[tuple[Edit, str]], list[str]]:
    """Plants these bugs of a part: how each ended, and what is wrong with the tests that they
    name."""
    build_for(name, bugs)
    part = PARTS[name]
    # Each of those that run side by side has a tree of its own, and its share of the bugs.
    shares = [bugs[k :: part.at_once] for k in range(part.at_once)]
    with tempfile.TemporaryDirectory(prefix="mutations-") as room:
        copy_tree(f"{room}/0", part.copied)
        wrong = list(without_bugs(part, bugs, f"{room}/0", room))

        def share(number: int) -> list[tuple[Edit, str]]:
            if number:
                copy_tree(f"{room}/{number}", part.copied)
            tree = f"{room}/{number}"
            return [(bug, planted(part, bug, tree, room)) for bug in shares[number]]

        with ThreadPoolExecutor(part.at_once) as pool:
            return [it for ends in pool.map(share, range(part.at_once)) for it in ends], wrong
