"""The folders of the repository, its crates, and what every tool does: read and write files, run
commands, show that it still runs."""

import argparse
import contextlib
import functools
import os
import re
import shutil
import subprocess
import sys
import threading
import time
from collections.abc import Callable, Iterable, Iterator, Mapping
from concurrent.futures import ProcessPoolExecutor, ThreadPoolExecutor
from pathlib import Path
from typing import TypeVar

from . import TOP as TOP

PROCESSORS = len(os.sched_getaffinity(0))
PROGRAM = f"{TOP}/crates/elfmap/out/elfmap"
RULES = f"{TOP}/rules/x86-64.rules"
PACKAGE = f"{TOP}/bindings/python"
# The status, standard output and standard error of a command.
Answer = tuple[int, bytes, bytes]
Ended = subprocess.CompletedProcess[bytes]
Texts = subprocess.CompletedProcess[str]
# The arguments that a command or a test was given.
Options = argparse.Namespace
T = TypeVar("T")
R = TypeVar("R")


def read_bytes(path: str) -> bytes:
    """The bytes of a file."""
    return Path(path).read_bytes()


def read_text(path: str) -> str:
    """The text of a file; a relative path is one of the repository."""
    return Path(TOP, path).read_text(encoding="utf-8")


def write(path: str, content: bytes | str) -> str:
    """Writes a file, and returns its path."""
    Path(path).write_bytes(content.encode() if isinstance(content, str) else content)
    return path


def filled(text: str, **parts: str) -> str:
    """A text with these parts for its marks, as @NAME@."""
    for name, part in parts.items():
        text = text.replace(f"@{name}@", part)
    return text


def cells(line: str) -> list[str]:
    """The cells of a line of a table of a page."""
    return [it.strip() for it in re.split(r"(?<!\\)\|", line.strip()[1:-1])]


def run(
    *words: str,
    folder: str | None = None,
    env: Mapping[str, str] | None = None,
    timeout: float | None = None,
) -> Ended:
    """Runs a command without input: its status, and the bytes of both its outputs."""
    return subprocess.run(
        words, cwd=folder, env=env, timeout=timeout, stdin=subprocess.DEVNULL, capture_output=True
    )


def said(
    *words: str,
    folder: str | None = None,
    env: Mapping[str, str] | None = None,
    timeout: float | None = None,
) -> Texts:
    """Runs a command without input: its status, and both its outputs as one text."""
    return subprocess.run(
        words,
        cwd=folder or TOP,
        env=env,
        timeout=timeout,
        stdin=subprocess.DEVNULL,
        stdout=subprocess.PIPE,
        stderr=subprocess.STDOUT,
        errors="replace",
    )


def wanted(*words: str, folder: str | None = None, timeout: float | None = None) -> str:
    """Runs a command that has to end well: what it says."""
    ended = said(*words, folder=folder, timeout=timeout)
    if ended.returncode:
        what = f"{os.path.basename(words[0])} ended with status {ended.returncode}"
        raise SystemExit(f"{what}: {ended.stdout[-2000:]}")
    return ended.stdout


def answer_of(it: Ended) -> Answer:
    """What a command answered."""
    return it.returncode, it.stdout, it.stderr


def ending(it: Ended) -> str:
    """How a command ended, in short."""
    return f"ended with status {it.returncode}: {it.stdout[:80]!r} {it.stderr[:300]!r}"


def by_cc(path: str, words: str, source: str) -> str:
    """Makes a file of one of cases/sources/ by cc: its path."""
    wanted("cc", *words.split(), f"{TOP}/cases/sources/{source}", "-o", path)
    return path


def compiled(folder: str, commands: Iterable[str]) -> list[str]:
    """Runs compilers in a folder with cases/sources/: what they made, by the last word of each
    command."""
    shutil.copytree(f"{TOP}/cases/sources", folder, dirs_exist_ok=True)
    for it in commands:
        run(*it.split(), folder=folder)
    made = (f"{folder}/{it.split()[-1]}" for it in commands)
    return list(filter(os.path.exists, made))


def side_by_side(
    function: Callable[[T], R], items: Iterable[T], by_processes: bool = False
) -> list[R]:
    """What a function returns for each item, with as many calls at a time as there are
    processors."""
    items = list(items)
    make = ProcessPoolExecutor if by_processes else ThreadPoolExecutor
    at_once = max(1, min(10, len(items) // PROCESSORS))
    with make(PROCESSORS) as pool:
        return list(pool.map(function, items, chunksize=at_once))


def files_below(folder: str) -> Iterator[str]:
    """The regular files below a folder, in the order of their names; links and what can't be read
    are left out."""
    for at, folders, names in os.walk(folder):
        folders.sort()
        for it in sorted(names):
            path = f"{at}/{it}"
            if os.path.isfile(path) and not os.path.islink(path):
                yield path


@contextlib.contextmanager
def progress(what: Callable[[], str]) -> Iterator[None]:
    """While the block runs, standard error has a line on what runs every ten seconds, if it is a
    terminal."""
    ended = threading.Event()
    begun = time.monotonic()

    def show() -> None:
        while not ended.wait(10):
            print(f"{what()}: {time.monotonic() - begun:.0f} s", file=sys.stderr, flush=True)

    if sys.stderr.isatty():
        threading.Thread(target=show, daemon=True).start()
    try:
        yield
    finally:
        ended.set()


# ---- the crates, by their lines in crates.txt

LINES = [line.split("#")[0].partition(":") for line in read_text("crates.txt").splitlines()]
# The libraries that each crate of the repository names.
LIBRARIES_OF = {head.split()[0]: rest.split() for head, _, rest in LINES if head.strip()}
# The crates that become archives for C.
STATIC_LIBRARIES = {head.split()[0] for head, _, _ in LINES if "staticlib" in head.split()[1:]}


def is_program(crate: str) -> bool:
    """Whether a crate is a program."""
    return os.path.isfile(f"{TOP}/crates/{crate}/src/main.rt")


def deps(name: str) -> list[str]:
    """The crates of the repository that this one names."""
    return [it for it in LIBRARIES_OF[name] if it in LIBRARIES_OF]


@functools.cache
def below(name: str) -> list[str]:
    """The crates of the repository below this one, each after those that it needs itself."""
    return list(dict.fromkeys(it for dep in deps(name) for it in [*below(dep), dep]))


@functools.cache
def texts_of(crate: str) -> list[str]:
    """The files of its code, definitions and proofs, in order."""
    found: list[str] = []
    for part in ("src", "specs", "proofs"):
        found += files_below(f"{TOP}/crates/{crate}/{part}")
    return sorted(found)


def is_newer(path: str, texts: Iterable[str]) -> bool:
    """Whether what was built is there, and at least as new as each of these files."""
    if not os.path.exists(path):
        return False
    built = os.path.getmtime(path)
    return all(os.path.getmtime(it) <= built for it in texts)
