"""What calls on lawful files cost, and what they may cost.

The bounds, for n bytes in and out together: SECONDS for each MB, and of memory LEAST_MEMORY and
MEMORY times the input; `check --seek` SEEKING_LEAST and SEEKING_MEMORY times the tables. A longer
output than MOST_OUTPUT is cut: the call ends by a failed write, and what it took up to there is
compared."""

import os
import re
import shutil
import signal
import subprocess
import sys
import time
from functools import cache
from typing import IO, NamedTuple

import generated

from . import failing_library
from .failing_library import environment, report_of
from .instructions import COMMANDS, ENVIRONMENT, VALGRIND
from .tree import PACKAGE, PROGRAM, run, write

MB = 1000000
# How long the files of families are.
SIZES = (MB // 4, MB // 2, MB, 2 * MB, 4 * MB)
# What no call takes more of. Seconds are those of the processor; a call of a few milliseconds has
# START more.
SECONDS = 0.5
START = 0.03
# They are those of a machine that takes so many seconds for so many steps of a loop in Python. On
# a slower one, as a virtual machine whose host does other work, a call may take as many times more.
LOOP_SECONDS = 0.12
LOOP_STEPS = 1000000
LEAST_MEMORY = 32 << 20
MEMORY = 12
SEEKING_LEAST = 4 << 20
SEEKING_MEMORY = 2


class Standing(NamedTuple):
    """What a command may take of a file of SIZES[0] bytes, the only one on which it is tried:
    seconds, and MiB if it takes too much memory. Of a file four times as long it may take sixteen
    times as much."""

    seconds: float = 0
    mebibytes: int = 0


# ---- what a call costs

# Commands of the Python package, each with its words, whose process itself takes so many seconds
# and bytes.
OF_PYTHON = {
    "lint --tables": ["lint", "-j1", "--tables"],
    "lint --object": ["lint", "-j1", "--object"],
    "explain": ["explain"],
    "gaps": ["gaps"],
    "view": ["view"],
    "view --all": ["view", "--all", "--sizes"],
    "view --json": ["view", "--json", "--all", "--sizes"],
}
PYTHON_SECONDS = 0.3
PYTHON_MEMORY = 32 << 20
PERF = ["perf", "stat", "-x,", "-e", "instructions:u"]
LONGEST = 100
STACK = 1 << 20
MOST_ADDRESSES = 1 << 30
MOST_OUTPUT = 64 << 20
# How a command ends whose output is cut; one of Python as a program that SIGPIPE ends.
CUT = (3,)
PYTHON_CUT = (3, 128 + signal.SIGPIPE)
# A process of Python has more threads and libraries.
PYTHON_STACK = 8 << 20
PYTHON_ADDRESSES = 4 << 30


class Cost(NamedTuple):
    """How a call ended, the statuses with which it may end, and what it took: seconds, bytes in and
    out, and bytes of memory at once."""

    status: int
    well: tuple[int, ...]
    is_cut: bool
    seconds: float
    moved: int
    memory: int

    def is_well(self) -> bool:
        """Whether it ended without an error, but for the failed write of an output that was cut."""
        return self.status in self.well


def words_of(command: str, file: str, rules: str) -> list[str]:
    """The command line of a command on a file."""
    if command in OF_PYTHON:
        module, *more = OF_PYTHON[command]
        return [sys.executable, "-B", "-m", f"elfmap.{module}", *more, file]
    own = {"RULES": rules, "ENTRY": "f"}
    return [PROGRAM, *(own.get(it, it) for it in COMMANDS[command]), file]


def limited(command: str, words: list[str]) -> list[str]:
    """These words of a command, with limits of time, addresses and stack."""
    is_python = command in OF_PYTHON
    addresses = PYTHON_ADDRESSES if is_python else MOST_ADDRESSES
    stack = PYTHON_STACK if is_python else STACK
    return ["prlimit", f"--cpu={LONGEST}", f"--as={addresses}", f"--stack={stack}", *words]


def read_some(output: IO[bytes]) -> tuple[int, bool]:
    """Reads an output, which is not kept: how long it is, and whether it was cut."""
    length = 0
    while length < MOST_OUTPUT:
        some = os.read(output.fileno(), 1 << 16)
        if not some:
            return length, False
        length += len(some)
    return length, True


def cost_of(folder: str, command: str, file: str) -> Cost:
    """Runs a command on a file. The library that counts says how much memory was there at once."""
    own = {"PYTHONPATH": PACKAGE, "ELFMAP_LIB_DIR": folder}
    # A write to a pipe that nobody reads is an error, and no signal: Python ignores this one.
    ran = subprocess.Popen(
        limited(command, words_of(command, file, f"{folder}/rules")),
        stdin=subprocess.DEVNULL,
        stdout=subprocess.PIPE,
        stderr=subprocess.DEVNULL,
        env=environment(folder, "count 1 nothing") | own,
        restore_signals=False,
    )
    assert ran.stdout
    output, is_cut = read_some(ran.stdout)
    ran.stdout.close()
    _, ended, usage = os.wait4(ran.pid, 0)
    ran.returncode = os.waitstatus_to_exitcode(ended)
    said = dict(line.split() for line in report_of(folder))
    seconds = usage.ru_utime + usage.ru_stime
    moved = os.path.getsize(file) + output
    well: tuple[int, ...] = (0,)
    if is_cut:
        well = PYTHON_CUT if command in OF_PYTHON else CUT
    return Cost(ran.returncode, well, is_cut, seconds, moved, int(said.get("peak", 0)))


def slowness() -> float:
    """How many times slower than the machine of the bounds this one is just now; 1 if it is not."""
    began = time.process_time()
    total = 0
    for step in range(LOOP_STEPS):
        total += step * step % 7
    return max(1, (time.process_time() - began) / LOOP_SECONDS)


def wrong_with(command: str, length: int, it: Cost, standing: Standing, tables: int = 0) -> str:
    """Why a call on a file of so many bytes breaks a bound; `tables` is how many of them are its
    tables."""
    if not it.is_well():
        return f"it ends with status {it.status} after {it.seconds:.1f} s"
    own, more = (PYTHON_SECONDS, PYTHON_MEMORY) if command in OF_PYTHON else (0, 0)
    times = max(1, length / SIZES[0]) ** 2
    seconds = START + own + max(SECONDS * it.moved / MB, standing.seconds * times)
    # Whether the machine is slow is asked only where a call takes too long.
    if it.seconds > seconds and it.seconds > seconds * slowness():
        most = f"{seconds:.2f} at most, for {it.moved:,} bytes in and out"
        return f"it takes {it.seconds:.2f} s, and not {most}"
    bound = LEAST_MEMORY + MEMORY * length
    if command == "check --seek":
        bound = SEEKING_LEAST + SEEKING_MEMORY * tables
    memory = more + max(bound, int(standing.mebibytes * times) << 20)
    if it.memory > memory:
        return f"it takes {it.memory:,} bytes of memory, and not {memory:,} at most"
    return ""


COUNTED = re.compile(rb"^==\d+== Collected : (\d+)$|^(\d+),[^,]*,instructions", re.M)


@cache
def has_counter() -> bool:
    """Whether `perf` counts instructions on this machine."""
    return bool(shutil.which("perf") and COUNTED.search(run(*PERF, "true").stderr))


def instructions_of(folder: str, command: str, file: str) -> int:
    """The instructions of a command on a file; 0 if they are not counted, because it takes too
    long."""
    counter = PERF if has_counter() else VALGRIND
    words = words_of(command, file, f"{folder}/rules")
    ended = subprocess.run(
        ["prlimit", f"--cpu={4 * LONGEST}", *counter, *words],
        env=ENVIRONMENT,
        stdin=subprocess.DEVNULL,
        stdout=subprocess.DEVNULL,
        stderr=subprocess.PIPE,
    )
    found = COUNTED.search(ended.stderr)
    return int(found[1] or found[2]) if found else 0


# So many runs at most, of which the least counts: other work on the machine may lengthen one. A
# call that takes many seconds runs once.
RUNS = 3
MANY_SECONDS = 4


def tables_in(file: bytes) -> int:
    """How long its section header table is, which ends the file."""
    return len(file) - int.from_bytes(file[40:48], "little")


def begin(folder: str) -> None:
    """Puts into a folder what calls need: a library that counts, and rules."""
    failing_library.make(folder)
    write(f"{folder}/rules", generated.RULES)


def tried(folder: str, command: str, file: bytes, standing: Standing) -> tuple[Cost, str]:
    """What a command takes of a file, and why it breaks a bound."""
    path = write(f"{folder}/file", file)
    for _ in range(RUNS):
        cost = cost_of(folder, command, path)
        why = wrong_with(command, len(file), cost, standing, tables_in(file))
        if not why or cost.seconds > MANY_SECONDS:
            break
    return cost, why
