"""Runs a command with bounds of time and memory, and says how it ended."""

import contextlib
import math
import os
import resource
import signal
import subprocess
import tempfile
import time
from collections.abc import Sequence
from typing import NamedTuple

# Signals by which a program ends that went wrong itself.
CRASHES = {
    signal.SIGSEGV,
    signal.SIGABRT,
    signal.SIGBUS,
    signal.SIGFPE,
    signal.SIGILL,
    signal.SIGTRAP,
    signal.SIGSYS,
}
# What no tool needs more of for the files of the suite, but for Go, which asks for addresses that
# it does not use.
SECONDS = 10.0
# A machine with much to do takes longer by the clock: it counts if a tool waits for nothing.
BY_THE_CLOCK = 6
MEMORY = 2 << 30
MOST_OUTPUT = 64 << 20


class Bounds(NamedTuple):
    """What a call may take: seconds of the processor, and bytes of memory (0: as many as there
    are)."""

    seconds: float = SECONDS
    memory: int = MEMORY


class Ran(NamedTuple):
    """How a command ended: its status, or the signal that ended it as a negative number; both its
    outputs; and what it took."""

    status: int
    out: bytes
    err: bytes
    seconds: float
    memory: int
    is_late: bool = False

    @property
    def is_crashed(self) -> bool:
        """Whether a signal ended it that says that the program went wrong. A shell gives it as
        128 and the number."""
        number = -self.status if self.status < 0 else self.status - 128
        return not self.is_late and number in {int(it) for it in CRASHES}

    @property
    def text(self) -> str:
        """Its output."""
        return self.out.decode("latin-1")

    @property
    def complaint(self) -> str:
        """What it says on standard error."""
        return self.err.decode("latin-1").strip()


def limit(process: "subprocess.Popen[bytes]", bounds: Bounds) -> None:
    """Sets the limits of a process that has just begun."""
    own = {resource.RLIMIT_CORE: 0, resource.RLIMIT_FSIZE: MOST_OUTPUT}
    own[resource.RLIMIT_CPU] = math.ceil(bounds.seconds)
    if bounds.memory:
        own[resource.RLIMIT_AS] = bounds.memory
    for kind, most in own.items():
        # It may have ended already.
        with contextlib.suppress(ProcessLookupError, PermissionError):
            resource.prlimit(process.pid, kind, (most, most))


def contents(path: str) -> bytes:
    """The bytes of a file, up to a bound."""
    with open(path, "rb") as it:
        return it.read(MOST_OUTPUT)


def run(words: Sequence[str], bounds: Bounds, folder: str, env: dict[str, str]) -> Ran:
    """Runs a command in a folder, without input."""
    begun = time.monotonic()
    with tempfile.TemporaryFile() as out, tempfile.TemporaryFile() as err:
        process = subprocess.Popen(
            words,
            cwd=folder,
            env=env,
            stdin=subprocess.DEVNULL,
            stdout=out,
            stderr=err,
            start_new_session=True,
        )
        limit(process, bounds)
        status, usage, is_late = waited(process, bounds.seconds)
        seconds = time.monotonic() - begun
        for it in (out, err):
            it.seek(0)
        said = out.read(MOST_OUTPUT)
        complained = err.read(MOST_OUTPUT)
    return Ran(status, said, complained, seconds, usage.ru_maxrss * 1024, is_late)


def waited(
    process: "subprocess.Popen[bytes]", seconds: float
) -> tuple[int, resource.struct_rusage, bool]:
    """Waits for a process at most so long, and ends it then: its status, what it took, and whether
    it was ended."""
    ended = 0
    status = 0
    usage = resource.getrusage(resource.RUSAGE_CHILDREN)
    until = time.monotonic() + BY_THE_CLOCK * seconds
    pause = 0.0005
    is_late = False
    while not ended:
        ended, status, usage = os.wait4(process.pid, os.WNOHANG)
        if ended:
            break
        if time.monotonic() > until and not is_late:
            os.killpg(process.pid, signal.SIGKILL)
            is_late = True
        time.sleep(pause)
        pause = min(2 * pause, 0.02)
    process.returncode = os.waitstatus_to_exitcode(status)
    return process.returncode, usage, is_late or process.returncode == -signal.SIGXCPU
