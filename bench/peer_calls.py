"""The calls of bench/peers: what a program says of its work, and what it takes, by the program
`measure` of bench/run."""

import os
import subprocess
from collections.abc import Iterable
from typing import NamedTuple

RUNS = int(os.environ.get("RUNS", "5"))
# A peer that takes longer is left out.
LONGEST = 300
# How much of what a program says is quoted.
QUOTED = 150


class Took(NamedTuple):
    """Processor seconds, and MiB."""

    seconds: float
    memory: float


class Tried(NamedTuple):
    """The status of a program, None if it takes too long, and the first lines that it says on
    standard error and on standard output."""

    status: int | None
    error: str
    output: str


class Call(NamedTuple):
    """A program with its words, what its environment has more, the folder of bench/run, and the
    file that it writes to, or /dev/null."""

    words: list[str]
    more: dict[str, str]
    folder: str
    output: str

    def environment(self) -> dict[str, str]:
        """Its variables, in which programs speak English."""
        return {**os.environ, "LC_ALL": "C", **self.more}

    def forget(self) -> None:
        """Removes the file that it wrote."""
        if self.output != os.devnull and os.path.exists(self.output):
            os.remove(self.output)

    def tried(self) -> Tried:
        """How a run ends, and what it says."""
        self.forget()
        said = f"{self.folder}/said"
        with open(said, "wb") as out:
            try:
                ended = subprocess.run(
                    self.words,
                    stdin=subprocess.DEVNULL,
                    stdout=out,
                    stderr=subprocess.PIPE,
                    env=self.environment(),
                    timeout=LONGEST,
                )
            except subprocess.TimeoutExpired:
                return Tried(None, "", "")
        with open(said, "rb") as it:
            printed = it.read(QUOTED * 4)
        return Tried(ended.returncode, self.quoted(ended.stderr), self.quoted(printed))

    def quoted(self, text: bytes) -> str:
        """The first line of a text, without the names of folders."""
        first = next(filter(None, text.splitlines()), b"").decode(errors="replace")
        return first.replace(f"{self.folder}/", "")[:QUOTED]

    def measured(self) -> Took:
        """What a run takes."""
        self.forget()
        environment = {**self.environment(), "OUTPUT": self.output}
        words = [f"{self.folder}/measure", *self.words]
        ran = subprocess.run(words, stdout=subprocess.PIPE, env=environment)
        seconds, memory, *_ = ran.stdout.split()
        return Took(float(seconds), int(memory) / 1024)


def in_turns(calls: list[Call]) -> list[Took]:
    """The least that each call takes, of as many turns as RUNS says."""
    turns = [[it.measured() for it in calls] for _ in range(RUNS)]
    return [least(runs) for runs in zip(*turns)]


def least(runs: Iterable[Took]) -> Took:
    """The least seconds of these runs, and the least memory."""
    seconds, memory = zip(*runs)
    return Took(min(seconds), min(memory))


class Load:
    """How much else ran on the machine since this was made."""

    def __init__(self) -> None:
        self.begun = os.times()
        self.busy = busy_seconds()
        self.average = os.getloadavg()[0]

    def sentence(self) -> str:
        """A sentence on it, for a page."""
        ended = os.times()
        own = sum(ended[:4]) - sum(self.begun[:4])
        others = max(0, busy_seconds() - self.busy - own) / (ended.elapsed - self.begun.elapsed)
        loads = f"load {self.average:.1f} at the start, {os.getloadavg()[0]:.1f} at the end"
        taken = f"other work took {others:.1f} of its {os.cpu_count()} processors meanwhile"
        quiet = "quiet" if others < 0.1 else "not quiet"
        return f"The machine was {quiet}: {taken} ({loads})."


def busy_seconds() -> float:
    """How many seconds all processors worked since the machine started."""
    with open("/proc/stat", encoding="ascii") as file:
        user, nice, system, _, _, interrupts, soft_interrupts = map(
            int, file.readline().split()[1:8]
        )
    ticks = user + nice + system + interrupts + soft_interrupts
    return ticks / os.sysconf("SC_CLK_TCK")
