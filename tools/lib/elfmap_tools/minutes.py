"""`tools/dev minutes PID`: the processor minutes of what the process PID starts, by part (each
program that it starts itself, and each test of `tools/test`) and by crate.

It looks every two seconds at the processes below PID, until a SIGTERM ends it or PID is gone, and
then prints what it saw. A crate has the minutes of the checker's runs on it: its proof,
its tests, the edits of its must-fail/, and its planted bugs. What a process did after the last look
at it is lost, two seconds at most."""

import collections
import contextlib
import os
import signal
import time
from collections.abc import Iterable
from pathlib import Path

from .tree import Options

TICKS = 60 * os.sysconf("SC_CLK_TCK")
COLUMNS = ("all", "proof", "tests", "edits", "mutations")
SCRIPTED = ("python3", "python", "bash", "sh", "env")


def text_of(pid: int, name: str) -> str:
    """A file of /proc; nothing of a process that is gone."""
    with contextlib.suppress(OSError):
        return Path(f"/proc/{pid}/{name}").read_text(encoding="utf-8", errors="replace")
    return ""


def name_of(words: list[str]) -> str:
    """The program that these words start, by its file's name: an interpreter stands for its script,
    `tools/test` for its one test."""
    names = [os.path.basename(it) for it in words]
    if names and names[0] in SCRIPTED:
        del names[0]
    return "".join(names[1:2] if names[:1] == ["test"] else names[:1])


def work_of(words: list[str]) -> tuple[str, str] | None:
    """What a run of the checker is for, and of which crate; None of any other process."""
    if name_of(words) != "rattle" or "--crate-name" not in words:
        return None
    kind = "proof" if words[1] == "build" else "edits"
    if "--test" in words:
        kind = "tests"
    return kind, words[words.index("--crate-name") + 1]


# A process, by its number and when it began.
Process = tuple[int, str]


class Look:
    """The processes at one time, by their numbers: of each what follows its name in its file
    `stat`, and its children."""

    def __init__(self) -> None:
        self.stats: dict[int, list[str]] = {}
        self.children = collections.defaultdict[int, list[int]](list)
        for pid in map(int, filter(str.isdigit, os.listdir("/proc"))):
            # The name is in parentheses, and may hold blanks and parentheses.
            stat = text_of(pid, "stat").rpartition(")")[2].split()
            if stat:
                self.stats[pid] = stat
                self.children[int(stat[1])].append(pid)

    def process(self, pid: int) -> Process:
        """A process, also where its number is taken a second time."""
        return pid, self.stats[pid][19]

    def total(self, pid: int) -> int:
        """The processor time of a process, of those that it waited for, and of those below it."""
        own = sum(map(int, self.stats[pid][11:15]))
        return own + sum(map(self.total, self.children[pid]))


class Minutes:
    """What was seen of the processes below one."""

    def __init__(self, top: int) -> None:
        self.top = top
        # Which part a process is, or which crate and kind of work the checker is run for, with the
        # time seen last.
        self.parts: dict[Process, tuple[str, int]] = {}
        self.works: dict[Process, tuple[str, str, int]] = {}

    def look(self) -> None:
        """Looks at all processes."""
        found = Look()
        for pid in found.children[self.top]:
            if pid != os.getpid():
                self.see(found, pid, "")

    def see(self, found: Look, pid: int, part: str) -> None:
        """Keeps what a process and those below it took, as a part, or in one."""
        words = text_of(pid, "cmdline").split("\0")[:-1]
        process = found.process(pid)
        # A run of all tests has a process for each of them.
        if not part:
            part = name_of(words)
            if part:
                self.parts[process] = part, found.total(pid)
        work = work_of(words) if part else None
        if work and part in ("rt", "mutations"):
            kind = part if part == "mutations" else work[0]
            self.works[process] = work[1], kind, found.total(pid)
        if work:
            # The checker's copies of itself belong to the run that made them.
            return
        for child in found.children[pid]:
            self.see(found, child, part)

    def print(self) -> None:
        """Prints the minutes by part, and by crate."""
        parts = collections.Counter[str]()
        for part, ticks in self.parts.values():
            parts[part] += ticks
        shown = [f"{it} {ticks / TICKS:.1f}" for it, ticks in parts.most_common() if is_seen(ticks)]
        print(f"processor minutes: {', '.join(shown)}")
        crates = collections.defaultdict[str, collections.Counter[str]](collections.Counter)
        for crate, kind, ticks in self.works.values():
            crates[crate].update({kind: ticks, "all": ticks})
        print_row("processor minutes by crate:", COLUMNS)
        for crate, counts in sorted(crates.items(), key=lambda it: -it[1]["all"]):
            cells = [f"{counts[it] / TICKS:.1f}" if counts[it] else "-" for it in COLUMNS]
            print_row(f"  {crate}", cells)


def is_seen(ticks: int) -> bool:
    """Whether this is more than nothing with one digit after the point."""
    return ticks >= TICKS / 20


def print_row(head: str, cells: Iterable[str]) -> None:
    """Prints a row of the table."""
    print(f"{head:30}" + "".join(f"{it:>11}" for it in cells))


def print_minutes(options: Options) -> None:
    """Looks until a signal ends it, and prints what was seen."""
    ended: list[bool] = []
    signal.signal(signal.SIGTERM, lambda *_: ended.append(True))
    minutes = Minutes(options.pid)
    while not ended and os.path.isdir(f"/proc/{options.pid}"):
        minutes.look()
        time.sleep(2)
    minutes.print()
