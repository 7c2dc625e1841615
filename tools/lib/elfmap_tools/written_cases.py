"""Cases: the arguments with which elfmap is run, the files that it is given, and what it has to
answer. The heads of cases/*.txt say how they are written."""

import glob
import os
import re
import shlex
import tempfile
from collections.abc import Callable, Iterator
from dataclasses import dataclass, field
from typing import Any

from .tree import TOP, Answer, answer_of, read_text, run, write

Files = dict[str, bytearray]


@dataclass
class Case:
    """The arguments, the files they need (a place, `=` and the file's name, or a folder), the
    answer, and what another test needs of it; where it is written, and the files by their names;
    and what holds of an output that is not given."""

    words: list[str]
    needs: list[str]
    status: int = 0
    out: bytes = b""
    err: bytes = b""
    note: str = ""
    source: str = ""
    files: Files = field(default_factory=dict)
    holds: Callable[[bytes], bool] | None = None

    def __str__(self) -> str:
        return f"{self.source}: elfmap {' '.join(self.words)} with {' '.join(self.needs)}"

    def put_needs(self, folder: str) -> None:
        """Puts the files and folders that it needs into a folder."""
        for it in self.needs:
            place, _, name = it.partition("=")
            if name:
                write(f"{folder}/{place}", self.files[name])
            else:
                os.mkdir(f"{folder}/{place}")

    def found(self, *program: str, **more: Any) -> Answer:
        """What a program answers, in a folder with the files that the case needs."""
        with tempfile.TemporaryDirectory(prefix="case-") as room:
            self.put_needs(room)
            return answer_of(run(*program, *self.words, folder=room, timeout=60, **more))


def text_of(words: str) -> list[str]:
    """The arguments in a line. A byte of one that is no text is written \\xNN there."""
    found: list[str] = []
    for it in shlex.split(words):
        bare = re.sub(rb"\\x(..)", lambda byte: bytes.fromhex(byte[1].decode()), it.encode())
        found.append(os.fsdecode(bare))
    return found


class Reader:
    """What was read of a file of cases: the cases, each with all files of it."""

    def __init__(self, source: str) -> None:
        self.source = source
        self.cases: list[Case] = []
        self.files: Files = {}
        # The file whose bytes the next lines are.
        self.name = ""

    def read(self, line: str) -> None:
        """Reads the next line."""
        kind, _, rest = line.partition(" ")
        if kind == "file":
            self.begin_file(rest)
        elif line.startswith("  "):
            at, data = rest.split()
            content = bytes.fromhex(data)
            start = int(at, 16)
            self.files[self.name][start : start + len(content)] = content
        elif kind == "run":
            words, _, needs = rest.partition("   with ")
            case = Case(text_of(words), needs.split(), source=self.source, files=self.files)
            self.cases.append(case)
        elif kind in ("status", ">", "!", "?", "="):
            self.add_answer(self.cases[-1], kind, rest)

    def begin_file(self, rest: str) -> None:
        """Begins a file: of zeros, or like another one."""
        self.name, *words = rest.split()
        how = dict(zip(words[::2], words[1::2]))
        content = self.files[how["like"]] if "like" in how else b""
        size = int(how.get("size", len(content)))
        self.files[self.name] = bytearray(content[:size].ljust(size, b"\0"))

    def add_answer(self, case: Case, kind: str, rest: str) -> None:
        """Adds what a line says of the answer of a case."""
        if kind == "status":
            case.status = int(rest)
        elif kind == ">":
            case.out += rest.encode() + b"\n"
        elif kind == "!":
            case.err += rest.encode() + b"\n"
        elif kind == "?":
            case.note = rest
        else:
            case.out = bytes(self.files[rest])


def cases_of(path: str) -> list[Case]:
    """The cases of a file, each with all files of it."""
    reader = Reader(os.path.basename(path))
    for line in read_text(path).splitlines():
        reader.read(line)
    return reader.cases


def every_case(folder: str = f"{TOP}/cases") -> Iterator[Case]:
    """The cases of all files of a folder."""
    for path in sorted(glob.glob(f"{folder}/*.txt")):
        yield from cases_of(path)


def case_files() -> dict[bytes, str]:
    """The files of all cases, each once, with a name."""
    found: dict[bytes, str] = {}
    for source, files in {it.source: it.files for it in every_case()}.items():
        for name, content in files.items():
            found.setdefault(bytes(content), f"{source}-{name}")
    return found
