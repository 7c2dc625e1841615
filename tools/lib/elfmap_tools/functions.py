"""The functions of the libraries, read from their texts as `rt fmt` lays them out: what `tools/test
memory-faults` looks at."""

import functools
import re
from dataclasses import dataclass

from .sources import LITERAL, indent_of

WANT = re.compile(r"\b(OutOfMemory|AllocError)\b")
# Faults that have the count of what was written, each with a value, and where one of them is made.
WRITTEN = {
    "WriteFault": "WriteFault { written: 0 }",
    "CopyFault": "CopyFault::Write { written: 0 }",
    "ToolFault": "ToolFault::Write { written: 0 }",
    "ObjectWriteFault": "ObjectWriteFault::Io { written: 0 }",
    "ExecFault": "ExecFault::Io { written: 0 }",
}
# Out of memory itself, or a fault that has it.
FROM_WANT = re.compile(r"OutOfMemory|AllocError|AllocFailed|\bError|Fault\b")
CLAUSE = re.compile(r" +(requires|ensures|decreases|where)\b")
FUNCTION = re.compile(r" *(?!ghost)(?:[\w()]+ +)*fn (\w+)")


@dataclass(eq=False)
class Function:
    """A function: its file and the lines of that, without texts and comments; the line of its
    `impl`; its head; its clauses; and its lines in braces."""

    path: str
    lines: list[str]
    outer: str
    name: str
    head: str
    clauses: str
    begin: int
    end: int

    def __post_init__(self) -> None:
        # The fault, and what the head says of it: `out` where out of memory is the only one,
        # `other` of any other `Result`.
        answer = self.head.partition("->")[2].strip("() {")
        found = re.search(r"(\w+)>$", answer)
        self.fault = found[1] if found and "Result" in answer else ""
        self.faults = "other" if "Result" in answer else ""
        if WANT.match(self.fault):
            self.faults = "out"
        # What X is in `impl From<X> for Y`.
        source = re.match(r"impl.*\bFrom<(.*)> for ", self.outer)
        self.is_from = bool(source and FROM_WANT.search(source[1]))
        self.is_of_write = bool(source and source[1] in WRITTEN)
        self.inner = range(self.begin + 1, self.end)

    def head_above(self, at: int) -> int:
        """The first line of the head that ends in a line: a head of several lines ends with one
        that closes brackets."""
        indent = indent_of(self.lines[at])
        start = at
        while closes_brackets(self.lines[start]):
            start -= 1
            while not self.lines[start] or indent_of(self.lines[start]) > indent:
                start -= 1
        return start

    def statements(self, at: int) -> list[str]:
        """The line, and what it is in: the heads of blocks and the beginnings of expressions, from
        inside to outside."""
        found = [self.lines[at].strip()]
        indent = indent_of(self.lines[at])
        for k in range(at - 1, self.begin, -1):
            if self.lines[k] and indent_of(self.lines[k]) < indent:
                indent = indent_of(self.lines[k])
                start = self.head_above(k)
                found.append(" ".join(it.strip() for it in self.lines[start : k + 1]))
        return found


def closes_brackets(line: str) -> bool:
    """Whether a line goes on with what was begun above it."""
    bare = line.lstrip()
    return bare.startswith((")", "}", ".", "?")) and not bare.startswith("} else")


def outer_of(line: str, outer: str) -> str:
    """The line of the `impl` or trait that the next lines are in."""
    if line.startswith(("impl", "pub trait", "trait")):
        return line
    return "" if line.startswith("}") else outer


def function_at(path: str, lines: list[str], outer: str, at: int, name: str) -> Function | None:
    """The function whose head begins in a line; None where it has no body."""
    line = lines[at]
    if line.endswith("}"):
        return Function(path, lines, outer, name, line.partition(" {")[0], "", at - 1, at + 1)
    indent = " " * indent_of(line)
    end_of_head = re.compile(rf"{indent}(\S.*)?\{{\}}?")
    begin = at
    while not lines[begin].endswith(";") and not end_of_head.fullmatch(lines[begin]):
        begin += 1
    if not lines[begin].endswith("{"):
        return None
    clauses = next((k for k in range(at, begin) if CLAUSE.match(lines[k])), begin + 1)
    head = " ".join(it.strip() for it in lines[at:clauses])
    contract = " ".join(it.strip() for it in lines[clauses:begin])
    end = lines.index(f"{indent}}}", begin)
    return Function(path, lines, outer, name, head, contract, begin, end)


@functools.cache
def functions_in(path: str, text: str) -> list[Function]:
    """The functions of a file, those of its `impl`s and traits too."""
    lines = [LITERAL.sub("", it).rstrip() for it in text.split("\n")]
    found: list[Function] = []
    outer = ""
    for at, line in enumerate(lines):
        outer = outer_of(line, outer)
        if head := FUNCTION.match(line):
            function = function_at(path, lines, outer, at, head[1])
            if function:
                found.append(function)
    return found
