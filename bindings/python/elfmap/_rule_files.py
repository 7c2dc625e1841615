"""The twelve files of rules in rules/, and which of them fits the machine of an object.

They are here so that a message can name a file and its line where nothing but the package is
installed. What a kind of relocation means is never taken from here: a link has the rules that it
is given.
"""

from __future__ import annotations

from typing import NamedTuple, Optional


class Rule(NamedTuple):
    """What the line of a kind says: the form, the width in bytes and the range."""

    form: str
    width: int
    range: str

    @property
    def changes_bytes(self) -> bool:
        return self.form != "none"

    def line(self, kind: int) -> str:
        """The line that gives a kind this rule."""
        return f"{kind} {self.form} {self.width} {self.range}"


Rules = dict[int, Rule]


def read_rules(text: str) -> Rules:
    """The rules of a text that the library has accepted: of two lines for a kind the first one
    counts."""
    found: Rules = {}
    for line in text.splitlines():
        kind, form, width, admitted = line.split(" ")
        found.setdefault(int(kind.lstrip("0") or "0"), Rule(form, int(width), admitted))
    return found


class RuleFile(NamedTuple):
    """A file of rules/: for which machine it is, and for which byte order if not for both, as the
    module struct has it."""

    path: str
    machine: int
    order: str
    rules: Rules


def _file(name: str, machine: int, order: str, lines: str) -> RuleFile:
    text = "\n".join(" ".join(it.split()) for it in lines.split(","))
    return RuleFile(f"rules/{name}.rules", machine, order, read_rules(text))


# That of a machine which serves most code comes before the others.
RULE_FILES = (
    _file(
        "x86-64",
        62,
        "<",
        """
            0 none 8 wrap, 1 abs 8 wrap, 2 pc 4 signed, 4 pc 4 signed, 10 abs 4 unsigned,
            11 abs 4 signed, 24 pc 8 wrap
        """,
    ),
    _file(
        "x86-64-boot",
        62,
        "<",
        """
            0 none 8 wrap, 1 abs 8 wrap, 2 pc 4 signed, 4 pc 4 signed, 10 abs 4 unsigned,
            11 abs 4 signed, 12 abs 2 unsigned, 13 pc 2 signed, 14 abs 1 unsigned,
            15 pc 1 signed, 24 pc 8 wrap
        """,
    ),
    _file(
        "aarch64",
        183,
        "",
        """
            0 none 1 wrap, 256 none 1 wrap, 257 abs 8 wrap, 258 abs 4 unsigned,
            259 abs 2 unsigned, 260 pc 8 wrap, 261 pc 4 signed, 262 pc 2 signed
        """,
    ),
    _file(
        "alpha",
        36902,
        "<",
        """
            0 none 1 wrap, 1 abs 4 unsigned, 2 abs 8 wrap, 9 pc 2 signed, 10 pc 4 signed,
            11 pc 8 wrap
        """,
    ),
    _file(
        "amdgpu",
        224,
        "<",
        """
            3 abs 8 wrap, 4 pc 4 signed, 5 pc 8 wrap, 6 abs 4 unsigned, 10 pc 4 wrap
        """,
    ),
    _file(
        "ia64",
        50,
        "<",
        """
            0 none 1 wrap, 37 abs 4 unsigned, 39 abs 8 wrap, 77 pc 4 signed, 79 pc 8 wrap
        """,
    ),
    _file(
        "loongarch64",
        258,
        "<",
        """
            0 none 1 wrap, 1 abs 4 unsigned, 2 abs 8 wrap, 99 pc 4 signed, 100 none 1 wrap,
            109 pc 8 wrap
        """,
    ),
    _file(
        "mips64",
        8,
        ">",
        """
            0 none 1 wrap, 2 abs 4 wrap, 18 abs 8 wrap, 37 none 1 wrap, 248 pc 4 signed
        """,
    ),
    _file(
        "ppc64",
        21,
        "",
        """
            0 none 1 wrap, 1 abs 4 unsigned, 3 abs 2 signed, 4 abs 2 wrap, 24 abs 4 unsigned,
            25 abs 2 signed, 26 pc 4 signed, 38 abs 8 wrap, 43 abs 8 wrap, 44 pc 8 wrap,
            249 pc 2 signed, 250 pc 2 wrap
        """,
    ),
    _file(
        "riscv64",
        243,
        "<",
        """
            0 none 1 wrap, 1 abs 4 unsigned, 2 abs 8 wrap, 51 none 1 wrap, 57 pc 4 signed
        """,
    ),
    _file(
        "s390x",
        22,
        ">",
        """
            0 none 1 wrap, 1 abs 1 wrap, 3 abs 2 wrap, 4 abs 4 unsigned, 5 pc 4 signed,
            16 pc 2 signed, 22 abs 8 wrap, 23 pc 8 wrap
        """,
    ),
    _file(
        "sparc64",
        43,
        ">",
        """
            0 none 1 wrap, 1 abs 1 unsigned, 2 abs 2 unsigned, 3 abs 4 unsigned, 4 pc 1 signed,
            5 pc 2 signed, 6 pc 4 signed, 23 abs 4 unsigned, 32 abs 8 wrap, 46 pc 8 wrap,
            54 abs 8 wrap, 55 abs 2 unsigned
        """,
    ),
)


def files_for(machine: int, order: str) -> list[RuleFile]:
    """The files of rules that fit a machine, for objects of this byte order."""
    return [it for it in RULE_FILES if it.machine == machine and it.order in ("", order)]


def changes_no_bytes(machine: int, kind: int) -> bool:
    """Whether the supplement of a machine is known to define that a kind changes nothing. In each
    of them kind 0 is such a one."""
    rules = (it.rules.get(kind) for it in RULE_FILES if it.machine == machine)
    return kind == 0 or any(it and not it.changes_bytes for it in rules)


def file_with(machine: int, order: str, kind: int) -> Optional[RuleFile]:
    """The first file for a machine that has a rule for a kind; None if there is none."""
    return next((it for it in files_for(machine, order) if kind in it.rules), None)
