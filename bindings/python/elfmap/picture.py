"""elfmap-picture: a picture of the bytes of a file, for a browser.

    elfmap-picture FILE [TITLE] > FILE.svg

FILE is - for standard input. Each part has a row: where it begins, how long it is, whose it is,
and its bytes, drawn to scale in a bar as long as the file. A bar of a part too short to be seen
is drawn two points wide. Gaps are hatched, and say whether they are zeros. In a file without
sections, as an executable that elfmap links, a gap is cut where loadable segments begin and
end, and a segment that takes memory alone has a row after all parts. Of a file of more than
300 parts the largest 150 have rows, and each run of others has one together.
"""

from __future__ import annotations

import os
from collections.abc import Iterator, Sequence
from typing import Optional, Union
from xml.sax.saxutils import escape

import elfmap
from elfmap import __version__
from elfmap._commands import FOUND, UNREADABLE, Parser, complain, run_script
from elfmap._kinds import TYPES, colour_of_flags, colour_of_type
from elfmap._names import FILE_TYPES, MACHINES
from elfmap._sources import LONGEST, Source, Unreadable, opened, standard_input
from elfmap._words import one_line, printable
from elfmap.constants import EI_DATA, PT

PROGRAM = "elfmap-picture"
MOST = 300
LARGEST = 150
ROW = 20
HEAD = 118
LEFT = 640
WIDTH = 520
SHORTEST = 2
COLUMNS = (
    ("begins at", 96, "end"),
    ("bytes", 196, "end"),
    ("owner", 212, "start"),
    ("name", 330, "start"),
    ("holds", 520, "start"),
)

COLOURS = {
    "header and tables": "#4c566a",
    "code": "#c0504d",
    "data": "#e0a030",
    "constants": "#7f9f3f",
    "symbols and strings": "#4f81bd",
    "relocations": "#8064a2",
    "other": "#8aa0a8",
    "several parts": "#b9c4c9",
    "gap": "url(#gap)",
}
FONT = (
    'font-family="ui-monospace, DejaVu Sans Mono, Menlo, Consolas, monospace" font-size="12"'
    ' fill="#20262e"'
)
HATCHES = (
    '<pattern id="gap" width="5" height="5" patternUnits="userSpaceOnUse"'
    ' patternTransform="rotate(45)"><rect width="5" height="5" fill="#fff3d6"/><rect width="2"'
    ' height="5" fill="#d09a20"/></pattern>'
)
# How the parts are called that are no contents and no gaps.
TITLES = {
    "header": "header",
    "program headers": "program table",
    "section headers": "section table",
}
# The data encodings of e_ident.
ORDERS = {1: "little", 2: "big"}
# The flags of a segment.
PERMISSIONS = ((4, "R"), (2, "W"), (1, "X"))
# So many first bytes of a gap are shown.
SHOWN = 6
NOTE = "Bars are drawn to scale; what is too short to be seen is drawn two points wide."


class Part:
    """A row of the picture."""

    def __init__(
        self,
        start: int,
        length: int,
        owner: str,
        name: str = "",
        holds: str = "",
        colour: str = "header and tables",
    ) -> None:
        self.start = start
        self.length = length
        self.owner = owner
        self.name = name
        self.holds = holds
        self.colour = colour


# ---- what is in the file


def content(section: elfmap.Section) -> tuple[str, str, str]:
    """The name of a section, what it holds, and its colour."""
    name = printable(section.name)
    kind = section.sh_type
    if kind in TYPES:
        return name, TYPES[kind], colour_of_type(kind)
    colour = colour_of_flags(section.sh_flags)
    return name, colour, colour


def gap(data: memoryview, start: int, end: int) -> Part:
    """A gap, which says whether it is zeros, and else its first bytes."""
    held = bytes(data[start:end])
    if held.count(0) == len(held):
        holds = "zeros"
    else:
        holds = held[:SHOWN].hex() + ("…" if len(held) > SHOWN else "")
    return Part(start, end - start, "gap", "", holds, "gap")


class Load:
    """A loadable segment."""

    def __init__(self, index: int, segment: elfmap.Segment) -> None:
        self.owner = f"segment {index}"
        self.flags = segment.p_flags
        self.start = segment.p_offset
        self.address = segment.p_vaddr
        self.length = segment.p_filesz
        self.size = segment.p_memsz

    def name(self) -> str:
        return f"0x{self.address:x} to 0x{self.address + self.size:x}"

    def colour(self) -> str:
        if self.flags & 1:
            return "code"
        return "data" if self.flags & 2 else "constants"

    def part(self, start: int, end: int) -> Part:
        colour = self.colour()
        kind = colour if end > start else "zeros in memory"
        letters = "".join(letter for bit, letter in PERMISSIONS if self.flags & bit)
        return Part(start, end - start, self.owner, self.name(), f"{kind} {letters}", colour)

    def covers(self, start: int, end: int) -> bool:
        """Whether all bytes from the one offset to the other are loaded."""
        return self.start <= start and end <= self.start + self.length


def among_loads(data: memoryview, first: int, last: int, loads: list[Load]) -> Iterator[Part]:
    """A gap, cut where loadable segments begin and end."""
    edges = {first, last}
    for it in loads:
        edges.update(edge for edge in (it.start, it.start + it.length) if first < edge < last)
    ordered = sorted(edges)
    for start, end in zip(ordered, ordered[1:]):
        owner = next((it for it in loads if it.covers(start, end)), None)
        yield owner.part(start, end) if owner else gap(data, start, end)


def loads_of(file: elfmap.File) -> list[Load]:
    """The loadable segments of a file without sections."""
    if len(file.sections):
        return []
    every = enumerate(file.segments)
    return [Load(index, it) for index, it in every if it.p_type == PT.LOAD]


def head_of(header: elfmap.Header) -> str:
    """The type of the file, its machine and its byte order."""
    number = header.e_machine
    machine = f"EM_{MACHINES[number]}" if number in MACHINES else f"machine {number}"
    kind = FILE_TYPES.get(header.e_type, f"type {header.e_type}")
    return f"{kind}, {machine}, {ORDERS[header.e_ident[EI_DATA]]}-endian"


def read(data: Union[bytes, bytearray]) -> tuple[list[Part], str]:
    """The parts of the file, and the head of the picture; elfmap.Refused if it breaks a rule."""
    with elfmap.parse(data) as file, memoryview(data) as view:
        loads = loads_of(file)
        sections = file.sections
        parts: list[Part] = []
        for start, length, owner in file.parts:
            if isinstance(owner, int):
                parts.append(Part(start, length, f"section {owner}", *content(sections[owner])))
            elif owner == "gap":
                parts += among_loads(view, start, start + length, loads)
            else:
                parts.append(Part(start, length, TITLES[owner]))
        parts += [it.part(it.start, it.start) for it in loads if not it.length]
        return parts, head_of(file.header)


def folded(parts: list[Part]) -> list[Part]:
    """The rows: the parts themselves, or the largest ones, and one for each run of others."""
    if len(parts) <= MOST:
        return parts
    # Of equal ones the first.
    largest = set(sorted(range(len(parts)), key=lambda k: -parts[k].length)[:LARGEST])
    rows = list[Part]()
    run = list[Part]()
    ends: list[Optional[Part]] = [*parts, None]
    for k, part in enumerate(ends):
        if part and k not in largest and part.owner.split()[0] in ("section", "gap"):
            run.append(part)
            continue
        rows += run if len(run) < 2 else [together(run)]
        run = []
        if part:
            rows.append(part)
    return rows


def together(run: list[Part]) -> Part:
    """The row of a run of parts."""
    sections = [it for it in run if it.colour != "gap"]
    owner = counted(len(sections), "section") if len(sections) != 1 else sections[0].owner
    gaps = counted(len(run) - len(sections), "gap")
    start = run[0].start
    length = run[-1].start + run[-1].length - start
    return Part(start, length, owner, names_of(sections), gaps, "several parts")


def names_of(sections: list[Part]) -> str:
    """The name of the one section, or those of the first and of the last one."""
    if not sections:
        return ""
    if len(sections) == 1:
        return sections[0].name
    return f"{sections[0].name} … {sections[-1].name}"


# ---- the picture


def text(x: float, y: int, words: str, anchor: str = "start", more: str = "") -> str:
    return f'<text x="{x}" y="{y}" text-anchor="{anchor}"{more}>{escape(words)}</text>'


def cut(words: str, most: int) -> str:
    """The words, without their middle where they are too long."""
    half = (most - 1) // 2
    return words if len(words) <= most else words[:half] + "…" + words[half - most + 1 :]


def counted(number: int, what: str) -> str:
    return f"{number:,} {what}{'s' if number != 1 else ''}"


def bar(part: Part, total: int, y: int, height: int) -> str:
    """The bytes of a part, in a bar as long as the file."""
    if not part.length:
        return ""
    width = max(part.length / total * WIDTH, SHORTEST)
    x = min(LEFT + part.start / total * WIDTH, LEFT + WIDTH - width)
    words = f"{part.owner} {part.name}: {part.length:,} bytes from 0x{part.start:x}"
    title = escape(words.replace(" :", ":"))
    # Hatches are too wide for a narrow bar.
    colour = "#d09a20" if part.colour == "gap" and width < 6 else COLOURS[part.colour]
    return (
        f'<rect x="{x:.2f}" y="{y}" width="{width:.2f}" height="{height}"'
        f' fill="{colour}"><title>{title}</title></rect>'
    )


def row(part: Part, total: int, number: int) -> list[str]:
    """A part in words and as a bar. Every second row is shaded."""
    y = HEAD + ROW * number
    drawn = []
    if number % 2:
        drawn.append(f'<rect x="12" y="{y}" width="{LEFT + WIDTH}" height="{ROW}" fill="#f4f6f7"/>')
    name = cut(part.name, 25)
    holds = cut(part.holds, 16)
    cells = (f"0x{part.start:x}", f"{part.length:,}", part.owner, name, holds)
    more = ' fill="#9a6a00"' if part.colour == "gap" else ""
    for words, (_, x, anchor) in zip(cells, COLUMNS):
        if words:
            drawn.append(text(x, y + 14, words, anchor, more))
    drawn.append(bar(part, total, y + 3, ROW - 6))
    return drawn


def legend(parts: list[Part]) -> list[str]:
    used = {it.colour for it in parts}
    x = 20
    drawn = []
    for name, colour in COLOURS.items():
        if name in used:
            drawn.append(f'<rect x="{x}" y="46" width="12" height="12" fill="{colour}"/>')
            drawn.append(text(x + 17, 56, name))
            x += 34 + 7 * len(name)
    return drawn


def sheet(bottom: int) -> list[str]:
    """The beginning of the drawing, and its white ground."""
    across = LEFT + WIDTH + 24
    down = bottom + 30
    size = f'width="{across}" height="{down}"'
    space = "http://www.w3.org/2000/svg"
    return [
        f'<svg xmlns="{space}" {size} viewBox="0 0 {across} {down}" {FONT}>',
        f"<defs>{HATCHES}</defs>",
        f'<rect {size} fill="#ffffff"/>',
    ]


def counts(parts: list[Part]) -> str:
    """How many bytes and parts the file has, and how many of them are gaps."""
    total = sum(it.length for it in parts)
    gaps = [it.length for it in parts if it.colour == "gap"]
    every = f"{total:,} bytes in {counted(len(parts), 'part')}"
    return f"{every}, {sum(gaps):,} of them in {counted(len(gaps), 'gap')}"


def scale(rows: list[Part], total: int) -> list[str]:
    """The whole file as one bar, and above the columns their titles."""
    y = HEAD - 8
    bold = ' font-weight="bold"'
    place = f'x="{LEFT - 0.5}" y="{HEAD - 45.5}"'
    return [
        *[text(x, y, it, anchor, bold) for it, x, anchor in COLUMNS],
        text(LEFT, y, "0x0"),
        text(LEFT + WIDTH, y, f"0x{total:x}", "end"),
        f'<rect {place} width="{WIDTH + 1}" height="21" fill="none" stroke="#8aa0a8"/>',
        *[bar(it, total, HEAD - 45, 20) for it in rows],
    ]


def edge_lines(bottom: int) -> str:
    """A line down the rows where the file begins, and one where it ends."""
    edges = (LEFT - 0.5, LEFT + WIDTH + 0.5)
    lines = "".join(f"M{x} {HEAD - 2}V{bottom + 4}" for x in edges)
    return f'<path d="{lines}" stroke="#c5ced3"/>'


def picture(title: str, parts: list[Part], head: str) -> str:
    total = sum(it.length for it in parts)
    rows = folded(parts)
    bottom = HEAD + ROW * len(rows)
    lines = [
        *sheet(bottom),
        text(20, 28, cut(title, 60), more=' font-size="16" font-weight="bold"'),
        text(LEFT + WIDTH, 28, f"{counts(parts)}; {head}", "end"),
        *legend(rows),
        *scale(rows, total),
    ]
    for number, part in enumerate(rows):
        lines += row(part, total, number)
    lines.append(edge_lines(bottom))
    lines.append(text(20, bottom + 20, NOTE, more=' fill="#66727a"'))
    return "\n".join(it for it in lines if it) + "\n</svg>\n"


# ---- the program


def bytes_of(source: Source) -> bytearray:
    """The bytes of a file, as many as the first rule has to see."""
    data = bytearray(min(len(source), LONGEST))
    source.read_into(memoryview(data), 0)
    return data


def read_file(path: str) -> bytearray:
    """The bytes of the file that a word names."""
    if path == "-":
        return bytes_of(standard_input())
    with opened(os.fsencode(path)) as source:
        return bytes_of(source)


def _parser() -> Parser:
    parser = Parser(
        prog=PROGRAM,
        description="Writes a picture of the bytes of an ELF-64 file, as SVG, to standard output.",
        epilog="Status: 0 drawn, 1 elfmap refuses the file, 2 usage, 3 it can't be read.",
    )
    parser.add_argument("--version", action="version", version=f"%(prog)s {__version__}")
    parser.add_argument("file", metavar="FILE", help="the file, or - for standard input")
    parser.add_argument(
        "title", metavar="TITLE", nargs="*", help="the title (the name of the file)"
    )
    return parser


def _no_picture(path: bytes, reason: str, status: int) -> int:
    complain(PROGRAM, one_line(path) + f": {reason}".encode("utf-8", "backslashreplace"))
    return status


def main(words: Optional[Sequence[str]] = None) -> int:
    """Runs the program, and returns its status."""
    options = _parser().parse_args(words)
    own = os.fsencode(options.file)
    name = b"standard input" if options.file == "-" else os.path.basename(own)
    title = printable(os.fsencode(" ".join(options.title)) or name)
    try:
        drawn = picture(title, *read(read_file(options.file)))
    except Unreadable as fault:
        return _no_picture(own, fault.reason, UNREADABLE)
    except elfmap.Refused as fault:
        refused = f"refused {fault.rule} {fault.offset}"
        return _no_picture(own, f"elfmap refuses it: {refused}; elfmap-explain says why", FOUND)
    with open(1, "wb", closefd=False) as out:
        out.write(drawn.encode("utf-8", "backslashreplace"))
    return 0


def script() -> None:
    """The console script."""
    run_script(PROGRAM, main)


if __name__ == "__main__":
    script()
