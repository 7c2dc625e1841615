"""elfmap-view: what is in an ELF-64 file, also in one that is broken.

    elfmap-view [OPTIONS] FILE...

Without options it prints a summary: what is wrong with the file, what it is, a bar of its parts,
its sections and segments, and what is largest. A FILE may be an archive, a package, a member as
`libx.a(member.o)`, or - for standard input. Each value that breaks a rule has a `!`, and each one
that depends on such a value a `?`. The status is 0, 1 if a file is refused, 2 for a usage error,
and 3 if something can't be read.
"""

from __future__ import annotations

import argparse
import os
from collections.abc import Callable, Iterator, Sequence
from typing import Optional

from elfmap import __version__, _colors
from elfmap._commands import USAGE, Parser, complain, number_of, run_script, terminal_width
from elfmap._findings import BadWord
from elfmap._view_bytes import hex_lines, string_lines
from elfmap._view_demangle import Demangler
from elfmap._view_entries import (
    dynamic_lines,
    group_lines,
    hash_lines,
    note_lines,
    relocation_lines,
    symbol_lines,
)
from elfmap._view_files import PROGRAM, Reader
from elfmap._view_filters import SORTS, Filters
from elfmap._view_headers import header_lines, part_lines, section_lines, segment_lines
from elfmap._view_image import MOST_LETTERS, View
from elfmap._view_pager import Paged, pager_command
from elfmap._view_screen import Screen
from elfmap._view_search import at_lines, find_lines
from elfmap._view_sizes import diff_lines, size_lines
from elfmap._view_summary import head_lines, legend, summary_lines
from elfmap._words import one_line

# What is printed by options of their own, in this order.
_BLOCKS = (
    ("header", "the fields of the ELF header"),
    ("sections", "all sections"),
    ("segments", "all segments"),
    ("symbols", "all symbols"),
    ("relocations", "all relocations"),
    ("dynamic", "the dynamic array"),
    ("notes", "the notes"),
    ("groups", "the groups of sections"),
    ("hash", "how full the hash tables are"),
    ("parts", "what each byte belongs to"),
    ("sizes", "how many bytes each section, segment and symbol has"),
)
# What `--all` prints is of these.
_OF_ALL = [it for it, _ in _BLOCKS if it != "sizes"]
_LEAST_WIDTH = 20
# So many letters are written at once.
_LETTERS_AT_ONCE = 1 << 16


def _width(word: str) -> int:
    """The number of columns; 0 for as many as a line needs."""
    if not word.isdecimal() or len(word) > 6 or 0 < int(word) < _LEAST_WIDTH:
        raise argparse.ArgumentTypeError(f"0, or a number from {_LEAST_WIDTH} on, is needed")
    return int(word)


def _parser() -> Parser:
    parser = Parser(
        prog=PROGRAM,
        description="Shows what is in an ELF-64 file, also in one that is broken.",
        epilog="Status: 0 shown, 1 a file is refused, 2 usage, 3 something can't be read.",
    )
    add = parser.add_argument
    add("--version", action="version", version=f"%(prog)s {__version__}")
    add(
        "files",
        metavar="FILE",
        nargs="*",
        help="a file, an archive, a member as lib.a(m.o), a package, or - for standard input",
    )
    for name, words in _BLOCKS:
        add(f"--{name}", action="store_true", help=f"print {words}")
    add("--strings", metavar="SECTION", help="print the strings of a section")
    add(
        "--hex",
        metavar="PART",
        help="print bytes of a section, a part, or from an offset on: 0x40+16",
    )
    add("--all", action="store_true", help="print all of these, but for bytes and strings")
    _add_searches(parser)
    _add_filters(parser)
    _add_screen(parser)
    return parser


def _address(word: str) -> int:
    number = number_of(word)
    if number is None:
        raise argparse.ArgumentTypeError("it is no number below 2^64, decimal or as 0x1f")
    return number


def _add_searches(parser: Parser) -> None:
    """What is looked for, and other forms of output."""
    add = parser.add_argument
    add(
        "--at",
        metavar="N",
        type=_address,
        action="append",
        default=[],
        help="print what is at an address or offset, as 0x401000",
    )
    add("--find", metavar="NAME", help="print where a name is; a FILE may be a directory")
    add("--diff", action="store_true", help="compare the sizes of two FILEs")
    add("--json", action="store_true", help="print an object for each file, in a line")
    add(
        "--jsonl",
        action="store_true",
        help="print that object, and a line for each symbol and relocation that is asked for",
    )
    add("--json-schema", action="store_true", help="print the JSON schema of such an object")


def _add_filters(parser: Parser) -> None:
    """Which rows are shown."""
    add = parser.add_argument
    add("--name", metavar="GLOB", help="only what has such a name")
    add("--section", metavar="GLOB", help="only sections of such a name, and what is in them")
    add("--undefined", action="store_true", help="only undefined symbols")
    add("--defined", action="store_true", help="only defined symbols")
    add("--sort", choices=SORTS, help="the order of rows (default: that of the file)")
    add("--demangle", action="store_true", help="names of C++ and Rust as c++filt has them")


def _add_screen(parser: Parser) -> None:
    """How it is printed."""
    add = parser.add_argument
    add(
        "--width",
        metavar="N",
        type=_width,
        help="columns of a line, 0 for no limit (default: those of the terminal)",
    )
    add("--color", choices=_colors.CHOICES, default="auto", help="print in colours")
    add("--no-pager", action="store_true", help="use no pager on a terminal")


def _screen_of(options: argparse.Namespace) -> Screen:
    """The width of lines: that of the option, of COLUMNS, or of the terminal; else no limit."""
    width = options.width
    if width is None:
        is_known = os.environ.get("COLUMNS", "").isdecimal() or os.isatty(1)
        width = max(terminal_width(), _LEAST_WIDTH) if is_known else 0
    return Screen(width, _colors.are_wanted(options.color))


class Run:
    """One run of the program."""

    def __init__(self, options: argparse.Namespace) -> None:
        self._options = options
        self._screen = _screen_of(options)
        self._filters = Filters(
            options.name, options.section, options.undefined, options.defined, options.sort
        )
        self._demangler = Demangler(options.demangle)
        self._reader = Reader()
        self._paths = [os.fsencode(it) for it in options.files]

    def status(self) -> int:
        return self._reader.status()

    def pieces(self) -> Iterator[str]:
        """All that is printed."""
        if self._options.json_schema or self._options.json or self._options.jsonl:
            yield from self._json()
        else:
            yield from (f"{it}\n" for it in self._lines())

    def _json(self) -> Iterator[str]:
        # A screen starts without these modules.
        import json

        from elfmap import _view_json
        from elfmap._view_schema import SCHEMA

        options = self._options
        if options.json_schema:
            yield json.dumps(SCHEMA, indent=1) + "\n"
            return
        asked = options.symbols or options.all, options.relocations or options.all, options.sizes
        for view in self._views():
            yield from (_view_json.lines if options.jsonl else _view_json.pieces)(view, *asked)

    def _lines(self) -> Iterator[str]:
        options = self._options
        if options.find is not None:
            yield from self._found(options.find)
        elif options.diff:
            yield from self._differences()
        else:
            is_first = True
            for view in self._views():
                if not is_first:
                    yield ""
                is_first = False
                yield from self._file_lines(view)

    def _views(self) -> Iterator[View]:
        for path in self._paths:
            yield from self._reader.views(path)

    def _found(self, name: str) -> Iterator[str]:
        for view in self._reader.below(self._paths):
            path = one_line(view.path).decode("utf-8", "surrogateescape")
            for it in find_lines(view, name, self._demangler):
                yield f"{self._screen.paint(path, 'bold')}: {it}"

    def _differences(self) -> Iterator[str]:
        """Of two files; each of them may be a member of an archive."""
        views = [next(iter(self._reader.views(path)), None) for path in self._paths]
        one, other = views
        if one and other:
            yield from head_lines(one, self._screen)
            yield from head_lines(other, self._screen)
            yield from diff_lines(one, other, self._screen, self._demangler)

    # ---- One file

    def _file_lines(self, view: View) -> Iterator[str]:
        options = self._options
        if self._chosen() or options.strings is not None or options.hex is not None or options.at:
            yield from self._parts_of(view)
        else:
            yield from summary_lines(view, self._screen, self._filters, self._demangler)

    def _chosen(self) -> list[str]:
        """The blocks that are asked for."""
        options = self._options
        return [
            name for name, _ in _BLOCKS if getattr(options, name) or options.all and name in _OF_ALL
        ]

    def _parts_of(self, view: View) -> Iterator[str]:
        """What is asked for of a file, after what is wrong with it."""
        options = self._options
        screen = self._screen
        yield from head_lines(view, screen)
        if view.has_header:
            blocks = self._blocks(view)
            for name in self._chosen():
                yield from blocks[name]()
            if options.strings is not None:
                most = MOST_LETTERS if screen.width else None
                yield from string_lines(view, screen, options.strings, most)
            for number in options.at:
                yield from at_lines(view, screen, number, self._demangler)
        if options.hex is not None:
            yield from hex_lines(view, screen, options.hex)
        yield from legend(view, screen)

    def _blocks(self, view: View) -> dict[str, Callable[[], Iterator[str]]]:
        own = view, self._screen
        filters = self._filters
        demangler = self._demangler
        return {
            "header": lambda: header_lines(*own),
            "sections": lambda: section_lines(*own, filters),
            "segments": lambda: segment_lines(*own, filters),
            "symbols": lambda: symbol_lines(*own, filters, demangler),
            "relocations": lambda: relocation_lines(*own, filters, demangler),
            "dynamic": lambda: dynamic_lines(*own, filters),
            "notes": lambda: note_lines(*own, filters),
            "groups": lambda: group_lines(*own, filters),
            "hash": lambda: hash_lines(*own, filters),
            "parts": lambda: part_lines(*own, filters),
            "sizes": lambda: size_lines(*own, demangler),
        }


def _usage_error(options: argparse.Namespace) -> str:
    """What is wrong with the words of the command; nothing if they are right."""
    if not options.files and not options.json_schema:
        return "FILE is missing; see --help"
    if options.undefined and options.defined:
        return "--undefined and --defined exclude each other"
    if options.files.count("-") > 1:
        return "standard input can be read once"
    if options.diff and len(options.files) != 2:
        return "--diff needs two FILEs"
    modes = "json", "jsonl", "json_schema", "diff", "find"
    chosen = [it for it in modes if getattr(options, it) not in (False, None)]
    if len(chosen) > 1:
        names = " and ".join(f"--{it.replace('_', '-')}" for it in chosen[:2])
        return f"{names} exclude each other"
    return ""


def _write(options: argparse.Namespace) -> int:
    """Writes what is asked for, and returns the status."""
    run = Run(options)
    with Paged(pager_command(not options.no_pager)) as out:
        for it in _gathered(run.pieces()):
            out.write(it.encode("utf-8", "backslashreplace"))
    return run.status()


def _gathered(pieces: Iterator[str]) -> Iterator[str]:
    """These pieces, many together; those before an error too."""
    some: list[str] = []
    letters = 0
    try:
        for it in pieces:
            some.append(it)
            letters += len(it)
            if letters >= _LETTERS_AT_ONCE:
                yield "".join(some)
                some = []
                letters = 0
    except BadWord:
        yield "".join(some)
        raise
    yield "".join(some)


def main(words: Optional[Sequence[str]] = None) -> int:
    """Runs the program, and returns its status."""
    options = _parser().in_any_order(words, "files")
    wrong = _usage_error(options)
    if wrong:
        complain(PROGRAM, wrong.encode())
        return USAGE
    try:
        return _write(options)
    except BadWord as fault:
        complain(PROGRAM, str(fault).encode("utf-8", "surrogateescape"))
        return USAGE


def script() -> None:
    """The console script."""
    run_script(PROGRAM, main)


if __name__ == "__main__":
    script()
