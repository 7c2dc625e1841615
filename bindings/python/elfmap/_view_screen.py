"""Tables of the viewer on wide and narrow screens, with marks and colours."""

from __future__ import annotations

import itertools
import textwrap
import unicodedata
from collections.abc import Iterable, Iterator, Sequence
from typing import NamedTuple

from elfmap._view_faults import BROKEN, DOUBTFUL
from elfmap._view_tables import AT_ONCE

_CODES = {
    "bold": "1",
    "dim": "2",
    "red": "31",
    "green": "32",
    "yellow": "33",
    BROKEN: "1;31",
    DOUBTFUL: "33",
    "header and tables": "7;34",
    "code": "7;31",
    "data": "7;33",
    "constants": "7;32",
    "symbols and strings": "7;36",
    "relocations": "7;35",
    "other": "7;37",
    "gap": "2",
}
LEGEND = f"{BROKEN} breaks a rule   {DOUBTFUL} depends on what breaks one, or is untested due to it"
# A column of names is not cut shorter.
_LEAST_NAME = 12
_BLANKS = "  "
_CUT = "…"


class Cell(NamedTuple):
    """A value in letters that can be printed, and its mark."""

    words: str
    mark: str = ""
    style: str = ""

    @property
    def shown(self) -> str:
        return self.words + self.mark


class Column(NamedTuple):
    """A column of a table. On a narrow screen those of the highest rank are left out first, and of
    rank 0 none is. The last column has names, which may be cut."""

    title: str
    rank: int = 0
    is_number: bool = False


def width_of(words: str) -> int:
    """How many places a text takes on a terminal."""
    if words.isascii():
        return len(words)
    wide = sum(unicodedata.east_asian_width(it) in "WF" for it in words)
    return len(words) + wide - sum(unicodedata.combining(it) > 0 for it in words)


def cut(words: str, most: int) -> str:
    """The words, without their end where they are too wide."""
    if width_of(words) <= most:
        return words
    while words and width_of(words) > max(most - 1, 0):
        words = words[:-1]
    return words + _CUT


class Screen:
    """How wide the lines are, 0 for as wide as they need to be, and whether they have colours."""

    def __init__(self, width: int, is_colored: bool) -> None:
        self.width = width
        self.is_colored = is_colored

    @property
    def bar_width(self) -> int:
        return self.width or 80

    def paint(self, words: str, style: str) -> str:
        code = _CODES.get(style)
        return f"\x1b[{code}m{words}\x1b[0m" if self.is_colored and code else words

    def title(self, words: str) -> Iterator[str]:
        """An empty line, and a title."""
        yield ""
        yield self.paint(self._fitting(words), "bold")

    def _fitting(self, words: str) -> str:
        return cut(words, self.width) if self.width else words

    def text(self, words: str, indent: str = _BLANKS, style: str = "") -> Iterator[str]:
        """A paragraph; the lines after its first one are indented."""
        if not self.width:
            lines = [words]
        else:
            own = textwrap.TextWrapper(
                max(self.width, 20),
                subsequent_indent=indent,
                break_on_hyphens=False,
            )
            lines = own.wrap(words)
        yield from (self.paint(it, style) for it in lines)

    def facts(self, facts: Iterable[tuple[str, Cell]]) -> Iterator[str]:
        """Lines of a name and a value."""
        for name, it in facts:
            lines = list(self.text(f"  {name:<10}{it.shown}", " " * 12))
            yield from (self.paint(line, it.mark or it.style) for line in lines)

    def table(self, columns: Sequence[Column], rows: Iterable[Sequence[Cell]]) -> Iterator[str]:
        """A table: its titles, and its rows."""
        every = iter(rows)
        table = Table(self, columns)
        while some := list(itertools.islice(every, AT_ONCE)):
            yield from table.lines(some)


class Table:
    """A table that is laid out some rows at a time, each time as wide as the rows so far."""

    def __init__(self, screen: Screen, columns: Sequence[Column]) -> None:
        self._screen = screen
        self._columns = columns
        self._last = len(columns) - 1
        self._widths = [width_of(it.title) for it in columns]
        self._is_first = True

    def lines(self, rows: Sequence[Sequence[Cell]]) -> Iterator[str]:
        """The next rows, and the titles above the first ones."""
        if any(it.mark or it.style for row in rows for it in row):
            yield from self.cell_lines(rows)
        else:
            yield from self.plain_lines([[it.words for it in column] for column in zip(*rows)])

    def cell_lines(self, rows: Sequence[Sequence[Cell]]) -> Iterator[str]:
        """These lines, one by one."""
        for row in rows:
            self._widths = [max(old, width_of(it.shown)) for old, it in zip(self._widths, row)]
        marked = {k for row in rows for k, it in enumerate(row) if it.mark == BROKEN}
        kept = self._kept(marked)
        left = self._left(kept)
        yield from self._titles(kept)
        yield from (self._row(row, kept, left) for row in rows)

    def plain_lines(self, words: Sequence[Sequence[str]]) -> Iterator[str]:
        """The same of rows without marks and colours: of each column all words. Lines come
        together."""
        # Letters of ASCII take a place each, and so does the end of a name that is cut.
        if not all("".join(it).replace(_CUT, "").isascii() for it in words):
            yield from self.cell_lines([list(map(Cell, row)) for row in zip(*words)])
            return
        longest = (max(map(len, it), default=0) for it in words)
        self._widths = [max(old, new) for old, new in zip(self._widths, longest)]
        kept = self._kept(set())
        yield from self._titles(kept)
        shown = [words[k] for k in kept]
        if self._screen.width:
            most = max(self._left(kept), _LEAST_NAME)
            shown[-1] = [cut(it, most) for it in shown[-1]]
        # The last column has names.
        pattern = _BLANKS + _BLANKS.join(
            f"%{self._widths[k] if self._columns[k].is_number else -self._widths[k]}s"
            for k in kept[:-1]
        )
        rows = map(f"{pattern}{_BLANKS}%s".__mod__, zip(*shown))
        yield "\n".join(map(str.rstrip, rows))

    def _titles(self, kept: Sequence[int]) -> Iterator[str]:
        if self._is_first:
            titles = [Cell(it.title, "", "dim") for it in self._columns]
            yield self._row(titles, kept, self._left(kept))
        self._is_first = False

    def _left(self, kept: Sequence[int]) -> int:
        """How many places the last column has."""
        width = self._screen.width - len(_BLANKS)
        return width - sum(self._widths[k] + len(_BLANKS) for k in kept if k != self._last)

    def _kept(self, marked: set[int]) -> list[int]:
        """The columns that fit. One with a value that breaks a rule is never left out."""
        kept = list(range(len(self._columns)))
        last = self._last
        while self._screen.width:
            others = [k for k in kept if self._columns[k].rank and k not in marked and k != last]
            if min(self._widths[last], _LEAST_NAME) <= self._left(kept) or not others:
                break
            kept.remove(max(others, key=lambda k: self._columns[k].rank))
        return kept

    def _row(self, row: Sequence[Cell], kept: Sequence[int], left: int) -> str:
        pieces = []
        screen = self._screen
        for k in kept:
            it = row[k]
            words = it.shown
            if k == self._last:
                most = max(left, _LEAST_NAME) - width_of(it.mark)
                words = (cut(it.words, most) if screen.width else it.words) + it.mark
            blanks = " " * (self._widths[k] - width_of(words))
            painted = screen.paint(words, it.mark or it.style) if words else ""
            is_left = not self._columns[k].is_number
            pieces.append(painted + blanks * (k != kept[-1]) if is_left else blanks + painted)
        return (_BLANKS + _BLANKS.join(pieces)).rstrip()
