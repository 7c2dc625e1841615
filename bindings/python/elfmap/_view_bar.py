"""A file as a bar to scale: each place of the line has the part that takes most of its bytes."""

from __future__ import annotations

import itertools
from collections.abc import Iterable, Iterator

from elfmap._view_image import Extent, View
from elfmap._view_screen import Screen

LETTERS = {
    "header and tables": "H",
    "code": "C",
    "data": "D",
    "constants": "K",
    "symbols and strings": "S",
    "relocations": "R",
    "other": "o",
    "gap": ".",
}
# So many lines of parts that overlap are drawn.
_MOST_LANES = 8
_LEAST_WIDTH = 10
_NOTHING = " "


def places(lane: Iterable[Extent], size: int, width: int) -> list[str]:
    """Of each place of a line the kind that has most of its bytes; none where no part is."""
    found: list[dict[str, int]] = [{} for _ in range(width)]
    for it in lane:
        end = min(it.end, size)
        first = it.start * width // max(size, 1)
        last = -(-end * width // max(size, 1))
        for k in range(first, min(last, width)):
            # In units of which the file has size * width.
            own = min(end * width, (k + 1) * size) - max(it.start * width, k * size)
            found[k][it.kind] = found[k].get(it.kind, 0) + max(own, 0)
    return [max(it, key=it.__getitem__) if it else "" for it in found]


def bar_lines(view: View, screen: Screen) -> Iterator[str]:
    """The bar of a file: one line, or one for each lane of parts that overlap, and what its letters
    are."""
    width = max(screen.bar_width - 4, _LEAST_WIDTH)
    lanes = view.lanes
    overlaps = len(lanes) > 1
    drawn = lanes[:_MOST_LANES] if overlaps else [view.with_gaps]
    for lane in drawn:
        own = places(lane, view.size, width)
        pieces = (
            screen.paint(LETTERS.get(kind, _NOTHING) * len(list(run)), kind)
            for kind, run in itertools.groupby(own)
        )
        end = ">" if any(it.end > view.size for it in lane) else "|"
        yield f"  |{''.join(pieces)}{end}"
    end = f"{view.size:#x}"
    yield f"  0x0{' ' * max(width - len(end) - 1, 1)}{end}"
    yield from _notes(view, screen, len(lanes))


def _notes(view: View, screen: Screen, lanes: int) -> Iterator[str]:
    """How many bytes the parts of each kind have, and what a bar of several lines means."""
    totals: dict[str, int] = {}
    for it in view.with_gaps:
        totals[it.kind] = totals.get(it.kind, 0) + max(min(it.end, view.size) - it.start, 0)
    mark = view.marks.of_all
    pieces = [
        f"{letter} {kind} {totals[kind]:,}{mark}"
        for kind, letter in LETTERS.items()
        if totals.get(kind)
    ]
    yield from screen.text("  " + ", ".join(pieces), "  ", "dim")
    if lanes > 1:
        more = f", of which {_MOST_LANES} are drawn" if lanes > _MOST_LANES else ""
        yield from screen.text(f"  parts overlap: they are in {lanes} lines{more}", "  ", "red")
    if any(it.end > view.size for it in view.parts):
        yield from screen.text("  > a part passes the end of the file", "  ", "red")
