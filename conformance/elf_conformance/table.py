"""The table of a run: as text, or as a page."""

from typing import Any

from .adapter import CRASHES, DIFFERS, HANGS
from .trying import (
    BROKEN_ACCEPTED,
    BROKEN_NOT_CLAIMED,
    BROKEN_REFUSED,
    OPEN,
    PROFILE_ACCEPTED,
    PROFILE_REFUSED,
    REFUSED_SOUND,
    RIGHT,
)

# The heads of the columns, in two lines.
HEADS = {
    RIGHT: ("sound:", "right"),
    REFUSED_SOUND: ("sound:", "refuses"),
    DIFFERS: ("reads", "else"),
    BROKEN_REFUSED: ("broken:", "refuses"),
    BROKEN_ACCEPTED: ("broken:", "accepts"),
    BROKEN_NOT_CLAIMED: ("not", "claimed"),
    PROFILE_REFUSED: ("profile:", "refuses"),
    PROFILE_ACCEPTED: ("profile:", "accepts"),
    OPEN: ("", "open"),
    CRASHES: ("", "crashes"),
    HANGS: ("", "hangs"),
}
WHAT = """
sound: right     the tool accepts a sound file, and shows the values of the index
sound: refuses   it refuses a file that keeps all rules of the suite, or warns of it
reads else       it accepts a file, and shows another value than the index has
broken: refuses  it refuses a file that breaks a rule of the gABI, or warns of it
broken: accepts  it accepts one, and claims to check files
not claimed      it accepts one, and does not claim to check files
profile:         a file that breaks a rule of this suite alone: no fault of a tool
open             it refuses a changed file that keeps all rules of the suite, and may break others
crashes, hangs   on any file; a hang is more than the bound of time
"""


def row(head: str, cells: list[str], width: int) -> str:
    """A line of the table."""
    sizes = [max(map(len, it)) for it in HEADS.values()]
    return "  ".join([head.ljust(width), *(it.rjust(size) for it, size in zip(cells, sizes))])


def text(tools: list[dict[str, Any]], is_long: bool) -> str:
    """The table as text, a line for each tool, and then what is listed."""
    width = max(len(it["tool"]) for it in tools)
    lines = [row("", [it[k] for it in HEADS.values()], width).rstrip() for k in range(2)]
    for it in tools:
        lines.append(row(it["tool"], [str(it["counts"][column]) for column in HEADS], width))
    for it in tools:
        lines += ["", f"{it['tool']}: {it['version']}"]
        for own in it["found"]:
            if is_long or own["kind"] in (DIFFERS, CRASHES, HANGS):
                lines.append(f"  {own['kind']}: case {own['case']}, {own['name']}: {own['about']}")
                lines += [f"      {why}" for why in own["why"]]
    return "\n".join(lines) + "\n" + WHAT
