"""The small library `failing.c`, which is loaded before the C library: calls fail in it, and it
counts them."""

import os

from .tree import by_cc, read_text, write

# How cc makes it.
WORDS = "-shared -fPIC -O1 -w"


def make(folder: str) -> None:
    """Makes the library in a folder."""
    by_cc(f"{folder}/failing.so", WORDS, "failing.c")


def environment(folder: str, call: str) -> dict[str, str]:
    """The environment in which a call fails, or calls are counted. The report of the library is
    empty before."""
    report = write(f"{folder}/report", "")
    loaded = {"LD_PRELOAD": f"{folder}/failing.so", "FAILING_CALL": f"{call} {report}"}
    return os.environ | loaded


def report_of(folder: str) -> list[str]:
    """The lines of the library's report."""
    return read_text(f"{folder}/report").split("\n")[:-1]
