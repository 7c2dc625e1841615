"""`tools/test real-files`: ELF files of this machine through `check`, `show` and back, by
`example_edit`."""

import contextlib
import os
from collections.abc import Iterable
from itertools import chain

from .building import output_of
from .machine_files import ELF_64, count_ends, some
from .suite import Tally, Test, number
from .tree import PROGRAM, Options, ending, files_below, read_bytes, run, side_by_side


def files() -> Iterable[str]:
    """Each file once, by its device and number, that begins as an ELF file of class 64 does."""
    found: dict[tuple[int, int], str] = {}
    for path in chain(files_below("/usr/bin"), files_below("/usr/lib")):
        with contextlib.suppress(OSError), open(path, "rb") as it:
            if it.read(5) == ELF_64:
                status = os.stat(path)
                found.setdefault((status.st_dev, status.st_ino), path)
    return found.values()


def try_file(path: str) -> str:
    """What became of one file: 'accepted', 'refused', or what is wrong."""
    check = run(PROGRAM, "check", "--", path)
    if check.returncode == 1 and check.stdout.startswith(b"refused "):
        return "refused"
    if check.returncode or not check.stdout.startswith(b"ok "):
        return f"{path}: check {ending(check)}"
    show = run(PROGRAM, "show", "--", path)
    if show.returncode:
        return f"{path}: show {ending(show)}"
    back = run(output_of("example_edit"), path)
    if back.returncode or back.stdout != read_bytes(path):
        return f"{path}: example_edit does not give it back"
    return "accepted"


@Test(
    "real-files",
    "ELF files of this machine through `check`, `show` and back",
    crates="elfmap example_edit",
    alone=True,
    options=(number("count", 2000, "so many of them"),),
)
def try_real_files(tally: Tally, options: Options) -> None:
    ends = side_by_side(try_file, some(files(), options.count))
    count_ends(tally, ends, "accepted|refused")
