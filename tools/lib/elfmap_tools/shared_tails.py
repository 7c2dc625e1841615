"""`tools/dev shared-tails PROGRAM FILE..`: how much shorter string tables are whose names share
their tails."""

import os
import tempfile
from collections.abc import Iterable
from functools import partial

from .object_files import Place, content_of, objects_of
from .reference import SYMTAB, File, symbols
from .tree import Options, run, side_by_side, write


def length_of_once(text: bytes, places: Iterable[int]) -> int:
    """The length of a string table that holds each distinct name at these places of one once."""
    names = {text[k : text.index(b"\0", k)] for k in places}
    return 1 + sum(len(it) + 1 for it in names if it)


def lengths(content: bytes) -> tuple[int, int]:
    """The bytes of the two string tables of a file that was written, the last sections, and of
    those with each distinct name once."""
    f = File(content)
    last = f.section_count - 1
    strings = f.content(last - 1)
    names = f.content(last)
    of_symbols: list[int] = []
    for i, table in f.sections():
        if table.sh_type == SYMTAB:
            of_symbols += [it.st_name for it in symbols(f, i)]
    of_sections = [it.sh_name for _, it in f.sections()]
    shared = len(strings) + len(names)
    if names == strings:
        return shared, length_of_once(names, [*of_symbols, *of_sections])
    return shared, length_of_once(strings, of_symbols) + length_of_once(names, of_sections)


def rewritten(program: str, place: Place) -> bytes:
    """What a program writes for an object, nothing for one that is refused."""
    with tempfile.TemporaryDirectory() as room:
        ran = run(program, "rewrite", write(f"{room}/f", content_of(place)))
    return b"" if ran.returncode else ran.stdout


def main(options: Options) -> None:
    """Of each file, an object or an archive, a row of the table in docs/PERFORMANCE.md: how many of
    its objects `rewrite` takes, the bytes of the two string tables of all that it writes, and those
    of tables that hold each distinct name once."""
    print("| objects of | objects | each name once | tails shared | |")
    print("|---|---|---|---|---|")
    rewrite = partial(rewritten, os.path.abspath(options.program))
    for path in options.file:
        written = list(filter(None, side_by_side(rewrite, objects_of(path))))
        found = list(map(lengths, written))
        shared = sum(it for it, _ in found)
        once = sum(it for _, it in found)
        more = f"{100 * (shared / once - 1):+.1f} %"
        name = os.path.basename(path)
        print(f"| `{name}` | {len(written):,} | {once:,} | {shared:,} | {more} |")
