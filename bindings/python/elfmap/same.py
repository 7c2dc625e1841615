"""elfmap-same: whether two objects, archives or trees are the same, and else what differs.

    elfmap-same [OPTIONS] A B

Two files are the same object if `elfmap rewrite` writes the same bytes for both. Programs and
libraries are the same if their bytes are. Each difference is a line with the name of what
differs: the section and the first offset in it, the symbol, or the relocation. The status is
0 if A and B are the same, 1 if they differ, 2 for a usage error, and 3 if something can't be
read, or is refused. The rest is compared all the same.
"""

from __future__ import annotations

import argparse
import os
import stat
from collections import Counter
from collections.abc import Iterable, Iterator, Sequence
from contextlib import contextmanager
from itertools import chain
from typing import NamedTuple, Optional, TextIO

import elfmap
from elfmap import __version__, _library
from elfmap._archives import Content, Contents, Member, is_archive, members
from elfmap._commands import DONE, FOUND, UNREADABLE, USAGE, Parser, complain, run_script
from elfmap._differences import Sides, image_differences, object_differences
from elfmap._rules import RULES
from elfmap._sources import LONGEST, Source, Unreadable, opened, reason_of
from elfmap._words import OBJECT_TOO_LONG, Words, explain, one_line, printable

PROGRAM = "elfmap-same"
_MAGIC = b"\x7fELF"
_RELOCATABLE = 1
_CLASS_32 = 1
_LIMIT = 10
# A shorter file has no magic number.
_LEAST = 4
_COMPARED = ("object", "image", "archive")
_STEP = 1 << 20


class Pair(NamedTuple):
    """Two paths of the same name below A and B. Those that are A and B are named."""

    name: bytes
    first: bytes
    second: bytes
    is_named: bool = False

    def below(self, name: bytes) -> Pair:
        own = os.path.join(self.name, name) if self.name else name
        return Pair(own, os.path.join(self.first, name), os.path.join(self.second, name))


class Counts:
    """How many pairs there were."""

    def __init__(self) -> None:
        self.same = 0
        self.differing = 0
        self.only = Counter[str]()
        self.skipped = Counter[str]()
        self.lost = 0

    def status(self) -> int:
        if self.lost:
            return UNREADABLE
        return FOUND if self.differing or self.only else DONE

    def words(self) -> str:
        if self.same + self.differing + self.lost == 1 and not self.only and not self.skipped:
            return self._words_of_one()
        words = [f"{self.same} the same"]
        if self.differing:
            words.append(f"{self.differing} different")
        words += [f"{count} only in {side}" for side, count in self.only.items()]
        if self.lost:
            words.append(f"{self.lost} not compared")
        told = ", ".join(words)
        skipped = ", ".join(f"{count} {what}" for what, count in self.skipped.items())
        return f"{told}; skipped: {skipped}" if skipped else told

    def _words_of_one(self) -> str:
        if self.same:
            return "the same"
        return "different" if self.differing else "not compared"


class Run:
    """One run of the program."""

    def __init__(self, options: argparse.Namespace, out: TextIO) -> None:
        self._options = options
        self._out = out
        self._first = os.fsencode(options.first)
        self._second = os.fsencode(options.second)
        self._sides = Sides(printable(self._first), printable(self._second))
        self.counts = Counts()

    # ---- Trees

    def compare(self) -> None:
        pairs = [Pair(b"", self._first, self._second, is_named=True)]
        while pairs:
            # Those below a directory come next, in the order of their names.
            pairs += reversed(list(self._paths(pairs.pop())))
        if not self._options.quiet:
            self._out.write(self.counts.words() + "\n")

    def _paths(self, pair: Pair) -> list[Pair]:
        """Compares two paths. Of two directories the pairs below them are returned."""
        with self._guarded(pair.name or pair.first):
            found = [os.stat(it, follow_symlinks=pair.is_named) for it in (pair.first, pair.second)]
            kinds = [kind_of_path(it) for it in found]
            if kinds[0] != kinds[1]:
                self._differ(pair.name, [self._sides.both("it", *kinds)])
            elif kinds[0] == "a directory":
                return self._folders(pair)
            elif kinds[0] == "a file":
                self._files(pair, max(it.st_size for it in found))
            elif pair.is_named:
                raise Unreadable(f"it is {kinds[0]}")
            else:
                self.counts.skipped["not regular"] += 1
        return []

    def _folders(self, pair: Pair) -> list[Pair]:
        first = set(os.listdir(pair.first))
        second = set(os.listdir(pair.second))
        for it in map(pair.below, sorted(first - second)):
            self._only_in(0, it.name, it.first)
        for it in map(pair.below, sorted(second - first)):
            self._only_in(1, it.name, it.second)
        return [pair.below(it) for it in sorted(first & second)]

    def _only_in(self, side: int, name: bytes, path: bytes) -> None:
        """What is below a path without a partner. What would be skipped is skipped here too."""
        paths = [(name, path)]
        while paths:
            name, path = paths.pop()
            with self._guarded(name):
                kind = kind_of_path(os.stat(path, follow_symlinks=False))
                if kind == "a directory":
                    below = sorted(os.listdir(path), reverse=True)
                    paths += [(os.path.join(name, it), os.path.join(path, it)) for it in below]
                elif kind == "a file":
                    self._file_only_in(side, name, path)
                else:
                    self.counts.skipped["not regular"] += 1

    def _file_only_in(self, side: int, name: bytes, path: bytes) -> None:
        with opened(path) as source:
            kind = kind_of(source)
        if kind in _COMPARED or self._options.others:
            self._only(side, name)
        else:
            self.counts.skipped[kind] += 1

    def _only(self, side: int, name: bytes) -> None:
        self.counts.only[self._sides[side]] += 1
        self._say(name, f"it is only in {self._sides[side]}")

    # ---- Files

    def _files(self, pair: Pair, size: int) -> None:
        if size < _LEAST and not pair.is_named and not self._options.others:
            self.counts.skipped["not ELF"] += 1
            return
        with opened(pair.first) as first, opened(pair.second) as second:
            one = Content(pair.first, pair.first, first)
            other = Content(pair.second, pair.second, second)
            self._contents(pair, one, other)

    def _contents(
        self, pair: Pair, first: Content, second: Content, is_member: bool = False
    ) -> None:
        kinds = kind_of(first.source), kind_of(second.source)
        if is_member:
            kinds = without_archives(kinds[0]), without_archives(kinds[1])
        foreign = [it for it, kind in zip((first, second), kinds) if kind not in _COMPARED]
        if foreign and pair.is_named and not self._options.others:
            for it in foreign:
                self._canonical(it, False)
        elif kinds[0] != kinds[1]:
            self._differ(pair.name, [self._sides.both("it", *(KINDS[it] for it in kinds))])
        elif kinds[0] == "archive":
            self._archives(pair, first, second)
        elif not foreign:
            self._elf(pair.name, first, second, kinds[0] == "image")
        elif self._options.others:
            self._others(pair.name, first.source, second.source)
        else:
            self.counts.skipped[kinds[0]] += 1

    def _elf(self, name: bytes, first: Content, second: Content, is_image: bool) -> None:
        """Two objects by their canonical layout, or two programs by their bytes."""
        one = self._canonical(first, is_image)
        other = self._canonical(second, is_image)
        if one is None or other is None:
            return
        compared = image_differences if is_image else object_differences
        ignores = self._options.ignore_debug
        found = iter(() if one == other else compared(self._sides, one, other, ignores))
        # Without debug information there may be no difference.
        lead = next(found, None)
        if lead is None:
            self.counts.same += 1
        else:
            self._differ(name, chain([lead], found))

    def _canonical(self, it: Content, is_image: bool) -> Optional[elfmap._Bytes]:
        """The bytes to compare; none where the file is refused, which is printed."""
        content = whole_content(it.source)
        try:
            if not is_image:
                return elfmap.rewrite(content)
            elfmap.check(content)
            return content
        except elfmap.Refused as refused:
            told = explain(Words(it.source), refused.rule, refused.offset)
            rule = f"{RULES[refused.rule][0]} ({refused.rule})"
            self._lose(it.path, f"offset {refused.offset:#x}: {rule}: {told.message}")
        except elfmap.TooLong:
            self._lose(it.path, OBJECT_TOO_LONG.sentence)
        return None

    def _others(self, name: bytes, first: Source, second: Source) -> None:
        size = min(len(first), len(second))
        for at in range(0, size, _STEP):
            one = first[at : min(at + _STEP, size)]
            other = second[at : min(at + _STEP, size)]
            if one != other:
                place = at + first_difference(one, other)
                self._differ(name, [f"the files differ at offset {place:#x}"])
                return
        if len(first) == len(second):
            self.counts.same += 1
        else:
            self._differ(name, [self._sides.both("its length", len(first), len(second))])

    # ---- Archives

    def _archives(self, pair: Pair, first: Content, second: Content) -> None:
        """The members of the same name, of several the first with the first."""
        ours = self._members(first)
        theirs = self._members(second)
        for side, own, other in ((0, ours, theirs), (1, theirs, ours)):
            for key in (it for it in own if it not in other):
                self._only(side, member_name(pair.name, key))
        common = [it for it in ours if it in theirs]
        for key in common:
            self._member_pair(member_name(pair.name, key), first, second, ours[key], theirs[key])
        if common != [it for it in theirs if it in ours]:
            self._differ(pair.name, ["its members are in another order"])

    def _members(self, archive: Content) -> dict[tuple[bytes, int], Member]:
        seen = Counter[bytes]()
        found = dict[tuple[bytes, int], Member]()
        with self._guarded(archive.path):
            for it in members(archive.source, archive.file):
                found[it.name, seen[it.name]] = it
                seen[it.name] += 1
        return found

    def _member_pair(
        self, name: bytes, first: Content, second: Content, ours: Member, theirs: Member
    ) -> None:
        with self._guarded(name):
            with Contents().opened(first.file, first.source, ours) as one:
                with Contents().opened(second.file, second.source, theirs) as other:
                    # An archive within an archive is no file that a linker reads.
                    self._contents(Pair(name, one.path, other.path), one, other, is_member=True)

    # ---- What is said

    def _differ(self, name: bytes, found: Iterable[str]) -> None:
        self.counts.differing += 1
        limit = self._options.limit
        for number, it in enumerate(found):
            if self._options.quiet:
                return
            if number == limit and limit:
                self._say(name, "and more; --limit 0 prints all")
                return
            self._say(name, it)

    def _say(self, name: bytes, words: str) -> None:
        if not self._options.quiet:
            lead = os.fsdecode(one_line(name)) + ": " if name else ""
            self._out.write(f"{lead}{words}\n")

    def _lose(self, name: bytes, reason: str) -> None:
        self.counts.lost += 1
        complain(PROGRAM, one_line(name) + b": " + reason.encode("utf-8", "backslashreplace"))

    @contextmanager
    def _guarded(self, name: bytes) -> Iterator[None]:
        """Whatever ends the look at a pair, it goes on with the next one."""
        try:
            yield
        except BrokenPipeError:
            raise
        except Unreadable as fault:
            self._lose(name, fault.reason)
        except OSError as fault:
            self._lose(os.fsencode(fault.filename) if fault.filename else name, reason_of(fault))
        except MemoryError:
            self._lose(name, "there is no memory for it")


KINDS = {
    "archive": "an archive",
    "object": "an object",
    "image": "a program or a library",
    "of class 32": "an ELF file of class 32",
    "not ELF": "no ELF file",
}


def first_difference(one: bytes, other: bytes) -> int:
    """Where two blocks differ: a file that became shorter meanwhile may have less of one."""
    for position, (ours, theirs) in enumerate(zip(one, other)):
        if ours != theirs:
            return position
    return min(len(one), len(other))


def kind_of_path(found: os.stat_result) -> str:
    names = {stat.S_IFDIR: "a directory", stat.S_IFREG: "a file", stat.S_IFLNK: "a symbolic link"}
    return names.get(stat.S_IFMT(found.st_mode), "no regular file")


def kind_of(source: Source) -> str:
    """What a file is, by its magic number and its type."""
    if is_archive(source):
        return "archive"
    head = source[:18]
    if head[:4] != _MAGIC:
        return "not ELF"
    if head[4:5] == bytes([_CLASS_32]):
        return "of class 32"
    number = int.from_bytes(head[16:18], "big" if head[5:6] == b"\2" else "little")
    return "object" if number == _RELOCATABLE or len(head) < 18 else "image"


def without_archives(kind: str) -> str:
    return "not ELF" if kind == "archive" else kind


def whole_content(source: Source) -> bytearray:
    content = bytearray(min(len(source), LONGEST))
    source.read_into(memoryview(content), 0)
    return content


def member_name(archive: bytes, key: tuple[bytes, int]) -> bytes:
    name, position = key
    own = b"%s(%s)" % (archive, name)
    return own + b" number %d" % (position + 1) if position else own


def _parser() -> Parser:
    parser = Parser(
        prog=PROGRAM,
        description=(
            "Compares two objects, archives of objects, or directories, and prints what differs, by"
            " name."
        ),
        epilog="Status: 0 the same, 1 different, 2 usage, 3 something can't be read or is refused.",
    )
    add = parser.add_argument
    add("--version", action="version", version=f"%(prog)s {__version__}")
    add("first", metavar="A", help="a file, an archive, or a directory")
    add("second", metavar="B", help="one to compare with it")
    add("-q", "--quiet", action="store_true", help="print nothing: the status says it")
    add(
        "--limit",
        metavar="N",
        type=int,
        default=_LIMIT,
        help=f"print at most N differences of a file, or all with 0 (default: {_LIMIT})",
    )
    add(
        "--ignore-debug",
        action="store_true",
        help="compare no debug sections, nor the build ids of programs and libraries",
    )
    add(
        "--others",
        action="store_true",
        help=(
            "compare files that are no ELF-64 files too, by their bytes; without it they are"
            " skipped"
        ),
    )
    return parser


def main(words: Optional[Sequence[str]] = None) -> int:
    """Runs the program, and returns its status."""
    options = _parser().parse_args(words)
    if options.limit < 0:
        complain(PROGRAM, b"--limit needs a number from 0 on")
        return USAGE
    _library.library()
    with open(1, "w", closefd=False, encoding="utf-8", errors="surrogateescape") as out:
        run = Run(options, out)
        run.compare()
    return run.counts.status()


def script() -> None:
    """The console script."""
    run_script(PROGRAM, main)


if __name__ == "__main__":
    script()
