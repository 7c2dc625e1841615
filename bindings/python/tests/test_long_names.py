"""The commands on files of long names: a text has the first 200 letters of each name, and JSON has
more. And files of 1/4 MB whose names share bytes, as many as there may be: a command takes little
time and memory beside what the library takes.
"""

import contextlib
import itertools
import json
import os
import struct
import sys
import tempfile
import time
import tracemalloc
import unittest
from pathlib import Path
from unittest import mock

from elfmap import _declared, _library, build, explain, gaps, lint, same
from elfmap._differences import Names
from elfmap._words import one_line, original_path, printable

from tests.made import (
    FolderCase,
    Made,
    relocations,
    setUpModule,
    symbols,
    text,
)  # noqa: F401
from tests.test_hostile import run

sys.path.insert(0, str(build.REPOSITORY / "tools" / "lib"))
from elfmap_tools.bounds import MB  # noqa: E402
from elfmap_tools.shapes import Shape  # noqa: E402

MOST = 200
RELA = 4
HASH = 5
GROUP = 17
HALF = MB // 8
SHAPES = {
    "symbols of one name": Shape(name=HALF, symbols=HALF // 24),
    "symbols of tails": Shape(name=HALF, symbols=HALF // 24, sharing="tails"),
    "symbols of two equal names": Shape(name=HALF // 2, symbols=HALF // 24, sharing="turns"),
    # As the names of C++ that a compiler makes.
    "symbols of other ends": Shape(name=300, symbols=MB // 340, sharing="ends"),
    "sections of one name": Shape(name=HALF, sections=HALF // 65, long="sections"),
    "sections of tails": Shape(name=HALF, sections=HALF // 65, long="sections", sharing="tails"),
    "groups": Shape(name=HALF, groups=HALF // 136, long="both"),
    "relocations": Shape(name=HALF, symbols=16, relocations=HALF // 89, long="both"),
}
# Hash tables are in no object. The library takes long for those that break no rule.
TABLES = {"hash tables": Shape(name=HALF, symbols=16, hashes=HALF // 144, long="both")}


def shown(name):
    return name if len(name) <= MOST else name[:MOST] + "…"


def broken(data):
    """The file with a wrong size of entries in each table that is no symbol table."""
    data, table = bytearray(data), int.from_bytes(data[40:48], "little")
    for at in range(table, len(data), 64):
        if int.from_bytes(data[at + 4 : at + 8], "little") in (RELA, HASH, GROUP):
            data[at + 56 : at + 64] = (9).to_bytes(8, "little")
    return bytes(data)


def with_size(data, size):
    """The file with another size of its last symbol."""
    made = bytearray(data)
    table = int.from_bytes(data[40:48], "little")
    rows = (data[at : at + 64] for at in range(table, len(data), 64))
    end = next(
        sum(int.from_bytes(it[k : k + 8], "little") for k in (24, 32)) for it in rows if it[4] == 2
    )
    made[end - 8 : end] = size.to_bytes(8, "little")
    return bytes(made)


class Case(FolderCase):
    def said(self, module, *words, stdin=b""):
        """What a command prints, in this process."""
        with contextlib.ExitStack() as stack:
            files = [stack.enter_context(tempfile.TemporaryFile()) for _ in range(2)]
            files[0].write(stdin)
            files[0].seek(0)
            for number, file in enumerate(files):
                saved = os.dup(number)
                stack.callback(os.close, saved)
                stack.callback(os.dup2, saved, number)
                os.dup2(file.fileno(), number)
            module.main(words)
            return os.pread(files[1].fileno(), 1 << 28, 0).decode()


class CutTest(Case):
    def test_names_of_sections(self):
        """Of a table that breaks a rule, in each format."""
        for length in (1, 199, 200, 201, 4000):
            name = "é" + "s" * (length - 1)
            made = Made(text(), (name.encode(), RELA, b"", dict(link=0, info=1, entsize=24)))
            self.put(a__o=bytes(made.data))
            for format in ("text", "github", "junit"):
                said = self.said(lint, "--tables", "--format", format, "a.o")
                self.assertIn(f"the section header of section 2 {shown(name)} of type RELA", said)
            whole = json.dumps(f"the section header of section 2 {name} of type RELA")[1:-1]
            self.assertIn(whole, self.said(lint, "--tables", "--format", "sarif", "a.o"))
            record = self.said(lint, "--tables", "--format", "jsonl", "a.o").splitlines()[0]
            self.assertIn(whole, record)
            self.assertEqual(json.loads(record)["sections"], [name])
            said = " ".join(self.said(explain, "a.o").split())
            self.assertIn(f"the section header of section 2 {shown(name)} of type RELA", said)

    def test_a_baseline_for_each_format(self):
        """The names of sections in it do not depend on the format."""
        table = (b"s" * 300, RELA, b"", dict(link=0, info=1, entsize=24))
        self.put(a__o=bytes(Made(text(), table).data))
        for format in ("text", "jsonl"):
            baseline = ("--write-baseline", f"known.{format}")
            self.said(lint, "--tables", "--format", format, *baseline, "a.o")
        self.assertEqual(Path("known.text").read_bytes(), Path("known.jsonl").read_bytes())
        self.assertIn(b"s" * 300, Path("known.text").read_bytes())

    def test_names_of_a_shared_byte_and_of_a_gap(self):
        for length in (200, 201):
            name = "n" * length
            made = Made(text(), (name.encode(), 1, bytes(8), {}))
            self.put(a__o=made.with_field(2, "offset", 0x72), b__o=made.with_field(1, "size", 0x13))
            said = self.said(lint, "a.o")
            self.assertIn(f"and of {shown(name)} [0x72, 0x7a) share byte 0x72", said)
            self.assertIn(f"between .text and {shown(name)}, ", self.said(gaps, "b.o"))

    def test_names_of_symbols(self):
        """Of two long names that begin alike one differs, and it has the number of no other."""
        for length in (200, 201, 300, 70000):
            first, second = (b"n" * (length - 1) + it for it in (b"a", b"b"))
            strings = b".strtab", 3, b"\0" + first + b"\0" + second + b"\0", {}
            for k, value in (("a", 3), ("b", 4)):
                table = symbols(3, (1, 0x10, 1), (2 + length, 0x10, 1, value))
                made = Made(text(), table, strings, relocations(2, 2))
                self.put(**{f"{k}__o": bytes(made.data)})
            said = self.said(same, "a.o", "b.o")
            words = "its value is 0x3 in a.o, and 0x4 in b.o"
            self.assertEqual(said, f"symbol {shown(second.decode())}: {words}\ndifferent\n")

    def test_names_of_groups_and_of_symbols_of_sections(self):
        """Both have two names."""
        name = "n" * 300
        words = struct.pack("<2I", 1, 5)
        group = (name.encode(), GROUP, words, dict(link=2, info=2, entsize=4))
        strings = b".strtab", 3, b"\0" + name.encode() + b"\0", {}
        member = b".text.f", 1, b"", dict(flags=0x200)
        made = Made(text(), symbols(3, (0, 3, 1), (1, 0x10, 1), info=2), strings, group, member)
        other = Made(text(), symbols(3, (1, 0x10, 1)), strings)
        self.put(a__o=bytes(made.data), b__o=bytes(other.data))
        said = self.said(same, "a.o", "b.o").splitlines()
        self.assertIn(f"section {shown(name)} [{shown(name)}] is only in a.o", said)
        self.assertIn("symbol of section .text is only in a.o", said)


class TwinsTest(Case):
    """Names that agree in their first 200 letters. Both files have all of them, and what is about
    the one is about the other."""

    TWINS, MEMBERS = ([letter * 250 + it for it in (b"a", b"b")] for letter in (b"n", b"m"))
    NAME, MEMBER = (shown(it[0].decode()) for it in (TWINS, MEMBERS))

    def twins(self, *, symbol=1, target=1, link=1, info=1, section=1, members=((10,), (11,))):
        strings = b"\0" + b"\0".join(self.TWINS) + b"\0answer\0"
        places = [strings.index(it) for it in (*self.TWINS, b"answer")]
        rows = [(it, 0x10, k) for it, k in zip(places, (1, 1, section))]
        relocation = struct.pack("<QQq", 0, symbol << 32 | 2, 0)
        groups = []
        for k, it in enumerate(members, 1):
            words = struct.pack(f"<{1 + len(it)}I", 1, *it)
            groups.append((b".group", GROUP, words, dict(link=3, info=k, entsize=4)))
        made = Made(
            *(text(it) for it in self.TWINS),
            symbols(4, *rows),
            (b".strtab", 3, strings, {}),
            (b".rela", RELA, relocation, dict(link=3, info=target, entsize=24)),
            (b".linked", 1, b"\1", dict(link=link)),
            (b".informed", 1, b"\1", dict(flags=0x40, info=info)),
            *groups,
            *((it, 1, b"\1", dict(flags=0x200)) for it in self.MEMBERS),
        )
        return bytes(made.data)

    def assertSaid(self, one, other, *lines):
        self.put(a__o=one, b__o=other)
        self.assertEqual(self.said(same, "a.o", "b.o").splitlines(), [*lines, "different"])

    def test_places(self):
        for what, words in (
            ("target", "section .rela: its target"),
            ("link", "section .linked: sh_link"),
            ("info", "section .informed: sh_info"),
            ("section", "symbol answer: its section"),
        ):
            line = f"{words} is {self.NAME} in a.o, and {self.NAME} in b.o"
            self.assertSaid(self.twins(), self.twins(**{what: 2}), line)

    def test_a_relocation(self):
        words = f"R_X86_64_PC32 at 0x0 of {self.NAME} to {self.NAME} +0x0"
        line = f"section .rela: relocation 0 is {words} in a.o, and {words} in b.o"
        self.assertSaid(self.twins(), self.twins(symbol=2), line)

    def test_members(self):
        """Each is in the other group, or both are in one."""
        group = f"section .group [{self.NAME}]"
        lines = [f"{group}: member {self.MEMBER} is only in {file}.o" for file in "ab"]
        self.assertSaid(self.twins(), self.twins(members=[(11,), (10,)]), *lines, *lines)
        sizes = [f"{group}: its size is {it} in a.o, and 0x8 in b.o" for it in ("0xc", "0x4")]
        found = (sizes[0], lines[0], sizes[1], lines[1])
        self.assertSaid(self.twins(members=[(10, 11), ()]), self.twins(), *found)


class NamesTest(unittest.TestCase):
    def test_equal_names_are_one_object(self):
        """Of tables whose names have lengths about 256 and its multiples, and differ in one letter
        or in none."""
        names = Names()
        found = []
        for length in (255, 256, 257, 511, 512, 513, 768, 900):
            for changed in (None, 0, 1, 255, 256, length - 257, length - 256, length - 1):
                name = bytearray(b"n" * length)
                if changed is not None:
                    name[changed % length] = ord("m")
                table = b"\0" + name + b"\0" + name[1:]
                first = [0, 1, 2, 3, abs(length - 256)]
                second = [length, length + 1, length + 2]
                offsets = [*first, *second, len(table), len(table) + 1]
                at = names.of(table, offsets)
                self.assertEqual(set(at), set(offsets))
                found += [(table[it:].partition(b"\0")[0], at[it]) for it in offsets]
        for name, it in found:
            are_equal = [name == other for other, _ in found]
            self.assertEqual(are_equal, [it is other for _, other in found])
        self.assertEqual({front_of(it) for _, it in found}, {name[:3] for name, _ in found})


def front_of(name):
    return name[:3] if isinstance(name, bytes) else name.front(3)


class EscapeTest(Case):
    # Letters that can't be printed, and the one that begins an escape.
    ESCAPES = {
        b"\x80": "\\x80",
        "\x80".encode(): "\\u0080",
        b"\x1b": "\\x1b",
        b"\n": "\\n",
        "\u200b".encode(): "\\u200b",
        "\U000e0001".encode(): "\\U000e0001",
        b"\\": "\\\\",
    }

    def test_letters_that_are_escaped(self):
        """Each is one of the 200, and none is cut in two."""
        self.put(b__o=bytes(Made(text()).data))
        for letter, escape in self.ESCAPES.items():
            for before, letters in ((0, 200), (0, 201), (198, 201), (199, 201), (200, 201)):
                after = letters - before
                name = b"n" * before + letter * after
                table = (name, RELA, b"", dict(link=0, info=1, entsize=24))
                self.put(a__o=bytes(Made(text(), table).data))
                words = "n" * before + escape * min(after, MOST - before) + "…" * (letters > MOST)
                said = self.said(lint, "--tables", "a.o")
                self.assertIn(f"the section header of section 2 {words} of type RELA", said)
                self.put(a__o=bytes(Made(text(), (name, 1, b"", {})).data))
                said = self.said(same, "a.o", "b.o")
                self.assertEqual(said, f"section {words} is only in a.o\ndifferent\n")

    def test_two_names_differ_in_print(self):
        """A name may have what an escape looks like."""
        pieces = (b"\\", b"x", b"1", b"b", b"u", b"0", b"8", b"n", b"\x1b", b"\x80", b"\xc2", b"\n")
        counts = range(1, 5)
        made = (it for count in counts for it in itertools.product(pieces, repeat=count))
        names = {b"".join(it) for it in made}
        for printed in (printable, one_line):
            self.assertEqual(len({printed(it) for it in names}), len(names))
        for it in names:
            self.assertEqual(original_path(one_line(it)), it)

    def test_nothing_is_kept_of_letters(self):
        """A process prints those of many files, and each may have other ones."""
        tracemalloc.start()
        self.addCleanup(tracemalloc.stop)
        for first in range(0xE000, 0xF000, 0x100):
            printable("".join(map(chr, range(first, first + 0x100))).encode())
        self.assertLess(tracemalloc.get_traced_memory()[0], 1 << 16)


class CostTest(Case):
    """What the commands take: of the processor at most a second for a MB in and out."""

    def own_seconds(self, module, *words, stdin=b""):
        """The seconds of the processor that a command takes by itself, without those of the
        library, and the bytes in and out."""
        library = _library.library()
        spent = [0.0]

        def timed(call):
            def made(*given):
                begun = time.process_time()
                try:
                    return call(*given)
                finally:
                    spent[0] += time.process_time() - begun

            return made

        with contextlib.ExitStack() as stack:
            for name in _declared.CALLS:
                stack.enter_context(mock.patch.object(library, name, timed(getattr(library, name))))
            begun = time.process_time()
            said = self.said(module, *words, stdin=stdin)
            took = time.process_time() - begun - spent[0]
        read = sum(os.path.getsize(it) for it in words if os.path.isfile(it))
        return took, len(said) + len(stdin) + read, said

    def assertQuick(self, what, module, *words, stdin=b""):
        took, moved, said = self.own_seconds(module, *words, stdin=stdin)
        if took > moved / MB:
            # Other work on the machine may lengthen one run.
            took = min(took, self.own_seconds(module, *words, stdin=stdin)[0])
        self.assertLess(took, moved / MB, f"{what}: {module.__name__} {' '.join(words)}")
        longest = max(map(len, said.splitlines()), default=0)
        self.assertLess(longest, 40 * MOST, f"{what}: {module.__name__}")
        return said

    def test_seconds(self):
        for what, shape in {**SHAPES, **TABLES}.items():
            data = shape.file()
            self.put(a__o=data, b__o=with_size(data, 7), bad__o=broken(data))
            for file in ("a.o", "bad.o") if what in SHAPES else ("bad.o",):
                found = self.assertQuick(what, lint, "-j1", "--tables", file)
                self.assertQuick(what, explain, "-", file, stdin=found.encode())
                self.assertQuick(what, gaps, file)
            if what in SHAPES:
                self.assertQuick(what, explain, "a.o")
                self.assertIn(": its size is ", self.assertQuick(what, same, "a.o", "b.o"))

    def test_seconds_of_two_tables(self):
        """The longest name begins with another letter, and its thousands of tails are the same."""
        data = Shape(name=MB // 2, symbols=MB // 2 // 24, sharing="tails").file()
        other = data.replace(b"\0nnnn", b"\0mnnn")
        self.put(a__o=data, b__o=other)
        said = self.assertQuick("symbols of tails", same, "a.o", "b.o")
        first, second = (shown(it + "n" * (MB // 2 - 1)) for it in "nm")
        lines = (f"symbol {first} is only in a.o", f"symbol {second} is only in b.o", "different")
        self.assertEqual(said, "".join(f"{it}\n" for it in lines))

    def test_memory(self):
        """Of a process of each command, with 32 MiB and 12 times the file beside what it takes of
        nothing."""
        self.put(empty__o=Shape().file())
        for what, shape in {**SHAPES, **TABLES}.items():
            data = shape.file()
            self.put(a__o=data, b__o=with_size(data, 7), bad__o=broken(data))
            names = ("a.o", "bad.o") if what in SHAPES else ("bad.o",)
            calls = []
            for call in (["lint", "-j1", "--tables"], ["gaps"], ["explain"]):
                calls += [(*call, it) for it in names]
            if what in SHAPES:
                calls.append(("same", "a.o", "b.o"))
            for call in calls:
                files = sum(it.endswith(".o") for it in call)
                least = run(*call[: len(call) - files], *["empty.o"] * files)[3]
                most = least + 32 + 12 * files * len(data) / 2**20
                self.assertLess(run(*call)[3], most, f"{what}: {' '.join(call)}")


if __name__ == "__main__":
    unittest.main()
