"""What a caller of the package sees beside its answers: pickled records, closed files, constants,
columns, help and types."""

import array
import ast
import copy
import ctypes
import mmap
import os
import pickle
import pydoc
import re
import shutil
import struct
import subprocess
import sys
import tempfile
import time
import tracemalloc
import unittest
from pathlib import Path
from unittest import mock

import elfmap
from elfmap import _declared, _library, _link_places, build, constants

from tests.made import (
    GOOD,
    NAMES,
    PACKAGE,
    SHARING,
    FolderCase,
    Made,
    relocations,
    setUpModule,
    symbols,
    text,
)  # noqa: F401

sys.path.insert(0, str(build.REPOSITORY / "tools" / "lib"))
from elfmap_tools import dump as reference  # noqa: E402

ELF_H = Path("/usr/include/elf.h")
NOTES = (
    struct.pack("<3I", 4, 5, 1)
    + b"abc\0"
    + b"12345\0\0\0"
    + struct.pack("<3I", 2, 0, 3)
    + b"d\0\0\0"
)
NOTED = bytes(Made(text(), (b".note", 7, NOTES, {}), (b".bss", 8, b"", dict(size=9))).data)


class PickleTest(unittest.TestCase):
    def setUp(self):
        self.executable = elfmap.parse(
            (build.REPOSITORY / "crates/example_link/stdout").read_bytes()
        )
        self.file = elfmap.parse(NOTED)

    def copies(self, it):
        for protocol in range(pickle.HIGHEST_PROTOCOL + 1):
            yield pickle.loads(pickle.dumps(it, protocol))
        yield copy.copy(it)
        yield copy.deepcopy(it)

    def test_records(self):
        every = [
            self.file.header,
            self.file.summary,
            *self.file.sections,
            *self.file.notes(2),
            *self.file.parts,
            *self.executable.segments,
        ]
        for it in every:
            for other in self.copies(it):
                self.assertEqual((type(other), other), (type(it), it))
        for other in self.copies(self.file.sections[1]):
            self.assertEqual(
                (type(other.content), other.content.readonly, bytes(other.content)),
                (memoryview, True, b"\x90" * 0x33),
            )

    def test_sequences(self):
        for it in (
            self.file.sections,
            self.executable.segments,
            self.file.notes(2),
            self.file.notes(1),
        ):
            for other in self.copies(it):
                self.assertEqual(other, [*it])

    def test_files(self):
        for other in self.copies(self.file):
            self.assertEqual(
                (other.summary, [*other.sections]), (self.file.summary, [*self.file.sections])
            )
        # It is validated where it is unpickled: here class 64 has become class 32.
        dumped = pickle.dumps(elfmap.parse(NOTED))
        with self.assertRaises(elfmap.Refused):
            pickle.loads(dumped.replace(b"\x7fELF\2\1\1", b"\x7fELF\1\1\1"))

    def test_errors(self):
        """Copies have all that they have; and what `repr` writes makes them again."""
        for error in (
            elfmap.Refused(33, 240),
            elfmap.Refused(8, 52, 2),
            elfmap.NotLinked(6, 0, 1, 2, b"name"),
            elfmap.NotLinked(9, 3, 4, 5),
            elfmap.TooLong(),
            elfmap.BadRules(3),
        ):
            for other in (*self.copies(error), eval(repr(error), vars(elfmap))):
                own, its = ((type(it), str(it), repr(it), vars(it)) for it in (error, other))
                self.assertEqual(its, own)


class ClosedTest(FolderCase):
    def test_the_bytes_are_free(self):
        data = bytearray(GOOD)
        with elfmap.parse(data) as file:
            self.assertEqual(file.sections[1].name, b".text")
            with self.assertRaises(BufferError):
                data.append(0)
        data.append(0)
        file.close()

    def test_the_bytes_of_a_refused_file_are_free(self):
        """Also while the error is looked at."""
        data = bytearray(SHARING)
        try:
            elfmap.parse(data)
        except elfmap.Refused as refused:
            data.append(0)
            self.assertEqual((refused.rule, len(data)), (33, len(SHARING) + 1))
        else:
            self.fail("it is not refused")

    def test_what_is_closed(self):
        file = elfmap.parse(NOTED)
        sections = file.sections
        notes = file.notes(2)
        content = file.sections[1].content
        file.close()
        for call in (
            lambda: file.header,
            lambda: file.summary,
            lambda: file.parts,
            lambda: file.load(0),
            lambda: file.notes(2),
            lambda: file.columns(2),
            lambda: file.words(2),
            lambda: sections[1],
            lambda: notes[0],
            lambda: [*notes],
            lambda: pickle.dumps(file),
        ):
            self.assertRaises(ValueError, call)
        self.assertEqual((repr(file), bytes(content)), ("<elfmap.File: closed>", b"\x90" * 0x33))

    def test_a_mapped_file(self):
        self.put(good__o=GOOD)
        with open("good.o", "rb") as it, mmap.mmap(it.fileno(), 0, access=mmap.ACCESS_READ) as data:
            with elfmap.parse(data) as file:
                self.assertEqual(file.sections[1].name, b".text")
        self.assertTrue(data.closed)

    def test_paths(self):
        self.put(good__o=GOOD, bad__o=SHARING, empty__o=b"")
        for path in "good.o", b"good.o", Path("good.o"):
            with elfmap.open(path) as file:
                self.assertEqual((len(file.sections), file.summary.len), (3, len(GOOD)))
        for path, error in (
            ("none", FileNotFoundError),
            (".", IsADirectoryError),
            ("bad.o", elfmap.Refused),
            ("empty.o", elfmap.Refused),
        ):
            self.assertRaises(error, elfmap.open, path)
        for path in 0, None, [b"good.o"], bytearray(b"good.o"):
            self.assertRaises(TypeError, elfmap.open, path)

    def test_a_path_of_a_pipe(self):
        os.mkfifo("pipe")
        self.put(good__o=GOOD)
        with subprocess.Popen(["cp", "good.o", "pipe"]):
            self.assertEqual(elfmap.open("pipe").summary.len, len(GOOD))

    def test_a_file_that_is_too_long(self):
        """No more of it is read than its verdict needs."""
        with open("long", "wb") as it:
            it.truncate(2**40)
        with self.assertRaises(elfmap.Refused) as raised:
            elfmap.open("long")
        self.assertEqual((raised.exception.rule, raised.exception.offset), (1, 2**30))


class NotLinkedTest(unittest.TestCase):
    """The name of the symbol that a rule of the link is about, which docs/RULES.md gives by its
    position."""

    RULES = "4 pc 4 signed\n"

    def refused(self, *files, rules=RULES, **options):
        with self.assertRaises(elfmap.NotLinked) as raised:
            elfmap.link(files, rules, **options)
        return raised.exception

    def test_symbols(self):
        folder = build.REPOSITORY / "crates/example_link/data"
        start, answer = ((folder / f"{it}.o").read_bytes() for it in ("start", "answer"))
        named = [(b".strtab", 3, b"\0local\0common\0", {})]
        thread = bytes(Made(text(), symbols(3, (1, 0x16, 1)), *named).data)
        common = bytes(Made(text(), symbols(3, (7, 0x11, 0xFFF2, 3)), *named).data)
        unnamed = bytes(Made(text(), symbols(3, (0, 0x10, 1)), *named).data)
        for files, options, rule, symbol in (
            ([start], dict(base=1), 1, None),
            ([start, thread[:16] + b"\1\0\x02\0" + thread[20:]], {}, 2, None),
            ([thread], {}, 6, b"local"),
            ([unnamed], {}, 6, b""),
            ([common], {}, 7, b"common"),
            ([start, answer, answer], {}, 8, b"answer"),
            ([start], {}, 9, b"answer"),
            ([start, answer], dict(entry="nothing"), 10, b"nothing"),
            ([start, answer], dict(rules=""), 12, b"answer"),
        ):
            found = self.refused(*files, **options)
            with self.subTest(rule=rule):
                self.assertEqual((found.rule, found.symbol), (rule, symbol))
                self.assertEqual(pickle.loads(pickle.dumps(found)).symbol, symbol)
                self.assertEqual(
                    f"symbol {symbol!r}: the link is refused because " in str(found), bool(symbol)
                )

    def test_places(self):
        """Where the record is that the rule is about, and which definition is the first one."""
        strings = (b".strtab", 3, b"\0local\0", {})
        made = Made(text(), symbols(3, (1, 0x16, 1)), strings)
        found = self.refused(bytes(made.data))
        place = (found.offset, found.symbol, found.first)
        self.assertEqual(place, (made.starts[2] + 24, b"local", None))
        made = Made((b".tdata", 1, bytes(8), dict(flags=0x406)))
        found = self.refused(bytes(made.data))
        self.assertEqual((found.rule, found.offset, found.symbol), (3, made.table + 64, None))
        made = Made(text(), symbols(3, *[(1, 0x10, 1)] * 2), strings)
        other = bytes(Made(text(), symbols(3, (1, 0x20, 1)), strings).data)
        found = self.refused(other, bytes(made.data))
        self.assertEqual((found.rule, found.file, found.index), (8, 1, 1))
        self.assertEqual((found.offset, found.first), (made.starts[2] + 48, (1, 0)))
        self.assertEqual(pickle.loads(pickle.dumps(found)).first, (1, 0))
        loaded = (b".text", 1, bytes(8), dict(flags=6))
        named = symbols(3, (0, 3, 1), (1, 0x10, 1), info=2)
        for number, symbol in ((2, b"local"), (1, b""), (0, None)):
            made = Made(loaded, named, strings, relocations(2, number))
            found = self.refused(bytes(made.data), entry="local")
            place = (found.rule, found.symbol, found.offset)
            self.assertEqual(place, (12, symbol, made.starts[4]))
        found = self.refused(base=1)
        self.assertEqual((found.symbol, found.offset, found.first), (None, None, None))

    def test_a_definition_that_is_discarded(self):
        """One in a section of a group that an earlier file has is not the first one."""
        group = (b".group", 17, struct.pack("<2I", 1, 2), dict(link=3, info=1, entsize=4, align=4))
        member = (b".text.g", 1, bytes(8), dict(flags=0x206))
        strings = (b".strtab", 3, b"\0g\0twice\0", {})
        files = []
        for rows in ([], [(3, 0x10, 2)]):
            table = symbols(4, (1, 0, 2), *rows, info=2)
            files.append(bytes(Made(group, member, table, strings).data))
        plain = Made((b".text", 1, bytes(8), dict(flags=6)), symbols(3, (3, 0x10, 1)), strings)
        found = self.refused(*files, bytes(plain.data), bytes(plain.data), entry="twice")
        self.assertEqual((found.rule, found.file, found.symbol), (8, 3, b"twice"))
        self.assertEqual(found.first, (2, 0))

    def test_numbers_that_are_no_place(self):
        """ctypes would take them modulo 2^64, and a rule modulo 2^16."""
        views = [memoryview(bytes(Made(text(), symbols(3, (0, 3, 1)), (b"", 3, b"", {})).data))]
        self.assertTrue(_link_places.link_place(views, (6, 0, 0, 0)))
        for site in (
            (6 + 2**16, 0, 0, 0),
            (6, 2**64, 0, 0),
            (6, 0, 2**64, 0),
            (6, 0, 0, 2**64),
        ):
            self.assertIsNone(_link_places.link_place(views, site))

    def test_without_a_symbol(self):
        self.assertEqual(elfmap.NotLinked(9, 0, 0, 0).symbol, None)
        self.assertIn(" in file 0: the link is refused because ", str(elfmap.NotLinked(9, 0, 0, 0)))

    def test_a_long_name(self):
        name = b"n" * 10_000
        found = self.refused(
            bytes(
                Made(
                    text(), symbols(3, (1, 0x10, 0)), (b".strtab", 3, b"\0" + name + b"\0", {})
                ).data
            )
        )
        self.assertEqual((found.symbol, str(found).count("n") < 500), (name, True))

    def test_names_about_as_long_as_what_is_read_at_once(self):
        for length in (4095, 4096, 4097, 1 << 16, (1 << 16) + 1):
            name = b"n" * length
            strings = (b".strtab", 3, b"\0" + name + b"\0more\0", {})
            found = self.refused(bytes(Made(text(), symbols(3, (1, 0x10, 0)), strings).data))
            self.assertEqual(found.symbol, name)

    def test_the_memory(self):
        """Of a long file only what is looked at is copied; and where there is no memory for the
        name, it is the link that is refused all the same."""
        strings = (b".strtab", 3, b"\0f\0" + bytes(1 << 22), {})
        made = Made(text(content=bytes(1 << 24)), symbols(3, (1, 0x10, 0)), strings)
        views = [memoryview(made.data)]
        tracemalloc.start()
        self.addCleanup(tracemalloc.stop)
        outcome = _declared.Outcome(0, 0, 0, 0, 9)
        self.assertEqual(elfmap._not_linked(outcome, views, b"").symbol, b"f")
        self.assertLess(tracemalloc.get_traced_memory()[1], 1 << 20)
        lacking = mock.patch.object(_link_places, "link_place", side_effect=MemoryError)
        with lacking:
            self.assertEqual(self.refused(made.data).symbol, None)
        call = "elfmap_link_place"
        with mock.patch.object(_library.library(), call, return_value=_declared.NO_MEMORY):
            found = self.refused(made.data)
        self.assertEqual((found.rule, found.symbol, found.offset), (9, None, None))


class ColumnsTest(unittest.TestCase):
    # The places of the numbers in the lines of the reference implementation, behind the index of
    # the section.
    PLACES = {
        "symbol": {"st_value": 0, "st_size": 1, "st_shndx": 3, "st_info": 4, "st_other": 5},
        "relocation": {"r_offset": 0, "r_addend": 1, "symbol": 2, "relocation_type": 3},
        "dynamic": {"d_tag": 0, "d_un": 1},
    }

    def test_the_numbers_of_the_reference(self):
        seen = set()
        for number, content in enumerate(
            it for it in reference.files() if len(it) <= reference.LONG
        ):
            lines = [it.split(" ") for it in reference.lines_of(content)]
            broken = {it[1] for it in lines if it[0] == "broken"}
            rows = [it for it in lines if it[0] in self.PLACES and it[1] not in broken]
            file = elfmap.parse(content) if rows else None
            for kind, section in {(it[0], it[1]) for it in rows}:
                own = [it[2:] for it in rows if it[:2] == [kind, section]]
                found = file.columns(int(section))
                for field, place in self.PLACES[kind].items():
                    with self.subTest(file=number, section=section, field=field):
                        self.assertEqual([*found[field]], [int(it[place]) for it in own])
                seen.add((kind, content[5]))
        self.assertEqual(seen, {(kind, order) for kind in self.PLACES for order in (1, 2)})

    def test_the_fields(self):
        """Those of the records, but for names and the section of a symbol."""
        for order in "<>":
            table = symbols(3, (1, 0x10, 1, 7), (3, 0x22, 1), order=order)
            made = Made(text(), table, (b".strtab", 3, b"\0f\0g\0", {}), order=order)
            file = elfmap.parse(made.data)
            found = file.columns(2)
            wanted = {
                "st_name": [0, 1, 3],
                "st_info": [0, 0x10, 0x22],
                "st_other": [0, 0, 0],
                "st_shndx": [0, 1, 1],
                "st_value": [0, 7, 0],
                "st_size": [0, 0, 0],
            }
            self.assertEqual([*found], [*wanted])
            self.assertEqual({name: [*it] for name, it in found.items()}, wanted)
            for it in (1, 99, 2**64 + 2, -1):
                self.assertEqual(file.columns(it), {})
            self.assertTrue(all(memoryview(it).c_contiguous for it in found.values()))

    def test_symbols_without_a_word(self):
        """A table that breaks a rule has as many numbers as entries, though a symbol has no word in
        an index table."""
        made = Made(text(), symbols(3, (1, 0x10, 0xFFFF), (1, 0x20, 1)), (b"", 3, b"\0f\0", {}))
        file = elfmap.parse(made.data)
        self.assertEqual([*file.columns(2)["st_shndx"]], [0, 0xFFFF, 1])
        self.assertEqual([*file.columns(2)["st_info"]], [0, 0x10, 0x20])

    def test_many_entries(self):
        """More than one call reads."""
        named = [*range((1 << 15) + 3)]
        strings = (b".strtab", 3, b"\0f\0", {})
        made = Made(text(), symbols(3, (1, 0x10, 0)), strings, relocations(2, *named))
        # As one value: unittest takes minutes to say where two long lists differ.
        found = elfmap.parse(made.data).columns(4)["symbol"]
        self.assertEqual(found == array.array("I", named), True)

    def test_addends_have_signs(self):
        entries = struct.pack("<QQqQQq", 0, 1 << 32 | 2, -4, 8, 1 << 32 | 2, 2**63 - 1)
        rows = (b".rela.text", 4, entries, dict(link=2, info=1, entsize=24))
        strings = (b".strtab", 3, b"\0f\0", {})
        file = elfmap.parse(Made(text(), symbols(3, (1, 0x10, 0)), strings, rows).data)
        self.assertEqual([*file.columns(4)["r_addend"]], [-4, 2**63 - 1])
        self.assertEqual([it.r_addend for it in file.relocations(4)], [-4, 2**63 - 1])

    def test_relocations_without_addends(self):
        entries = struct.pack("<4Q", 8, 1 << 32 | 2, 16, 1 << 32 | 4)
        rows = (b".rel.text", 9, entries, dict(link=2, info=1, entsize=16))
        made = Made(text(), symbols(3, (1, 0x10, 0)), (b".strtab", 3, b"\0f\0", {}), rows)
        file = elfmap.parse(made.data)
        found = file.columns(4)
        columns = [found[it] for it in elfmap.Relocation._fields]
        self.assertEqual([*zip(*columns)], [*map(tuple, file.relocations(4))])
        self.assertEqual([*found["relocation_type"]], [2, 4])

    def test_the_time(self):
        """A microsecond of the processor for each entry, with all its fields."""
        count = 65_012
        strings = (b".strtab", 3, b"\0f\0", {})
        many = relocations(2, *[1] * count)
        file = elfmap.parse(Made(text(), symbols(3, (1, 0x10, 0)), strings, many).data)
        times = []
        for _ in range(3):
            begun = time.process_time()
            found = file.columns(4)
            times.append(time.process_time() - begun)
        self.assertEqual({len(it) for it in found.values()}, {count})
        self.assertLess(min(times), count * 1e-6)


class WordsTest(unittest.TestCase):
    def made(self, order="<"):
        """A group, an index table and a hash table, with a word of each that takes four bytes."""
        words = {
            2: (0x11223344, 1),
            4: (0, 0x55667788),
            5: (1, 2, 1, 0, 0),
        }
        contents = {k: struct.pack(f"{order}{len(it)}I", *it) for k, it in words.items()}
        rows = (
            text(),
            (b".group", 17, contents[2], dict(link=3, info=1, entsize=4)),
            symbols(6, (1, 0x10, 0xFFFF), order=order),
            (b".symtab_shndx", 18, contents[4], dict(link=3, entsize=4)),
            (b".hash", 5, contents[5], dict(link=3, entsize=4)),
            NAMES,
        )
        return elfmap.parse(Made(*rows, order=order).data), words

    def test_each_kind_of_table(self):
        for order in "<>":
            file, words = self.made(order)
            for index, right in words.items():
                found = file.words(index)
                self.assertEqual((found.typecode, tuple(found)), ("I", right))

    def test_of_no_other_section(self):
        file, words = self.made()
        for index in {*range(10), 99, 2**64 + 2, -1} - words.keys():
            self.assertEqual((file.words(index).typecode, [*file.words(index)]), ("I", []))

    def test_a_word_that_is_cut(self):
        made = Made(text(), (b".group", 17, bytes(range(7)), dict(link=3)), symbols(4), NAMES)
        self.assertEqual([*elfmap.parse(made.data).words(2)], [0x03020100])


class NotesTest(unittest.TestCase):
    def test_a_note_by_its_index(self):
        """Nothing is read but the notes before it."""
        count = 1000
        file = elfmap.parse(Made(text(), (b".note", 7, NOTES * count, {})).data)
        notes = file.notes(2)
        every = [(b"abc", 1, b"12345"), (b"d", 3, b"")] * count
        call = _library.library().elfmap_note_at
        with mock.patch.object(_library.library(), "elfmap_note_at", side_effect=call) as counted:
            self.assertEqual((tuple(notes[0]), counted.call_count), (every[0], 1))
            self.assertEqual(tuple(notes[9]), every[9])
            self.assertLess(counted.call_count, 15)
            # To count them none is read.
            before = counted.call_count
            self.assertEqual((len(notes), counted.call_count), (2 * count, before))
            self.assertEqual([tuple(notes[it]) for it in range(2 * count)], every)
            self.assertLess(counted.call_count, 5 * count)

    def test_they_are_a_sequence(self):
        notes = elfmap.parse(NOTED).notes(2)
        first, second = notes
        self.assertEqual((tuple(first), tuple(second)), ((b"abc", 1, b"12345"), (b"d", 3, b"")))
        self.assertEqual(
            (notes[-1], notes[-2], notes[:1], notes[::-1], notes[5:]),
            (second, first, [first], [second, first], []),
        )
        for it in 2, -3, 2**64:
            self.assertRaises(IndexError, notes.__getitem__, it)
        self.assertEqual(
            (len(elfmap.parse(NOTED).notes(1)), bool(notes), first in notes), (0, True, True)
        )

    def test_the_count_is_that_of_the_notes(self):
        """Also in the tables that the reference refuses."""
        for number, content in enumerate(reference.files()):
            try:
                file = elfmap.parse(content)
            except elfmap.Refused:
                continue
            for index, section in enumerate(file.sections):
                if section.sh_type == elfmap.SHT.NOTE:
                    with self.subTest(file=number, section=index):
                        self.assertEqual(len([*file.notes(index)]), len(file.notes(index)))


class ConstantsTest(unittest.TestCase):
    NAMES = "DT EM ET PF PT SHF SHN SHT STB STT STV".split()

    def test_they_are_names_of_the_package(self):
        types = {name: it for name, it in vars(constants).items() if isinstance(it, type)}
        own = {name for name, it in types.items() if it.__module__ == constants.__name__}
        self.assertEqual(own, {*self.NAMES})
        for it in self.NAMES:
            self.assertIs(getattr(elfmap, it), getattr(constants, it))

    def test_fields_are_equal_to_them(self):
        file = elfmap.parse(GOOD)
        wanted = [elfmap.SHT.NULL, elfmap.SHT.PROGBITS, elfmap.SHT.STRTAB]
        self.assertEqual([it.sh_type for it in file.sections], wanted)
        self.assertEqual(file.header.e_type, elfmap.ET.REL)
        self.assertEqual(file.header.e_machine, elfmap.EM.X86_64)

    @unittest.skipUnless(ELF_H.is_file(), "elf.h is not installed")
    def test_the_header_of_the_c_library(self):
        """A number there is written as such, or as a bit."""
        line = r"^#define\s+([A-Z]+)_(\w+)\s+(?:\((\d+)U? << (\d+)\)|(0x[0-9a-fA-F]+|\d+)\b)"
        known = {}
        for kind, name, one, bit, number in re.findall(line, ELF_H.read_text(), re.M):
            known[kind, name] = int(number, 0) if number else int(one) << int(bit)
        for kind in self.NAMES:
            for name, it in getattr(elfmap, kind).__members__.items():
                self.assertEqual(known[kind, name], it, f"{kind}_{name}")


class HelpTest(unittest.TestCase):
    def test_what_is_public_is_listed(self):
        """What the module defines, or takes from the package, is in `__all__`, is a name of the
        gABI, or is private; and README.md has it."""
        listed = {*elfmap.__all__} - {"__version__"}
        own = set()
        for it in ast.parse(Path(elfmap.__file__).read_text()).body:
            if isinstance(it, ast.ImportFrom) and it.module.startswith("elfmap"):
                own |= {name.asname or name.name for name in it.names}
            elif isinstance(it, (ast.FunctionDef, ast.ClassDef)):
                own.add(it.name)
            elif isinstance(it, ast.Assign):
                own |= {name.id for name in it.targets}
        public = {it for it in own if it[0] != "_"} - {*ConstantsTest.NAMES}
        self.assertEqual(public, listed)
        read = (PACKAGE / "README.md").read_text()
        calls = {it for it in listed if it[0].islower()}
        self.assertEqual({it for it in calls if not re.search(rf"`{it}\(", read)}, set())

    def test_it_has_public_names_alone(self):
        shown = pydoc.plain(pydoc.render_doc(elfmap))
        self.assertNotIn("ForwardRef", shown)
        others = {name: it for name, it in vars(elfmap).items() if type(it) is not type(elfmap)}
        private = {it for it in others if re.match("_[^_]", it)}
        self.assertTrue(private)
        classes = shown.partition("\nCLASSES\n")[2]
        listed = re.findall(r"^ {4,8}(?:class )?(_\w+)\b(?=\(| =|$)", classes, re.M)
        self.assertEqual(private & {*listed}, set())
        self.assertRegex(shown, "(?m)^VERSION$")
        for it in {*elfmap.__all__} - {"__version__"}:
            self.assertRegex(shown, rf"(?m)^    (class )?{it}\b")


SNIPPET = """
import array, ctypes, mmap, os
from pathlib import Path
import elfmap

def said(
    data: bytes,
    mapped: mmap.mmap,
    own: "array.array[int]",
    raw: "ctypes.Array[ctypes.c_ubyte]",
) -> int:
    found = [elfmap.check(data), elfmap.check(bytearray(data))]
    found += [elfmap.check(memoryview(data)), elfmap.check(mapped)]
    found += [elfmap.check(own), elfmap.check(raw)]
    elfmap.link([data, own], "", entry=b"start")
    with elfmap.open(Path("a")) as file:
        column = file.columns(1)["r_offset"]
        is_text = file.sections[0].sh_type == elfmap.SHT.PROGBITS
        return column[0] + len(file.notes(2)[0].name) + is_text
"""


class TypesTest(FolderCase):
    def test_what_has_its_bytes_in_one_piece(self):
        class Record(ctypes.Structure):
            _fields_ = [("front", ctypes.c_char * 40), ("rest", ctypes.c_uint32 * 200)]

        data = GOOD.ljust(840, b"\0")
        wide = ctypes.create_unicode_buffer("\x7fELF", 8)
        for it in (
            (ctypes.c_ubyte * 840).from_buffer_copy(data),
            (ctypes.c_uint32 * 210).from_buffer_copy(data),
            Record.from_buffer_copy(data),
        ):
            self.assertEqual(elfmap.check(it).len, 840)
        self.assertEqual(elfmap.check(memoryview(data).cast("B", (20, 42))).len, 840)
        self.assertRaises(elfmap.Refused, elfmap.check, wide)

    @unittest.skipUnless(shutil.which("mypy"), "mypy is not installed")
    def test_a_type_checker(self):
        wrong = ('"a.o"', 'Path("a.o")', "5", "[5]", "None")
        refused = "".join(f"elfmap.check({it})\n" for it in wrong)
        Path("good.py").write_text(SNIPPET)
        Path("bad.py").write_text(f"import elfmap\nfrom pathlib import Path\n{refused}")
        environment = {**os.environ, "MYPYPATH": str(PACKAGE)}
        with tempfile.TemporaryDirectory() as cache:
            words = ["mypy", "--strict", "--python-version", "3.9", "--cache-dir", cache]
            keep = {"capture_output": True, "text": True, "env": environment}
            good, bad = (subprocess.run([*words, it], **keep) for it in ("good.py", "bad.py"))
        self.assertEqual((good.returncode, good.stderr), (0, ""), good.stdout)
        lines = re.findall(r"^bad.py:(\d+): error", bad.stdout, re.M)
        self.assertEqual(lines, [str(it) for it in range(3, 8)])


if __name__ == "__main__":
    unittest.main()
