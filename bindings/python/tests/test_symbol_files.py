"""elfmap-symbols: its files of objects that are made here by hand or by the assembler, and how it
ends.

What is expected is written by hand, from the gABI and from the places that a link map gives.
"""

import os
import re
import shutil
import signal
import struct
import subprocess
import sys
import unittest
import zlib
from pathlib import Path
from unittest import mock

import elfmap
from elfmap import _debug_relocations, _symbol_file, build, symbols
from elfmap._elf_file import Row, object_head, with_sections
from elfmap._link_values import Names

from tests.made import (
    CLASS_32,
    ENVIRONMENT,
    SHARING,
    FolderCase,
    Made,
    setUpModule,
    with_signals,
)  # noqa: F401

PROGRAM = [sys.executable, "-m", "elfmap.symbols"]
RULES = str(build.REPOSITORY / "rules" / "x86-64.rules")
LINK = ["--base", "0x1000", "--page", "16", "--rules", RULES, "--entry"]
PROGBITS = 1
REL = 9
ALLOC = 2
CODE = 6
DATA = 3
MERGE = 0x10
GLOBAL = 0x10
LOCAL_FILE = 4


def row(name, info, section, value=0, size=0, order="<", other=0):
    """An entry of a symbol table; `name` is the offset of its name."""
    return struct.pack(f"{order}IBBHQQ", name, info, other, section, value, size)


def made(sections, rows, names, local=1, order="<", more=()):
    """A relocatable file: sections, its symbol table, and more sections after that. The string
    table is the second section after the first ones."""
    table = dict(link=len(sections) + 2, info=local, entsize=24)
    every = (b".symtab", 2, bytes(24) + b"".join(rows), table), (b".strtab", 3, names, {})
    return bytes(Made(*sections, *every, *more, order=order).data)


def start_of(content, more=(), flags=CODE):
    """An object with a section .text, in whose first byte the program begins."""
    return made([(b".text", PROGBITS, content, dict(flags=flags)), *more], START, b"\0start\0")


START = [row(1, GLOBAL, 1)]


class Case(FolderCase):
    def ran(self, *words, streams="", link=(*LINK, "start")):
        """The status, and the lines of standard error; nothing is on standard output."""
        shell = ["sh", "-c", f'"$@" {streams}', "sh", *PROGRAM, *link, *words]
        ran = subprocess.run(shell, capture_output=True, env=ENVIRONMENT)
        self.assertEqual(ran.stdout, b"")
        lines = ran.stderr.decode("utf-8", "surrogateescape").splitlines()
        return ran.returncode, [it.removeprefix("elfmap-symbols: ") for it in lines]

    def written(self, *words, **options):
        """The file that it writes, which elfmap accepts with all of its tables."""
        self.assertEqual(self.ran("-o", "ours", *words, **options), (0, []))
        data = Path("ours").read_bytes()
        self.assertEqual(elfmap.refused_tables(data), [])
        return elfmap.parse(data)

    def assembled(self, **sources):
        for name, source in sources.items():
            Path(f"{name}.s").write_text(source)
            subprocess.run(["as", f"{name}.s", "-o", f"{name}.o"], check=True)

    def symbols_of(self, file):
        """Of each symbol from 1 on its name, type and binding, section, value and size."""
        table = next(at for at, it in enumerate(file.sections) if it.sh_type == 2)
        names = {at: it.name for at, it in enumerate(file.sections)}
        return [
            (it.name, it.st_info, names.get(it.section, it.section), it.st_value, it.st_size)
            for it in list(file.symbols(table))[1:]
        ]


class FileTest(Case):
    """What is in the file."""

    def test_sections(self):
        """All fields of the section headers, by hand."""
        sections = [
            (b".text", PROGBITS, b"\x90\xc3", dict(flags=CODE, align=2)),
            (b".bss", 8, b"", dict(flags=DATA, size=5, align=4)),
            (b".names", PROGBITS, b"ab\0", dict(flags=ALLOC | MERGE | 0x20, entsize=1)),
            (b".init_array", 14, bytes(8), dict(flags=DATA, align=8, entsize=8)),
            (b".debug_str", PROGBITS, b"x\0", dict(flags=MERGE | 0x20, entsize=1)),
            (b".comment", PROGBITS, b"by hand\0", dict(align=4)),
        ]
        # A byte is between the two common symbols.
        rows = [*START, row(7, GLOBAL, 0xFFF2, 8, 11), row(14, GLOBAL, 0xFFF2, 2, 3)]
        self.put(a__o=made(sections, rows, b"\0start\0common\0small\0"))
        file = self.written("a.o")
        self.assertEqual((file.header.e_type, file.header.e_entry), (2, 0x1000))
        # Name, type, flags, address, size, alignment, and size of an entry.
        found = [(it.name, *it[1:4], it[5], *it[8:10]) for it in file.sections]
        self.assertEqual(
            found,
            [
                (b"", 0, 0, 0, 0, 0, 0),
                (b".text", 1, CODE, 0x1000, 2, 2, 0),
                (b".names", 1, ALLOC | MERGE | 0x20, 0x1010, 3, 1, 1),
                (b".init_array", 14, DATA, 0x1020, 8, 8, 8),
                (b".bss", 8, DATA, 0x1030, 5, 4, 0),
                (b"COMMON", 8, DATA, 0x1040, 15, 8, 0),
                (b".debug_str", 1, MERGE | 0x20, 0, 2, 1, 1),
                (b".comment", 1, 0, 0, 8, 4, 0),
                (b".symtab", 2, 0, 0, 4 * 24, 8, 24),
                (b".strtab", 3, 0, 0, 20, 1, 0),
                (b".shstrtab", 3, 0, 0, 84, 1, 0),
            ],
        )
        contents = [bytes(it.content) for it in file.sections[1:4]]
        self.assertEqual(contents, [b"\x90\xc3", b"ab\0", bytes(8)])
        self.assertEqual(bytes(file.sections[7].content), b"by hand\0")
        self.assertEqual(
            self.symbols_of(file),
            [
                (b"start", GLOBAL, b".text", 0x1000, 0),
                (b"common", GLOBAL | 1, b"COMMON", 0x1040, 11),
                (b"small", GLOBAL | 1, b"COMMON", 0x104C, 3),
            ],
        )

    def test_fields_that_members_differ_in(self):
        """Sections of one name and flags, of other types and sizes of entries."""
        own = dict(flags=ALLOC | MERGE, entsize=4, align=4)
        other = dict(flags=ALLOC | MERGE, entsize=8, align=8)
        comment = (b".comment", PROGBITS, b"a\0", dict(flags=MERGE | 0x20, entsize=1))
        self.put(
            a__o=start_of(b"\xc3", [(b".both", 14, bytes(4), own), comment]),
            b__o=bytes(
                Made(
                    (b".both", 15, bytes(8), other),
                    (b".comment", PROGBITS, b"b\0", dict(flags=MERGE, entsize=1)),
                    (b".other", PROGBITS, b"c\0", dict(flags=MERGE, entsize=1)),
                    (b".other", PROGBITS, b"d\0", dict(flags=MERGE, entsize=2)),
                ).data
            ),
        )
        file = self.written("a.o", "b.o")
        both = file.sections[2]
        self.assertEqual((both.name, both.sh_type, both.sh_flags), (b".both", PROGBITS, ALLOC))
        self.assertEqual((both.sh_size, both.sh_addralign, both.sh_entsize), (16, 8, 0))
        comment = file.sections[3]
        self.assertEqual((comment.name, bytes(comment.content)), (b".comment", b"a\0b\0"))
        self.assertEqual((comment.sh_flags, comment.sh_entsize), (MERGE, 1))
        other = file.sections[4]
        self.assertEqual((other.name, other.sh_flags, other.sh_entsize), (b".other", 0, 0))

    def test_notes(self):
        """They stay notes where they are notes when they are joined, or else they are bytes."""
        note = struct.pack("<III4s4s", 4, 4, 7, b"abc\0", b"desc")
        for align, is_note in ((4, True), (8, False)):
            own = (b".note.own", 7, note, dict(flags=ALLOC, align=align))
            self.put(a__o=start_of(b"\xc3", [own]), b__o=bytes(Made(own).data))
            file = self.written("a.o", "b.o")
            self.assertEqual(file.sections[2].sh_type, 7 if is_note else PROGBITS)
            self.assertEqual(len(file.notes(2)), 2 if is_note else 0)

    def test_flags_of_inputs_alone(self):
        """That a section is linked to another, or belongs to a group, is not said of the output."""
        fields = dict(flags=ALLOC | 0x40 | 0x800 | 0x8000_0000, info=1)
        self.put(a__o=start_of(b"\xc3", [(b"", PROGBITS, b"\1", fields)]))
        section = self.written("a.o").sections[2]
        self.assertEqual((section.name, section.sh_flags), (b"", ALLOC))

    def test_objects_with_their_tables_first(self):
        """Positions count the sections of an object alone: no tables of symbols and names."""
        rows = [bytes(24), row(1, 0, 5, 1), row(3, GLOBAL, 4)]
        sections = [
            (b".strtab", 3, b"\0x\0start\0", {}),
            (b".symtab", 2, b"".join(rows), dict(link=1, info=2, entsize=24)),
            (b".symtab_shndx", 18, bytes(12), dict(link=2, entsize=4)),
            (b".text", PROGBITS, b"\xc3", dict(flags=CODE)),
            (b".data", PROGBITS, b"ab", dict(flags=DATA)),
        ]
        self.put(a__o=bytes(Made(*sections).data))
        found = self.symbols_of(self.written("a.o"))
        self.assertEqual(found[0], (b"x", 0, b".data", 0x1011, 0))
        self.assertEqual(found[1], (b"start", GLOBAL, b".text", 0x1000, 0))

    def test_names_that_are_no_text(self):
        odd = b"\xff\n \x80#"
        names = b"\0start\0" + odd + b"\0-\0#\0"
        at = len(b"\0start\0")
        rows = [
            row(at, LOCAL_FILE, 0xFFF1),
            row(at, 0, 1, 1),
            row(1, GLOBAL, 1),
            row(at + 6, GLOBAL, 1, 2),
            row(at + 8, GLOBAL, 2, 1),
        ]
        text = (b".text", PROGBITS, b"\x90\x90\xc3", dict(flags=CODE))
        sections = [text, (odd, PROGBITS, b"ab", dict(flags=DATA)), (b"-", PROGBITS, b"c", {})]
        self.put(a__o=made(sections, rows, names, local=3))
        file = self.written("a.o")
        self.assertEqual([it.name for it in file.sections][1:4], [b".text", odd, b"-"])
        self.assertEqual(
            self.symbols_of(file),
            [
                (odd, LOCAL_FILE, 0xFFF1, 0, 0),
                (odd, 0, b".text", 0x1001, 0),
                (b"start", GLOBAL, b".text", 0x1000, 0),
                (b"-", GLOBAL, b".text", 0x1002, 0),
                (b"#", GLOBAL, odd, 0x1011, 0),
            ],
        )

    def test_an_entry_that_is_no_text(self):
        odd = b"\xff\x80"
        rows = [row(1, GLOBAL, 1, 1)]
        text = (b".text", PROGBITS, b"\x90\xc3", dict(flags=CODE))
        self.put(a__o=made([text], rows, b"\0" + odd + b"\0"))
        file = self.written("a.o", link=(*LINK, os.fsdecode(odd)))
        self.assertEqual(file.header.e_entry, 0x1001)

    def test_local_symbols(self):
        """Those of ld: no undefined ones, none of sections, and no labels of merged strings."""
        names = b"\0start\0.Llabel\0own\0"
        rows = [
            row(14 + 1, 0, 0xFFF1, 2**64 - 1, 3),
            row(0, 3, 1),
            row(7, 0, 2, 1),
            row(7, 1, 1, 1, 5),
            row(15, 0, 0),
            row(15, 1, 2, 2, 1),
            row(15, 0, 3, 3),
            row(15, 0, 4),
            row(1, GLOBAL, 1),
        ]
        sections = [
            (b".text", PROGBITS, b"\x90\xc3", dict(flags=CODE)),
            (b".names", PROGBITS, b"ab\0", dict(flags=ALLOC | MERGE | 0x20, entsize=1)),
            (b".debug_own", PROGBITS, bytes(8), {}),
            (b".attributes", 0x7000_0003, b"A", {}),
        ]
        self.put(a__o=made(sections, rows, names, local=9))
        self.assertEqual(
            self.symbols_of(self.written("a.o")),
            [
                (b"own", 0, 0xFFF1, 2**64 - 1, 3),
                (b".Llabel", 1, b".text", 0x1001, 5),
                (b"own", 1, b".names", 0x1012, 1),
                (b"own", 0, b".debug_own", 3, 0),
                (b"start", GLOBAL, b".text", 0x1000, 0),
            ],
        )
        # Each name is there once.
        (strings,) = (it for it in self.written("a.o").sections if it.name == b".strtab")
        self.assertEqual(bytes(strings.content), b"\0own\0.Llabel\0start\0")
        kept = [it.name for it in self.written("--strip-debug", "a.o").sections]
        self.assertEqual(kept[1:], [b".text", b".names", b".symtab", b".strtab", b".shstrtab"])

    def test_a_value_past_2_64(self):
        """It is stored modulo 2^64, as ld stores it."""
        sections = [
            (b".text", PROGBITS, b"\x90\xc3", dict(flags=CODE)),
            (b".debug_own", PROGBITS, b"\1" * 8, {}),
            (b".rela", 4, relocation(0, 3), dict(link=4, info=2, entsize=24)),
        ]
        rows = [row(7, 0, 1, 2**64 - 0x1000), row(1, GLOBAL, 1), row(7, GLOBAL, 1, 2**64 - 1)]
        self.put(a__o=made(sections, rows, b"\0start\0far\0", local=2))
        file = self.written("a.o")
        self.assertEqual([it[3] for it in self.symbols_of(file)], [0, 0x1000, 0xFFF])
        self.assertEqual(bytes(file.sections[2].content), struct.pack("<Q", 0xFFF))

    def test_names_in_sections_that_are_not_loaded(self):
        """Their values are offsets. Without their section they are left out."""
        sections = [
            (b".text", PROGBITS, b"\xc3", dict(flags=CODE)),
            (b".debug_own", PROGBITS, b"\1" * 16, {}),
            (b".attributes", 0x7000_0003, b"A", {}),
            (b".rela", 4, relocation(8, 2), dict(link=5, info=2, entsize=24)),
        ]
        rows = [*START, row(7, GLOBAL, 2, 5), row(9, GLOBAL, 3)]
        names = b"\0start\0x\0y\0"
        more = (b".debug_own", PROGBITS, b"\2" * 16, {})
        self.put(a__o=bytes(Made(more).data), b__o=made(sections, rows, names))
        file = self.written("a.o", "b.o")
        self.assertEqual(
            self.symbols_of(file),
            [(b"start", GLOBAL, b".text", 0x1000, 0), (b"x", GLOBAL, b".debug_own", 21, 0)],
        )
        content = bytes(file.sections[2].content)
        self.assertEqual(content, b"\2" * 16 + b"\1" * 8 + struct.pack("<Q", 21))

    def test_bindings(self):
        """The definition of a name gives its type, size and binding: the global one, a common one,
        or the first weak one."""
        text = (b".text", PROGBITS, b"\x90" * 8, dict(flags=CODE))
        names = b"\0start\0g\0c\0w\0z\0"
        weak = 0x20
        first = [
            row(1, GLOBAL, 1),
            row(7, weak | 1, 1, 1, 11),
            row(9, weak | 1, 1, 2, 12),
            row(11, weak | 1, 1, 3, 13),
            row(13, weak | 2, 0, 0, 14),
        ]
        second = [
            row(7, GLOBAL | 2, 1, 4, 21),
            row(9, GLOBAL | 1, 0xFFF2, 4, 22, other=2),
            row(11, weak | 2, 1, 5, 23),
            row(13, weak, 0),
        ]
        self.put(a__o=made([text], first, names), b__o=made([text], second, names))
        file = self.written("a.o", "b.o")
        table = [it.name for it in file.sections].index(b".symtab")
        self.assertEqual([it.st_other for it in file.symbols(table)], [0, 0, 0, 2, 0])
        self.assertEqual(
            self.symbols_of(file),
            [
                (b"start", GLOBAL, b".text", 0x1000, 0),
                (b"g", GLOBAL | 2, b".text", 0x100C, 21),
                (b"c", GLOBAL | 1, b"COMMON", 0x1010, 22),
                (b"w", weak | 1, b".text", 0x1003, 13),
            ],
        )

    def test_more_sections_than_a_symbol_can_name(self):
        count = 33_000
        objects = {}
        for it in "ab":
            sections = [
                (b"%s%d" % (it.encode(), at), PROGBITS, b"", dict(flags=ALLOC))
                for at in range(count)
            ]
            name = b"start" if it == "a" else b"far"
            last = 1 if it == "a" else count
            objects[f"{it}__o"] = made(sections, [row(1, GLOBAL, last)], b"\0" + name + b"\0")
        self.put(**objects)
        file = self.written("a.o", "b.o")
        kept = [it.name for it in file.sections]
        self.assertEqual(len(kept), 1 + 2 * count + 4)
        self.assertEqual(kept[-4:], [b".symtab", b".symtab_shndx", b".strtab", b".shstrtab"])
        self.assertEqual((file.header.e_shnum, file.header.e_shstrndx), (0, 0xFFFF))
        found = self.symbols_of(file)
        self.assertEqual([it[2] for it in found], [b"a0", b"b%d" % (count - 1)])

    def test_counts_at_the_reserved_indexes(self):
        """From 0xff00 sections on section header 0 counts them, and from that index on it has that
        of their names (gABI, chapter 4)."""
        for count, *fields in (
            (0xFEFF, 0xFEFF, 0xFEFE),
            (0xFF00, 0, 0xFEFF),
            (0xFF01, 0, 0xFFFF),
        ):
            rows = [Row(b"", PROGBITS, b"")] * (count - 2)
            file = elfmap.parse(with_sections(object_head(False, 62, 0), rows, False))
            header = file.header
            self.assertEqual([header.e_shnum, header.e_shstrndx], fields)
            self.assertEqual((len(file.sections), file.sections[-1].name), (count, b".shstrtab"))

    def test_big_objects(self):
        """Of a file that has the most significant byte first all numbers are so."""
        order = ">"
        text = (b".text", PROGBITS, b"\x90" * 4, dict(flags=CODE, align=4))
        rela = struct.pack(">QQq", 2, 1 << 32 | 10, 3)
        sections = [
            text,
            (b".debug_own", PROGBITS, bytes(6), {}),
            (b".rela", 4, rela, dict(link=4, info=2, entsize=24)),
        ]
        rows = [row(1, GLOBAL, 1, 1, 2, order=order)]
        self.put(a__o=made(sections, rows, b"\0start\0", order=order))
        file = self.written("a.o")
        self.assertEqual((file.header.e_ident[5], file.header.e_entry), (2, 0x1001))
        self.assertEqual(bytes(file.sections[2].content), b"\0\0\0\0\x10\x04")
        self.assertEqual(self.symbols_of(file), [(b"start", GLOBAL, b".text", 0x1001, 2)])


def relocation(offset, symbol, kind=1, addend=0):
    return struct.pack("<QQq", offset, symbol << 32 | kind, addend)


class DebugTest(Case):
    """Sections that are not loaded, with their relocations."""

    def test_relocations(self):
        """Of symbols of the program, and of sections that are not loaded, by their offsets."""
        text = (b".text", PROGBITS, b"\x90" * 4, dict(flags=CODE))
        entries = relocation(0, 1, 1, 2) + relocation(8, 2, 10, 1) + relocation(12, 3, 2, -4)
        sections = [
            text,
            (b".debug_own", PROGBITS, b"\xff" * 17, {}),
            (b".debug_str", PROGBITS, b"abc\0", {}),
            (b".rela", 4, entries, dict(link=5, info=2, entsize=24)),
        ]
        rows = [row(0, 3, 1), row(0, 3, 3), row(7, 0, 2, 1)]
        first = made([text, (b".debug_str", PROGBITS, b"12345", {})], START, b"\0start\0")
        own = made(sections, rows, b"\0start\0x\0", local=4)
        self.put(a__o=first, b__o=own)
        file = self.written("a.o", "b.o")
        names = [it.name for it in file.sections]
        found = bytes(file.sections[names.index(b".debug_own")].content)
        # .text of b.o is at 0x1004, its .debug_str 5 bytes after that of a.o, and the last field
        # is relative to its own offset.
        self.assertEqual(found, struct.pack("<QIiB", 0x1006, 5 + 1, 1 - 4 - 12, 0xFF))
        strings = file.sections[names.index(b".debug_str")]
        self.assertEqual(bytes(strings.content), b"12345abc\0")

    def test_fields_that_depend_on_their_place(self):
        """They are relative to their offset in the output section, after those of other objects,
        whatever other sections are in theirs."""
        text = (b".text", PROGBITS, b"\x90" * 4, dict(flags=CODE))
        sections = [
            text,
            (b".debug_all", PROGBITS, bytes(8), {}),
            (b".debug_own", PROGBITS, bytes(8), dict(align=8)),
            (b".rela", 4, relocation(0, 1, addend=3), dict(link=6, info=2, entsize=24)),
            (b".rela", 4, relocation(4, 1, 2, 8), dict(link=6, info=3, entsize=24)),
        ]
        own = made(sections, [row(0, 3, 1)], b"\0start\0", local=2)
        more = [(b".debug_all", PROGBITS, b"1", {}), (b".debug_own", PROGBITS, b"12345", {})]
        first = start_of(b"\x90" * 4, more)
        self.put(a__o=first, b__o=own, c__o=own)
        sections = self.written("a.o", "b.o", "c.o").sections
        # The sections of b.o are at 0x1004 and 8, those of c.o at 0x1008 and 16.
        found = struct.unpack("<5s3x4xi4xi", bytes(sections[3].content))
        self.assertEqual(found, (b"12345", 0x1004 + 8 - (8 + 4), 0x1008 + 8 - (16 + 4)))
        found = bytes(sections[2].content)
        self.assertEqual(found, b"1" + struct.pack("<QQ", 0x1004 + 3, 0x1008 + 3))

    def test_each_relocation_is_in_one_link(self):
        """The work does not grow with the number of output sections."""
        count = 20
        own = [(b".debug_%d" % at, PROGBITS, bytes(8), {}) for at in range(count)]
        table = dict(link=2 * count + 2, entsize=24)
        rela = [
            (b".rela", 4, relocation(0, 1, addend=at), dict(table, info=2 + at))
            for at in range(count)
        ]
        text = (b".text", PROGBITS, b"\x90" * 4, dict(flags=CODE))
        plain = made([text, *own, *rela], START, b"\0start\0")
        others = made([text, *own, *rela], [row(1, GLOBAL, 0)], b"\0start\0")
        self.put(a__o=plain, b__o=others, c__o=others)
        words = *LINK, "start", "-o", "ours", "a.o", "b.o", "c.o"
        contents = []
        # Each object alone; all that is long, alone; and what depends on its place, alone.
        for links, changed in (
            (3, dict(_AT_ONCE=1 << 20)),
            (6, dict(_AT_ONCE=count // 2 * (8 + 24))),
            (3 * count, dict(_AT_ONCE=1)),
            (3 * count, dict(_RELATIVE=("pc", "abs"))),
        ):
            with mock.patch.multiple(_debug_relocations, **changed):
                with mock.patch.object(elfmap, "map", wraps=elfmap.map) as calls:
                    self.assertEqual(symbols.main(words), 0)
            linked = [it.args[0] for it in calls.call_args_list if it.args[1:] and it.args[0]]
            self.assertEqual(len(linked), links)
            contents.append(Path("ours").read_bytes())
        self.assertEqual(contents, [contents[0]] * 4)
        file = elfmap.parse(contents[0])
        for at, it in enumerate(file.sections[2 : 2 + count]):
            self.assertEqual(bytes(it.content), struct.pack("<Q", 0x1000 + at) * 3)

    def test_fields_that_are_nowhere(self):
        """An addend that is in the field is not kept, as ld does not keep it. Fields of each width,
        in both byte orders."""
        self.put(
            own__rules=b"1 abs 8 wrap\n2 abs 4 wrap\n3 abs 2 wrap\n4 abs 1 wrap\n5 none 4 wrap\n"
        )
        offsets = (0, 1), (8, 2), (12, 3), (14, 4), (15, 5)
        for order, name, number in (("<", b".debug_info", 0), (">", b".debug_ranges", 1)):
            entries = b"".join(
                struct.pack(f"{order}QQ", at, 1 << 32 | kind) for at, kind in offsets
            )
            sections = [
                (b".text", PROGBITS, b"\xc3", dict(flags=CODE)),
                (name, PROGBITS, b"\x71" * 19, {}),
                (b".attributes", 0x7000_0003, b"A", {}),
                (b".rel", REL, entries, dict(link=5, info=2, entsize=16)),
            ]
            rows = [row(0, 3, 3, order=order), row(1, GLOBAL, 1, order=order)]
            self.put(a__o=made(sections, rows, b"\0start\0", local=2, order=order))
            link = [*LINK[:5], "own.rules", "--entry", "start"]
            content = bytes(self.written("a.o", link=link).sections[2].content)
            fields = struct.unpack(f"{order}QIHB4s", content)
            self.assertEqual(fields, (number,) * 4 + (b"\x71" * 4,))

    def test_a_field_past_the_end_that_is_nowhere(self):
        entries = struct.pack("<QQ", 1, 1 << 32 | 1)
        sections = [
            (b".text", PROGBITS, b"\xc3", dict(flags=CODE)),
            (b".debug_info", PROGBITS, bytes(8), {}),
            (b".attributes", 0x7000_0003, b"A", {}),
            (b".rel", REL, entries, dict(link=5, info=2, entsize=16)),
        ]
        self.put(a__o=made(sections, [row(0, 3, 3), *START], b"\0start\0", local=2))
        status, (line,) = self.ran("-o", "ours", "a.o")
        self.assertEqual((status, line[:36]), (1, "refused 14 0 3 0: FIELD_OUT_OF_RANGE"))

    def test_a_field_at_the_end_that_is_nowhere(self):
        entries = struct.pack("<QQ", 0, 1 << 32 | 1)
        sections = [
            (b".text", PROGBITS, b"\xc3", dict(flags=CODE)),
            (b".debug_info", PROGBITS, b"\x71" * 8, {}),
            (b".attributes", 0x7000_0003, b"A", {}),
            (b".rel", REL, entries, dict(link=5, info=2, entsize=16)),
        ]
        self.put(a__o=made(sections, [row(0, 3, 3), *START], b"\0start\0", local=2))
        self.assertEqual(bytes(self.written("a.o").sections[2].content), bytes(8))

    def test_compressed_lists_of_ranges(self):
        """The name of a section decides about its lists, whether it is compressed or not."""
        entries = relocation(0, 1)
        packed = b"ZLIB" + (8).to_bytes(8, "big") + zlib.compress(bytes(8))
        sections = [
            (b".text", PROGBITS, b"\xc3", dict(flags=CODE)),
            (b".zdebug_ranges", PROGBITS, packed, {}),
            (b".attributes", 0x7000_0003, b"A", {}),
            (b".rela", 4, entries, dict(link=5, info=2, entsize=24)),
        ]
        self.put(a__o=made(sections, [row(0, 3, 3), *START], b"\0start\0", local=2))
        section = self.written("a.o").sections[2]
        found = section.name, bytes(section.content)
        self.assertEqual(found, (b".debug_ranges", struct.pack("<Q", 1)))

    def test_fields_with_addends(self):
        """Entries of type SHT_REL have their addends in the fields."""
        entries = struct.pack("<QQ", 1, 1 << 32 | 1) + struct.pack("<QQ", 9, 2 << 32 | 1)
        content = b"\1" + struct.pack("<QQ", 7, 5)
        sections = [
            (b".text", PROGBITS, b"\xc3", dict(flags=CODE)),
            (b".debug_own", PROGBITS, content, {}),
            (b".rel", REL, entries, dict(link=4, info=2, entsize=16)),
        ]
        self.put(a__o=made(sections, [row(0, 3, 1), *START], b"\0start\0", local=2))
        found = bytes(self.written("a.o").sections[2].content)
        self.assertEqual(found, b"\1" + struct.pack("<QQ", 0x1007, 0x1005))

    @unittest.skipUnless(shutil.which("as"), "as is not installed")
    def test_what_is_not_in_the_program(self):
        """A section of a group that was discarded is the one that was kept, if that has the same
        name and size; or else its addresses are 0, and 1 in lists of ranges."""
        group = '.section .text.f,"axG",@progbits,f,comdat\n.weak f\nf: %s\n.Lend:\n'
        debug = (
            '.section %s,"",@progbits\n.quad .Lend, f, missing, own + 2\n.weak missing\n'
            '.section .gone,"G",@progbits,f,comdat\n.long 5\n'
        )
        start = ".text\n.globl start\nstart: ret\n"
        own = '.section .attributes,"",@0x70000003\nown: .long 1\n'
        for name, nowhere in ((".debug_info", 0), (".debug_ranges", 1), (".debug_loc", 1)):
            for code, end in (("nop; ret", 0x1012), ("ret", nowhere)):
                self.assembled(
                    a=start + group % "nop; ret",
                    b=group % code + debug % name + own,
                )
                file = self.written("a.o", "b.o")
                (found,) = (bytes(it.content) for it in file.sections if it.name == name.encode())
                self.assertEqual(struct.unpack("<4Q", found), (end, 0x1010, 0, nowhere))
                self.assertNotIn(b".attributes", [it.name for it in file.sections])

    @unittest.skipUnless(shutil.which("as"), "as is not installed")
    def test_definitions_that_are_discarded(self):
        """A name is bound to the weak definition that was kept."""
        group = '.section .text.f,"axG",@progbits,f,comdat\n.%s f\nf: nop\nret\n.size f, %d\n'
        self.assembled(a=".globl start\nstart: ret\n" + group % ("weak", 1), b=group % ("globl", 2))
        found = self.symbols_of(self.written("a.o", "b.o"))
        self.assertEqual(found[-1], (b"f", 0x20, b".text.f", 0x1010, 1))

    def test_relocations_that_are_discarded(self):
        """They are in a group, and what they relocate is not."""
        sections = [
            (b".debug_own", PROGBITS, bytes(8), {}),
            (b".group", 17, struct.pack("<II", 1, 3), dict(link=4, info=1, entsize=4)),
            (b".rela", 4, relocation(0, 1), dict(flags=0x200, link=4, info=1, entsize=24)),
        ]
        a = made(sections, [row(1, GLOBAL, 0)], b"\0start\0")
        self.put(a__o=start_of(b"\xc3"), b__o=a, c__o=a)
        section = self.written("a.o", "b.o", "c.o").sections[2]
        self.assertEqual(bytes(section.content), struct.pack("<QQ", 0x1000, 0))

    @unittest.skipUnless(shutil.which("as"), "as is not installed")
    def test_sections_that_are_left_out(self):
        """Those with the flag EXCLUDE, those that say what a stack may do, those of processors,
        empty ones, and the discarded ones of a group."""
        group = '.section .debug_types,"G",@progbits,t,comdat\n.long 7\n'
        more = (
            '.section .out,"e",@progbits\n.long 1\n.section .note.GNU-stack,"x",@progbits\n'
            '.long 1\n.section .attributes,"",@0x70000003\n.long 1\n'
            '.section .debug_abbrev,"",@progbits\n.section .debug_line,"",@0x7000001e\n.byte 9\n'
        )
        self.assembled(a=".globl start\nstart: ret\n" + group, b=group + more)
        file = self.written("a.o", "b.o")
        found = {it.name: bytes(it.content) for it in file.sections[1:] if not it.sh_flags & 2}
        for it in (b".symtab", b".strtab", b".shstrtab"):
            del found[it]
        self.assertEqual(found, {b".debug_types": b"\7\0\0\0", b".debug_line": b"\x09"})

    def test_alignments(self):
        """Between sections that are joined there are zeros."""
        own = [(b".debug_own", PROGBITS, b"\1\2\3", dict(align=8))]
        more = (b".debug_own", PROGBITS, b"\4\5\6", dict(align=4))
        self.put(a__o=start_of(b"\xc3", own), b__o=bytes(Made(more).data))
        section = self.written("a.o", "b.o").sections[2]
        self.assertEqual(bytes(section.content), b"\1\2\3\0\4\5\6")
        self.assertEqual((section.sh_addralign, section.sh_offset % 8), (8, 0))

    def test_compressed_sections_that_cant_be_read(self):
        packed = zlib.compress(b"a text")
        header = struct.Struct("<IIQQ")
        reasons = {
            header.pack(2, 0, 6, 1) + packed: "its compression, 2, is not known",
            header.pack(1, 0, 6, 3) + packed: "its alignment is no power of two",
            header.pack(1, 0, 6, 0) + packed: "its alignment is no power of two",
            header.pack(1, 0, 2**64 - 1, 1) + packed: self.TOGETHER,
            b"a": "it is shorter than the header of a compressed section",
        }
        damaged = {
            header.pack(1, 0, 5, 1) + packed: "it has more bytes than its header says",
            header.pack(1, 0, 7, 1) + packed: "it has fewer bytes than its header says",
            header.pack(1, 0, 6, 1) + packed[:5]: "its compressed bytes end too early",
            # The checksum at the end is missing, or cut short.
            header.pack(1, 0, 6, 1) + packed[:-4]: "its compressed bytes end too early",
            header.pack(1, 0, 6, 1) + packed[:-1]: "its compressed bytes end too early",
            header.pack(1, 0, 6, 1): "its compressed bytes end too early",
            header.pack(1, 0, 0, 1): "its compressed bytes end too early",
            header.pack(1, 0, 6, 1)
            + packed
            + b"\0": "there are more bytes after the compressed ones",
            header.pack(1, 0, 6, 1) + packed * 2: "there are more bytes after the compressed ones",
            header.pack(1, 0, 6, 1)
            + b"abc": "Error -3 while decompressing data: incorrect header check",
        }
        reasons.update({at: f"it can't be decompressed: {it}" for at, it in damaged.items()})
        for content, reason in reasons.items():
            own = (b".debug_\xff", PROGBITS, content, dict(flags=0x800))
            self.put(a__o=start_of(b"\xc3", [own]))
            advice = "; --strip-debug leaves out all sections that are not loaded"
            line = rf"a.o: section .debug_\xff: {reason}{advice}"
            self.assertEqual(self.ran("-o", "ours", "a.o"), (1, [line]))
            self.assertFalse(os.path.exists("ours"))
            self.written("--strip-debug", "a.o")
            os.unlink("ours")
        good = (b".debug_own", PROGBITS, header.pack(1, 0, 6, 4) + packed, dict(flags=0x800))
        self.put(a__o=start_of(b"\xc3", [good]))
        section = self.written("a.o").sections[2]
        self.assertEqual((bytes(section.content), section.sh_flags), (b"a text", 0))
        self.assertEqual(section.sh_addralign, 4)
        empty = header.pack(1, 0, 0, 1) + zlib.compress(b"")
        self.put(a__o=start_of(b"\xc3", [(b".debug_own", PROGBITS, empty, dict(flags=0x800))]))
        self.assertEqual(bytes(self.written("a.o").sections[2].content), b"")

    TOGETHER = (
        "with it the sections that are not loaded have more than 2^30 bytes, when they are"
        " decompressed"
    )

    def test_old_compressed_sections_that_cant_be_read(self):
        """Those of GNU, whose header is the word ZLIB and a length, its highest byte first."""
        packed = zlib.compress(b"a text")
        lead = "it can't be decompressed: "
        reasons = {
            (6, packed[:-1]): lead + "its compressed bytes end too early",
            (6, packed + b"\0"): lead + "there are more bytes after the compressed ones",
            (5, packed): lead + "it has more bytes than its header says",
            (2**30 + 1, packed): self.TOGETHER,
        }
        for (size, content), reason in reasons.items():
            content = b"ZLIB" + size.to_bytes(8, "big") + content
            self.put(a__o=start_of(b"\xc3", [(b".zdebug_own", PROGBITS, content, {})]))
            status, (line,) = self.ran("-o", "ours", "a.o")
            self.assertEqual(status, 1)
            self.assertRegex(line, rf"^a\.o: section \.zdebug_own: {re.escape(reason)}; --strip-")

    def test_a_long_name_of_a_section_that_cant_be_read(self):
        """The message has its first 200 letters."""
        for length in (200, 201):
            name = b".debug_" + b"n" * (length - 7)
            self.put(a__o=start_of(b"\xc3", [(name, PROGBITS, b"a", dict(flags=0x800))]))
            status, (line,) = self.ran("-o", "ours", "a.o")
            shown = name[:200].decode() + ("…" if length > 200 else "")
            self.assertEqual(status, 1)
            self.assertTrue(line.startswith(f"a.o: section {shown}: it is shorter"), line)

    def test_a_bound_on_all_sections(self):
        """It is on what they have when they are decompressed, together, and before any of them
        is: the stream of the first one ends too early."""
        header = struct.Struct("<IIQQ")
        half = (b".debug_half", PROGBITS, header.pack(1, 0, 2**29, 1), dict(flags=0x800))
        rest = (b".debug_rest", PROGBITS, header.pack(1, 0, 2**29 - 1, 1), dict(flags=0x800))
        self.put(
            a__o=start_of(b"\xc3", [half]),
            b__o=bytes(Made(rest, (b".debug_one", PROGBITS, b"1", {})).data),
            c__o=bytes(Made((b".debug_last", PROGBITS, b"1", {})).data),
        )
        advice = "; --strip-debug leaves out all sections that are not loaded"
        line = f"c.o: section .debug_last: {self.TOGETHER}{advice}"
        self.assertEqual(self.ran("-o", "ours", "a.o", "b.o", "c.o"), (1, [line]))
        early = "its compressed bytes end too early"
        line = f"a.o: section .debug_half: it can't be decompressed: {early}{advice}"
        self.assertEqual(self.ran("-o", "ours", "a.o", "b.o"), (1, [line]))

    def test_compressed_sections_of_big_objects(self):
        """Relocations are of the bytes that are no longer compressed."""
        content = struct.pack(">IIQQ", 1, 0, 9, 8) + zlib.compress(b"123456789")
        sections = [
            (b".text", PROGBITS, b"\xc3", dict(flags=CODE)),
            (b".debug_own", PROGBITS, content, dict(flags=0x800)),
            (b".rela", 4, struct.pack(">QQq", 1, 1 << 32 | 1, 2), dict(link=4, info=2, entsize=24)),
        ]
        rows = [row(1, GLOBAL, 1, order=">")]
        self.put(a__o=made(sections, rows, b"\0start\0", order=">"))
        section = self.written("a.o").sections[2]
        self.assertEqual(bytes(section.content), b"1" + struct.pack(">Q", 0x1002))
        self.assertEqual((section.sh_addralign, section.sh_flags), (8, 0))

    def test_relocations_without_a_rule(self):
        """The positions are those in the object, as `elfmap map` counts them."""
        entries = relocation(0, 1) + relocation(8, 1, 77)
        sections = [
            (b".text", PROGBITS, b"\xc3", dict(flags=CODE)),
            (b".first", PROGBITS, b"1", {}),
            (b".debug_own", PROGBITS, bytes(16), {}),
            (b".rela", 4, entries, dict(link=5, info=3, entsize=24)),
        ]
        self.put(a__o=start_of(b"\xc3"), b__o=made(sections, [row(7, 0, 1)], b"\0start\0x\0", 2))
        status, lines = self.ran("-o", "ours", "a.o", "b.o")
        self.assertEqual((status, len(lines)), (1, 1))
        self.assertTrue(
            lines[0].startswith("refused 12 1 3 1: NO_RULE: b.o, section 4 .rela"), lines
        )
        self.assertTrue(lines[0].endswith("leaves out all sections that are not loaded"), lines)
        self.written("--strip-debug", "a.o", "b.o")

    def test_too_long(self):
        """Sections that are not loaded, by their alignment."""
        reason = "it would be longer than 2^30 bytes, or have more than 65,534 segments"
        for align in (2**62, 2**30):
            own = [(b".debug_own", PROGBITS, b"\1", dict(align=align))]
            self.put(a__o=start_of(b"\xc3", own), b__o=bytes(Made(*own).data))
            self.assertEqual(self.ran("-o", "ours", "a.o", "b.o"), (1, [reason]))
        self.assertFalse(os.path.exists("ours"))
        self.assertEqual(self.written("a.o").sections[2].sh_addralign, 2**30)
        os.unlink("ours")
        own = [(b".debug_own", PROGBITS, b"\1", dict(align=2**63))]
        more = bytes(Made(*own).data)
        self.put(a__o=start_of(b"\xc3", own), b__o=more, c__o=more)
        status, lines = self.ran("-o", "ours", "a.o", "b.o", "c.o")
        self.assertEqual((status, lines[0][:31]), (1, "refused 11 0 0 0: ADDRESS_OVERF"))
        self.assertFalse(os.path.exists("ours"))


class BinaryTest(Case):
    """The flat image."""

    def image(self, *words, **options):
        self.assertEqual(self.ran("--binary", "flat", *words, **options), (0, []))
        return Path("flat").read_bytes()

    def test_from_the_lowest_address(self):
        """Sections in the order of addresses, zeros between them, and nothing after the last
        byte."""
        more = [
            (b".data", PROGBITS, b"abc", dict(flags=DATA)),
            (b".bss", 8, b"", dict(flags=DATA, size=100)),
            (b".empty", PROGBITS, b"", dict(flags=DATA, align=64)),
            (b".debug_own", PROGBITS, b"not loaded", {}),
        ]
        self.put(a__o=start_of(b"\x90\xc3", more))
        self.assertEqual(self.image("a.o"), b"\x90\xc3" + bytes(14) + b"abc")

    def test_a_wide_gap(self):
        more = [(b".data", PROGBITS, b"a", dict(flags=DATA, align=2**22))]
        self.put(a__o=start_of(b"\xc3", more))
        found = self.image("a.o")
        self.assertEqual((len(found), found.strip(b"\0")[:1]), (2**22 - 0x1000 + 1, b"\xc3"))
        self.assertEqual((found.count(b"\0"), found[-1:]), (len(found) - 2, b"a"))

    def test_no_bytes(self):
        """A program whose only section has no bytes in its file."""
        sections = [(b".bss", 8, b"", dict(flags=DATA, size=4))]
        self.put(a__o=made(sections, START, b"\0start\0"))
        self.assertEqual(self.image("a.o"), b"")

    def test_too_long(self):
        """The program is short, for its sections are as far apart in its file as a page."""
        more = [(b".data", PROGBITS, b"a", dict(flags=DATA, align=2**30))]
        link = ["--base", "0", "--page", "1", "--rules", RULES, "--entry", "start"]
        self.put(a__o=start_of(b"\xc3", more))
        reason = "it would be longer than 2^30 bytes, or have more than 65,534 segments"
        self.assertEqual(self.ran("--binary", "flat", "a.o", link=link), (1, [reason]))
        self.assertFalse(os.path.exists("flat"))
        link[1] = str(2**30)
        self.put(a__o=start_of(b"\xc3", [(b".data", PROGBITS, b"a", dict(flags=DATA))]))
        self.assertEqual(self.image("a.o", link=link), b"\xc3a")
        self.assertEqual(self.ran("-o", "ours", "a.o", link=link), (0, []))


class EndTest(Case):
    """How it ends, and what it leaves."""

    def setUp(self):
        super().setUp()
        self.put(a__o=start_of(b"\xc3"))

    def test_usage(self):
        """Each of these is a usage error, before a file is opened."""
        link = [*LINK, "start"]
        for number in ("", "-1", "0X10", "0xA", "0x", "1 ", "18446744073709551616", "1_0", "٣"):
            for at in (1, 3):
                changed = [*link[:at], number, *link[at + 1 :]]
                self.assertEqual(self.ran("-o", "ours", "none", link=changed)[0], 2, number)
        long = [*link[:1], "0x10000000000000000", *link[2:]], [*link[:1], "9" * 5000, *link[2:]]
        for changed in long:
            self.assertEqual(self.ran("-o", "ours", "none", link=changed)[0], 2)
        for at in range(0, 8, 2):
            changed = link[:at] + link[at + 2 :]
            self.assertEqual(self.ran("-o", "ours", "none", link=changed)[0], 2)
        wrong = {
            ("-o", "ours"): "OBJECT is missing; see --help",
            ("none",): "-o or --binary is missing; see --help",
            ("-o", "ours", *["none"] * 65): "there are more than 64 objects",
            ("-o", "ours", "--binary", "./ours", "none"): "-o and --binary are the same file",
            ("-o", "", "none"): "the FILE of -o or --binary has no name",
            ("-o", "ours", "--binary", "", "none"): "the FILE of -o or --binary has no name",
        }
        for words, reason in wrong.items():
            self.assertEqual(self.ran(*words), (2, [reason]))

    def test_an_output_that_is_an_input(self):
        """Nothing is written over an object or over the rules."""
        content = Path("a.o").read_bytes()
        for words in (["-o", "./a.o", "a.o"], ["--binary", "a.o", "a.o"], ["-o", LINK[5], "a.o"]):
            said = ["a file that is written is one that is read"]
            self.assertEqual(self.ran(*words, link=[*LINK, "start"]), (2, said), words)
        self.assertEqual(Path("a.o").read_bytes(), content)

    def test_numbers(self):
        """Decimal, with zeros before it, or hexadecimal, up to 2^64 - 1."""
        for base in ("4096", "00000000000000000000004096", "0x1000", "0x0000000000001000"):
            link = ["--base", base, *LINK[2:], "start"]
            self.assertEqual(self.written("a.o", link=link).header.e_entry, 0x1000)
        link = ["--base", "18446744073709551615", "--page", "1", *LINK[4:], "start"]
        lines = self.ran("-o", "ours", "a.o", link=link)
        self.assertEqual(lines[0], 1)
        self.assertEqual(lines[1][0][:17], "refused 11 0 0 0:")

    def test_sixty_four_objects(self):
        empty = bytes(Made().data)
        self.put(**{f"e{at}__o": empty for at in range(63)})
        objects = ["a.o", *(f"e{at}.o" for at in range(63))]
        self.assertEqual(self.written(*objects).header.e_entry, 0x1000)

    def test_bad_rules(self):
        """They are read before the objects are."""
        self.put(bad__rules=b"1 abs 8 wrap\n2 abs 3 wrap\n")
        link = [*LINK[:5], "bad.rules", "--entry", "start"]
        found = self.ran("-o", "ours", "none", link=link)
        self.assertEqual(found, (2, ["bad.rules: bad rule line 2"]))
        link[5] = "none.rules"
        found = self.ran("-o", "ours", "none", link=link)
        self.assertEqual(found, (3, ["none.rules: no such file or directory"]))

    def test_objects_that_cant_be_read(self):
        os.mkdir("folder")
        reasons = {"none": "no such file or directory", "folder": "is a directory"}
        reasons["/proc/self/mem"] = "input/output error"
        for name, reason in reasons.items():
            self.assertEqual(self.ran("-o", "ours", "a.o", name), (3, [f"{name}: {reason}"]))
            link = [*LINK[:5], name, "--entry", "start"]
            found = self.ran("-o", "ours", "a.o", link=link)
            self.assertEqual(found, (3, [f"{name}: {reason}"]))
        lines = ["'': no such file or directory"]
        self.assertEqual(self.ran("-o", "ours", "a.o", ""), (3, lines))
        self.assertEqual(
            self.ran("-o", "ours", "a.o", link=[*LINK[:5], "", "--entry", "x"]), (3, lines)
        )

    def test_refused_objects(self):
        Path(os.fsdecode(b"b\xff.o")).write_bytes(SHARING)
        self.put(c__o=b"\x7fELF")
        status, lines = self.ran("-o", "ours", "a.o", os.fsdecode(b"b\xff.o"), "c.o")
        self.assertEqual((status, len(lines)), (1, 1))
        self.assertTrue(lines[0].startswith(r"b\xff.o: offset 0x72: SHARED_BYTE (33): "), lines)

    def test_an_object_twice(self):
        status, (line,) = self.ran("-o", "ours", "a.o", "a.o")
        self.assertEqual((status, line[:34]), (1, "refused 8 1 0 0: TWO_DEFINITIONS: "))
        self.put(b__o=bytes(Made((b".data", PROGBITS, b"b", dict(flags=DATA))).data))
        section = self.written("a.o", "b.o", "./b.o").sections[2]
        self.assertEqual(bytes(section.content), b"bb")

    def test_objects_of_class_32(self):
        self.put(b__o=CLASS_32)
        status, (line,) = self.ran("-o", "ours", "a.o", "b.o")
        self.assertEqual((status, line[:37]), (1, "b.o: offset 0x4: WRONG_CLASS (4): the"))

    def test_refused_links(self):
        names = b"\0start\0away\0"
        text = (b".text", PROGBITS, b"\xc3", dict(flags=CODE))
        self.put(b__o=made([text], [row(7, GLOBAL, 0)], names))
        status, lines = self.ran("-o", "ours", "a.o", "b.o")
        self.assertEqual((status, len(lines)), (1, 1))
        words = "refused 9 1 0 0: UNDEFINED_NAME: undefined name away, needed by b.o (its symbol 1"
        self.assertTrue(lines[0].startswith(words), lines)
        self.assertNotIn("--strip-debug", lines[0])
        status, lines = self.ran("-o", "ours", "a.o", link=[*LINK, "none"])
        self.assertEqual((status, lines[0][:27]), (1, "refused 10 0 0 0: NO_ENTRY:"))

    def test_files_stay_as_they_are(self):
        """Where something is refused or can't be written, and nothing else is left."""
        self.put(ours=b"before", flat=b"before", bad__o=SHARING)
        both = "-o", "ours", "--binary", "flat"
        before = sorted(os.listdir())
        for words in (
            [*both, "bad.o"],
            [*both, "none"],
            ["-o", "ours", "--binary", "no/flat", "a.o"],
        ):
            self.assertNotEqual(self.ran(*words)[0], 0)
            self.assertEqual(Path("ours").read_bytes(), b"before")
            self.assertEqual(Path("flat").read_bytes(), b"before")
            self.assertEqual(sorted(os.listdir()), before)

    def test_a_full_device(self):
        """Neither file is replaced if one of them can't be written."""
        self.put(ours=b"before")
        for words in (["-o", "ours", "--binary", "/dev/full"], ["-o", "/dev/full"]):
            found = self.ran(*words, "a.o")
            self.assertEqual(found, (3, ["/dev/full: no space left on device"]))
            self.assertEqual(Path("ours").read_bytes(), b"before")
        limited = "ulimit -f 0; trap '' XFSZ; exec"
        ran = subprocess.run(
            ["sh", "-c", f'{limited} "$@"', "sh", *PROGRAM, *LINK, "start", "-o", "ours", "a.o"],
            capture_output=True,
            env=ENVIRONMENT,
        )
        said = b"elfmap-symbols: ours: file too large\n"
        self.assertEqual((ran.returncode, ran.stderr), (3, said))
        self.assertEqual(Path("ours").read_bytes(), b"before")
        self.assertEqual(sorted(os.listdir()), ["a.o", "ours"])

    def test_paths_that_are_no_file(self):
        """A message has the path as it was given, and nothing is made."""
        os.mkdir("folder")
        self.put(flat=b"before")
        before = sorted(os.listdir())
        reasons = {
            "folder": "is a directory",
            "folder/": "is a directory",
            "new/": "is a directory",
            "flat/": "not a directory",
            "flat/new": "not a directory",
            "none/new": "no such file or directory",
            "none/../new": "no such file or directory",
        }
        for path, reason in reasons.items():
            for words in (["-o", path], ["-o", "ours", "--binary", path]):
                self.assertEqual(self.ran(*words, "a.o"), (3, [f"{path}: {reason}"]))
        self.assertEqual(sorted(os.listdir()), before)
        self.assertEqual(Path("flat").read_bytes(), b"before")

    def test_an_interrupt(self):
        """It comes while nobody reads the flat image. The other file is as it was."""
        self.put(a__o=start_of(b"\xc3" * 2**20), ours=b"before")
        os.mkfifo("flat")
        before = sorted(os.listdir())
        words = [*PROGRAM, *LINK, "start", "-o", "ours", "--binary", "flat", "a.o"]
        own = dict(stderr=subprocess.PIPE, env=ENVIRONMENT, preexec_fn=with_signals)
        with subprocess.Popen(words, **own) as it:
            with open("flat", "rb", buffering=0) as reader:
                self.assertEqual(reader.read(1), b"\xc3")
                self.assertEqual(len(os.listdir()), len(before) + 1)
                it.send_signal(signal.SIGINT)
                self.assertEqual(it.wait(60), 130)
            self.assertEqual(it.stderr.read(), b"")
        self.assertEqual(sorted(os.listdir()), before)
        self.assertEqual(Path("ours").read_bytes(), b"before")

    def test_long_names(self):
        """Those of all sections and symbols, in all objects: names may share bytes."""
        self.put(b__o=bytes(Made((b".data", PROGBITS, b"b", dict(flags=DATA))).data))
        # a.o has .text, .symtab, .strtab, .shstrtab and start; b.o has .data and .shstrtab.
        count = len(".text.symtab.strtab.shstrtabstart") + len(".data.shstrtab")
        words = *LINK, "start", "-o", "ours", "a.o", "b.o"
        for most, status in ((count, 0), (count - 1, 1)):
            with mock.patch.object(_symbol_file, "Names", lambda most=most: Names(most)):
                with mock.patch.object(symbols, "complain") as complain:
                    self.assertEqual(symbols.main(words), status)
        said = b"the names of all sections and symbols have more than 2^28 bytes"
        complain.assert_called_once_with("elfmap-symbols", said)

    def test_a_link_to_a_file(self):
        """The file that a symbolic link names is replaced."""
        os.mkdir("folder")
        os.symlink("folder/ours", "ours")
        self.written("a.o")
        self.assertTrue(os.path.islink("ours"))
        self.assertEqual(os.listdir("folder"), ["ours"])

    def test_a_reader_that_has_gone(self):
        """It ends silently, as all commands do."""
        self.put(a__o=start_of(b"\xc3" * 2**20))
        for option in ("-o", "--binary"):
            words = [*PROGRAM, *LINK, "start", option, "/dev/stdout", "a.o"]
            reading, writing = os.pipe()
            os.close(reading)
            ran = subprocess.run(words, stdout=writing, stderr=subprocess.PIPE, env=ENVIRONMENT)
            os.close(writing)
            self.assertEqual((ran.returncode, ran.stderr), (141, b""))

    def test_objects_from_a_pipe(self):
        found = subprocess.run(
            [*PROGRAM, *LINK, "start", "-o", "ours", "/dev/stdin"],
            input=Path("a.o").read_bytes(),
            capture_output=True,
            env=ENVIRONMENT,
        )
        self.assertEqual((found.returncode, found.stderr), (0, b""))
        self.assertEqual(elfmap.open("ours").header.e_entry, 0x1000)

    def test_no_memory(self):
        words = *LINK, "start", "-o", "ours", "a.o"
        with mock.patch.object(symbols, "Link", side_effect=MemoryError):
            with mock.patch.object(symbols, "complain") as complain:
                self.assertEqual(symbols.main(words), 3)
        complain.assert_called_once_with("elfmap-symbols", b"out of memory")

    def test_words_in_any_order(self):
        self.put(**{"-b__o": bytes(Made((b".b", PROGBITS, b"b", dict(flags=DATA))).data)})
        found = self.ran("a.o", *LINK, "start", "-o", "ours", "--", "-b.o", link=())
        self.assertEqual(found, (0, []))
        self.assertEqual(elfmap.open("ours").sections[2].name, b".b")


if __name__ == "__main__":
    unittest.main()
