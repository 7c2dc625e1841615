"""elfmap-same: what it says of files that are made here by hand, each with one thing changed,
and of copies that other tools make.

Two files of the same object differ in what docs/RULES.md leaves out of an object: offsets,
gaps, and the order of names in string tables.
"""

import contextlib
import io
import os
import shutil
import struct
import subprocess
import sys
import tempfile
import unittest
import unittest.mock
from pathlib import Path

from elfmap import same

from tests.made import (
    CLASS_32,
    ENVIRONMENT,
    GNU,
    GOOD,
    SHARING,
    FolderCase,
    Made,
    archive_member,
    relocations,
    setUpModule,
    symbols,
    text,
    thin,
)

PROGRAM = [sys.executable, "-m", "elfmap.same"]
STRINGS = (b".strtab", 3, b"\0answer\0", {})


def an_object(
    *, content=b"\x90" * 0x33, symbol=(1, 0x10, 1), strings=STRINGS, more=(), named=(1,), type=1
):
    """An object: .text, a symbol table, its names, relocations of .text, and more sections."""
    own = (b".text", type, content, {})
    return bytes(Made(own, symbols(3, symbol), strings, relocations(2, *named), *more).data)


def padded(data):
    """The same object with its section header table 64 bytes later."""
    table = int.from_bytes(data[40:48], "little")
    moved = data[:table] + b"\xaa" * 64 + data[table:]
    return moved[:40] + (table + 64).to_bytes(8, "little") + moved[48:]


class Case(FolderCase):
    def same(self, *words):
        """The status, and the lines on standard output and on standard error."""
        with tempfile.TemporaryFile() as out, contextlib.redirect_stderr(Said()) as said:
            saved = os.dup(1)
            os.dup2(out.fileno(), 1)
            try:
                status = same.main(words)
            except SystemExit as end:
                status = end.code
            finally:
                os.dup2(saved, 1)
                os.close(saved)
            printed = os.pread(out.fileno(), 1 << 24, 0).decode("utf-8", "surrogateescape")
            return status, printed.splitlines(), said.buffer.getvalue().decode().splitlines()

    def assertSame(self, *words, lines):
        self.assertEqual(self.same(*words), (0, lines, []))

    def assertDiffer(self, *words, lines):
        self.assertEqual(self.same(*words), (1, lines, []))


class Said(io.StringIO):
    """Standard error, of which the bytes are kept."""

    def __init__(self):
        super().__init__()
        self.buffer = io.BytesIO()


class ObjectTest(Case):
    def differ(self, one, other):
        """The lines of two objects that differ, without the last one."""
        self.put(a__o=one, b__o=other)
        status, lines, said = self.same("a.o", "b.o")
        self.assertEqual((status, lines[-1], said), (1, "different", []))
        return lines[:-1]

    def test_the_same_object(self):
        self.put(
            a__o=an_object(),
            b__o=padded(an_object()),
            c__o=an_object(strings=(b".strtab", 3, b"\0answer\0unused\0", {})),
        )
        for other in ("a.o", "b.o", "c.o"):
            self.assertSame("a.o", other, lines=["the same"])

    @unittest.skipUnless(
        all(map(shutil.which, ("cc", "objcopy"))), "cc or objcopy is not installed"
    )
    def test_copies_of_other_tools(self):
        self.put(
            a__c=b"int limit; int call(int); int answer(int x) { return x < limit ? call(x) : 42; }"
        )
        subprocess.run(["cc", "-c", "-O1", "a.c", "-o", "a.o"], check=True)
        for tool in filter(shutil.which, ("objcopy", "llvm-objcopy")):
            subprocess.run([tool, "a.o", "copy.o"], check=True)
            self.assertSame("a.o", "copy.o", lines=["the same"])
        subprocess.run(["objcopy", "--redefine-sym", "answer=other", "a.o", "other.o"], check=True)
        lines = ["symbol answer is only in a.o", "symbol other is only in other.o", "different"]
        self.assertDiffer("a.o", "other.o", lines=lines)

    def test_a_byte(self):
        changed = an_object(content=b"\x90" * 0x20 + b"\xc3" + b"\x90" * 0x12)
        self.assertEqual(
            self.differ(an_object(), changed),
            ["section .text: offset 0x20 is 0x90 in a.o, and 0xc3 in b.o"],
        )

    def test_a_length(self):
        found = self.differ(an_object(), an_object(content=b"\x90" * 0x32 + b"\xc3\xc3"))
        expected = [
            "section .text: its size is 0x33 in a.o, and 0x34 in b.o",
            "section .text: offset 0x32 is 0x90 in a.o, and 0xc3 in b.o",
        ]
        self.assertEqual(found, expected)

    def test_a_symbol(self):
        found = self.differ(an_object(), an_object(symbol=(1, 0x20, 0)))
        expected = [
            "its binding is GLOBAL in a.o, and WEAK in b.o",
            "its section is .text in a.o, and undefined in b.o",
        ]
        self.assertEqual(found, [f"symbol answer: {it}" for it in expected])

    def test_a_name(self):
        found = self.differ(an_object(), an_object(strings=(b".strtab", 3, b"\0other\0", {})))
        self.assertIn("symbol answer is only in a.o", found)
        self.assertIn("symbol other is only in b.o", found)
        lead = "R_X86_64_PC32 at 0x0 of .text to"
        words = f"{lead} answer +0x0 in a.o, and {lead} other +0x0 in b.o"
        self.assertIn(f"section .rela.text: relocation 0 is {words}", found)

    def test_a_relocation(self):
        found = self.differ(an_object(), an_object(named=(1, 1)))
        words = "R_X86_64_PC32 at 0x0 of .text to answer +0x0"
        self.assertIn(f"section .rela.text: relocation 1 is only in b.o: {words}", found)

    def test_a_symbol_that_is_called_as_that_of_a_section(self):
        """A relocation to the one is no relocation to the other."""

        def related(symbol):
            table = symbols(3, (0, 3, 1), (1, 0x10, 1), info=2)
            strings = b".strtab", 3, b"\0of section .text\0", {}
            return bytes(Made(text(), table, strings, relocations(2, symbol)).data)

        found = self.differ(related(1), related(2))
        lead = "R_X86_64_PC32 at 0x0 of .text to"
        words = f"{lead} section .text +0x0 in a.o, and {lead} of section .text +0x0 in b.o"
        self.assertEqual(found, [f"section .rela.text: relocation 0 is {words}"])

    def test_a_section(self):
        found = self.differ(an_object(), an_object(more=[(b".data", 1, b"\1\2\3\4", {})]))
        self.assertEqual(found, ["section .data is only in b.o"])
        found = self.differ(an_object(), an_object(type=7))
        self.assertEqual(found, ["section .text: its type is PROGBITS in a.o, and NOTE in b.o"])

    def test_the_second_section_of_a_name(self):
        more = [(b".data", 1, b"\1", {}), (b".data", 1, b"\2", {})]
        other = [(b".data", 1, b"\1", {}), (b".data", 1, b"\3", {})]
        found = self.differ(an_object(more=more), an_object(more=other))
        words = "offset 0x0 is 0x02 in a.o, and 0x03 in b.o"
        self.assertEqual(found, [f"section .data (number 2 of this name): {words}"])

    def test_another_order(self):
        one = (b".one", 1, b"\1", {})
        other = (b".other", 1, b"\2", {})
        found = self.differ(an_object(more=[one, other]), an_object(more=[other, one]))
        words = "the first one that differs is .one in a.o, and .other in b.o"
        self.assertEqual(found, [f"the order of sections: {words}"])

    def test_another_order_of_symbols(self):
        def ordered(*names):
            table = symbols(3, *((it, 0x10, 1) for it in names))
            strings = (b".strtab", 3, b"\0answer\0other\0", {})
            return bytes(Made(text(content=bytes(4)), table, strings).data)

        found = self.differ(ordered(1, 8), ordered(8, 1))
        words = "the first one that differs is answer in a.o, and other in b.o"
        self.assertEqual(found, [f"the order of symbols: {words}"])

    def test_a_byte_after_what_is_compared_at_once(self):
        content = bytearray(1 << 18)
        before = an_object(content=bytes(content))
        content[0x20005] = 1
        found = self.differ(before, an_object(content=bytes(content)))
        self.assertEqual(found, ["section .text: offset 0x20005 is 0x00 in a.o, and 0x01 in b.o"])

    def test_each_field_of_a_symbol(self):
        """Each difference by itself; of that of the section the name is told, or the word for a
        reserved index."""
        common = (1, 0x11, 0xFFF2, 8)
        absolute = (1, 0x11, 0xFFF1, 8)
        for one, other, words in (
            ((1, 0x10, 1), (1, 0x20, 1), "its binding is GLOBAL in a.o, and WEAK in b.o"),
            ((1, 0x11, 1), (1, 0x12, 1), "its type is OBJECT in a.o, and FUNC in b.o"),
            ((1, 0x10, 1, 4), (1, 0x10, 1, 8), "its value is 0x4 in a.o, and 0x8 in b.o"),
            ((1, 0x10, 1), (1, 0x10, 0xFFF1), "its section is .text in a.o, and absolute in b.o"),
            (common, absolute, "its section is common in a.o, and absolute in b.o"),
        ):
            found = self.differ(an_object(symbol=one), an_object(symbol=other))
            self.assertEqual(found, [f"symbol answer: {words}"])
        made = Made(text(), symbols(3, (1, 0x10, 1)), STRINGS)
        at = made.starts[2] + 24
        for place, words in (
            (5, "st_other is 0 in a.o, and 2 in b.o"),
            (16, "its size is 0 in a.o, and 2 in b.o"),
        ):
            found = self.differ(bytes(made.data), made.with_bytes(at + place, b"\2"))
            self.assertEqual(found, [f"symbol answer: {words}"])

    def test_each_field_of_a_section(self):
        for one, other, words in (
            (dict(align=1), dict(align=4), "its alignment is 1 in a.o, and 4 in b.o"),
            (dict(addr=0), dict(addr=16), "its address is 0x0 in a.o, and 0x10 in b.o"),
            (dict(flags=2), dict(flags=6), "sh_flags is 0x2 in a.o, and 0x6 in b.o"),
            (dict(entsize=1), dict(entsize=2), "sh_entsize is 1 in a.o, and 2 in b.o"),
            (dict(info=7), dict(info=8), "sh_info is 7 in a.o, and 8 in b.o"),
            (dict(link=1), dict(link=5), "sh_link is .text in a.o, and .one in b.o"),
            (dict(link=0), dict(link=5), "sh_link is none in a.o, and .one in b.o"),
        ):
            pair = (
                an_object(more=[(b".one", 1, b"\1", {}), (b".data", 1, b"\1", it)])
                for it in (one, other)
            )
            self.assertEqual(self.differ(*pair), [f"section .data: {words}"])

    def test_relocations_of_each_type(self):
        """Those without addends, and those of another section."""

        def rel(at):
            entry = struct.pack("<QQ", at, 1 << 32 | 2)
            rows = (b".rel.text", 9, entry, dict(link=2, info=1, entsize=16))
            return bytes(Made(text(), symbols(3, (1, 0x10, 1)), STRINGS, rows).data)

        first, second = (f"R_X86_64_PC32 at {it:#x} of .text to answer +0x0" for it in (0, 4))
        self.assertEqual(
            self.differ(rel(0), rel(4)),
            [f"section .rel.text: relocation 0 is {first} in a.o, and {second} in b.o"],
        )

        def rela(target):
            entry = struct.pack("<QQq", 0, 1 << 32 | 2, 0)
            rows = (b".rela", 4, entry, dict(link=2, info=target, entsize=24))
            other = text(b".other")
            return bytes(Made(text(), symbols(3, (1, 0x10, 1)), STRINGS, rows, other).data)

        found = self.differ(rela(1), rela(5))
        self.assertEqual(found, ["section .rela: its target is .text in a.o, and .other in b.o"])

    def test_addends_have_signs(self):
        def rela(addend):
            entry = struct.pack("<QQq", 0, 1 << 32 | 2, addend)
            rows = (b".rela.text", 4, entry, dict(link=2, info=1, entsize=24))
            return bytes(Made(text(), symbols(3, (1, 0x10, 1)), STRINGS, rows).data)

        lead = "R_X86_64_PC32 at 0x0 of .text to answer"
        for one, other, first, second in (
            (-4, 4, "-0x4", "+0x4"),
            (-(2**63), 2**63 - 1, "-0x8000000000000000", "+0x7fffffffffffffff"),
        ):
            words = f"{lead} {first} in a.o, and {lead} {second} in b.o"
            found = self.differ(rela(one), rela(other))
            self.assertEqual(found, [f"section .rela.text: relocation 0 is {words}"])

    def test_a_group(self):
        def grouped(flags):
            members = [
                (b".group", 17, struct.pack("<2I", flags, 6), dict(link=2, info=1, entsize=4)),
                (b".f", 1, b"\1", dict(flags=0x200)),
            ]
            return an_object(more=members)

        found = self.differ(grouped(1), grouped(0))
        flags = "section .group [answer]: member flags"
        self.assertEqual(found, [f"{flags} 0x1 is only in a.o", f"{flags} 0x0 is only in b.o"])

    def test_fields_of_the_header(self):
        made = Made(text())
        for at, words in (
            (7, "the OS ABI is 0 in a.o, and 5 in b.o"),
            (8, "the ABI version is 0 in a.o, and 5 in b.o"),
            (48, "e_flags is 0x0 in a.o, and 0x5 in b.o"),
        ):
            self.assertEqual(self.differ(GOOD, made.with_bytes(at, b"\5")), [words])
        self.assertEqual(
            self.differ(GOOD, bytes(Made(text(), order=">").data)),
            ["the byte order is little in a.o, and big in b.o"],
        )

    def test_big_endian(self):
        """The order of names in a string table is no part of an object, in either byte order."""
        for it, content in (("a", b"\0answer\0"), ("b", b"\0answer\0unused\0")):
            made = Made(
                text(), symbols(3, (1, 0x10, 1), order=">"), (b".strtab", 3, content, {}), order=">"
            )
            self.put(**{f"{it}__o": bytes(made.data)})
        self.assertSame("a.o", "b.o", lines=["the same"])

    def test_the_machine(self):
        data = an_object()
        found = self.differ(data, data[:18] + (183).to_bytes(2, "little") + data[20:])
        self.assertEqual(
            found[0], "the machine is 62 (EM_X86_64) in a.o, and 183 (EM_AARCH64) in b.o"
        )

    def test_a_limit(self):
        more, other = (
            [(b".s%d" % it, 1, bytes([value]), {}) for it in range(30)] for value in (1, 2)
        )
        self.put(a__o=an_object(more=more), b__o=an_object(more=other))
        self.assertEqual(len(self.same("a.o", "b.o")[1]), 10 + 2)
        self.assertEqual(len(self.same("--limit", "0", "a.o", "b.o")[1]), 30 + 1)
        self.assertDiffer("-q", "a.o", "b.o", lines=[])
        self.assertEqual(self.same("--limit", "-1", "a.o", "b.o")[0], 2)

    def test_any_object(self):
        """Each byte of an object is changed: there is an answer, and the same one both ways."""
        data = an_object(more=[(b".group", 17, bytes(4), dict(link=2, info=1, entsize=4))])
        self.put(a__o=data)
        for at in range(0, len(data), 3):
            self.put(b__o=data[:at] + bytes([data[at] ^ 0x11]) + data[at + 1 :])
            status, lines, said = self.same("a.o", "b.o")
            self.assertEqual(
                (status, bool(said)), (3, True) if said else (int(lines != ["the same"]), False)
            )
            self.assertEqual(self.same("b.o", "a.o")[0], status)


class ImageTest(Case):
    def test_programs(self):
        one = Made(text()).with_bytes(16, b"\2")
        other = bytearray(one)
        other[0x41] = 0xC3
        self.put(a=one, b=one, c=bytes(other), d=padded(one))
        self.assertSame("a", "b", lines=["the same"])
        self.assertDiffer(
            "a", "c", lines=["section .text: offset 0x1 is 0x90 in a, and 0xc3 in c", "different"]
        )
        self.assertEqual(self.same("a", "d")[0], 1)

    def program(self, *segments):
        """A program of these segments, of each its p_type and p_align. Their headers end the
        file."""
        made = Made(text())
        rows = b"".join(
            struct.pack("<IIQQQQQQ", kind, 4, 0, 0, 0, 0, 0, align) for kind, align in segments
        )
        data = bytearray(made.with_bytes(16, b"\2")) + rows
        data[32:40] = len(made.data).to_bytes(8, "little")
        data[54:58] = struct.pack("<HH", 56, len(segments))
        return bytes(data)

    def test_program_headers(self):
        self.put(a=self.program((1, 1)), b=self.program((1, 2)), c=self.program((1, 1), (1, 1)))
        self.assertDiffer(
            "a", "b", lines=["program header 0: p_align is 0x1 in a, and 0x2 in b", "different"]
        )
        self.assertDiffer(
            "a", "c", lines=["the number of program headers is 1 in a, and 2 in c", "different"]
        )

    def test_entry_points(self):
        one = Made(text()).with_bytes(16, b"\2")
        self.put(a=one, b=one[:24] + b"\5" + one[25:])
        self.assertDiffer("a", "b", lines=["e_entry is 0x0 in a, and 0x5 in b", "different"])

    def test_entries_of_no_section(self):
        """Their sh_name may be any number. They have no name, and the section is the first one of
        its name."""
        made = Made((b"none", 0, b"", {}), text(), text(b".data"))
        at = made.at(2, "name")
        for number in (made.data[at : at + 4], b"\xff" * 4):
            one = bytearray(made.with_bytes(made.at(1, "name"), number))
            one[16] = 2
            other = bytearray(one)
            other[made.starts[2] + 1] = 0xC3
            self.put(a=bytes(one), b=bytes(other))
            self.assertDiffer(
                "a",
                "b",
                lines=["section .text: offset 0x1 is 0x90 in a, and 0xc3 in b", "different"],
            )

    def test_what_is_no_section(self):
        """The section headers are 64 bytes later: the first byte that differs is that of
        e_shoff."""
        one = Made(text()).with_bytes(16, b"\2")
        self.put(a=one, d=padded(one))
        self.assertDiffer(
            "a",
            "d",
            lines=["the files differ at offset 0x28, in no content of a section", "different"],
        )

    def test_a_program_that_is_rejected(self):
        self.put(bad=SHARING[:16] + b"\2" + SHARING[17:])
        self.assertEqual(self.same("bad", "bad")[0], 3)


class StatusTest(Case):
    def setUp(self):
        super().setUp()
        self.put(good__o=GOOD, bad__o=SHARING, text=b"no ELF file", narrow__o=CLASS_32, empty=b"")

    def test_rejected(self):
        status, lines, said = self.same("good.o", "bad.o")
        self.assertEqual((status, lines), (3, ["not compared"]))
        words = (
            "elfmap-same: bad.o: offset 0x72: SHARED_BYTE (33): the content of .text [0x40, 0x73)"
            " and of .data [0x72, 0x76) share"
        )
        self.assertTrue(said[0].startswith(words), said)
        for name in ("bad.o", "text", "narrow.o", "empty"):
            self.assertEqual(self.same(name, name)[0], 3, name)
            self.assertEqual(self.same("good.o", name)[0], 3, name)

    def test_an_object_that_would_be_too_long(self):
        """Its canonical layout has a byte at 2^30."""
        self.put(long__o=bytes(Made((b".text", 1, b"\x90", dict(align=1 << 30))).data))
        words = [
            "elfmap-same: long.o: the canonical layout of its object would be longer than 2^30"
            " bytes"
        ]
        self.assertEqual(self.same("good.o", "long.o"), (3, ["not compared"], words))

    def test_what_is_not_compared_is_told_beside_what_differs(self):
        for side, content in (("old", b"\x90"), ("new", b"\xc3")):
            self.put(
                **{
                    f"{side}/x__o": an_object(content=content),
                    f"{side}/y__o": GOOD,
                    f"{side}/z__o": GOOD,
                }
            )
        self.put(**{"new/y__o": SHARING, "new/z__o": SHARING})
        status, lines, said = self.same("old", "new")
        self.assertEqual(
            (status, lines[-1], len(said)), (3, "0 the same, 1 different, 2 not compared", 2)
        )

    def test_a_full_device(self):
        with open("/dev/full", "wb") as out:
            ran = subprocess.run(
                [*PROGRAM, "good.o", "good.o"], stdout=out, stderr=subprocess.PIPE, env=ENVIRONMENT
            )
        self.assertEqual(
            (ran.returncode, ran.stderr), (3, b"elfmap-same: no space left on device\n")
        )

    def test_there_is_no_memory(self):
        with unittest.mock.patch("elfmap.rewrite", side_effect=MemoryError):
            self.assertEqual(
                self.same("good.o", "good.o"),
                (3, ["not compared"], ["elfmap-same: good.o: there is no memory for it"]),
            )

    def test_a_link_that_is_named(self):
        os.symlink("good.o", "link")
        os.symlink(".", "folder")
        self.assertSame("good.o", "link", lines=["the same"])
        self.assertEqual(self.same("good.o", "folder/good.o")[:2], (0, ["the same"]))
        self.put(**{"a/x__o": GOOD})
        os.symlink("a", "b")
        self.assertSame("a", "b", lines=["the same"])

    def test_unreadable(self):
        os.mkfifo("pipe")
        os.symlink("loop", "loop")
        for name in ("none", "pipe", "/dev/zero", "loop", "good.o/x"):
            self.assertEqual(self.same("good.o", name)[0] in (1, 3), True, name)
            self.assertEqual(self.same(name, name)[0], 3, name)

    def test_usage(self):
        for words in (
            [],
            ["good.o"],
            ["good.o", "good.o", "good.o"],
            ["--none", "good.o", "good.o"],
            ["--limit", "-1", "good.o", "good.o"],
            ["--limit", "x", "good.o", "good.o"],
        ):
            self.assertEqual(self.same(*words)[0], 2)

    def test_a_closed_pipe_ends_it_silently(self):
        reading, writing = os.pipe()
        os.close(reading)
        ran = subprocess.run(
            [*PROGRAM, "good.o", "good.o"], stdout=writing, stderr=subprocess.PIPE, env=ENVIRONMENT
        )
        os.close(writing)
        # As the shell says of a program that SIGPIPE ends.
        self.assertEqual((ran.returncode, ran.stderr), (128 + 13, b""))


class ArchiveTest(Case):
    def archive(self, *files):
        return b"!<arch>\n" + b"".join(archive_member(name, content) for name, content in files)

    def test_members(self):
        changed = an_object(content=b"\xc3" * 0x33)
        one = self.archive((b"a.o", an_object()), (b"b.o", GOOD), (b"b.o", GOOD), (b"text", b"1"))
        other = self.archive((b"a.o", changed), (b"b.o", GOOD), (b"c.o", GOOD), (b"text", b"2"))
        self.put(
            a__a=one,
            b__a=other,
            c__a=self.archive((b"a.o", padded(an_object())), (b"b.o", GOOD), (b"b.o", GOOD)),
        )
        self.assertSame("a.a", "a.a", lines=["3 the same; skipped: 1 not ELF"])
        lines = [
            "(b.o) number 2: it is only in a.a",
            "(c.o): it is only in b.a",
            "(a.o): section .text: offset 0x0 is 0x90 in a.a, and 0xc3 in b.a",
            "1 the same, 1 different, 1 only in a.a, 1 only in b.a; skipped: 1 not ELF",
        ]
        self.assertDiffer("a.a", "b.a", lines=lines)
        self.assertEqual(self.same("a.a", "c.a")[1][0], "(text): it is only in a.a")

    def test_another_order(self):
        self.put(
            a__a=self.archive((b"a.o", GOOD), (b"b.o", GOOD)),
            b__a=self.archive((b"b.o", GOOD), (b"a.o", GOOD)),
        )
        self.assertDiffer(
            "a.a", "b.a", lines=["its members are in another order", "2 the same, 1 different"]
        )

    def test_thin(self):
        self.put(
            **{
                "good__o": GOOD,
                "thin__a": thin(b"good.o"),
                "whole__a": self.archive((b"good.o", GOOD)),
            }
        )
        self.assertSame("thin.a", "whole.a", lines=["the same"])
        os.unlink("good.o")
        self.assertEqual(self.same("thin.a", "whole.a")[0], 3)

    def test_damaged(self):
        self.put(whole__a=GNU)
        for length in range(8, len(GNU), 7):
            self.put(cut__a=GNU[:length])
            self.assertIn(self.same("whole.a", "cut.a")[0], (1, 3))
        # What is after the damage is not known.
        status, _, said = self.same("cut.a", "cut.a")
        self.assertEqual(
            (status, said[0].startswith("elfmap-same: cut.a: the archive is damaged at offset ")),
            (3, True),
        )

    def test_an_archive_in_an_archive(self):
        nested = GOOD
        for _ in range(300):
            nested = self.archive((b"a.a", nested))
        self.put(a__a=nested)
        self.assertSame("a.a", "a.a", lines=["0 the same; skipped: 1 not ELF"])


class TreeTest(Case):
    def test_trees(self):
        for side, content in (("old", b"\x90" * 0x33), ("new", b"\xc3" * 0x33)):
            self.put(
                **{
                    f"{side}/a/x__o": an_object(),
                    f"{side}/a/y__o": an_object(content=content),
                    f"{side}/log": side.encode(),
                }
            )
        self.put(**{"old/a/gone__o": GOOD, "new/b/more__o": GOOD, "new/b/more__txt": b""})
        lines = [
            "b/more.o: it is only in new",
            "a/gone.o: it is only in old",
            "a/y.o: section .text: offset 0x0 is 0x90 in old, and 0xc3 in new",
            "1 the same, 1 different, 1 only in new, 1 only in old; skipped: 2 not ELF",
        ]
        self.assertDiffer("old", "new", lines=lines)
        for side in ("old", "new"):
            self.put(**{f"{side}/narrow__o": CLASS_32})
        self.assertDiffer("old", "new", lines=[*lines[:-1], f"{lines[-1]}, 1 of class 32"])
        self.assertIn("log: the files differ at offset 0x0", self.same("--others", "old", "new")[1])

    def test_what_is_on_one_side(self):
        """In the order of names; with --others also what is no ELF file."""
        self.put(
            **{f"old/a/{it}__o": GOOD for it in "cab"},
            **{"old/log": b"text", "old/narrow": CLASS_32, "old/lib__a": GNU},
        )
        os.mkdir("new")
        only = [f"{it}: it is only in old" for it in ("a/a.o", "a/b.o", "a/c.o", "lib.a")]
        self.assertDiffer(
            "old",
            "new",
            lines=[*only, "0 the same, 4 only in old; skipped: 1 not ELF, 1 of class 32"],
        )
        self.assertDiffer(
            "new",
            "old",
            lines=[*only, "0 the same, 4 only in old; skipped: 1 not ELF, 1 of class 32"],
        )
        lines = [
            *only,
            "log: it is only in old",
            "narrow: it is only in old",
            "0 the same, 6 only in old",
        ]
        self.assertDiffer("--others", "old", "new", lines=lines)

    def test_an_object_and_an_empty_file(self):
        self.put(**{"a/x__o": GOOD, "b/x__o": b"", "a/y__o": b"", "b/y__o": b"x"})
        lines = [
            "x.o: it is an object in a, and no ELF file in b",
            "0 the same, 1 different; skipped: 1 not ELF",
        ]
        self.assertDiffer("a", "b", lines=lines)

    def test_other_files(self):
        long = bytearray(3 << 20)
        self.put(
            **{"a/front": b"a line\n", "b/front": b"a line\nand another\n", "a/long": bytes(long)}
        )
        long[0x200005] = 1
        self.put(**{"b/long": bytes(long), "a/same": b"text", "b/same": b"text"})
        self.assertSame("a", "b", lines=["0 the same; skipped: 3 not ELF"])
        lines = [
            "front: its length is 7 in a, and 19 in b",
            "long: the files differ at offset 0x200005",
            "1 the same, 2 different",
        ]
        self.assertDiffer("--others", "a", "b", lines=lines)

    def test_the_same_tree(self):
        self.put(**{"a/b/x__o": GOOD, "a/y__o": GOOD})
        self.assertSame("a", "a", lines=["2 the same"])
        self.assertSame("a", "a/", lines=["2 the same"])

    def test_kinds_that_differ(self):
        self.put(**{"a/x": GOOD, "b/x/y": GOOD, "a/z": GOOD, "b/z": GNU})
        lines = [
            "x: it is a file in a, and a directory in b",
            "z: it is an object in a, and an archive in b",
        ]
        self.assertDiffer("a", "b", lines=[*lines, "0 the same, 2 different"])
        self.assertEqual(self.same("a", "a/x")[0], 1)

    def test_what_is_not_opened(self):
        for side in "ab":
            self.put(**{f"{side}/x__o": GOOD})
            os.mkfifo(f"{side}/pipe")
            os.symlink(".", f"{side}/loop")
            os.symlink("none", f"{side}/dangling")
        os.mkfifo("a/only")
        self.assertSame("a", "b", lines=["1 the same; skipped: 4 not regular"])

    def test_names_of_any_bytes(self):
        for side in (b"a", b"b"):
            os.mkdir(side)
            for it in range(1, 256):
                if it not in b"/.":
                    Path(os.fsdecode(side + b"/" + bytes([it]))).write_bytes(GOOD)
        Path(os.fsdecode(b"a/\xff\n")).write_bytes(GOOD)
        lines = ["\\xff\\x0a: it is only in a", "253 the same, 1 only in a"]
        self.assertDiffer("a", "b", lines=lines)

    def test_deep_folders(self):
        for side in "ab":
            for depth in range(1200):
                os.mkdir(side + "/d" * depth)
            Path(side + "/d" * depth + "/x.o").write_bytes(GOOD)
            # Python's own removal is recursive.
            self.addCleanup(subprocess.run, ["rm", "-r", os.path.abspath(side)], check=True)
        self.assertSame("a", "b", lines=["the same"])
        os.mkdir("c")
        self.assertEqual(self.same("a", "c")[1][-1], "0 the same, 1 only in a")

    def test_a_folder_that_can_not_be_read(self):
        self.put(**{"a/x__o": GOOD, "b/x__o": GOOD})
        with unittest.mock.patch(
            "os.listdir", side_effect=PermissionError(13, "Permission denied")
        ):
            self.assertEqual(
                self.same("a", "b"), (3, ["not compared"], ["elfmap-same: a: permission denied"])
            )


class ShrinkTest(Case):
    def test_a_file_that_shrinks(self):
        self.put(a__o=GOOD, b__o=GOOD)
        whole = same.whole_content

        def cut(source):
            os.truncate("b.o", 70)
            return whole(source)

        with unittest.mock.patch.object(same, "whole_content", cut):
            self.assertEqual(
                self.same("a.o", "b.o"),
                (3, ["not compared"], ["elfmap-same: a.o: it became shorter while it was read"]),
            )


if __name__ == "__main__":
    unittest.main()
