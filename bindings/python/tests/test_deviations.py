"""The known deviations of elfmap-lint: of each a file that has it, and files that are a hair off.

What is expected is what the gABI, the supplement of a processor, or docs/RULES.md says of such a
file, and that a file of a real toolchain is clean.
"""

import glob
import json
import os
import shutil
import struct
import subprocess
import tempfile
import unittest
from unittest import mock
from xml.etree import ElementTree

from elfmap import _checks, _deviations, _hints, _words, build, explain

from tests.made import BROKEN_SYMBOLS, GOOD, NAMES, Made, setUpModule, symbols, text  # noqa: F401
from tests.test_lint import Case

REL_FILE = 1
EXEC = 2
DYN = 3
MIPS = 8
S390 = 22
SPARC_V9 = 43
ALPHA = 0x9026
NOTE = 7
NOBITS = 8
GLOBAL = 0x10
WEAK = 0x20
SPARC_REGISTER = 13
SANITIZERS = "/usr/lib/llvm-*/lib/clang/*/lib/linux/libclang_rt.scudo_standalone-x86_64.so"


def program(made, machine=62, kind=REL_FILE):
    """Its bytes, with another machine and type of file."""
    data = bytearray(made.data)
    struct.pack_into(f"{made.order}HH", data, 16, kind, machine)
    return bytes(data)


class DeviationCase(Case):
    def report(self, data, *words):
        """The findings, and the numbers of known deviations."""
        self.put(file__o=bytes(data))
        lines = list(map(json.loads, self.told("--tables", "--format", "jsonl", *words, "file.o")))
        return lines[:-1], lines[-1]["summary"]["known_deviations"]

    def assert_known(self, data, rule, **names):
        """The file is clean, and has these deviations; without them it breaks the rule."""
        expected = {it.replace("_", "-"): count for it, count in names.items()}
        self.assertEqual(self.report(data), ([], expected))
        self.assertEqual({it["rule"] for it in self.report(data, "--strict")[0]}, {rule})
        self.assertEqual(self.report(data, "--strict")[1], {})

    def assert_found(self, data, rule, at, *words, options=()):
        """The file has one finding, with these words, and no known deviation."""
        lines, known = self.report(data, *options)
        self.assertEqual([(it["rule"], it["offset"]) for it in lines], [(rule, at)])
        self.assertEqual(known, {})
        for it in words:
            self.assertIn(it, lines[0]["message"])
        return lines[0]["message"]

    def assert_as_before(self, data, rule):
        """The file is reported as --strict reports it."""
        found = self.report(data)
        self.assertEqual(found, self.report(data, "--strict"))
        self.assertEqual([it["rule"] for it in found[0]], [rule])


def mips(*named, kind=4, order="<", machine=MIPS):
    """An object with relocations of symbols, in the order of bytes that the supplement for MIPS
    gives `r_info`: the symbol, a special symbol, and three types. Of two symbols; and where its
    relocations begin."""
    entries = (struct.pack(f"{order}QI4B", 8, it, 0, 0, 18, 3) for it in named)
    addend = bytes(8) if kind == 4 else b""
    content = b"".join(entry + addend for entry in entries)
    fields = dict(link=2, info=1, entsize=24 if kind == 4 else 16)
    rows = text(), symbols(3, (1, GLOBAL, 1), order=order), NAMES
    made = Made(*rows, (b".rela.text", kind, content, fields), order=order)
    return program(made, machine), made.starts[4]


class MipsTest(DeviationCase):
    def test_relocations(self):
        for kind in (4, 9):
            self.assert_known(mips(1, 0, 1, kind=kind)[0], 54, mips_relocation_info=1)

    def test_a_symbol_that_is_not_there(self):
        data, start = mips(1, 2)
        message = self.assert_found(data, 54, start + 24 + 8, "relocation 1, of symbol 2, which")
        reading = "`r_info` is read as the processor supplement for MIPS orders it"
        self.assertTrue(message.endswith(f"{reading} (known deviation mips-relocation-info)"))

    def test_a_finding_of_objects_too(self):
        """It is told once, with how the table was read."""
        data, start = mips(2)
        words = "relocation 0, of symbol 2, which", "(known deviation mips-relocation-info)"
        self.assert_found(data, 54, start + 8, *words, options=["--object"])

    def test_other_machines_and_orders(self):
        self.assert_as_before(mips(1, machine=62)[0], 54)
        self.assert_as_before(mips(1, machine=SPARC_V9)[0], 54)
        self.assert_as_before(mips(2, machine=MIPS, order=">")[0], 54)

    def test_another_rule_of_the_table(self):
        row = b".rela.text", 4, bytes(24), dict(link=2, info=1, entsize=24)
        made = Made(text(), symbols(3, (1, GLOBAL, 99)), NAMES, row)
        self.assert_as_before(program(made, MIPS), 51)


def notes(*each, size=8, order="<"):
    """Notes, with names and descriptors padded to multiples of a size."""
    found = b""
    for name, descriptor in each:
        found += struct.pack(f"{order}3I", len(name), len(descriptor), 1) + name
        found += bytes(-len(found) % size) + descriptor
        found += bytes(-len(found) % size)
    return found


class NotesTest(DeviationCase):
    def made(self, content, align=8, order="<"):
        return Made(text(), (b".note.x", NOTE, content, dict(align=align)), order=order)

    def test_padding(self):
        for order in "<>":
            for each in (
                [(b"qt-project!\0", b"ab")],
                [(b"Qt\0", b"a"), (b"qt-project!\0", b"abcdefghi")],
                [(b"12345\0", b"12345678")],
            ):
                made = self.made(notes(*each, order=order), order=order)
                lines, known = self.report(made.data)
                self.assertEqual((lines, known), ([], {"notes-of-8": 1}))
                rules = {it["rule"] for it in self.report(made.data, "--strict")[0]}
                self.assertTrue(rules and rules <= {59, 60, 61, 62}, rules)

    def test_another_alignment(self):
        content = notes((b"qt-project!\0", b"ab"))
        for align in (0, 1, 4, 16):
            self.assert_as_before(self.made(content, align).data, 59)

    def test_notes_that_are_not_whole(self):
        whole = notes((b"qt-project!\0", b"ab"), (b"qt-project!\0", b"ab"))
        # The descriptor has 2 bytes, and 6 of padding.
        for cut in range(1, 12):
            data = self.made(whole[:-cut]).data
            found = self.report(data)
            self.assertEqual(found, self.report(data, "--strict"))
            self.assertEqual(len(found[0]), 1, cut)

    def test_a_size_past_the_end(self):
        for at in (0, 4):
            content = bytearray(notes((b"qt-project!\0", b"ab")))
            content[at] = 200
            lines, known = self.report(self.made(content).data)
            self.assertEqual((len(lines), known), (1, {}))

    def test_a_name_that_is_not_closed(self):
        made = self.made(notes((b"qt-project!\0", b"ab"), (b"Qtx", b"a")))
        # The second note begins after 12 + 12 + 8 bytes.
        at = made.starts[2] + 32 + 12 + 2
        self.assert_found(made.data, 62, at, "with padding to multiples of 8", "notes-of-8")


def hash_table(buckets, chains, width=4, order="<"):
    """The words of a hash table (gABI, chapter 5)."""
    words = len(buckets), len(chains), *buckets, *chains
    return struct.pack(f"{order}{len(words)}{'Q' if width == 8 else 'I'}", *words)


# Two LOCAL symbols, 1 and 2, and the GLOBAL symbols 3 and 4. The hash of a name of one letter is
# that letter: a 0x61, b 0x62, c 0x63, d 0x64. So of two buckets 0 has b and d, and 1 has a and c.
ROWS = (1, 0, 1), (3, 0, 1), (5, GLOBAL, 1), (7, GLOBAL, 1)
STRINGS = (b".strtab", 3, b"\0a\0b\0c\0d\0", {})


class HashCase(DeviationCase):
    def made(self, content, rows=ROWS, width=4, order="<", strings=STRINGS):
        info = 1 + sum(it[1] < GLOBAL for it in rows)
        table = symbols(3, *rows, info=info, order=order)
        fields = dict(link=2, entsize=width)
        return Made(text(), table, strings, (b".hash", 5, content, fields), order=order)

    def word(self, made, index, width=4):
        """Where a word of the table is."""
        return made.starts[4] + width * index


class HashWithoutLocalsTest(HashCase):
    def test_locals(self):
        # Each bucket has its GLOBAL symbol alone.
        data = self.made(hash_table([4, 3], [0] * 5)).data
        self.assert_known(data, 69, hash_without_locals=1)
        # One of the LOCAL symbols is on its chain.
        data = self.made(hash_table([4, 3], [0, 0, 0, 1, 0])).data
        self.assert_known(data, 69, hash_without_locals=1)
        data = self.made(hash_table([4, 3], [0] * 5, order=">"), order=">").data
        self.assert_known(data, 69, hash_without_locals=1)

    def test_all_symbols(self):
        data = self.made(hash_table([4, 3], [0, 0, 0, 1, 2])).data
        self.assertEqual(self.report(data), ([], {}))

    def test_a_global_symbol(self):
        made = self.made(hash_table([4, 0], [0] * 5))
        chain = self.word(made, 2 + 2 + 3)
        words = "the chain word of symbol 3 c: 0; ", "(known deviation hash-without-locals)"
        self.assert_found(made.data, 69, chain, *words)

    def test_a_weak_symbol(self):
        rows = *ROWS[:3], (7, WEAK, 1)
        made = self.made(hash_table([0, 3], [0] * 5), rows)
        self.assert_found(made.data, 69, self.word(made, 2 + 2 + 4))

    def test_a_local_symbol_on_another_chain(self):
        # Symbol 2, whose name is b, is on the chain of bucket 1.
        made = self.made(hash_table([4, 3], [0, 0, 0, 2, 0]))
        self.assert_found(made.data, 69, self.word(made, 2 + 2 + 2))

    def test_a_local_symbol_with_a_chain_word(self):
        made = self.made(hash_table([4, 3], [0, 2, 0, 0, 0]))
        self.assert_found(made.data, 69, self.word(made, 2 + 2 + 1))

    def test_registers_of_sparc(self):
        rows = *ROWS[:3], (7, GLOBAL | SPARC_REGISTER, 1)
        made = self.made(hash_table([0, 3], [0] * 5, order=">"), rows, order=">")
        self.assert_known(program(made, SPARC_V9), 69, hash_without_locals=1)
        self.assert_found(program(made, MIPS), 69, self.word(made, 2 + 2 + 4))

    def test_names_that_are_too_long_to_hash(self):
        for length, is_known in ((1 << 20, True), ((1 << 20) + 1, False)):
            # The LOCAL symbol has the long name, and the GLOBAL one its last letter.
            strings = b".strtab", 3, b"\0" + b"a" * length + b"\0", {}
            rows = (1, 0, 1), (length, GLOBAL, 1)
            made = self.made(hash_table([2], [0] * 3), rows, strings=strings)
            lines, known = self.report(made.data)
            self.assertEqual(not lines, is_known)
            self.assertEqual(known, {"hash-without-locals": 1} if is_known else {})

    def test_many_tables_for_one_long_name(self):
        """The name is hashed once, and read once."""
        strings = b".strtab", 3, b"\0" + b"a" * 5000 + b"\0", {}
        table = hash_table([0], [0] * 2)
        one = (b".hash", 5, table, dict(link=2, entsize=4))
        made = Made(text(), symbols(3, (1, 0, 1), info=2), strings, *[one] * 20)
        with mock.patch.object(_deviations, "_hashed", wraps=_deviations._hashed) as hashed:
            self.assertEqual(self.report(made.data), ([], {"hash-without-locals": 20}))
        hashed.assert_called_once_with(b"a" * 5000)


class HashOf8BytesTest(HashCase):
    def test_words_of_8_bytes(self):
        for machine, order in ((S390, ">"), (ALPHA, "<")):
            content = hash_table([4, 3], [0, 0, 0, 1, 2], 8, order)
            made = self.made(content, width=8, order=order)
            self.assert_known(program(made, machine), 42, hash_of_8_bytes=1)

    def test_without_locals(self):
        made = self.made(hash_table([4, 3], [0] * 5, 8, ">"), width=8, order=">")
        self.assert_known(program(made, S390), 42, hash_of_8_bytes=1, hash_without_locals=1)

    def test_other_machines(self):
        made = self.made(hash_table([4, 3], [0, 0, 0, 1, 2], 8), width=8)
        self.assert_as_before(made.data, 42)
        self.assert_as_before(program(made, MIPS), 42)

    def test_words_that_are_too_large_or_cut(self):
        content = hash_table([4, 3], [0, 0, 0, 1, 2], 8)
        for index in range(9):
            large = bytearray(content)
            large[8 * index + 4] = 1
            self.assert_as_before(program(self.made(large, width=8), ALPHA), 42)
        self.assert_as_before(program(self.made(content[:-4], width=8), ALPHA), 42)
        self.assert_as_before(program(self.made(content, width=16), ALPHA), 42)

    def test_another_rule_in_the_table(self):
        # Of each: the buckets, the chain words, the rule, and its word.
        for buckets, chains, rule, index in (
            ([4, 5], [0, 0, 0, 1, 2], 67, 3),
            ([4, 3], [0, 0, 0, 1, 4], 68, 2),
            ([4, 0], [0, 0, 0, 0, 2], 69, 7),
        ):
            made = self.made(hash_table(buckets, chains, 8), width=8)
            at = self.word(made, index, 8)
            begins = f"of section 4 .hash [{made.starts[4]:#x}, {made.starts[4] + 72:#x}): "
            words = begins, "the table is read in words of 8 bytes"
            self.assert_found(program(made, ALPHA), rule, at, *words)
        made = self.made(hash_table([4, 3], [0] * 4, 8), width=8)
        self.assert_found(program(made, ALPHA), 66, self.word(made, 1, 8))
        made = self.made(hash_table([4, 3], [0] * 5, 8) + bytes(8), width=8)
        size = f"sh_size, which is {8 * 10}; "
        self.assert_found(program(made, ALPHA), 65, made.at(4, "size"), size)


def without_symbols(*infos, kind=4, link=0, info=1, order="<"):
    """A program without symbols, with relocations of these r_info, in two sections."""
    addend = bytes(8) if kind == 4 else b""
    entries = (struct.pack(f"{order}QQ", 8, it) + addend for it in infos)
    fields = dict(link=link, info=info, entsize=24 if kind == 4 else 16)
    content = b"".join(entries)
    row = (b".rela.plt", kind, content, fields)
    return Made(text(), row, row, order=order)


IRELATIVE = 37


class StaticTest(DeviationCase):
    def test_relocations_of_no_symbol(self):
        for kind in (4, 9):
            for order in "<>":
                for type_ in (EXEC, DYN):
                    made = without_symbols(IRELATIVE, IRELATIVE, kind=kind, order=order)
                    data = program(made, kind=type_)
                    self.assert_known(data, 44, relocations_without_symbols=2)

    def test_an_object(self):
        made = without_symbols(IRELATIVE)
        self.assertEqual([it["rule"] for it in self.report(made.data)[0]], [44, 44])

    def assert_both(self, made, machine=62):
        data = program(made, machine, EXEC)
        places = [(44, made.at(it, "link")) for it in (2, 3)]
        lines, known = self.report(data)
        self.assertEqual([(it["rule"], it["offset"]) for it in lines], places)
        self.assertEqual(known, {})

    def test_relocations_of_symbols(self):
        for symbol in (1, 1 << 31):
            for order in "<>":
                made = without_symbols(IRELATIVE, symbol << 32 | IRELATIVE, order=order)
                self.assert_both(made)

    def test_another_link(self):
        for link in (1, 4, 5, 99):
            self.assert_both(without_symbols(IRELATIVE, link=link))

    def test_a_target_that_is_not_there(self):
        # There are five sections; those that the copy has besides are none.
        for info in (5, 6, 7):
            self.assert_both(without_symbols(IRELATIVE, info=info))

    def test_one_of_two_sections(self):
        """A finding beside a section that is put right has its own offset."""
        made = without_symbols(IRELATIVE)
        at = made.at(3, "entsize")
        data = bytearray(program(made, kind=EXEC))
        struct.pack_into("<Q", data, at, 1)
        lines, known = self.report(data)
        self.assertEqual([(it["rule"], it["offset"]) for it in lines], [(42, at)])
        self.assertEqual(known, {"relocations-without-symbols": 1})

    def test_mips(self):
        """The symbol is where the supplement has it, and so are the types."""
        for infos, is_known in ((["0000000012000003"], True), (["0100000012000003"], False)):
            numbers = [int.from_bytes(bytes.fromhex(it), "little") for it in infos]
            made = without_symbols(*numbers, kind=9)
            if is_known:
                names = dict(relocations_without_symbols=2, mips_relocation_info=2)
                self.assert_known(program(made, MIPS, EXEC), 44, **names)
            else:
                self.assert_both(made, MIPS)


class DebugCase(DeviationCase):
    """Files of debug information, whose one loadable segment is beyond their end."""

    def made(self, *more, code=NOBITS, filesz=0x100, memsz=0x100, offset=0x1000):
        row = (b".text", code, b"", dict(flags=6, addr=0x1000, size=0x100 * (code == NOBITS)))
        note = (b".note", NOTE, notes((b"GNU\0", b"1234"), size=4), dict(flags=2))
        made = Made(row, note, *more)
        segment = struct.pack("<2I6Q", 1, 5, offset, 0x1000, 0x1000, filesz, memsz, 0x1000)
        at = len(made.data)
        data = bytearray(program(made, kind=DYN)) + segment
        struct.pack_into("<Q", data, 32, at)
        struct.pack_into("<HH", data, 54, 56, 1)
        return data, at

    def found(self, data):
        return self.report(data, "--debug-files")

    def assert_both(self, data, rule, at):
        """The file is reported with and without the option."""
        self.assert_found(data, rule, at)
        self.assert_found(data, rule, at, options=["--debug-files"])


class DebugTest(DebugCase):
    def test_segments_past_the_end(self):
        data, at = self.made()
        self.assert_found(data, 25, at + 8, "which elfmap-lint accepts with --debug-files")
        self.assert_found(data, 25, at + 8, options=["--strict"])
        self.assertEqual(self.found(data), ([], {"debug-segments": 1}))

    def test_a_segment_within_the_file(self):
        data, _ = self.made(offset=0x1000, filesz=0)
        self.assertEqual(self.found(data), ([], {}))

    def test_code_that_is_there(self):
        data, at = self.made(code=1)
        self.assert_both(data, 25, at + 8)
        self.assertNotIn("--debug-files", self.found(data)[0][0]["message"])

    def test_data_that_is_there(self):
        data, at = self.made((b".data", 1, b"1234", dict(flags=3)))
        self.assert_both(data, 25, at + 8)

    def test_no_code(self):
        made = Made((b".bss", NOBITS, b"", dict(flags=3, size=8)))
        data = bytearray(program(made, kind=DYN))
        at = len(data)
        data += struct.pack("<2I6Q", 1, 6, 0x1000, 0x1000, 0x1000, 8, 8, 0x1000)
        struct.pack_into("<Q", data, 32, at)
        struct.pack_into("<HH", data, 54, 56, 1)
        self.assert_both(data, 25, at + 8)

    def test_another_rule_of_segments(self):
        data, at = self.made(filesz=0x101)
        words = "p_filesz, which is 0x101", "may pass its end (known deviation debug-segments)"
        self.assert_found(data, 26, at + 32, *words, options=["--debug-files"])

    def test_a_segment_beyond_the_longest_file(self):
        for offset, is_known in (
            (2**30 - 0x1000, True),
            (2**30, False),
            (2**64 - 0x1000, False),
        ):
            data, at = self.made(offset=offset)
            if is_known:
                self.assertEqual(self.found(data), ([], {"debug-segments": 1}))
            else:
                self.assert_both(data, 25, at + 8)

    def test_a_section_past_the_end(self):
        data, _ = self.made((b".debug_info", 1, b"1234", {}))
        at = int.from_bytes(data[40:48], "little") + 64 * 3
        struct.pack_into("<Q", data, at + 32, 1 << 20)
        self.assert_both(data, 24, at + 24)

    def test_tables(self):
        rows = symbols(4, (1, GLOBAL, 99)), NAMES
        data, _ = self.made(*rows)
        lines, known = self.found(data)
        self.assertEqual(([it["rule"] for it in lines], known), ([51], {"debug-segments": 1}))

    def test_a_table_that_deviates_too(self):
        content = notes((b"qt-project!\0", b"ab"))
        data, _ = self.made((b".note.qt", NOTE, content, dict(flags=2, align=8)))
        self.assertEqual(self.found(data), ([], {"debug-segments": 1, "notes-of-8": 1}))


class ReportTest(DeviationCase):
    def put_files(self):
        self.put(
            a__o=mips(1)[0],
            b__o=mips(1, 0)[0],
            c__o=bytes(Made(text(), (b".n", NOTE, notes((b"Qt\0", b"a" * 9)), dict(align=8))).data),
            good__o=GOOD,
        )

    def test_text(self):
        self.put_files()
        known = b"2 mips-relocation-info, 1 notes-of-8"
        line = b"0 findings in 0 of 4 ELF files; known deviations: " + known
        self.assertSaid(["--tables", "."], 0, [line])
        self.assertSaid(["--tables", "-j2", "a.o", "b.o", "c.o", "good.o"], 0, [line])
        self.assertSaid(["--tables", "--format", "github", "."], 0, [line])
        self.put(bad__o=BROKEN_SYMBOLS, none=b"none")
        status, out, _ = self.lint("--tables", ".")
        line = (
            b"1 finding in 1 of 5 ELF files; known deviations: " + known + b"; skipped: 1 not ELF"
        )
        self.assertEqual((status, out.splitlines()[-1]), (1, line))

    def test_several_processes(self):
        for number in range(100):
            self.put(**{f"{number}__o": mips(number % 2)[0]})
        line = b"0 findings in 0 of 100 ELF files; known deviations: 100 mips-relocation-info"
        self.assertSaid(["--tables", "-j3", "."], 0, [line])

    def test_strict(self):
        self.put_files()
        status, out, _ = self.lint("--tables", "--strict", ".")
        self.assertEqual((status, len(out.splitlines())), (1, 4))
        self.assertEqual(out.splitlines()[-1], b"3 findings in 3 of 4 ELF files")
        self.assertEqual(self.lint("--strict", "--debug-files", ".")[0], 2)

    def test_of_images(self):
        """Without --tables no table is looked at."""
        self.put_files()
        self.assertSaid(["."], 0, [b"0 findings in 0 of 4 ELF files"])

    def test_objects(self):
        """What `elfmap rewrite` refuses is a finding."""
        self.put_files()
        for words in (["--object"], ["--tables", "--object"]):
            status, out, _ = self.lint(*words, "a.o")
            self.assertEqual((status, b"WRONG_RELOCATION_SYMBOL (54)" in out), (1, True))

    def test_sarif_and_junit(self):
        self.put_files()
        known = {"mips-relocation-info": 2, "notes-of-8": 1}
        log = json.loads(self.lint("--tables", "--format", "sarif", ".")[1])
        self.assert_sarif(log)
        self.assertEqual(log["runs"][0]["properties"]["known_deviations"], known)
        tree = ElementTree.fromstring(self.lint("--tables", "--format", "junit", ".")[1])
        found = {it.get("name"): it.get("value") for it in tree.iter("property")}
        expected = {f"known_deviations.{name}": str(count) for name, count in known.items()}
        self.assertEqual(found, expected)
        self.assertEqual(len(list(tree.iter("testcase"))), 4)

    def test_a_baseline(self):
        """It has findings alone, and one that has deviations as findings goes on to fit."""
        self.put_files()
        self.lint("--tables", "--write-baseline", "known.txt", ".")
        with open("known.txt") as it:
            self.assertEqual(json.load(it)["findings"], [])
        self.lint("--tables", "--strict", "--write-baseline", "known.txt", ".")
        words = ["--tables", "--baseline", "known.txt"]
        self.assertEqual(self.lint(*words, "--strict", ".")[0], 0)
        self.assertEqual(self.lint(*words, ".")[0], 0)

    def test_members_of_an_archive(self):
        self.put_files()
        subprocess.run(["ar", "rc", "lib.a", "a.o", "c.o"], check=True)
        line = b"0 findings in 0 of 2 ELF files; known deviations: 1 mips-relocation-info"
        self.assertSaid(["--tables", "lib.a"], 0, [line + b", 1 notes-of-8"])

    def test_each_has_a_row(self):
        """The manual has each of them, and no other one."""
        page = (build.REPOSITORY / "docs/MANUAL.md").read_text()
        part = page.partition("\n### Known deviations\n")[2].partition("\n#")[0]
        rows = [it.split("`")[1] for it in part.splitlines() if it.startswith("| `")]
        self.assertEqual(sorted(rows), sorted(it.name for it in _deviations.DEVIATIONS))


class ExplainTest(DeviationCase):
    def test_a_finding_in_a_table_that_deviates(self):
        self.put(bad__o=mips(1, 2)[0])
        for words in ([], ["--format", "jsonl"]):
            found = self.lint("--tables", *words, "bad.o")[1].splitlines()[0]
            with tempfile.TemporaryFile() as it:
                with explain.Files() as files:
                    explain.Explainer([], files).tell([found], it)
                it.seek(0)
                told = " ".join(it.read().decode().split())
            self.assertIn("WRONG_RELOCATION_SYMBOL: the table is refused", told)
            reading = (
                "(mips-relocation-info): `r_info` is read as the processor supplement for MIPS"
            )
            self.assertIn(reading, told)


class LongFileTest(DeviationCase):
    """Tables beyond what is read whole, and tables that are checked some at a time."""

    def made(self, front):
        """A file of which three tables deviate, one of them twice, and two tables are broken."""
        relocation = struct.pack("<QI4Bq", 8, 1, 0, 0, 18, 3, 0)
        wrong = struct.pack("<QI4Bq", 8, 9, 0, 0, 18, 3, 0)
        of_none = struct.pack("<QI4Bq", 8, 0, 0, 0, 18, 3, 0)
        to_symbols = dict(link=2, info=1, entsize=24)
        hashed = hash_table([4, 3], [0] * 5)
        return Made(
            text(content=bytes(front)),
            symbols(3, *ROWS, info=3),
            STRINGS,
            (b".rela.a", 4, relocation, to_symbols),
            (b".note", NOTE, notes((b"qt-project!\0", b"ab")), dict(align=8)),
            (b".rela.b", 4, relocation + wrong, to_symbols),
            (b".hash", 5, hashed, dict(link=2, entsize=4)),
            (b".rela.c", 4, of_none, dict(link=0, info=1, entsize=24)),
            (b".note.cut", NOTE, b"1234", dict(align=8)),
        )

    def test_however_it_is_read(self):
        for front in (4, 1 << 16, 200_000):
            made = self.made(front)
            data = program(made, MIPS, DYN)
            at = (54, made.starts[6] + 24 + 8), (59, made.starts[9])
            known = {
                "hash-without-locals": 1,
                "mips-relocation-info": 2,
                "notes-of-8": 1,
                "relocations-without-symbols": 1,
            }
            strict = [(54, made.starts[4] + 8), (54, made.starts[6] + 8), (59, made.starts[9])]
            strict += [(59, made.starts[5] + 28), (69, made.starts[7] + 4 * 5)]
            strict += [(44, made.at(8, "link"))]
            for most in (1, 50, 1 << 24):
                with mock.patch.object(_checks, "_MOST_AT_ONCE", most):
                    lines, found = self.report(data)
                    self.assertEqual([(it["rule"], it["offset"]) for it in lines], list(at))
                    self.assertEqual(found, known)
                    lines, _ = self.report(data, "--strict")
                    found = [(it["rule"], it["offset"]) for it in lines]
                    self.assertEqual(sorted(found), sorted(strict))

    def test_many_tables_that_are_broken(self):
        """What is remembered of a file is found once, and not for each finding."""
        wrong = struct.pack("<QI4Bq", 8, 9, 0, 0, 18, 3, 0)
        row = (b".rela", 4, wrong, dict(link=2, info=1, entsize=24))
        made = Made(text(), symbols(3, (1, GLOBAL, 1)), NAMES, *[row] * 30)
        own = _deviations._MendedWords
        with mock.patch.object(_deviations, "_MendedWords", wraps=own) as words:
            lines, known = self.report(program(made, MIPS))
        self.assertEqual(([it["rule"] for it in lines], known), ([54] * 30, {}))
        words.assert_called_once()

    def test_a_table_that_is_too_large(self):
        data = program(self.made(4), MIPS, DYN)
        with mock.patch.object(_deviations, "_MOST_BYTES", 20):
            self.assertEqual(self.report(data), self.report(data, "--strict"))

    def test_too_many_sections(self):
        """The copy has no room for the headers of two more."""
        data = program(without_symbols(IRELATIVE), kind=EXEC)
        with mock.patch.object(_deviations, "_RESERVED_COUNT", 7):
            self.assertEqual(self.report(data), self.report(data, "--strict"))
        with mock.patch.object(_deviations, "_RESERVED_COUNT", 8):
            self.assertEqual(self.report(data), ([], {"relocations-without-symbols": 2}))

    def test_a_file_of_almost_the_longest_size(self):
        """The copy has no room for what it adds."""
        data = program(without_symbols(IRELATIVE), kind=EXEC)
        end = len(data) + 64 * 7 + 25
        for more, is_known in ((0, True), (-1, False)):
            with mock.patch.object(_deviations, "LONGEST", end + 1 + more):
                self.assertEqual(not self.report(data)[0], is_known)


class ProducerTest(DeviationCase):
    """A finding that a known producer explains has its name."""

    GUILE = "Guile made it"
    U_BOOT = "U-Boot made it"

    def test_guile(self):
        for name, at, is_guile in (
            (b".guile.procprops", 0, True),
            (b".guile.arities", 0, True),
            (b".guilt", 0, False),
            (b".guile.procprops", 64, False),
        ):
            made = Made(text(), (name, 1, b"", {}), (b"", 1, b"1234", {}))
            message = self.report(made.with_field(3, "offset", at))[0][0]["message"]
            self.assertEqual(self.GUILE in message, is_guile)

    def test_u_boot(self):
        for name, is_u_boot in ((b"__u_boot_list", True), (b"__list", False)):
            made = Made((name, 1, b"1", {}), (b".hash", 5, hash_table([0], [0]), dict(entsize=4)))
            lines = self.report(made.data)[0]
            self.assertEqual([it["rule"] for it in lines], [44])
            self.assertEqual(self.U_BOOT in lines[0]["message"], is_u_boot)

    def test_words_of_explain(self):
        made = Made((b"__u_boot_list", 1, b"1", {}))
        found = list(_hints.hints(_words.Words(bytes(made.data)), "a.o", 44, 100))
        self.assertEqual(len(found), 1)
        self.assertTrue(found[0].startswith(self.U_BOOT))

    def test_another_rule(self):
        made = Made(text(), symbols(3, (1, GLOBAL, 99)), NAMES, (b"__u_boot_list", 1, b"1", {}))
        self.assertNotIn(self.U_BOOT, self.report(made.data)[0][0]["message"])


def has(*tools):
    return all(map(shutil.which, tools))


CODE = b".globl work\nwork: .quad 0\n.data\n.globl value\nvalue: .quad work\n"
REGISTER = b".register %g7, __thread_self\n"
# Debian's u-boot-qemu and libc6-mips64el-cross.
U_BOOT = "/usr/lib/u-boot/{}/uboot.elf"
MIPS_LIBC = "/usr/mips64el-linux-gnuabi64/lib/libdl.so.2"
# Packages that `tools/test setup` fetches and does not install.
FETCHED = "/var/cache/elfmap-tests/{}_*.deb"


def has_package(name):
    return bool(glob.glob(FETCHED.format(name)))


class ToolchainTest(DeviationCase):
    """Files that real toolchains make."""

    def linked(self, target, *options, emulation=(), code=CODE):
        """A shared library of one function and one variable, and its object."""
        self.put(a__s=code)
        subprocess.run([f"{target}-as", *options, "-o", "a.o", "a.s"], check=True)
        link = [f"{target}-ld", *emulation, "-shared", "--hash-style=sysv"]
        subprocess.run([*link, "-o", "a.so", "a.o"], check=True)

    def known(self, *words):
        status, out, err = self.lint("--tables", "--format", "jsonl", *words)
        self.assertEqual((status, err), (0, b""), out)
        return json.loads(out)["summary"]["known_deviations"]

    @unittest.skipUnless(has("mips64-linux-gnuabi64-ld"), "binutils for mips64 is not installed")
    def test_mips(self):
        emulation = ["-EL", "-m", "elf64ltsmip"]
        self.linked("mips64-linux-gnuabi64", "-EL", "-64", emulation=emulation)
        self.assertEqual(self.known("a.o"), {"mips-relocation-info": 1})
        # Its symbols have that of a section, which is LOCAL.
        known = {"hash-without-locals": 1, "mips-relocation-info": 1}
        self.assertEqual(self.known("a.so"), known)

    @unittest.skipUnless(has("s390x-linux-gnu-ld"), "binutils for s390x is not installed")
    def test_s390x(self):
        self.linked("s390x-linux-gnu")
        self.assertEqual(self.known("a.so")["hash-of-8-bytes"], 1)

    @unittest.skipUnless(has("alpha-linux-gnu-ld"), "binutils for alpha is not installed")
    def test_alpha(self):
        self.linked("alpha-linux-gnu")
        self.assertEqual(self.known("a.so")["hash-of-8-bytes"], 1)

    @unittest.skipUnless(has("sparc64-linux-gnu-ld"), "binutils for sparc64 is not installed")
    def test_sparc64(self):
        self.linked("sparc64-linux-gnu")
        self.assertEqual(self.known("a.so"), {"hash-without-locals": 1})
        # The table leaves out the register too, which is GLOBAL.
        self.linked("sparc64-linux-gnu", code=REGISTER + CODE)
        self.assertEqual(self.known("a.so"), {"hash-without-locals": 1})

    @unittest.skipUnless(has("riscv64-linux-gnu-ld"), "binutils for riscv64 is not installed")
    def test_riscv64(self):
        self.linked("riscv64-linux-gnu")
        self.assertEqual(self.known("a.so"), {"hash-without-locals": 1})

    @unittest.skipUnless(os.path.exists(MIPS_LIBC), "libc6-mips64el-cross is not installed")
    def test_the_c_library_for_mips(self):
        known = {"hash-without-locals": 1, "mips-relocation-info": 1}
        self.assertEqual(self.known(MIPS_LIBC), known)

    @unittest.skipUnless(os.path.exists(U_BOOT.format("qemu_arm64")), "U-Boot is not installed")
    def test_u_boot(self):
        riscv64 = U_BOOT.format("qemu-riscv64")
        self.assertEqual(self.known(riscv64), {"hash-without-locals": 1})
        # Its hash table has no symbol table either, and is no relocation section.
        words = ["--tables", "--format", "jsonl", U_BOOT.format("qemu_arm64")]
        finding, summary = map(json.loads, self.lint(*words)[1].splitlines())
        self.assertEqual((finding["rule"], finding["sections"][0]), (44, ".hash"))
        self.assertIn(ProducerTest.U_BOOT, finding["message"])
        known = summary["summary"]["known_deviations"]
        self.assertEqual(known, {"relocations-without-symbols": 2})

    @unittest.skipUnless(has_package("libc6-sparc64-cross"), "the package was not fetched")
    def test_the_c_library_for_sparc64(self):
        known = self.known(*glob.glob(FETCHED.format("libc6-sparc64-cross")))
        self.assertEqual(list(known), ["hash-without-locals"])

    @unittest.skipUnless(has_package("libqt6svg6"), "the package was not fetched")
    def test_plugins_of_qt(self):
        # The note of libqsvg.so has 162 bytes, and is filled to 168. That of libqsvgicon.so has
        # 118, and is filled to 120 for 4 as for 8.
        known = self.known(*glob.glob(FETCHED.format("libqt6svg6")))
        self.assertEqual(known, {"notes-of-8": 1})

    @unittest.skipUnless(has_package("guile-json"), "the package was not fetched")
    def test_guile(self):
        words = ["--tables", "--format", "jsonl", *glob.glob(FETCHED.format("guile-json"))]
        *findings, summary = map(json.loads, self.lint(*words)[1].splitlines())
        self.assertEqual(summary["summary"]["checked"], 4)
        files = {it["path"] for it in findings if ProducerTest.GUILE in it["message"]}
        self.assertEqual(files, {it["path"] for it in findings})
        self.assertEqual(len(files), 4)

    @unittest.skipUnless(glob.glob(SANITIZERS), "clang's runtimes are not installed")
    def test_the_runtimes_of_clang(self):
        self.assertEqual(self.known(*glob.glob(SANITIZERS)), {"hash-without-locals": 1})

    @unittest.skipUnless(has("cc", "strip"), "cc or strip is not installed")
    def test_a_static_program(self):
        self.put(a__c=b"int main(void) { return 0; }\n")
        subprocess.run(["cc", "-static", "-s", "-o", "a", "a.c"], check=True)
        self.assertEqual(self.known("a"), {"relocations-without-symbols": 1})

    @unittest.skipUnless(has("cc", "eu-strip"), "cc or eu-strip is not installed")
    def test_eu_strip(self):
        self.put(a__c=b"int values[999] = {1}; int main(void) { return values[3]; }\n")
        subprocess.run(["cc", "-g", "-o", "a", "a.c"], check=True)
        subprocess.run(["eu-strip", "-f", "a.debug", "a"], check=True)
        self.assertEqual(self.known("--debug-files", "a", "a.debug"), {"debug-segments": 1})
        self.assertEqual(self.lint("--tables", "a.debug")[0], 1)


if __name__ == "__main__":
    unittest.main()
