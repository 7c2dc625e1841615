"""elfmap-lint: what it tells of files that are made here by hand.

What is expected is what docs/RULES.md says of such a file, or the description of the
format: SARIF 2.1.0, the layouts of archives.
"""

import contextlib
import io
import json
import os
import re
import shutil
import signal
import stat
import struct
import subprocess
import sys
import tempfile
import unittest
from pathlib import Path
from types import SimpleNamespace
from unittest import mock
from urllib.parse import unquote_to_bytes
from xml.etree import ElementTree

import elfmap
from elfmap import (
    _archives,
    _checks,
    _declared,
    _findings,
    _formats,
    _library,
    _rules,
    _sources,
    _walk,
    _words,
    _workers,
    build,
    lint,
)
from elfmap._inspect import Depth, Inspector

from tests.made import (
    BROKEN_SYMBOLS,
    BSD,
    CLASS_32,
    ENVIRONMENT,
    GNU,
    GOOD,
    LONG,
    MANY_BROKEN,
    SHARING,
    FolderCase,
    Made,
    archive_member,
    relocations,
    setUpModule,
    symbols,
    text,
    thin,
)

sys.path.insert(0, str(build.REPOSITORY / "tools" / "lib"))
from elfmap_tools.written_cases import cases_of  # noqa: E402

PROGRAM = [sys.executable, "-m", "elfmap.lint"]
SHARED = (
    b"offset 0x72: SHARED_BYTE (33): the content of .text [0x40, 0x73) and of .data [0x72, 0x76) "
    b"share byte 0x72; every byte of a file belongs to one of its parts"
)
# Its canonical layout has a byte at 2^30.
TOO_LONG_OBJECT = bytes(Made((b".text", 1, b"\x90", dict(align=1 << 30))).data)
TOO_LONG = (
    b"offset 0x0: OBJECT_TOO_LONG (0): the canonical layout of its object would be longer than 2^30"
    b" bytes; split the file"
)


class Case(FolderCase):
    def lint(self, *words, stdin=b""):
        """The status, and what is told on standard output and standard error."""
        with contextlib.ExitStack() as stack:
            files = [stack.enter_context(tempfile.TemporaryFile()) for _ in range(3)]
            files[0].write(stdin)
            files[0].seek(0)
            for number, file in enumerate(files):
                saved = os.dup(number)
                stack.callback(os.close, saved)
                stack.callback(os.dup2, saved, number)
                os.dup2(file.fileno(), number)
            said = stack.enter_context(open(2, "w", closefd=False, errors="surrogateescape"))
            stack.enter_context(mock.patch.object(sys, "stderr", said))
            try:
                status = lint.main(words)
            except SystemExit as end:
                status = end.code
            said.flush()
            return status, *(os.pread(it.fileno(), 1 << 24, 0) for it in files[1:])

    def told(self, *words, stdin=b""):
        """The lines of standard output."""
        return self.lint(*words, stdin=stdin)[1].decode("utf-8", "surrogateescape").splitlines()

    def assertSaid(self, words, status, lines, stdin=b""):
        found, out, _ = self.lint(*words, stdin=stdin)
        self.assertEqual((found, out.splitlines()), (status, lines))

    def assert_sarif(self, log):
        """What the standard requires of a log (SARIF 2.1.0, 3.13 to 3.58)."""
        self.assertEqual(log["version"], "2.1.0")
        self.assertTrue(log["$schema"].endswith("sarif-2.1.0.json"))
        self.assertLessEqual(set(log), {"$schema", "version", "runs"})
        for run in log["runs"]:
            self.assertLessEqual(set(run), {"tool", "invocations", "results", "properties"})
            driver = run["tool"]["driver"]
            self.assertEqual(driver["name"], "elfmap-lint")
            rules = [it["id"] for it in driver["rules"]]
            self.assertEqual(len(rules), len(set(rules)))
            for it in run["invocations"]:
                self.assertIsInstance(it["executionSuccessful"], bool)
            for it in run["results"]:
                self.assert_sarif_result(it, rules)

    def assert_sarif_result(self, it, rules):
        self.assertLessEqual(
            set(it), {"ruleId", "ruleIndex", "level", "message", "locations", "partialFingerprints"}
        )
        self.assertEqual(rules[it["ruleIndex"]], it["ruleId"])
        self.assertIn(it["level"], ("none", "note", "warning", "error"))
        self.assertTrue(it["message"]["text"])
        for place in it["locations"]:
            self.assertLessEqual(set(place), {"physicalLocation", "logicalLocations"})
            uri = place["physicalLocation"]["artifactLocation"]["uri"]
            self.assertRegex(uri, r"^(file:///)?[A-Za-z0-9._~/%-]+$")
            self.assertGreaterEqual(place["physicalLocation"]["region"]["byteOffset"], 0)
            logical = [json.dumps(it, sort_keys=True) for it in place.get("logicalLocations", ())]
            self.assertEqual(len(logical), len(set(logical)))


class WordsTest(Case):
    def test_a_shared_byte(self):
        self.put(bad__o=SHARING)
        self.assertSaid(["bad.o"], 1, [b"bad.o: " + SHARED, b"1 finding in 1 of 1 ELF file"])

    def test_a_byte_of_many_sections(self):
        data = [(b".data", 1, b"\1", {}) for _ in range(100)]
        made = Made(*data)
        content = bytearray(made.data)
        for index in range(1, 101):
            struct.pack_into("<Q", content, made.at(index, "offset"), 64)
        self.put(bad__o=bytes(content))
        line = self.told("bad.o")[0]
        self.assertEqual(line.count(".data [0x40, 0x41)"), 16, line)
        self.assertIn("and of 84 more share byte 0x40; ", line)

    def test_a_byte_of_a_file_of_many_sections(self):
        """More than there is room for at first."""
        made = Made(*[(b".data", 1, b"\1", {}) for _ in range(400)])
        self.put(bad__o=made.with_field(400, "offset", 64), good__o=bytes(made.data))
        lines = self.told("bad.o", "good.o")
        shared = "bad.o: offset 0x40: SHARED_BYTE (33): the content of .data [0x40, 0x41) and of"
        self.assertTrue(lines[0].startswith(shared), lines)
        self.assertEqual(lines[1:], ["1 finding in 1 of 2 ELF files"])

    def test_a_byte_of_the_header(self):
        self.put(bad__o=Made(text()).with_field(1, "offset", 0x3F))
        owners = "the ELF header [0x0, 0x40) and the content of .text [0x3f, 0x72) share byte 0x3f"
        self.assertIn(owners, self.told("bad.o")[0])

    def test_a_field(self):
        self.put(bad__o=Made(text()).with_field(1, "align", 3))
        at = Made(text()).table + 64 + 48
        words = (
            f"bad.o: offset {at:#x}: WRONG_SECTION_ALIGNMENT (22): the section header of section 1"
            " .text of type PROGBITS: sh_addralign, which is 3; `sh_addralign` is neither 0 nor a"
            " power of two; give an alignment that is one"
        )
        self.assertEqual(self.told("bad.o")[0], words)

    def test_a_file_that_ends_early(self):
        self.put(bad__o=GOOD[:63])
        words = (
            "bad.o: offset 0x3f: TOO_SHORT (2): the file ends there, with 63 bytes; it is shorter"
            " than an ELF header, 64 bytes"
        )
        self.assertTrue(self.told("bad.o")[0].startswith(words))

    def test_a_file_that_is_too_long(self):
        with open("long", "wb") as it:
            it.write(GOOD)
            it.truncate(2**30 + 1)
        self.assertTrue(self.told("long")[0].startswith("long: offset 0x40000000: TOO_LONG (1): "))

    def test_names_that_are_no_text(self):
        self.put(bad__o=Made(text(b"\xff\n")).with_field(1, "align", 3))
        self.assertIn("section 1 \\xff\\n of type PROGBITS", self.told("bad.o")[0])

    def test_a_name_across_what_is_read_at_once(self):
        name = b".a_name_of_some_letters"
        most = 1 << 16
        # The name begins 5 bytes before the end of the first 64 KiB: after the header, a content,
        # one of a byte and two empty names.
        made = Made((b"", 1, bytes(most - 8 - 64), {}), text(name, b"\x90")).with_field(
            2, "align", 3
        )
        self.assertEqual(made.index(name), most - 5)
        self.put(bad__o=made)
        self.assertIn(
            (
                "the section header of section 2 .a_name_of_some_letters of type PROGBITS:"
                " sh_addralign"
            ),
            self.told("bad.o")[0],
        )

    def test_a_section_without_a_name(self):
        self.put(bad__o=Made(text(b"")).with_field(1, "align", 3))
        line = json.loads(self.told("--format", "jsonl", "bad.o")[0])
        self.assertEqual(
            (line["sections"], "section 1 (no name) of type PROGBITS" in line["message"]),
            (["section 1"], True),
        )

    def test_each_rule_has_a_reason(self):
        self.assertTrue(all(map(_words.reason, _rules.RULES)))

    def test_any_bytes_have_words(self):
        for data in (
            b"",
            b"\x7fELF",
            GOOD[:70],
            b"\x7fELF\2\2" + b"\xff" * 100,
            BROKEN_SYMBOLS[:-90],
        ):
            for rule in _rules.RULES:
                for at in (0, 60, len(data), 2**64 - 1):
                    for table in (None, 0, 1, 2**40):
                        self.assertTrue(_words.explain(_words.Words(data), rule, at, table).message)


class DepthTest(Case):
    def test_a_symbol_table_is_told_once(self):
        self.put(bad__o=BROKEN_SYMBOLS)
        self.assertEqual(self.told("bad.o"), ["0 findings in 0 of 1 ELF file"])
        lines = self.told("--tables", "bad.o")
        self.assertEqual(len(lines), 2)
        # Three sections have the content before it: 0x33 bytes from 0x40 on.
        words = (
            "bad.o: offset 0x96: WRONG_SYMBOL_SECTION (51): the content of section 2 .symtab [0x78,"
            " 0xa8): symbol 1 f, defined in section 99, which isn't there: st_shndx, which is"
            " 0x63; "
        )
        self.assertTrue(lines[0].startswith(words), lines[0])

    def test_a_symbol_table_after_what_links_to_it(self):
        """The fault is that of the symbols all the same."""
        strings = (b".strtab", 3, b"\0f\0", {})
        bad = Made(text(), relocations(3, 1), symbols(4, (1, 0x10, 99)), strings)
        self.put(bad__o=bytes(bad.data))
        lines = self.told("--tables", "bad.o")
        self.assertEqual(len(lines), 2)
        self.assertIn("the content of section 3 .symtab ", lines[0])
        self.assertNotIn(".rela.text", lines[0])

    def test_each_table_with_its_own_fault(self):
        parts = [
            text(),
            symbols(3, (1, 0x10, 1)),
            (b".strtab", 3, b"\0f\0", {}),
            relocations(2, 9),
            relocations(2, 1, 8),
        ]
        self.put(bad__o=bytes(Made(*parts).data))
        lines = self.told("--tables", "bad.o")
        self.assertEqual(
            [it.split(": ")[2] for it in lines[:-1]], ["WRONG_RELOCATION_SYMBOL (54)"] * 2
        )
        self.assertEqual(lines[-1], "2 findings in 1 of 1 ELF file")
        # As an object the file breaks a rule once.
        self.assertEqual(self.told("--object", "bad.o")[-1], "1 finding in 1 of 1 ELF file")

    def test_a_table_after_many_sections(self):
        self.put(bad__o=bytes(MANY_BROKEN.data))
        lines = self.told("--tables", "bad.o")
        self.assertEqual(len(lines), 2)
        at = MANY_BROKEN.starts[302] + 24 + 6
        self.assertTrue(lines[0].startswith(f"bad.o: offset {at:#x}: WRONG_SYMBOL_SECTION (51): "))
        self.assertIn("the content of section 302 .symtab ", lines[0])

    def test_each_rule_of_tables(self):
        """The files of cases/explain.txt that break one: what `elfmap show` prints is found, each
        fault once."""
        seen = set()
        for case in cases_of(str(build.REPOSITORY / "cases/explain.txt")):
            kind, number, _ = case.note.split(" ", 2)
            if kind != "table":
                continue
            content = bytes(case.files[case.needs[0].partition("=")[2]])
            shown = re.findall(rb"^refused \d+ (\d+) (\d+)$", case.out, re.M)
            self.put(bad__o=content)
            lines = [
                json.loads(it) for it in self.told("--tables", "--format", "jsonl", "bad.o")[:-1]
            ]
            with self.subTest(rule=number):
                self.assertIn(number.encode(), {rule for rule, _ in shown})
                found = sorted((it["rule"], it["offset"]) for it in lines)
                self.assertEqual(found, sorted({(int(rule), int(at)) for rule, at in shown}))
            seen.add(int(number))
        self.assertEqual(seen, set(range(41, 70)))

    def test_relocations_without_addends(self):
        header = (
            "the section header of section 4 .rel.text of type REL; its link is section 2 .symtab"
            " of type SYMTAB"
        )
        entry = (
            "the content of section 4 .rel.text [0xb0, 0xc0): relocation 0, of symbol 9, which"
            " isn't there"
        )
        for info, symbol, words in (
            (
                99,
                1,
                (
                    f"WRONG_TARGET (53): {header}; it relocates section 99, which isn't there:"
                    " sh_info, which is 99; "
                ),
            ),
            (
                1,
                9,
                (
                    f"WRONG_RELOCATION_SYMBOL (54): {entry}, at 0x0 of section 1 .text, of type 2"
                    " (R_X86_64_PC32); "
                ),
            ),
        ):
            rows = (
                b".rel.text",
                9,
                struct.pack("<QQ", 0, symbol << 32 | 2),
                dict(link=2, info=info, entsize=16),
            )
            self.put(
                bad__o=bytes(
                    Made(text(), symbols(3, (1, 0x10, 1)), (b".strtab", 3, b"\0f\0", {}), rows).data
                )
            )
            lines = self.told("--tables", "bad.o")
            self.assertEqual((len(lines), words in lines[0]), (2, True), lines)

    def test_a_fault_in_the_names_of_symbols(self):
        """The table is named by its own section, wherever the offset is."""
        made = Made(text(), symbols(3, (1, 0x10, 1)), (b".strtab", 3, b"\0f", {}))
        self.put(bad__o=bytes(made.data))
        line = json.loads(self.told("--tables", "--format", "jsonl", "bad.o")[0])
        start = made.starts[3]
        words = (
            "the table in section 2 .symtab of type SYMTAB; the content of section 3 .strtab"
            f" [{start:#x}, {start + 2:#x}): byte 1: 0x66; the string table has bytes, and the"
            " first or the last one isn't 0; a string table begins and ends with a zero"
        )
        self.assertEqual(
            (line["rule"], line["offset"], line["sections"]),
            (41, start + 1, [".symtab", ".strtab"]),
        )
        self.assertEqual(line["message"], words)

    def test_a_fault_of_dynamic_symbols_is_theirs(self):
        """A hash table before them has all rules of its symbols."""
        hashes = (b".hash", 5, struct.pack("<5I", 1, 2, 1, 0, 0), dict(link=2, entsize=4))
        content = symbols(3, (1, 0x10, 99))[2]
        table = (b".dynsym", 11, content, dict(link=3, info=1, entsize=24))
        made = Made(hashes, table, (b".dynstr", 3, b"\0f\0", {}))
        self.put(bad__o=bytes(made.data))
        line = json.loads(self.told("--tables", "--format", "jsonl", "bad.o")[0])
        found = line["rule"], line["offset"], line["sections"]
        self.assertEqual(found, (51, made.starts[2] + 24 + 6, [".dynsym"]))
        self.assertTrue(line["message"].startswith("the content of section 2 .dynsym ["))

    def test_an_object_that_would_be_too_long(self):
        self.put(bad__o=TOO_LONG_OBJECT)
        self.assertEqual(self.lint("bad.o")[0], 0)
        self.assertSaid(
            ["--object", "bad.o"], 1, [b"bad.o: " + TOO_LONG, b"1 finding in 1 of 1 ELF file"]
        )
        log = json.loads(self.lint("--object", "--format", "sarif", "bad.o")[1])
        self.assert_sarif(log)
        self.assertEqual(log["runs"][0]["results"][0]["ruleId"], "OBJECT_TOO_LONG")

    def test_there_is_no_memory(self):
        self.put(good__o=GOOD)
        for word, call in (
            ("--tables", "elfmap_table_verdicts"),
            ("--object", "elfmap_object_verdict"),
            ("--object", "elfmap_link_verdict"),
        ):
            with mock.patch.object(_library.library(), call, return_value=_declared.NO_MEMORY):
                status, out, said = self.lint(word, "good.o")
            self.assertEqual((status, out), (3, b"0 findings in 0 of 0 ELF files; 1 unreadable\n"))
            self.assertEqual(said, b"elfmap-lint: good.o: there is no memory for its tables\n")
        self.put(thread__o=bytes(Made((b".tdata", 1, bytes(8), dict(flags=0x406))).data))
        call = "elfmap_link_place"
        with mock.patch.object(_library.library(), call, return_value=_declared.NO_MEMORY):
            status, _, said = self.lint("--object", "thread.o")
        self.assertEqual(status, 3)
        self.assertEqual(said, b"elfmap-lint: thread.o: there is no memory for its tables\n")

    def test_an_index_table_of_a_long_file(self):
        """Symbol 1 has an index of its own, so its word has to be 0."""
        index_table = (b".symtab_shndx", 18, struct.pack("<2I", 0, 7), dict(link=2, entsize=4))
        filler = (b".filler", 1, bytes(1 << 17), {})
        strings = (b".strtab", 3, b"\0f\0", {})
        made = Made(filler, symbols(3, (1, 0x10, 1)), strings, index_table)
        self.put(bad__o=bytes(made.data))
        front = f"bad.o: offset {made.starts[4] + 4:#x}: WRONG_INDEX_WORD (52): "
        for words in (["--tables"], ["--object"]):
            lines = self.told(*words, "bad.o")
            self.assertTrue(lines[0].startswith(front), lines)
            with mock.patch.object(_checks, "_MOST_AT_ONCE", 0):
                self.assertEqual(self.told(*words, "-j1", "bad.o"), lines)

    def test_more_sections_than_the_header_counts(self):
        """0xff01 sections: their count, and the index of the names, are in section header 0. The
        table is after what is read whole."""
        table = 1 << 17
        count = 0xFF01
        last = 0xFF00
        data = bytearray(table + 64 * count)
        data[:64] = struct.pack(
            "<16sHHIQQQIHHHHHH", b"\x7fELF\2\1\1", 1, 62, 1, 0, 0, table, 0, 64, 0, 0, 64, 0, 0xFFFF
        )
        names = b"\0.text\0.shstrtab\0"
        data[64 : 64 + len(names)] = names

        def put(index, *fields):
            data[table + 64 * index : table + 64 * (index + 1)] = struct.pack(
                "<IIQQQQIIQQ", *fields
            )

        put(0, 0, 0, 0, 0, 0, count, last, 0, 0, 0)
        put(last, 7, 3, 0, 0, 64, len(names), 0, 0, 1, 0)
        put(last - 1, 1, 1, 0, 0, 0, 0, 0, 0, 1, 0)
        self.put(many__o=bytes(data))
        self.assertSaid(["many.o"], 0, [b"0 findings in 0 of 1 ELF file"])
        put(last - 1, 1, 1, 0, 0, 0, 0, 0, 0, 3, 0)
        self.put(many__o=bytes(data))
        at = table + 64 * (last - 1) + 48
        words = (
            "the section header of section 65279 .text of type PROGBITS: sh_addralign, which is 3; "
        )
        self.assertTrue(
            self.told("many.o")[0].startswith(
                f"many.o: offset {at:#x}: WRONG_SECTION_ALIGNMENT (22): {words}"
            )
        )

    def test_the_end_of_section_names_after_what_is_read_whole(self):
        made = Made(text(content=bytes(1 << 17)))
        end = made.names + len(b"\0.text\0.shstrtab\0")
        for at in (made.names, end - 1):
            self.put(bad__o=made.with_bytes(at, b"x"))
            words = f"bad.o: offset {at:#x}: UNCLOSED_NAME_TABLE (31): "
            self.assertTrue(self.told("bad.o")[0].startswith(words))

    def test_program_headers_after_what_is_read_whole(self):
        start = 1 << 17
        header = struct.pack(
            "<16sHHIQQQIHHHHHH", b"\x7fELF\2\1\1", 2, 62, 1, 0, start, 0, 0, 64, 56, 10, 0, 0, 0
        )
        rows = b"".join(struct.pack("<IIQQQQQQ", 1, 4, 0, 0, 0, 0, 0, it) for it in [1] * 9 + [3])
        self.put(bad=header.ljust(start, b"\0") + rows)
        words = (
            f"bad: offset {start + 9 * 56 + 48:#x}: WRONG_SEGMENT_ALIGNMENT (27): program header 9:"
            " p_align, which is 3; "
        )
        self.assertTrue(self.told("bad")[0].startswith(words))

    def test_what_an_object_needs(self):
        executable = Made(text()).with_bytes(16, b"\2")
        self.put(good__o=GOOD, run=executable)
        self.assertEqual(self.lint(".")[0], 0)
        words = (
            "./run: offset 0x10: NOT_RELOCATABLE (70): the header: e_type, which is 2; `e_type`"
            " isn't REL; "
        )
        lines = self.told("--object", ".")
        self.assertTrue(lines[0].startswith(words), lines[0])
        self.assertEqual(len(lines), 2)

    def test_a_fault_of_both_is_told_once(self):
        self.put(bad__o=BROKEN_SYMBOLS)
        self.assertEqual(len(self.told("--tables", "--object", "bad.o")), 2)

    def test_what_is_not_read_does_not_matter(self):
        """Each byte that is looked at, in a file that is longer than what is read whole."""
        made = self.long_file()
        checks = _checks.Checks(False, False)
        for at in (*range(64), *range(made.names, len(made.data))):
            for value in (0, 1, 0xFF):
                with self.changed(made.data, at, value) as source:
                    found = [(it.rule, it.at) for it in checks.faults(source)]
                    self.assertEqual(found, self.refused(made.data), (at, value))

    def test_tables_of_a_long_file(self):
        made = self.long_file()
        checks = _checks.Checks(True, True)
        for at in range(len(made.data) - 500, len(made.data)):
            with self.changed(made.data, at, 0xEE) as source:
                found = {(it.rule, it.at) for it in checks.faults(source) if not it.is_of_link}
                lines = re.findall(r"^refused (?:\d+ )?(\d+) (\d+)$", elfmap.show(made.data), re.M)
                shown = {(int(rule), int(place)) for rule, place in lines}
                # An image that is refused is refused as an object by the same fault.
                self.assertEqual(found, shown | self.no_object(made.data), at)

    def test_tables_some_at_a_time(self):
        """Each table is shown by itself: the faults are the same, whatever byte is changed."""
        parts = [
            symbols(3, (1, 0x10, 0xFFFF), (1, 0x20, 1)),
            (b".strtab", 3, b"\0f\0", {}),
            relocations(2, 1),
            relocations(2, 2),
        ]
        words = struct.pack("<3I", 0, 0xFF00, 0)
        index_table = (b".symtab_shndx", 18, words, dict(link=2, entsize=4))
        group = (b".group", 17, struct.pack("<2I", 1, 4), dict(link=2, info=1, entsize=4))
        note = (b".note", 7, struct.pack("<3I", 4, 0, 1) + b"abc\0", {})
        made = Made(text(), *parts, index_table, group, note)
        checks = _checks.Checks(True, True)
        for at in range(64, len(made.data)):
            for value in (0, 2, 0xEE):
                with self.changed(made.data, at, value) as source:
                    whole = checks.faults(source)
                    with mock.patch.object(_checks, "_MOST_AT_ONCE", 0):
                        self.assertEqual(checks.faults(source), whole, (at, value))

    def long_file(self):
        filler = (b".filler", 1, bytes(1 << 17), {})
        return Made(
            filler, symbols(3, (1, 0x10, 1)), (b".strtab", 3, b"\0f\0", {}), relocations(2, 1)
        )

    @contextlib.contextmanager
    def changed(self, data, at, value):
        """A file of the bytes, of which one is another one meanwhile."""
        before = data[at]
        data[at] = value
        if not hasattr(self, "file"):
            self.file = tempfile.TemporaryFile(buffering=0)
            self.addCleanup(self.file.close)
            self.file.write(data)
        os.pwrite(self.file.fileno(), bytes([value]), at)
        yield _sources.Source(self.file.fileno(), 0, len(data))
        data[at] = before
        os.pwrite(self.file.fileno(), bytes([before]), at)

    def no_object(self, data):
        try:
            elfmap.rewrite(data)
        except elfmap.Refused as fault:
            return {(fault.rule, fault.offset)}
        return set()

    def refused(self, data):
        try:
            elfmap.check(data)
        except elfmap.Refused as fault:
            return [(fault.rule, fault.offset)]
        return []


class FormatTest(Case):
    def setUp(self):
        super().setUp()
        os.mkdir("a")
        self.put(
            **{"a/bad__o": SHARING, "a/lib__a": GNU, "a/good__o": GOOD, "a/text": b"no ELF file"}
        )

    def test_text(self):
        member = b"a/lib.a(" + LONG + b"): " + SHARED
        summary = b"2 findings in 2 of 4 ELF files; skipped: 2 not ELF"
        self.assertSaid(["a"], 1, [b"a/bad.o: " + SHARED, member, summary])

    def test_members_of_an_archive_are_files(self):
        self.put(
            two__a=b"!<arch>\n"
            + archive_member(b"one.o", SHARING)
            + archive_member(b"other.o", SHARING)
        )
        self.assertEqual(self.told("two.a")[-1], "2 findings in 2 of 2 ELF files")

    def test_each_format_has_records(self):
        for it, count in (("text", 3), ("jsonl", 3), ("github", 3)):
            out = self.lint("-0", "--format", it, "a")[1]
            self.assertEqual((out.count(b"\0"), out.count(b"\n"), out[-1:]), (count, 0, b"\0"), it)

    def test_a_path_with_a_delete(self):
        os.rename("a/bad.o", "a/b\x7f.o")
        self.assertEqual(self.lint("a")[1].splitlines()[0], b"a/b\\x7f.o: " + SHARED)

    def test_records_that_end_by_zero(self):
        os.rename("a/bad.o", b"a/b\n\xff")
        records = self.lint("-0", "a")[1].split(b"\0")
        self.assertEqual(len(records), 4)
        self.assertEqual(records[0], b"a/b\n\xff: " + SHARED)
        self.assertEqual(self.lint("a")[1].splitlines()[0], b"a/b\\x0a\\xff: " + SHARED)

    def test_jsonl(self):
        lines = [json.loads(it) for it in self.told("--format", "jsonl", "a", "none")]
        found = {
            "path": "a/bad.o",
            "offset": 0x72,
            "rule": 33,
            "name": "SHARED_BYTE",
            "sections": [".text", ".data"],
        }
        message = SHARED.decode().partition("(33): ")[2]
        self.assertEqual(lines[0], {**found, "message": message, "machine": "X86_64"})
        self.assertEqual(lines[2], {"path": "none", "unreadable": "no such file or directory"})
        counts = dict(
            checked=4,
            findings=2,
            files_with_findings=2,
            suppressed=0,
            known_deviations={},
            not_elf=2,
            class_32=0,
            not_regular=0,
            unreadable=1,
        )
        self.assertEqual(lines[3:], [{"summary": counts}])

    def test_jsonl_of_a_member(self):
        """The offset is one in the member."""
        lines = [json.loads(it) for it in self.told("--format", "jsonl", "a/lib.a")]
        self.assertEqual(lines[0]["path"], f"a/lib.a({LONG.decode()})")
        self.assertEqual(lines[0]["offset"], 0x72)

    def test_jsonl_of_a_path_that_is_no_text(self):
        os.rename("a/bad.o", b"a/\xff")
        found = [json.loads(it) for it in self.told("--format", "jsonl", "a")]
        self.assertEqual(
            [(it["path"], bytes.fromhex(it["path_hex"])) for it in found if "path_hex" in it],
            [("a/\\xff", b"a/\xff")],
        )

    def test_sarif(self):
        os.rename("a/bad.o", b"a/b d\xff%.o")
        status, out, _ = self.lint("--format", "sarif", "a", "none")
        log = json.loads(out)
        self.assertEqual(status, 3)
        self.assert_sarif(log)
        run = log["runs"][0]
        places = [it["locations"][0]["physicalLocation"] for it in run["results"]]
        files = [unquote_to_bytes(it["artifactLocation"]["uri"]) for it in places]
        self.assertEqual(files, [b"a/b d\xff%.o", b"a/lib.a"])
        self.assertEqual(places[0]["region"]["byteOffset"], 0x72)
        # In the archive the member begins behind its header.
        self.assertEqual(places[1]["region"]["byteOffset"], GNU.index(SHARING) + 0x72)
        self.assertFalse(run["invocations"][0]["executionSuccessful"])
        self.assertIn(
            "none: no such file",
            run["invocations"][0]["toolExecutionNotifications"][0]["message"]["text"],
        )

    def test_sarif_of_the_tool(self):
        """Its version, and of each rule where it is described (3.19.13, 3.49.13)."""
        self.put(
            **{
                "a/thread__o": bytes(Made((b".tdata", 1, bytes(4), dict(flags=0x403))).data),
                "a/tables__o": BROKEN_SYMBOLS,
            }
        )
        driver = json.loads(self.lint("--tables", "--object", "--format", "sarif", "a")[1])["runs"][
            0
        ]["tool"]["driver"]
        self.assertEqual(
            driver["version"], (build.REPOSITORY / "VERSION").read_text().splitlines()[0]
        )
        places = {it["id"]: it["help"]["text"].rpartition("; see ")[2] for it in driver["rules"]}
        self.assertEqual(
            places,
            {
                "SHARED_BYTE": "docs/RULES.md#image-33",
                "WRONG_SYMBOL_SECTION": "docs/RULES.md#table-51",
                "TLS": "docs/RULES.md#link-3",
            },
        )
        pages = (build.REPOSITORY / "docs/RULES.md").read_text(encoding="utf-8")
        for rule, is_of_link in [
            *((it, False) for it in _rules.RULES),
            *((it, True) for it in _rules.LINK_RULES),
        ]:
            _, _, anchor = _findings.Rule(is_of_link, rule).place.partition("#")
            self.assertIn(f'<a id="{anchor}">', pages)

    def fingerprints(self, *words):
        results = json.loads(self.lint("--tables", "--format", "sarif", *words)[1])["runs"][0][
            "results"
        ]
        return [it["partialFingerprints"]["elfmapFinding/v1"] for it in results]

    def test_sarif_of_a_file_that_is_built_again(self):
        """A result is known by its fingerprint (3.27.17): at another offset it is the same one, and
        no two of a log are."""
        before = self.fingerprints("a")
        moved = Made(text(content=bytes(0x35)), (b".data", 1, bytes(4), {})).with_field(
            2, "offset", 0x74
        )
        self.put(**{"a/bad__o": moved})
        self.assertEqual(self.fingerprints("a"), before)
        self.assertEqual(len({*before}), 2)
        # Another path, another section, and another rule.
        others = [
            ("b/bad__o", moved),
            ("a/bad__o", SHARING.replace(b".data", b".dato")),
            ("a/bad__o", GOOD[:63]),
        ]
        for path, content in others:
            self.put(**{path: content})
            self.assertEqual({*self.fingerprints(path.replace("__", "."))} & {*before}, set())
        rows = [relocations(2, 9)] * 3
        self.put(
            thrice__o=bytes(
                Made(text(), symbols(3, (1, 0x10, 1)), (b".strtab", 3, b"\0f\0", {}), *rows).data
            )
        )
        found = self.fingerprints("thrice.o")
        self.assertEqual((len(found), len({*found})), (3, 3))

    def test_sarif_of_a_run(self):
        """It is successful if each file was read, whatever was found (3.20.14)."""
        for words, is_successful in (
            (["a/good.o"], True),
            (["a/bad.o"], True),
            (["a/bad.o", "none"], False),
            (["a/text"], False),
        ):
            run = json.loads(self.lint("--format", "sarif", *words)[1])["runs"][0]
            self.assertEqual(run["invocations"][0]["executionSuccessful"], is_successful, words)

    def test_sarif_of_a_member(self):
        results = json.loads(self.lint("--format", "sarif", "a")[1])["runs"][0]["results"]
        sections = [{"name": ".text", "kind": "section"}, {"name": ".data", "kind": "section"}]
        member = {"name": f"a/lib.a({LONG.decode()})", "kind": "member"}
        self.assertEqual(
            [it["locations"][0]["logicalLocations"] for it in results],
            [sections, [member, *sections]],
        )
        self.assertEqual({it["level"] for it in results}, {"error"})
        regions = [it["locations"][0]["physicalLocation"]["region"] for it in results]
        starts = [0, Path("a/lib.a").read_bytes().index(SHARING)]
        self.assertEqual(regions, [dict(byteOffset=it + 0x72, byteLength=1) for it in starts])

    def test_sarif_of_sections_of_one_name(self):
        """The schema asks for locations that differ."""
        self.put(**{"a/bad__o": Made(text(), text()).with_field(2, "offset", 0x72)})
        log = json.loads(self.lint("--format", "sarif", "a/bad.o")[1])
        self.assert_sarif(log)
        found = log["runs"][0]["results"][0]["locations"][0]["logicalLocations"]
        self.assertEqual(found, [{"name": ".text", "kind": "section"}])

    def test_sarif_of_a_file_that_ends_early(self):
        """There is no byte at its end (3.30: a region is a part of its file)."""
        self.put(**{"a/short__o": GOOD[:63]})
        results = json.loads(self.lint("--format", "sarif", "a")[1])["runs"][0]["results"]
        regions = {it["ruleId"]: it["locations"][0]["physicalLocation"]["region"] for it in results}
        self.assertEqual(regions["TOO_SHORT"], {"byteOffset": 63})
        self.assertEqual(regions["SHARED_BYTE"]["byteLength"], 1)

    def test_sarif_of_an_absolute_path(self):
        path = os.path.abspath("a/bad.o")
        result = json.loads(self.lint("--format", "sarif", path)[1])["runs"][0]["results"][0]
        uri = result["locations"][0]["physicalLocation"]["artifactLocation"]["uri"]
        self.assertEqual((uri[:8], unquote_to_bytes(uri[7:])), ("file:///", os.fsencode(path)))

    def test_sarif_of_a_path_with_a_colon(self):
        """What is before it is no scheme of a URI (RFC 3986, 4.2)."""
        self.put(**{"c:bad__o": SHARING})
        log = json.loads(self.lint("--format", "sarif", "c:bad.o")[1])
        self.assert_sarif(log)
        place = log["runs"][0]["results"][0]["locations"][0]["physicalLocation"]
        self.assertEqual(place["artifactLocation"]["uri"], "c%3Abad.o")

    def test_junit_of_members_of_one_name(self):
        """Each is a test case."""
        self.put(thin__a=thin(b"none.o", b"none.o"))
        cases = ElementTree.fromstring(self.lint("--format", "junit", "thin.a")[1])[0]
        names = {it.get("name") for it in cases}
        self.assertEqual(names, {"thin.a(none.o)", "thin.a(none.o#2)"})
        self.assertEqual({it[0].get("message") for it in cases}, {"no such file or directory"})

    def test_junit_of_one_path(self):
        """A path is one test case, with all that is said of it."""
        table = archive_member(b"/", b"none.a/\n") + archive_member(b"/0:8", b"", b"") * 2
        self.put(thin__a=b"!<thin>\n" + table)
        (case,) = ElementTree.fromstring(self.lint("--format", "junit", "thin.a")[1])[0]
        self.assertEqual((case.get("name"), len(case)), ("thin.a(none.a)", 1))
        self.assertEqual(case[0].get("message"), "; ".join(["no such file or directory"] * 2))

    def test_junit_of_many_findings(self):
        """Two relocations of two tables are of symbols that aren't there. What is suppressed has
        passed."""
        parts = [
            text(),
            symbols(3, (1, 0x10, 1)),
            (b".strtab", 3, b"\0f\0", {}),
            relocations(2, 9),
            relocations(2, 1, 8),
        ]
        self.put(**{"a/tables__o": bytes(Made(*parts).data)})
        suite = ElementTree.fromstring(
            self.lint("--tables", "--ignore", "33", "--format", "junit", "a")[1]
        )[0]
        cases = {it.get("name"): it for it in suite}
        names = {
            "a/bad.o",
            "a/good.o",
            "a/lib.a(good.o)",
            f"a/lib.a({LONG.decode()})",
            "a/tables.o",
        }
        self.assertEqual((set(cases), suite.get("tests"), suite.get("failures")), (names, "5", "1"))
        self.assertEqual({name for name, it in cases.items() if len(it)}, {"a/tables.o"})
        lines = cases["a/tables.o"][0].text.splitlines()
        self.assertEqual([it.split(": ")[1] for it in lines], ["WRONG_RELOCATION_SYMBOL (54)"] * 2)

    def test_junit(self):
        os.rename("a/bad.o", b"a/\xff<&\"'>\x01.o")
        root = ElementTree.fromstring(self.lint("--format", "junit", "a", "none")[1])
        suite = root[0]
        self.assertEqual((root.tag, suite.tag), ("testsuites", "testsuite"))
        cases = {it.get("name"): it for it in suite}
        member = "a/lib.a(" + LONG.decode() + ")"
        expected = {"a/good.o", "a/lib.a(good.o)", member, "a/\\xff<&\"'>\\x01.o", "none"}
        self.assertEqual(set(cases), expected)
        self.assertEqual([suite.get(it) for it in ("tests", "failures", "errors")], ["5", "2", "1"])
        self.assertEqual(len(cases["a/good.o"]), 0)
        failure = cases[member][0]
        self.assertEqual((failure.tag, failure.get("type")), ("failure", "SHARED_BYTE"))
        self.assertEqual(failure.text, SHARED.decode())
        self.assertEqual(cases["none"][0].tag, "error")

    def test_github(self):
        os.rename("a/bad.o", "a/b:,%\n")
        lines = self.told("--format", "github", "a")
        message = f"a/b:,%25\\n: {SHARED.decode()}"
        self.assertEqual(
            lines[0], f"::error file=a/b%3A%2C%25%0A,title=SHARED_BYTE (33)::{message}"
        )

    def test_github_of_a_member_and_of_what_is_unreadable(self):
        member = f"a/lib.a({LONG.decode()})"
        lines = self.told("--format", "github", "a", "none")
        self.assertEqual(
            lines[1], f"::error file=a/lib.a,title=SHARED_BYTE (33)::{member}: {SHARED.decode()}"
        )
        self.assertEqual(
            lines[2], "::error file=none,title=unreadable::none: no such file or directory"
        )
        self.assertEqual(len(lines), 4)

    def test_one_document_has_no_records(self):
        for it in ("sarif", "junit"):
            self.assertEqual(self.lint("-0", "--format", it, "a")[0], 2)

    def test_the_same_whatever_the_number_of_processes(self):
        for number in range(200):
            Path(f"a/{number}.o").write_bytes(SHARING if number % 3 else GOOD)
        for it in ("text", "jsonl", "sarif", "junit", "github"):
            alone = self.lint("--format", it, "-j1", "a", "none")
            self.assertEqual(self.lint("--format", it, "-j3", "a", "none"), alone)


class OptionTest(Case):
    def setUp(self):
        super().setUp()
        os.makedirs("a/b")
        self.put(**{"a/bad__o": SHARING, "a/b/bad__o": SHARING, "a/b/narrow": CLASS_32})

    def paths(self, *words, **more):
        return [it.split(": ")[0] for it in self.told(*words, **more)[:-1]]

    def test_what_is_written_is_not_read(self):
        files = dict(good__o=GOOD, known=b'{"version": 1, "findings": []}', names=b"good.o\0")
        self.put(**files, rules=b"2 pc 4 signed\n", config=b"tables = true\n")
        link = ["--link", "--rules", "rules", "good.o"]
        listed = ["--files0-from", "names"]
        for words in (
            ["-o", "./good.o", "good.o"],
            ["--write-baseline", "good.o", "good.o"],
            ["-o", "known", "--baseline", "known", "good.o"],
            ["-o", "new", "--write-baseline", "./new", "good.o"],
            ["-o", "./rules", *link],
            ["--write-baseline", "rules", *link],
            ["-o", "./config", "--config", "config", "good.o"],
            ["-o", "names", *listed],
            ["--write-baseline", "names", *listed],
            # A file of the list is read too.
            ["-o", "./good.o", *listed],
            ["--write-baseline", "good.o", *listed],
        ):
            with self.subTest(words=words):
                before = {it.name: it.read_bytes() for it in Path().iterdir() if it.is_file()}
                status, out, said = self.lint(*words)
                self.assertEqual((status, out, said.count(b" is a file that is read")), (2, b"", 1))
                after = {it.name: it.read_bytes() for it in Path().iterdir() if it.is_file()}
                self.assertEqual(after, before)
        words = ["--baseline", "known", "--write-baseline", "known", "-o", "new", "good.o"]
        self.assertEqual(self.lint(*words)[0], 0)

    def test_excluded(self):
        self.assertEqual(self.paths("a"), ["a/b/bad.o", "a/bad.o"])
        self.assertEqual(self.paths("--exclude", "b", "a"), ["a/bad.o"])
        self.assertEqual(self.paths("--exclude", "a/b/*", "a"), ["a/bad.o"])
        self.assertEqual(self.paths("--exclude", "*.o", "--exclude", "b", "a"), [])

    def test_what_is_named_is_excluded_too(self):
        self.assertEqual(self.paths("--exclude", "b", "a/b/", "a/bad.o"), ["a/bad.o"])
        self.assertSaid(
            ["--exclude", "*.o", "a/bad.o", "a/b/bad.o"], 0, [b"0 findings in 0 of 0 ELF files"]
        )

    def test_class_32(self):
        self.assertIn("skipped: 1 of class 32", self.told("a")[-1])
        lines = self.told("--class32=fail", "a/b/narrow")
        self.assertTrue(lines[0].startswith("a/b/narrow: offset 0x4: WRONG_CLASS (4): "), lines)

    def test_what_is_said_of_class_32(self):
        more = b"--class32=fail reports such files, --class32=skip is silent\n"
        said = b"elfmap-lint: 1 file of class 32 was not checked; " + more
        self.assertEqual(self.lint("-q", "a"), (1, b"", said))
        self.put(other=CLASS_32)
        said = b"elfmap-lint: 2 files of class 32 were not checked; " + more
        self.assertEqual(self.lint("--class32=warn", "a", "other")[2], said)
        self.assertEqual(self.lint("--class32=skip", "a", "other")[2], b"")
        self.assertEqual(self.lint("--class32=fail", "a", "other")[2], b"")
        self.assertEqual(self.lint("a/bad.o")[2], b"")

    def test_ignored(self):
        summary = b"0 findings in 0 of 2 ELF files, 2 suppressed; skipped: 1 of class 32"
        for rule in ("33", "SHARED_BYTE", "shared_byte", "shared-byte"):
            self.assertSaid(["--ignore", rule, "a"], 0, [summary])
        self.assertEqual(self.paths("--ignore", "33:a/b/*", "a"), ["a/bad.o"])
        self.assertEqual(self.paths("--ignore", "22", "a"), ["a/b/bad.o", "a/bad.o"])
        for rule in ("34", "NO_SUCH_RULE", "", "0", "²", "link-17", "warning-0"):
            self.assertEqual(self.lint("--ignore", rule, "a")[0], 2)

    def test_how_a_rule_to_ignore_is_written(self):
        for word in ("033", "00033", "Shared_Byte", "sHARED-bYTE"):
            self.assertEqual(self.paths("--ignore", word, "a"), [], word)
        self.put(thread__o=bytes(Made((b".tdata", 1, bytes(4), dict(flags=0x403))).data))
        for word in ("link-3", "LINK_3", "tls"):
            self.assertEqual(self.lint("--object", "--ignore", word, "thread.o")[0], 0, word)
        for word in ("33:", ":", ":a", "SHARED_BYTE:", "link-3:", "000", "-33"):
            status, out, said = self.lint(f"--ignore={word}", "a")
            self.assertEqual((status, out, said.count(b"\n")), (2, b"", 1), word)

    def test_the_case_of_globs(self):
        """It is that of names of files, in which it matters."""
        self.assertEqual(
            self.paths("--exclude", "*.O", "--exclude", "A/*", "--ignore", "33:BAD.o", "a"),
            ["a/b/bad.o", "a/bad.o"],
        )
        self.assertEqual(self.paths("--exclude", "[A-Z]*.o", "a"), ["a/b/bad.o", "a/bad.o"])
        self.put(**{"a/BAD__O": SHARING})
        self.assertEqual(self.paths("--exclude", "*.O", "a"), ["a/b/bad.o", "a/bad.o"])

    def test_a_named_file_that_is_no_elf_file(self):
        """It is an error, and not skipped as one of a directory is, unless that is asked for."""
        foreign = b"it is neither an ELF file nor an archive; --skip skips it"
        empty = b"it is empty; --skip skips it"
        silent = "--class32=skip"
        self.put(**{"a/text": b"no ELF file", "a/short": b"\x7fEL", "a/empty": b""})
        unread = b"0 findings in 0 of 0 ELF files; 1 unreadable\n"
        skipped = b"0 findings in 0 of 0 ELF files; skipped: 1 not ELF\n"
        for name, reason in (("text", foreign), ("short", foreign), ("empty", empty)):
            lost = b"elfmap-lint: a/%s: %s\n" % (name.encode(), reason)
            self.assertEqual(self.lint(f"a/{name}"), (3, unread, lost))
            self.assertEqual(self.lint("--skip", f"a/{name}"), (0, skipped, b""))
            # It is named, whatever directory has it too.
            self.assertEqual(self.lint(silent, "a", f"a/{name}")[::2], (3, lost))
            self.assertEqual(self.lint("-j3", silent, f"a/{name}", "a")[::2], (3, lost))
            self.assertEqual(self.lint("--exclude", name, f"a/{name}")[0], 0)
            content = Path(f"a/{name}").read_bytes()
            lost = b"elfmap-lint: -: " + reason + b"\n"
            self.assertEqual(self.lint("-", stdin=content)[::2], (3, lost))
            self.assertEqual(self.lint("--skip", "-", stdin=content), (0, skipped, b""))
        self.assertEqual(self.lint("a")[0], 1)
        self.put(names=b"a/text\0a/bad.o\0")
        self.assertEqual(self.lint("--files0-from", "names")[0], 3)
        self.assertEqual(self.lint("--skip", "--files0-from", "names")[0], 1)
        # By one of its hard links, of which the first one is in a directory.
        os.link("a/text", "z")
        lost = b"elfmap-lint: a/text: " + foreign + b"\n"
        self.assertEqual(self.lint(silent, "a", "z")[::2], (3, lost))
        # What is in an archive is not named, and an ELF file of 32 bits is one.
        self.put(lib__a=GNU)
        self.assertEqual(self.lint("--ignore", "33", "lib.a", "a/b/narrow")[0], 0)

    def test_a_rule_is_ignored_where_one_of_its_globs_matches(self):
        self.put(**{"a/x:y__o": SHARING, "a/lib__a": GNU})
        member = f"a/lib.a({LONG.decode()})"
        every = ["a/b/bad.o", "a/bad.o", member, "a/x:y.o"]
        self.assertEqual(self.paths("a"), every)
        self.assertEqual(
            self.paths("--ignore", "33:a/b/*", "--ignore", "33:a/bad.o", "a"), every[2:]
        )
        self.assertEqual(self.paths("--ignore", "33:x:y.o", "a"), every[:3])
        # A member is of its own name, and of that of the archive.
        for glob in ("lib.a", "lib.a(*)", "a/lib.a"):
            self.assertEqual(self.paths("--ignore", f"33:{glob}", "a"), [*every[:2], every[3]])

    def test_a_baseline(self):
        status, out, _ = self.lint("--write-baseline", "known.json", "a/b")
        self.assertEqual((status, out[:10]), (0, b"0 findings"))
        self.assertEqual(self.paths("--baseline", "known.json", "a"), ["a/bad.o"])
        # The same file, built again: the finding is at another place.
        self.put(
            **{
                "a/b/bad__o": Made(
                    text(content=bytes(0x35)), (b".data", 1, bytes(4), {})
                ).with_field(2, "offset", 0x74)
            }
        )
        self.assertEqual(self.lint("--baseline", "known.json", "a/b")[0], 0)

    def test_a_baseline_has_so_many_findings_of_a_path_a_rule_and_sections(self):
        names = [text(), symbols(3, (1, 0x10, 1)), (b".strtab", 3, b"\0f\0", {})]
        aligned = Made(text())
        # What the first file breaks is known; of the second one each finding is told.
        for one, other, told in (
            (
                SHARING,
                Made(text(), (b".rodata", 1, b"\1\2\3\4", {})).with_field(2, "offset", 0x72),
                "SHARED_BYTE (33)",
            ),
            (
                aligned.with_field(1, "align", 3),
                Made(text(b".init")).with_field(1, "align", 3),
                "WRONG_SECTION_ALIGNMENT (22)",
            ),
            (
                aligned.with_field(1, "align", 3),
                Made((b".text", 1, b"", dict(align=2, addr=1))).data,
                "MISALIGNED_SECTION (23)",
            ),
            (
                Made(*names, relocations(2, 9)).data,
                Made(*names, relocations(2, 9), relocations(2, 1, 8)).data,
                "WRONG_RELOCATION_SYMBOL (54)",
            ),
        ):
            self.put(x__o=bytes(one))
            self.assertEqual(self.lint("--tables", "--write-baseline", "known.json", "x.o")[0], 0)
            words = ["--tables", "--baseline", "known.json", "x.o"]
            self.assertSaid(words, 0, [b"0 findings in 0 of 1 ELF file, 1 suppressed"])
            self.put(x__o=bytes(other))
            lines = self.told(*words)
            self.assertEqual((len(lines), f": {told}: " in lines[0]), (2, True), lines)
        # The same finding of another path is none that was known.
        self.put(**{"x__o": SHARING, "c/x__o": SHARING})
        self.lint("--write-baseline", "known.json", "x.o")
        self.assertEqual(self.paths("--baseline", "known.json", "c"), ["c/x.o"])

    def test_a_baseline_is_written_anew(self):
        """It has all that is found, also what the one before had."""
        self.lint("--write-baseline", "known.json", "a/b")
        both = ["--baseline", "known.json", "--write-baseline", "known.json"]
        status, out, _ = self.lint(*both, "a")
        summary = b"0 findings in 0 of 2 ELF files, 2 suppressed; skipped: 1 of class 32\n"
        self.assertEqual((status, out), (0, summary))
        findings = json.loads(Path("known.json").read_bytes())["findings"]
        self.assertEqual([it["path"] for it in findings], ["a/b/bad.o", "a/bad.o"])

    def test_a_baseline_of_any_path(self):
        os.rename("a/bad.o", b"a/\xff")
        self.lint("--write-baseline", "known.json", "a")
        self.assertEqual(self.lint("--baseline", "known.json", "a")[0], 0)

    def test_a_baseline_of_names_that_look_alike(self):
        """A section has an escape in its name, another one what it looks like."""
        names = (b"\x1b", b"\\x1b", b"\x80", "\x80".encode(), b"\\x80")
        data = (b".data", 1, b"\1\2\3\4", {})
        files = {it: Made(text(it), data).with_field(2, "offset", 0x72) for it in names}
        for known in names:
            Path("x.o").write_bytes(files[known])
            self.lint("--write-baseline", "known.json", "x.o")
            for name in names:
                Path("x.o").write_bytes(files[name])
                status = self.lint("--baseline", "known.json", "x.o")[0]
                self.assertEqual(status, int(name != known), (known, name))

    def test_what_is_no_baseline(self):
        for content in (
            b"",
            b"[]",
            b"{}",
            b'{"findings": 3}',
            b'{"findings": [{}]}',
            b"[" * 100_000,
            b"\xff",
        ):
            self.put(known=content)
            self.assertEqual(self.lint("--baseline", "known", "a")[0], 2)
        self.assertEqual(self.lint("--baseline", "none", "a")[0], 2)

    def test_an_output_file(self):
        lines = self.lint("a")[1]
        self.assertEqual(self.lint("-o", "out", "--class32=skip", "a"), (1, b"", b""))
        self.assertEqual(Path("out").read_bytes(), lines)
        self.assertEqual(stat.S_IMODE(os.stat("out").st_mode) & 0o600, 0o600)

    def test_an_output_file_by_a_link_and_for_all(self):
        """The file that a link names is written, with the mode of a file that a shell makes."""
        os.symlink("file", "link")
        before = os.umask(0o027)
        self.addCleanup(os.umask, before)
        self.assertEqual(self.lint("-o", "link", "a")[0], 1)
        self.assertTrue(os.path.islink("link"))
        self.assertEqual(
            (Path("file").read_bytes(), stat.S_IMODE(os.stat("file").st_mode)),
            (self.lint("a")[1], 0o640),
        )

    def test_an_output_file_as_a_whole_or_not_at_all(self):
        def cut(report, end):
            yield b"a beginning"
            raise OSError(28, "no space left on device")

        self.put(out=b"before")
        with mock.patch.dict(_formats.FORMATS, text=cut):
            self.assertEqual(self.lint("-o", "out", "a")[0], 3)
        self.assertEqual(Path("out").read_bytes(), b"before")
        self.assertEqual(sorted(os.listdir()), ["a", "out"])
        self.assertEqual(self.lint("-o", "none/out", "a")[0], 3)

    def test_quiet(self):
        self.put(bad__o=SHARING, good__o=GOOD, none=b"none")
        self.assertEqual(self.lint("-q", "good.o"), (0, b"", b""))
        self.assertEqual(self.lint("--quiet", "bad.o"), (1, b"", b""))
        status, out, said = self.lint("-q", "bad.o", "none")
        self.assertEqual((status, out), (3, b""))
        self.assertTrue(said.startswith(b"elfmap-lint: none: it is neither an ELF file nor"))
        # A report for a file is written.
        self.assertEqual(self.lint("-q", "-o", "report.txt", "bad.o"), (1, b"", b""))
        self.assertIn(SHARED, Path("report.txt").read_bytes())

    def test_the_list_of_rules(self):
        """Each line has what `--ignore` takes, and the sentence of docs/RULES.md."""
        status, out, said = self.lint("--list-rules")
        self.assertEqual((status, said), (0, b""))
        start = r"^([\w-]+) ([A-Z_0-9]+): the (?:file|table|link|program) "
        found = re.findall(start, out.decode(), re.M)
        self.assertEqual(len(found), len(out.splitlines()))
        keys = [key for key, _ in found]
        numbers = [*range(1, 34), *range(40, 80)]
        expected = [*map(str, numbers), *(f"link-{it}" for it in range(1, 17))]
        expected += [f"warning-{it}" for it in range(1, 11)]
        self.assertEqual(keys, expected)
        page = (build.REPOSITORY / "docs/RULES.md").read_text()
        for key, name in found:
            self.assertEqual(_findings.rule_of(key), _findings.rule_of(name))
            kind, _, number = key.rpartition("-")
            kind = kind or r"(?:image|table|object)"
            self.assertRegex(page, rf'<a id="{kind}-{number}"></a>{number} \| `\w+`, `{name}`')
        self.assertEqual(self.lint("--list-rules", "-0")[1].count(b"\0"), len(found))
        self.lint("--list-rules", "-o", "rules.txt")
        self.assertEqual(Path("rules.txt").read_bytes(), out)

    def test_a_list_of_paths(self):
        names = b"a/bad.o\0a/b\0"
        self.put(names=names, open=names[:-1])
        expected = ["a/b/bad.o", "a/bad.o"]
        self.assertEqual(self.paths("--files0-from", "names"), expected)
        self.assertEqual(self.paths("--files0-from", "open"), expected)
        self.assertEqual(self.paths("--files0-from=-", stdin=names), expected)
        self.assertEqual(self.paths("--files0-from=-", "a", stdin=names), expected)
        self.assertEqual(self.lint("--files0-from", "none")[0], 3)
        self.assertEqual(self.lint("--files0-from=-", "-", stdin=names)[0], 2)
        self.assertEqual(self.lint("--files0-from=-", stdin=b"a/bad.o\0\0")[0], 3)

    def test_standard_input(self):
        self.assertSaid(["-"], 1, [b"-: " + SHARED, b"1 finding in 1 of 1 ELF file"], stdin=SHARING)
        self.assertIn("-(" + LONG.decode() + ")", self.paths("-", stdin=GNU))

    def test_standard_input_beside_other_paths(self):
        self.assertEqual(self.paths("-", "a", stdin=SHARING), ["-", "a/b/bad.o", "a/bad.o"])

    def test_standard_input_from_where_it_is(self):
        Path("whole").write_bytes(b"a line\n" + SHARING)
        with open("whole", "rb", buffering=0) as it:
            it.readline()
            ran = subprocess.run([*PROGRAM, "-"], stdin=it, stdout=subprocess.PIPE, env=ENVIRONMENT)
        self.assertEqual((ran.returncode, ran.stdout.splitlines()[0]), (1, b"-: " + SHARED))

    def test_a_long_pipe_as_standard_input(self):
        data = (
            b"!<arch>\n"
            + archive_member(b"long", bytes(3 << 20))
            + archive_member(b"bad.o", SHARING)
        )
        ran = subprocess.run(
            [*PROGRAM, "-"],
            input=data,
            stdout=subprocess.PIPE,
            stderr=subprocess.PIPE,
            env=ENVIRONMENT,
        )
        lines = [b"-(bad.o): " + SHARED, b"1 finding in 1 of 1 ELF file; skipped: 1 not ELF"]
        self.assertEqual((ran.returncode, ran.stdout.splitlines(), ran.stderr), (1, lines, b""))

    def test_a_pipe_as_standard_input(self):
        ran = subprocess.run(
            [*PROGRAM, "-"], input=SHARING, stdout=subprocess.PIPE, env=ENVIRONMENT
        )
        self.assertEqual((ran.returncode, ran.stdout.splitlines()[0]), (1, b"-: " + SHARED))


class StatusTest(Case):
    def test_each(self):
        self.put(good__o=GOOD, bad__o=SHARING)
        for words, status in (
            (["good.o"], 0),
            (["good.o", "bad.o"], 1),
            ([], 2),
            (["--none", "good.o"], 2),
            (["-j", "-1", "good.o"], 2),
            (["-j-1", "good.o"], 2),
            (["good.o", "-j-1"], 2),
            (["--jobs", "good.o"], 2),
            (["--files0-from=-", "-"], 2),
            (["-0", "--format", "sarif", "good.o"], 2),
            (["-j", "x", "good.o"], 2),
            (["none"], 3),
            (["none", "good.o", "bad.o"], 3),
        ):
            self.assertEqual(self.lint(*words)[0], status, words)

    def test_the_rest_is_checked(self):
        self.put(bad__o=SHARING)
        status, out, said = self.lint("none", "bad.o")
        self.assertIn(SHARED, out)
        self.assertEqual(said, b"elfmap-lint: none: no such file or directory\n")
        self.assertTrue(out.endswith(b"; 1 unreadable\n"))

    def test_progress_is_shown_on_a_terminal_alone(self):
        for is_terminal in (False, True):
            said = io.StringIO()
            with mock.patch.object(said, "isatty", return_value=is_terminal), mock.patch.object(
                sys, "stderr", said
            ):
                progress = lint.Progress()
                with mock.patch("time.monotonic", return_value=2.0**40):
                    progress.tell(_findings.Report(checked=7))
                progress.end()
            self.assertEqual("7 files checked" in said.getvalue(), is_terminal)
            self.assertEqual(bool(said.getvalue()), is_terminal)

    def test_progress_by_tqdm(self):
        """Where it is installed: a module of this name stands in for it."""
        bar = mock.Mock(n=3)
        said = mock.Mock(isatty=lambda: True)
        with mock.patch.dict(sys.modules, tqdm=mock.Mock(tqdm=lambda **_: bar)), mock.patch.object(
            sys, "stderr", said
        ):
            progress = lint.Progress()
            with mock.patch("time.monotonic", return_value=2.0**40):
                progress.tell(_findings.Report(checked=7))
            progress.end()
        bar.update.assert_called_once_with(4)
        bar.close.assert_called_once_with()
        said.write.assert_not_called()

    def test_nothing_to_check(self):
        self.put(**{"a/text": b"no ELF file"})
        self.assertEqual(self.lint("a")[0], 0)
        self.assertEqual(self.lint("--fail-on-empty", "a")[0], 1)
        self.assertEqual(self.lint("--fail-on-empty", "--skip", "a/text")[0], 1)
        self.put(good__o=GOOD)
        self.assertSaid(["--fail-on-empty", "good.o"], 0, [b"0 findings in 0 of 1 ELF file"])

    def test_a_pipe_that_is_closed(self):
        self.put(bad__o=SHARING)
        reading, writing = os.pipe()
        os.close(reading)
        ran = subprocess.run(
            [*PROGRAM, "bad.o"], stdout=writing, stderr=subprocess.PIPE, env=ENVIRONMENT
        )
        os.close(writing)
        self.assertEqual((ran.returncode, ran.stderr), (128 + signal.SIGPIPE, b""))

    def test_a_file_that_can_not_be_read_on(self):
        """Whatever fails while a file is checked, the file is told."""
        self.put(good__o=GOOD)
        broken = mock.Mock(side_effect=OSError(5, "Input/output error"))
        for patch, reason in (
            (
                mock.patch.object(_sources, "os", SimpleNamespace(**{**vars(os), "pread": broken})),
                b"input/output error",
            ),
            (
                mock.patch.object(
                    _sources, "os", SimpleNamespace(**{**vars(os), "preadv": broken})
                ),
                b"input/output error",
            ),
            (
                mock.patch("mmap.mmap", side_effect=OSError(12, "Cannot allocate memory")),
                b"there is no memory for a file of this length",
            ),
            (
                mock.patch.object(_checks.Checks, "faults", side_effect=MemoryError),
                b"there is no memory for it",
            ),
        ):
            with patch:
                found = self.lint("good.o")
            lines = (
                b"0 findings in 0 of 0 ELF files; 1 unreadable\n",
                b"elfmap-lint: good.o: " + reason + b"\n",
            )
            self.assertEqual(found, (3, *lines))

    def test_a_full_device(self):
        self.put(bad__o=SHARING)
        status, _, said = self.lint("-o", "/dev/full", "bad.o")
        words = b"elfmap-lint: /dev/full: no space left on device\n"
        self.assertEqual((status, said), (3, words))


class ArchiveTest(Case):
    def members(self, data, path=b"lib.a"):
        """The names and contents of members, and whether the archive is whole."""
        found = []
        with tempfile.TemporaryFile() as it:
            it.write(data)
            it.flush()
            source = _sources.Source(it.fileno(), 0, len(data))
            try:
                for member in _archives.members(source, path):
                    found.append((member.name, data[member.start : member.start + member.size]))
            except _sources.Unreadable:
                return found, False
        return found, True

    def test_names_of_gnu(self):
        expected = [(b"good.o", GOOD), (LONG, SHARING), (b"odd", b"no ELF file")]
        self.assertEqual(self.members(GNU), (expected, True))

    def test_names_of_bsd(self):
        self.assertEqual(self.members(BSD), ([(LONG, SHARING), (b"good.o", GOOD)], True))

    def test_members_of_one_name(self):
        """The second one has a number, and no two members have the same path."""
        names = b"x.o", b"good.o", b"x.o", b"x.o#2", b"x.o"
        rows = [archive_member(it, GOOD if it == b"good.o" else SHARING) for it in names]
        self.put(lib__a=b"!<arch>\n" + b"".join(rows))
        found = [it.partition(": ")[0] for it in self.told("lib.a")[:-1]]
        expected = ["lib.a(x.o#2#2)", "lib.a(x.o#2)", "lib.a(x.o#3)", "lib.a(x.o)"]
        self.assertEqual(sorted(found), sorted(expected))
        status, out, _ = self.lint("--ignore", "33:lib.a(x.o#3)", "lib.a")
        self.assertEqual((status, out.count(SHARED)), (1, 3))
        self.lint("--write-baseline", "known.txt", "lib.a")
        self.assertEqual(self.lint("--baseline", "known.txt", "lib.a")[0], 0)
        # One that is repaired leaves the others known.
        rows[2] = archive_member(b"x.o", GOOD)
        self.put(lib__a=b"!<arch>\n" + b"".join(rows))
        self.assertEqual(self.lint("--baseline", "known.txt", "lib.a")[0], 0)

    def test_indexes_are_no_members(self):
        """Those of GNU, also of 64 bits, and those of BSD, also with a long name."""
        good = archive_member(b"good.o", GOOD)
        for name, content in (
            (b"/", bytes(20)),
            (b"/SYM64/", bytes(20)),
            (b"__.SYMDEF", bytes(20)),
            (b"#1/20", b"__.SYMDEF SORTED\0\0\0\0" + bytes(20)),
        ):
            data = b"!<arch>\n" + archive_member(name, content, b"") + good
            self.assertEqual(self.members(data), ([(b"good.o", GOOD)], True), name)
            self.put(lib__a=data)
            self.assertSaid(["lib.a"], 0, [b"0 findings in 0 of 1 ELF file"])

    def test_cut_anywhere(self):
        for data in (GNU, BSD):
            whole, _ = self.members(data)
            for length in range(8, len(data)):
                found, _ = self.members(data[:length])
                self.assertEqual(found, whole[: len(found)])
        # Cut within a member, it is told as unreadable, and what is before is checked.
        self.put(lib__a=GNU[:-3])
        status, out, said = self.lint("lib.a")
        self.assertIn(b"lib.a(" + LONG + b"): " + SHARED, out)
        self.assertIn(b"lib.a: the archive is damaged at offset ", said)
        self.assertEqual(status, 3)

    def test_damaged(self):
        for place, content in (
            (48, b"x"),
            (48, b" " * 10),
            (48, b"-1"),
            (58, b"x"),
            (48, b"9" * 10),
        ):
            data = bytearray(b"!<arch>\n" + archive_member(b"good.o", GOOD))
            data[8 + place : 8 + place + len(content)] = content
            self.assertEqual(self.members(bytes(data)), ([], False))
        for name in (b"/9", b"#1/99999"):
            data = b"!<arch>\n" + archive_member(name, b"x", b"")
            self.assertEqual(self.members(data), ([], False))
        # The long names end where this one begins.
        self.assertEqual(
            self.members(
                b"!<arch>\n" + archive_member(b"/", b"a.o/\n") + archive_member(b"/5", b"x", b"")
            ),
            ([], False),
        )

    def test_a_long_name_at_the_end_of_the_table(self):
        """No line feed follows it: it ends with the table, and not in the header after that."""
        table = archive_member(b"/", b"a.o/\nlong.o/")
        data = b"!<arch>\n" + table + archive_member(b"/5", GOOD, b"")
        self.assertEqual(self.members(data), ([(b"long.o", GOOD)], True))

    def test_thin(self):
        os.makedirs("a/b")
        self.put(
            **{
                "a/lib__a": thin(b"b/bad.o", b"good.o", b"none.o"),
                "a/b/bad__o": SHARING,
                "a/good__o": GOOD,
            }
        )
        status, out, said = self.lint("a/lib.a")
        self.assertEqual(status, 3)
        self.assertEqual(out.splitlines()[0], b"a/lib.a(b/bad.o): " + SHARED)
        self.assertEqual(said, b"elfmap-lint: a/lib.a(none.o): no such file or directory\n")
        found = json.loads(self.lint("--format", "sarif", "a/lib.a")[1])["runs"][0]["results"][0]
        self.assertEqual(
            found["locations"][0]["physicalLocation"]["artifactLocation"]["uri"], "a/b/bad.o"
        )

    def test_the_sizes_in_a_thin_archive(self):
        """They are those of the files. No content is between the headers."""
        names = (b"bad.o", b"good.o", b"worse.o")
        table = b"".join(it + b"/\n" for it in names)
        starts = [table.index(it + b"/\n") for it in names]
        header = archive_member(b"", bytes(len(SHARING)), b"")[:60]
        headers = b"".join(b"/%-15d" % it + header[16:] for it in starts)
        thin_one = b"!<thin>\n" + archive_member(b"/", table) + headers
        self.put(thin__a=thin_one, bad__o=SHARING, good__o=GOOD, worse__o=SHARING)
        found = [it.partition(": ")[0] for it in self.told("thin.a")]
        self.assertEqual(found[:2], ["thin.a(bad.o)", "thin.a(worse.o)"])
        self.assertEqual(found[2:], ["2 findings in 2 of 3 ELF files"])

    def test_a_thin_archive_of_files_elsewhere(self):
        os.makedirs("a")
        self.put(
            bad__o=SHARING,
            **{"a/lib__a": thin(b"../bad.o", os.path.abspath("bad.o").encode(), b"link.o")},
        )
        os.symlink("../bad.o", "a/link.o")
        status, out, said = self.lint("a/lib.a")
        self.assertEqual(
            (
                status,
                said.count(b"it is outside of the archive's directory; --follow-thin reads it"),
            ),
            (3, 3),
        )
        self.assertNotIn(SHARED, out)
        status, out, said = self.lint("--follow-thin", "a/lib.a")
        self.assertEqual((status, said, out.count(SHARED)), (1, b"", 3))

    def test_the_directory_of_a_thin_archive(self):
        """Another one may have a name that begins as its name does; and a link to it is the same
        one."""
        good = thin(b"good.o")
        self.put(
            **{
                "a/lib__a": thin(b"../ab/bad.o"),
                "ab/bad__o": SHARING,
                "a/good__a": good,
                "a/good__o": GOOD,
            }
        )
        status, out, said = self.lint("a/lib.a")
        self.assertEqual((status, out), (3, b"0 findings in 0 of 0 ELF files; 1 unreadable\n"))
        self.assertIn(b"a/lib.a(../ab/bad.o): it is outside of the archive's directory", said)
        os.symlink("a", "link")
        self.assertEqual(self.lint("link/good.a"), (0, b"0 findings in 0 of 1 ELF file\n", b""))

    def test_a_thin_archive_of_what_is_no_file(self):
        os.mkfifo("pipe")
        self.put(lib__a=thin(b"pipe", b"."))
        status, _, said = self.lint("lib.a")
        self.assertEqual(status, 3)
        self.assertEqual(said.count(b"it is no regular file"), 2)

    def test_a_thin_archive_of_members_of_another_one(self):
        origin = GNU.index(archive_member(b"/0", SHARING, b""))
        table = archive_member(b"/", b"inner.a/\n")
        outer = (
            b"!<thin>\n"
            + table
            + archive_member(b"/0:%d" % origin, b"", b"")
            + archive_member(b"/0:9", b"", b"")
        )
        self.put(inner__a=GNU, outer__a=outer)
        status, out, said = self.lint("outer.a")
        self.assertEqual(out.splitlines()[0], b"outer.a(inner.a(" + LONG + b")): " + SHARED)
        self.assertIn(b"damaged at offset 0x9", said)

    def test_a_thin_archive_of_members_of_two_others(self):
        table = archive_member(b"/", b"one.a/\ntwo.a/\n")
        headers = [archive_member(it, b"", b"") for it in (b"/0:8", b"/7:8", b"/0:8")]
        one = b"!<arch>\n" + archive_member(b"good.o", GOOD)
        two = b"!<arch>\n" + archive_member(b"bad.o", SHARING)
        self.put(outer__a=b"!<thin>\n" + table + b"".join(headers), one__a=one, two__a=two)
        lines = [b"outer.a(two.a(bad.o)): " + SHARED, b"1 finding in 1 of 3 ELF files"]
        self.assertSaid(["outer.a"], 1, lines)

    def test_a_thin_archive_of_the_second_member_of_a_name(self):
        first = archive_member(b"x.o", GOOD)
        table = archive_member(b"/", b"inner.a/\n")
        named = archive_member(b"/0:%d" % (8 + len(first)), b"", b"")
        self.put(
            inner__a=b"!<arch>\n" + first + archive_member(b"x.o", SHARING),
            outer__a=b"!<thin>\n" + table + named,
        )
        lines = [b"outer.a(inner.a(x.o#2)): " + SHARED, b"1 finding in 1 of 1 ELF file"]
        self.assertSaid(["outer.a"], 1, lines)

    def test_a_thin_archive_of_its_own_members(self):
        front = b"!<thin>\n" + archive_member(b"/", b"own.a/\n")
        self.put(own__a=front + archive_member(b"/0:%d" % len(front), b"", b""))
        status, out, said = self.lint("own.a")
        self.assertEqual((status, out), (3, b"0 findings in 0 of 0 ELF files; 1 unreadable\n"))
        self.assertIn(b"there is no member that the thin archive names", said)

    @unittest.skipUnless(shutil.which("ar"), "ar is not installed")
    def test_those_of_ar(self):
        self.put(**{LONG.decode().replace(".", "__"): SHARING, "good__o": GOOD})
        for words in ("rc", "rcT"):
            subprocess.run(["ar", words, f"{words}.a", LONG, "good.o"], check=True)
            self.assertEqual(
                self.lint(f"{words}.a")[1].splitlines()[0],
                words.encode() + b".a(" + LONG + b"): " + SHARED,
            )
        subprocess.run(["ar", "rcT", "outer.a", "rc.a"], check=True)
        self.assertIn(LONG + b")): " + SHARED, self.lint("outer.a")[1])


class TreeTest(Case):
    def test_what_is_not_opened(self):
        os.mkfifo("pipe")
        self.put(bad__o=SHARING)
        os.symlink("bad.o", "link.o")
        os.symlink(".", "loop")
        os.symlink("none", "dangling")
        lines = [b"./bad.o: " + SHARED, b"1 finding in 1 of 1 ELF file; skipped: 1 not regular"]
        self.assertSaid(["."], 1, lines)
        self.assertEqual(self.lint("pipe")[0], 3)
        self.assertEqual(self.lint("/dev/zero")[0], 3)

    def test_links_that_are_named(self):
        os.mkdir("a")
        self.put(**{"a/bad__o": SHARING})
        os.symlink("a", "folder")
        os.symlink("a/bad.o", "file")
        self.assertEqual(self.told("folder")[0][:14], "folder/bad.o: ")
        self.assertEqual(self.told("file")[0][:6], "file: ")

    def test_hard_links_once(self):
        os.makedirs("z")
        self.put(**{"z/bad__o": SHARING})
        for name in ("b.o", "a.o", "c.o"):
            os.link("z/bad.o", name)
        lines = [b"./a.o: " + SHARED, b"1 finding in 1 of 1 ELF file"]
        self.assertSaid(["."], 1, lines)
        self.assertSaid([".", "z", "z/bad.o", "c.o"], 1, [lines[0], lines[1]])
        # The least path is the first one, in whatever order they are found.
        for words in (["a.o", "c.o"], ["c.o", "a.o"], ["b.o", "z/bad.o", "a.o", "c.o"]):
            self.assertSaid(words, 1, [b"a.o: " + SHARED, lines[1]])

    def test_what_is_named_twice(self):
        os.makedirs("a/b")
        self.put(**{"a/b/bad__o": SHARING})
        summary = b"1 finding in 1 of 1 ELF file"
        for words in (["a", "a/b"], ["a/b", "a"], ["a", "a", "a/b/bad.o", "a/b/bad.o"], ["a", "a"]):
            self.assertSaid(words, 1, [b"a/b/bad.o: " + SHARED, summary])

    def test_a_gibibyte_of_zeros(self):
        for name, front in (
            ("zeros", b""),
            ("long.o", bytes(Made((b".filler", 8, b"", dict(size=2**40))).data)),
        ):
            with open(name, "wb") as it:
                it.write(front)
                it.truncate(2**30)
        self.assertSaid(
            ["--tables", "."], 0, [b"0 findings in 0 of 1 ELF file; skipped: 1 not ELF"]
        )

    def test_names_of_any_bytes(self):
        for it in range(1, 256):
            if it not in b"/.":
                Path(os.fsdecode(bytes([it]))).write_bytes(SHARING)
        records = self.lint("-0", ".")[1].split(b"\0")
        self.assertEqual(len(records), 253 + 2)
        self.assertEqual(records[:-2], sorted(records[:-2]))
        for it in ("text", "jsonl", "sarif", "junit", "github"):
            self.assertEqual(self.lint("--format", it, ".")[0], 1)

    def test_the_magic_number_alone(self):
        self.put(**{"a/bad": b"\x7fELF"})
        words = "a/bad: offset 0x4: TOO_SHORT (2): the file ends there, with 4 bytes; "
        for path in ("a", "a/bad"):
            self.assertTrue(self.told(path)[0].startswith(words), path)
        self.put(short=b"\x7fEL")
        self.assertSaid(
            ["--skip", "short"], 0, [b"0 findings in 0 of 0 ELF files; skipped: 1 not ELF"]
        )

    def test_a_file_whose_status_can_not_be_read(self):
        """In a folder that may be listed, and not searched."""
        os.mkdir("a")
        entry = mock.Mock(
            path=b"a/x.o", stat=mock.Mock(side_effect=PermissionError(13, "Permission denied"))
        )
        entries = mock.MagicMock()
        report = _findings.Report()
        entries.__enter__.return_value = [entry]
        with mock.patch("os.scandir", return_value=entries):
            self.assertEqual(list(_walk.Walk([b"a"], _findings.Globs([]), report)), [])
        self.assertEqual(report.unreadable, [(b"a/x.o", "permission denied")])

    def test_a_file_that_vanishes(self):
        report = Inspector(Depth()).files([b"none"])
        self.assertEqual(report.unreadable, [(b"none", "no such file or directory")])

    def test_a_file_that_shrinks(self):
        long = bytes(Made((b".filler", 1, bytes(1 << 18), {}), text()).data)
        for data, kept in ((GOOD, 10), (GOOD, 0), (long, 1 << 17), (long, 100)):
            with tempfile.TemporaryFile() as it:
                it.write(data)
                it.flush()
                source = _sources.Source(it.fileno(), 0, len(data))
                self.assertEqual(source[:4], b"\x7fELF")
                it.truncate(kept)
                with self.assertRaises(_sources.Unreadable) as raised:
                    _checks.Checks(True, True).faults(source)
                self.assertEqual(raised.exception.reason, "it became shorter while it was read")

    def test_a_folder_that_vanishes(self):
        os.makedirs("a/b")
        report = _findings.Report()
        found = iter(_walk.Walk([b"a"], _findings.Globs([]), report))
        with mock.patch(
            "os.scandir", side_effect=FileNotFoundError(2, "No such file or directory")
        ):
            self.assertEqual(list(found), [])
        self.assertEqual(report.unreadable, [(b"a", "no such file or directory")])

    def test_empty_files(self):
        for number in range(3000):
            os.close(os.open(f"{number}", os.O_CREAT | os.O_WRONLY))
        with mock.patch("elfmap._inspect.opened", side_effect=AssertionError):
            self.assertSaid(["."], 0, [b"0 findings in 0 of 0 ELF files; skipped: 3000 not ELF"])


class WorkersTest(Case):
    def test_a_process_that_ends(self):
        """The file that ends it is told, and the others are checked."""

        def work(paths):
            if b"bad" in paths:
                os.kill(os.getpid(), signal.SIGKILL)
            return _findings.Report(checked=len(paths))

        report = _findings.Report()
        pool = _workers.Pool(lambda: work, 2, report.add)
        pool.run(iter([[b"a", b"b"], [b"c", b"bad", b"d"], [b"e"]]))
        self.assertEqual(report.checked, 5)
        self.assertEqual(
            report.unreadable, [(b"bad", "the process that checked it ended by signal 9")]
        )

    def test_a_check_that_fails(self):
        """The file is told, whatever it is that ends the check of it."""

        def work(paths):
            if b"bad" in paths:
                raise ValueError
            return _findings.Report(checked=len(paths))

        report = _findings.Report()
        with contextlib.redirect_stderr(io.StringIO()):
            _workers.Pool(lambda: work, 2, report.add).run(
                iter([[b"a", b"b"], [b"bad", b"d"], [b"e"]])
            )
        self.assertEqual(report.checked, 4)
        self.assertEqual(report.unreadable, [(b"bad", "the check of it failed")])

    def test_none_is_left(self):
        _workers.Pool(lambda: lambda paths: _findings.Report(), 3, lambda it: None).run(
            iter([[b"a"]] * 5)
        )
        with self.assertRaises(ChildProcessError):
            os.waitpid(-1, os.WNOHANG)


if __name__ == "__main__":
    unittest.main()
