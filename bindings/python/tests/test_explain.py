"""elfmap-explain: what it says of the files of cases/explain.txt, each of which breaks a rule,
and of findings; and its speed and its end on hostile input.

The cases have the answers of the program: `tools/test cases` compares them with it.
"""

import contextlib
import gzip
import json
import os
import re
import resource
import shutil
import socket
import struct
import subprocess
import sys
import tempfile
import time
import unittest
from pathlib import Path
from unittest import mock

from elfmap import _hints, _link_hints, _names, _rules, _words, build, explain
from elfmap._link_words import Linked, link_words

from tests.made import (
    BROKEN_SYMBOLS,
    ENVIRONMENT,
    GNU,
    GOOD,
    LONG,
    NAMES,
    SHARING,
    FolderCase,
    Made,
    archive_member,
    relocations,
    setUpModule,
    symbols,
    text,
    thin,
)

sys.path.insert(0, str(build.REPOSITORY / "tools" / "lib"))
from elfmap_tools.written_cases import cases_of  # noqa: E402

CASES = build.REPOSITORY / "cases/explain.txt"
PROGRAM = [sys.executable, "-m", "elfmap.explain"]
ELF_H = Path("/usr/include/elf.h")
# No command answers these, or not of a file of a few bytes.
NOT_IN_CASES = {("image", 1), ("link", 10), ("table", 40)}
FINDING = b"bad.o: offset 0x72: SHARED_BYTE (33): the content of .text"


class Case(FolderCase):
    def explain(self, *words, stdin=b""):
        """The status, and what is said on standard output and standard error."""
        ran = subprocess.run([*PROGRAM, *words], input=stdin, capture_output=True, env=ENVIRONMENT)
        return ran.returncode, ran.stdout.decode(), ran.stderr.decode()

    def said(self, *words, stdin=b""):
        """What is said, in one line."""
        status, out, err = self.explain(*words, stdin=stdin)
        self.assertEqual((status, err), (0, ""))
        return " ".join(out.split())


def explained(line, names):
    """What is said of a line of the program about these files, in one line."""
    with contextlib.ExitStack() as stack:
        named = [explain.named_file(it, stack) for it in names]
        explainer = explain.Explainer(named, stack.enter_context(explain.Files()))
        return " ".join(explainer.explain(line.encode()).split())


class RuleTest(Case):
    def test_each_rule(self):
        seen = set(NOT_IN_CASES)
        for case in cases_of(str(CASES)):
            kind, number, words = case.note.split(" ", 2)
            seen.add((kind, int(number)))
            with self.subTest(kind=kind, rule=number):
                self.one_rule(case, kind, int(number), words.split("|"))
        of_files = {(self.kind(it), it) for it in _rules.RULES}
        of_link = {("link", it) for it in _rules.LINK_RULES}
        self.assertEqual(seen, of_files | of_link)

    def kind(self, rule):
        if rule < 40:
            return "image"
        return "table" if rule < 70 else "object"

    def one_rule(self, case, kind, number, wanted):
        pattern = rf"refused (\d+ )?{number} \d+"
        if kind == "link":
            pattern = rf"refused {number}( \d+){{3}}"
        lines = (case.out + case.err).decode().splitlines()
        line = next(it for it in lines if re.fullmatch(pattern, it))
        with tempfile.TemporaryDirectory(dir=".") as room:
            case.put_needs(room)
            files = [it for it in case.needs if not it.startswith("list.rules")]
            names = [f"{room}/{it.partition('=')[0]}" for it in files]
            found = explained(line, names).replace(f"{room}/", "")
        name = (_rules.LINK_RULES if kind == "link" else _rules.RULES)[number][0]
        for it in (f"{name}: ", f"docs/RULES.md#{kind}-{number}", *wanted):
            self.assertIn(it, found)

    def test_a_file_that_is_too_long(self):
        with open("long", "wb") as it:
            it.truncate(2**30 + 1)
        self.assertIn("TOO_LONG: ", explained(f"refused 1 {2**30}", ["long"]))

    def test_a_program_without_an_entry(self):
        self.put(empty__o=b"")
        self.assertIn("NO_ENTRY: ", explained("refused 10 0 0 0", ["empty.o"]))


class LineTest(Case):
    def setUp(self):
        super().setUp()
        self.put(bad__o=SHARING, good__o=GOOD)

    def test_words_and_standard_input(self):
        expected = (
            "refused 33 114\n"
            "SHARED_BYTE: the file is refused because a byte lies in two of these: "
            "the ELF header, the two tables, and the contents of sections\n"
            "  (neither NULL nor NOBITS)\n"
            "bad.o, offset 114 (0x72): the content of section 1 .text [0x40, 0x73): byte 50: 0x90\n"
            "bad.o, offset 114 (0x72): the content of section 2 .data [0x72, 0x76): byte 0: 0x90\n"
        )
        for words, stdin in (
            (["refused", "33", "114", "bad.o"], b""),
            (["bad.o"], b"ok 1 2 3\nrefused 33 114\n"),
        ):
            status, out, _ = self.explain(*words, stdin=stdin)
            self.assertEqual((status, out[: len(expected)]), (0, expected))
        of_file = f"file 0 {expected}"
        status, out, _ = self.explain(*"file 0 refused 33 114 bad.o".split())
        self.assertEqual((status, out[: len(of_file)]), (0, of_file))

    def test_files_on_a_terminal(self):
        """Without lines the files are checked, by the library."""
        self.put(tables__o=BROKEN_SYMBOLS)
        with contextlib.ExitStack() as stack:
            named = [explain.named_file(it, stack) for it in ("good.o", "bad.o", "tables.o")]
            lines = list(explain.Explainer(named, stack.enter_context(explain.Files())).refusals())
        self.assertEqual(lines, [b"file 1 refused 33 114", b"file 2 refused 2 51 150"])
        self.assertIn(
            "the table in section 2 .symtab",
            explained(lines[1].decode(), ["good.o", "bad.o", "tables.o"]),
        )

    def test_an_empty_line_is_between_explanations(self):
        out = self.explain("bad.o", stdin=b"refused 33 114\nok 1 2 3\nrefused 33 115\n")[1]
        self.assertEqual(
            [it.partition("\n")[0] for it in out.split("\n\n")],
            ["refused 33 114", "refused 33 115"],
        )

    def test_a_file_that_shrinks(self):
        """On a terminal: it is told, the others are checked, and the status is 3."""
        with contextlib.ExitStack() as stack:
            named = [explain.named_file(it, stack) for it in ("good.o", "bad.o")]
            os.truncate("good.o", 70)
            explainer = explain.Explainer(named, stack.enter_context(explain.Files()))
            with mock.patch.object(explain, "complain") as said:
                self.assertEqual(list(explainer.refusals()), [b"file 1 refused 33 114"])
        said.assert_called_once_with(
            "elfmap-explain", b"good.o: it became shorter while it was read"
        )
        self.assertTrue(explainer.lost)

    def test_many_sections_that_share_a_byte(self):
        made = Made(*((b".data", 1, b"\1", {}) for _ in range(100)))
        content = bytearray(made.data)
        for index in range(1, 101):
            struct.pack_into("<Q", content, made.at(index, "offset"), 64)
        self.put(many__o=bytes(content))
        found = explained("refused 33 64", ["many.o"])
        self.assertEqual(found.count(".data [0x40, 0x41)"), 16, found)
        self.assertIn("many.o, offset 64 (0x40): 84 more sections", found)

    def place(self, made, at):
        """What is said of an offset."""
        self.put(made__o=bytes(made.data))
        found = explained(f"refused 33 {at}", ["made.o"])
        place = r"offset \d+ \(0x[0-9a-f]+\): (?:the content of .*?\): )?(.*?) what to do"
        return re.search(place, found)[1]

    def test_a_section_after_the_first_1024(self):
        """The headers are read some at a time."""
        made = Made(*[(b".s", 1, b"\1", {}) for _ in range(1100)])
        self.put(a__o=bytes(made.data))
        for index in (1023, 1024, 1025, 1100):
            at = made.starts[index]
            found = explained(f"refused 33 {at}", ["a.o"])
            words = f"the content of section {index} .s [{at:#x}, {at + 1:#x}): byte 0: 0x01"
            self.assertIn(words, found)

    def test_a_content_around_another_one(self):
        """Of a byte those contents are told that hold it: not one that ended before, and also one
        that began much earlier."""
        made = Made((b".long", 1, bytes(0x100), {}), (b".inner", 1, bytes(0x10), {}))
        Path("a.o").write_bytes(made.with_field(2, "offset", 0x50))
        long = "the content of section 1 .long [0x40, 0x140)"
        inner = "the content of section 2 .inner [0x50, 0x60)"
        for at, has_inner in ((0x4F, False), (0x50, True), (0x5F, True), (0x60, False)):
            found = explained(f"refused 33 {at}", ["a.o"])
            self.assertEqual((long in found, inner in found), (True, has_inner), hex(at))

    def test_the_parts_of_notes(self):
        """Names and descriptors are padded to four bytes; each note has 12 bytes before them."""
        first = struct.pack("<3I", 4, 5, 1) + b"abc\0" + b"12345\0\0\0"
        second = struct.pack("<3I", 2, 4, 3) + b"d\0\0\0" + b"1234"
        made = Made(text(), (b".note", 7, first + second, {}))
        start = made.starts[2]
        for at, words in (
            (0, "note 0: namesz, which is 4"),
            (4, "note 0: descsz, which is 5"),
            (8, "note 0: type, which is 1"),
            (12, "note 0: its name"),
            (15, "note 0: its name"),
            (16, "note 0: its descriptor"),
            (23, "note 0: its descriptor"),
            (24, "note 1: namesz, which is 2"),
            (36, "note 1: its name"),
            (39, "note 1: its name"),
            (40, "note 1: its descriptor"),
            (43, "note 1: its descriptor"),
        ):
            self.assertEqual(self.place(made, start + at), words, at)

    def test_the_words_of_a_hash_table(self):
        """The counts of buckets and chain words, the buckets, and a word for each symbol."""
        table = (b".hash", 5, struct.pack("<6I", 2, 2, 1, 0, 0, 0), dict(link=3, entsize=4))
        made = Made(text(), table, symbols(4, (1, 0x10, 1)), (b".strtab", 3, b"\0f\0", {}))
        for at, words in (
            (0, "the number of buckets, 2"),
            (4, "the number of chain words, 2"),
            (8, "bucket 0, which begins with symbol 1 f"),
            (12, "bucket 1, which begins with symbol 0 (no name)"),
            (16, "the chain word of symbol 0 (no name): 0"),
            (20, "the chain word of symbol 1 f: 0"),
        ):
            self.assertEqual(self.place(made, made.starts[2] + at), words)

    def test_the_entries_of_a_dynamic_array(self):
        made = Made(
            text(),
            (b".dynamic", 6, struct.pack("<4Q", 1, 7, 0, 0), dict(link=3, entsize=16)),
            (b".dynstr", 3, b"\0", {}),
        )
        start = made.starts[2]
        self.assertEqual(self.place(made, start), "entry 0, of tag 1: d_tag, which is 1")
        self.assertEqual(self.place(made, start + 8), "entry 0, of tag 1: d_un, which is 7")

    def test_symbols_of_sections_beyond_16_bits(self):
        """The index is in the index table: that of a section's symbol, and of any other one."""
        indexes = struct.pack("<3I", 0, 1, 1)
        table = b".symtab_shndx", 18, indexes, dict(link=2, entsize=4)
        own = symbols(3, (0, 3, 0xFFFF), (1, 0x10, 0xFFFF), info=2)
        made = Made(text(), own, NAMES, table)
        lead = "st_name, which is"
        for index, words in ((1, f"of section .text{{}}: {lead} 0"), (2, f"f{{}}: {lead} 1")):
            at = made.starts[2] + 24 * index
            found = self.place(made, at)
            defined = ", defined in section 1 .text"
            self.assertEqual(found, f"symbol {index} {words.format(defined)}")
        # Without that table its section is not known.
        self.put(bad__o=made.with_field(4, "type", 1))
        found = explained(f"refused 51 {made.starts[2] + 48}", ["bad.o"])
        self.assertIn("symbol 2 f: st_name, which is 1", found)

    def test_symbols_of_no_section(self):
        made = Made(text(), symbols(3, (1, 0x10, 0xFFF1), (1, 0x10, 1)), NAMES)
        start = made.starts[2]
        defined = ", defined in section 1 .text"
        for at, words in ((24, "symbol 1 f"), (48, f"symbol 2 f{defined}")):
            self.assertEqual(self.place(made, start + at + 8), f"{words}: st_value, which is 0")

    def test_the_relocations_of_each_type(self):
        """Without addends an entry has 16 bytes."""
        entries = struct.pack("<4Q", 0, 1 << 32 | 2, 8, 1 << 32 | 2)
        rows = (b".rel.text", 9, entries, dict(link=2, info=1, entsize=16))
        made = Made(text(), symbols(3, (1, 0x10, 0)), NAMES, rows)
        own = "relocation 1, of symbol 1 f, at 0x8 of section 1 .text, of type 2 (R_X86_64_PC32)"
        self.assertEqual(self.place(made, made.starts[4] + 16), own)
        linked = Linked("a.o", _words.Words(bytes(made.data)))
        self.assertEqual(link_words([linked], 12, 0, 1, 1), f"a.o, section 4 .rel.text: {own}")

    def test_the_definition_before(self):
        """It is global, and neither undefined nor common; its name may lie anywhere in the string
        table."""

        def file(path, *symbol, strings=b"\0main\0"):
            made = Made(text(), symbols(3, symbol), (b".strtab", 3, strings, {}))
            return Linked(path, _words.Words(bytes(made.data)))

        at = (1 << 20) - 2
        far = b"\0" + b"x" * (at - 2) + b"\0main\0"
        others = [file("1.o", 1, 0x10, 1), file("last.o", 1, 0x10, 1)]
        second = "the second one at symbol 1 of last.o"
        for before, path in (
            (file("0.o", 1, 0x11, 0xFFF2, 8), "1.o"),
            (file("0.o", 1, 0x20, 1), "1.o"),
            (file("0.o", 1, 0x10, 0), "1.o"),
            (file("0.o", at, 0x10, 1, strings=far), "0.o"),
        ):
            found = link_words([before, *others], 8, 2, 0, 0)
            words = f"two definitions of main, {second}; {path} has it at symbol 1"
            self.assertEqual(found, words)
        made = Made(text(), symbols(3, *[(1, 0x10, 1)] * 2), (b".strtab", 3, b"\0main\0", {}))
        twice = Linked("a.o", _words.Words(bytes(made.data)))
        lead = "two definitions of main, the second one at symbol"
        for symbol, words in ((1, "2 of a.o; a.o has it at symbol 1"), (0, "1 of a.o; an earlier")):
            found = link_words([twice], 8, 0, symbol, 0)
            self.assertTrue(found.startswith(f"{lead} {words}"), found)

    def test_statuses(self):
        for words in (
            "refused 33 114",
            "refused 33 bad.o",
            "refused bad.o",
            "file 1 2 bad.o",
            "refused 1 2 3 4 5 bad.o",
        ):
            self.assertEqual(self.explain(*words.split())[0], 2, words)
        self.assertEqual(self.explain("--none")[0], 2)
        self.assertEqual(self.explain("refused", "33", "114", "none")[0], 3)
        self.assertEqual(self.explain(stdin=FINDING.replace(b"bad.o", b"none"))[0], 3)

    def test_a_pipe_as_a_file(self):
        os.mkfifo("pipe")
        with subprocess.Popen(["cp", "bad.o", "pipe"]):
            self.assertIn("section 2 .data", self.said("refused", "33", "114", "pipe"))

    def test_a_file_that_is_not_given(self):
        for line in (b"refused 33 114", b"file 7 refused 33 114"):
            self.assertIn("there is no file", self.said(stdin=line))
        self.assertIn("at no one place", self.said("good.o", stdin=b"refused 9 4 0 0"))

    def test_rules_and_places_that_are_none(self):
        for numbers in (
            "99 0",
            "0 0",
            "33 18446744073709551616",
            "1 99 0",
            "99 0 0 0",
            "9 0 99999999999 0",
            "12 0 99 99",
        ):
            self.assertTrue(self.said("good.o", stdin=b"refused " + numbers.encode()))

    def test_more_segments_than_the_header_counts(self):
        """If e_phnum is 0xffff, section header 0 has their number in sh_info (gABI, chapter 4)."""
        made = Made(text(content=bytes(56 * 5)))
        data = bytearray(made.data)
        data[32:40] = made.starts[1].to_bytes(8, "little")
        data[56:58] = b"\xff\xff"
        data[made.at(0, "info")] = 3
        data[made.at(0, "link")] = 1
        self.put(bad__o=bytes(data))
        for index, is_there in ((2, True), (3, False)):
            found = explained(f"refused 25 {made.starts[1] + 56 * index + 8}", ["bad.o"])
            self.assertEqual(f"program header {index}: p_offset, which is 0" in found, is_there)

    def test_a_closed_pipe_ends_it_silently(self):
        reading, writing = os.pipe()
        os.close(reading)
        with tempfile.TemporaryFile() as lines:
            lines.write(b"refused 33 114\n" * 5000)
            lines.seek(0)
            ran = subprocess.run(
                [*PROGRAM, "bad.o"],
                stdin=lines,
                stdout=writing,
                stderr=subprocess.PIPE,
                env=ENVIRONMENT,
            )
        os.close(writing)
        self.assertEqual(ran.stderr, b"")


class CheckedTest(Case):
    """Files that no line refuses are checked here, whatever standard input is; and the output
    begins with that."""

    FILES = "bad.o", "tables.o", "object.o", "good.o"
    FOUND = (
        "file 0 refused 33 114 SHARED_BYTE: ",
        "file 1 refused 2 51 150 ",
        "file 2 refused 72 276 FOREIGN_SECTION: ",
    )
    HEAD = (
        "checked here by the rules of images and tables, and relocatable files by those of"
        " objects: "
    )

    def setUp(self):
        super().setUp()
        self.put(
            bad__o=SHARING,
            tables__o=BROKEN_SYMBOLS,
            object__o=bytes(Made(text(), (b".lib", 10, b"", {})).data),
            good__o=GOOD,
        )

    def ran(self, words, stdin=None, shell=""):
        """What is said on standard output by a run that succeeds, where the shell says what
        standard input is."""
        command = ["sh", "-c", f'"$@" {shell}', "sh", *PROGRAM, *words]
        ran = subprocess.run(command, stdin=stdin, capture_output=True, env=ENVIRONMENT, timeout=60)
        self.assertEqual((ran.returncode, ran.stderr), (0, b""))
        return " ".join(ran.stdout.decode().split())

    def on_terminal(self, words, typed=b""):
        own, its = os.openpty()
        try:
            os.write(own, typed)
            return self.ran(words, its)
        finally:
            os.close(own)
            os.close(its)

    def by_socket(self, words, sent):
        ours, its = socket.socketpair()
        with its:
            with ours:
                ours.sendall(sent)
            return self.ran(words, its)

    def unread(self, words):
        """What is said where nothing is sent, by what standard input is."""
        yield "a terminal", self.on_terminal(words)
        yield "a device", self.ran(words, subprocess.DEVNULL)
        yield "closed", self.ran(words, shell="<&-")

    def read(self, words):
        yield "an empty pipe", self.said(*words)
        yield "a file of other lines", self.ran(words, shell="< lines")
        yield "other lines in a pipe", self.said(*words, stdin=b"ok 680 3 0\n")
        yield "other lines in a socket", self.by_socket(words, b"ok 680 3 0\n")
        yield "other lines, asked for", self.said("-", *words, stdin=b"ok 680 3 0\n")
        yield "a device, asked for", self.ran(["-", *words], subprocess.DEVNULL)
        yield "a terminal, asked for", self.on_terminal(["-", *words], b"ok 680 3 0\n\x04")

    def test_broken_files(self):
        self.put(lines=b"refused\nok 680 3 0\n")
        head = f"{self.HEAD}{' '.join(self.FILES)} file 0 "
        read = "standard input refuses nothing; "
        for ways, lead in ((self.unread(self.FILES), ""), (self.read(self.FILES), read)):
            for way, found in ways:
                with self.subTest(stdin=way):
                    self.assertTrue(found.startswith(f"{lead}{head}"), found)
                    self.assertEqual([it for it in self.FOUND if it not in found], [])
                    self.assertNotIn("no refusal", found)

    def test_sound_files(self):
        self.put(lines=b"refused\nok 680 3 0\n")
        read = "standard input refuses nothing; "
        for ways, lead in ((self.unread(["good.o"]), ""), (self.read(["good.o"]), read)):
            for way, found in ways:
                self.assertEqual(found, f"{lead}{self.HEAD}good.o no refusal", way)

    def test_lines_that_refuse(self):
        """They are explained alone."""
        line = b"refused 33 115\n"
        self.put(lines=line)
        for found in (
            self.said("bad.o", stdin=line),
            self.by_socket(["bad.o"], line),
            self.ran(["bad.o"], shell="< lines"),
            self.said("-", "bad.o", stdin=line),
            self.on_terminal(["-", "bad.o"], line + b"\x04"),
        ):
            self.assertTrue(found.startswith("refused 33 115 SHARED_BYTE: "), found)
            self.assertNotIn("checked here", found)

    def test_an_object_that_does_not_link(self):
        """A rule of the link is no reason against a file by itself."""
        self.put(thread__o=bytes(Made((b".tdata", 1, bytes(4), dict(flags=0x403))).data))
        read = "standard input refuses nothing; "
        self.assertEqual(self.said("thread.o"), f"{read}{self.HEAD}thread.o no refusal")

    def test_a_file_that_is_standard_input(self):
        self.assertIn("SHARED_BYTE: ", self.ran(["/dev/stdin"], shell="< bad.o"))
        self.assertIn("SHARED_BYTE: ", self.said("/dev/stdin", stdin=SHARING))

    def test_without_files(self):
        """There is nothing to check."""
        self.assertEqual(self.said(stdin=b"ok 680 3 0\n"), "no refusal")
        command = ["sh", "-c", '"$@" <&-', "sh", *PROGRAM]
        closed = subprocess.run(command, capture_output=True, env=ENVIRONMENT)
        self.assertEqual((closed.returncode, closed.stdout), (3, b""))
        self.assertEqual(closed.stderr, b"elfmap-explain: standard input is closed\n")


class FindingTest(Case):
    def setUp(self):
        super().setUp()
        self.put(bad__o=SHARING, lib__a=GNU)

    def test_text(self):
        found = self.said(stdin=FINDING)
        front = "bad.o: offset 0x72: SHARED_BYTE (33) SHARED_BYTE: the file is refused"
        self.assertTrue(found.startswith(front), found)
        self.assertIn("the content of section 1 .text [0x40, 0x73)", found)
        self.assertIn("the content of section 2 .data [0x72, 0x76)", found)

    def test_jsonl(self):
        os.rename("bad.o", b"\xff.o")
        line = {
            "path": "\\xff.o",
            "path_hex": b"\xff.o".hex(),
            "offset": 0x72,
            "rule": 33,
            "name": "SHARED_BYTE",
            "message": "",
        }
        more = b'{"summary": {}}\n{"path": 3, "offset": 1, "rule": 1}\n{\n[' + b"[" * 5000 + b"\n"
        found = self.said(stdin=json.dumps(line).encode() + b"\n" + more)
        self.assertIn("section 2 .data", found)

    def test_records_that_end_by_zero(self):
        os.rename("bad.o", "a\nb: offset 0x1.o")
        found = self.said("-0", stdin=FINDING.replace(b"bad.o", b"a\nb: offset 0x1.o") + b"\0")
        self.assertIn("section 2 .data", found)

    def test_control_characters_in_text(self):
        for name, told in (("a\nb.o", b"a\\x0ab.o"), ("a\x7fb.o", b"a\\x7fb.o")):
            self.put(**{name: SHARING})
            self.assertIn("section 2 .data", self.said(stdin=FINDING.replace(b"bad.o", told)))

    def test_members(self):
        self.put(thin__a=thin(b"bad.o"))
        for name in (b"lib.a(" + LONG + b")", b"thin.a(bad.o)"):
            self.assertIn("section 2 .data", self.said(stdin=FINDING.replace(b"bad.o", name)))
        for name in (b"lib.a(none)", b"none(lib.a)", b"bad.o(x)", b"lib.a()"):
            status, out, _ = self.explain(stdin=FINDING.replace(b"bad.o", name))
            self.assertEqual((status, "can't be read" in out), (3, True))

    def test_members_of_several_archives(self):
        """Of members of one name the first is meant. A directory may have brackets in its name, an
        archive may be cut short later on."""
        many = b"!<arch>\n" + archive_member(b"x.o", SHARING) + archive_member(b"x.o", GOOD)
        self.put(**{"many__a": many, "a(b)/lib__a": GNU, "cut__a": GNU[:-3]})
        member = b"(" + LONG + b")"
        names = (
            b"lib.a" + member,
            b"many.a(x.o)",
            b"lib.a" + member,
            b"a(b)/lib.a" + member,
            b"cut.a" + member,
        )
        lines = b"".join(FINDING.replace(b"bad.o", it) + b"\n" for it in names)
        status, out, err = self.explain(stdin=lines)
        self.assertEqual((status, err, out.count("section 2 .data [0x72, 0x76)")), (0, "", 5), out)

    def test_the_second_member_of_a_name(self):
        self.put(
            lib__a=b"!<arch>\n" + archive_member(b"x.o", GOOD) + archive_member(b"x.o", SHARING)
        )
        found = self.said(stdin=FINDING.replace(b"bad.o", b"lib.a(x.o#2)"))
        self.assertIn("section 2 .data [0x72, 0x76)", found)

    def test_compressed_files(self):
        """What is compressed is explained, also of a member."""
        lib = b"!<arch>\n" + archive_member(b"x.o", SHARING)
        self.put(bad__ko__gz=gzip.compress(SHARING), lib__a__gz=gzip.compress(lib))
        for name in (b"bad.ko.gz", b"lib.a.gz(x.o)"):
            found = self.said(stdin=FINDING.replace(b"bad.o", name))
            self.assertIn("section 2 .data [0x72, 0x76)", found)

    def test_members_that_a_thin_archive_names_in_another(self):
        front = b"!<thin>\n" + archive_member(b"/", b"lib.a/\n")
        origin = GNU.index(archive_member(b"/0", SHARING, b""))
        self.put(outer__a=front + archive_member(b"/0:%d" % origin, b"", b""))
        line = FINDING.replace(b"bad.o", b"outer.a(lib.a(" + LONG + b"))")
        self.assertIn("section 2 .data", self.said(stdin=line))

    def test_an_object_that_would_be_too_long(self):
        found = self.said(stdin=b"bad.o: offset 0x0: OBJECT_TOO_LONG (0): ")
        sentence = "the canonical layout of its object would be longer than 2^30 bytes"
        self.assertIn(f"OBJECT_TOO_LONG: {sentence} what to do: split the file", found)

    def test_what_is_no_file(self):
        os.mkfifo("pipe")
        for name in (b"pipe", b"/dev/zero", b"."):
            status, out, _ = self.explain(stdin=FINDING.replace(b"bad.o", name))
            self.assertEqual((status, "it is no regular file" in out), (3, True))

    def test_many_files(self):
        """More than may be open at once, at least a hundred findings a second."""
        soft, hard = resource.getrlimit(resource.RLIMIT_NOFILE)
        self.addCleanup(resource.setrlimit, resource.RLIMIT_NOFILE, (soft, hard))
        resource.setrlimit(resource.RLIMIT_NOFILE, (128, hard))
        count = 1000
        for number in range(count):
            self.put(**{f"{number}__o": SHARING})
        lines = b"".join(FINDING.replace(b"bad.o", b"%d.o" % it) + b"\n" for it in range(count))
        start = time.monotonic()
        status, out, _ = self.explain(stdin=lines)
        self.assertEqual((status, out.count("section 2 .data")), (0, count))
        self.assertLess(time.monotonic() - start, count / 100)

    def test_many_members(self):
        count = 5000
        every = b"".join(archive_member(b"%d.o" % it, SHARING) for it in range(count))
        self.put(many__a=b"!<arch>\n" + every)
        findings = (FINDING.replace(b"bad.o", b"many.a(%d.o)" % it) for it in range(count))
        lines = b"".join(it + b"\n" for it in findings)
        start = time.monotonic()
        status, out, _ = self.explain(stdin=lines)
        self.assertEqual((status, out.count("section 2 .data")), (0, count))
        self.assertLess(time.monotonic() - start, count / 100)

    def test_any_bytes(self):
        files = (
            b"",
            b"\x7fELF",
            GOOD[:70],
            b"\x7fELF\2\2" + b"\xff" * 100,
            BROKEN_SYMBOLS[:-90],
            bytes(100),
        )
        for number, content in enumerate(files):
            self.put(**{f"{number}__o": content})
            lines = [f"refused {rule} {at}" for rule in _rules.RULES for at in (0, 63, 2**64 - 1)]
            for rule in _rules.LINK_RULES:
                lines += [f"refused {rule} 0 {it} {it}" for it in (0, 5, 2**40)]
            for line in lines:
                self.assertIn("what to do: ", explained(line, [f"{number}.o"]), line)

    def test_a_long_line(self):
        self.assertEqual(self.said(stdin=b"x" * (3 << 20)), "no refusal")


class HintTest(Case):
    """What likely caused a refusal. The commands are those of the tools' manuals."""

    def hints(self, data, rule, at=0, path="a b.o"):
        return " ".join(_hints.hints(_words.Words(bytes(data)), path, rule, at))

    def test_a_section_table_that_is_elsewhere(self):
        made = Made(text())
        data = made.with_bytes(40, (64).to_bytes(8, "little"))
        lead = "e_shoff, which is 0x40, points astray"
        table = f"a table of 3 section headers is at {made.table:#x}"
        self.assertIn(f"{lead}: {table}", self.hints(data, 13))
        cut = bytes(made.data[:-64])
        self.assertIn("the file was cut short", self.hints(cut, 15))
        # A table of one section header, at the bytes of .text.
        astray = bytearray(data)
        astray[60] = 1
        found = self.hints(astray, 13)
        self.assertIn(f"{lead}: what is there looks like no section header 0", found)
        # One byte of section header 0 was written: it is where it belongs.
        self.assertEqual(self.hints(made.with_bytes(made.table + 4, b"\1"), 13), "")

    def test_the_address_significance_table(self):
        made = Made(
            text(),
            symbols(3, (1, 0x10, 1)),
            (b".strtab", 3, b"\0f\0", {}),
            (b".llvm_addrsig", 0x6FFF4C03, b"\1", dict(link=2)),
        )
        found = self.hints(made.data, 78, made.table + 4 * 64 + 40)
        command = "objcopy --remove-section=.llvm_addrsig 'a b.o'"
        self.assertIn(f"compile with -fno-addrsig, or strip it: {command}", found)
        self.assertEqual(self.hints(made.data, 78, made.table + 64 + 40), "")

    @unittest.skipUnless(shutil.which("bash"), "bash is not installed")
    def test_paths_in_commands(self):
        """A shell reads the path that was meant, whatever letters it has."""
        for path in (
            *(b"a.o", b"a b.o", b"it's.o", b"$HOME`x`\\x41.o", "na\u00efve.o".encode()),
            *(b"\x1b[31m.o", b"it's\nx.o", b"\xff'\\x41.o", b"\x01b", b'\x7f"'),
        ):
            word = _hints.shell_word(path)
            self.assertTrue(word.isprintable(), word)
            command = ["bash", "-c", os.fsencode(f"printf %s {word}")]
            self.assertEqual(subprocess.run(command, capture_output=True).stdout, path)

    def linked(self, machine=62, name=b"_GLOBAL_OFFSET_TABLE_", kind=9):
        strings = (b".strtab", 3, b"\0" + name + b"\0", {})
        made = Made(text(), symbols(3, (1, 0x10, 0)), strings, relocations(2, 1))
        content = bytearray(made.with_bytes(18, machine.to_bytes(2, "little")))
        start = content.index((1 << 32 | 2).to_bytes(8, "little"))
        content[start : start + 4] = kind.to_bytes(4, "little")
        return Linked("a.o", _words.Words(bytes(content)))

    def test_the_global_offset_table(self):
        found = " ".join(_link_hints.link_hints([self.linked()], 9, 0, 0, 0))
        words = "the code is compiled for a global offset table: compile with -fno-pic"
        self.assertIn(f"_GLOBAL_OFFSET_TABLE_: {words}", found)
        self.assertEqual(list(_link_hints.link_hints([self.linked(name=b"other")], 9, 0, 0, 0)), [])

    def test_relocations_without_a_rule(self):
        table = "a global offset table, which elfmap does not make: compile with -fno-pic"
        call = "type 283, R_AARCH64_CALL26 of machine 183 (EM_AARCH64)"
        for machine, kind, words in (
            (62, 42, f"R_X86_64_REX_GOTPCRELX is by {table}"),
            (62, 4, "R_X86_64_PLT32 is a call, which needs no table here: the rule file needs the"),
            (62, 4, "the rule file needs the line `4 pc 4 signed`, as in rules/x86-64.rules"),
            (183, 283, f"the rule file has no line for {call}"),
        ):
            found = " ".join(
                _link_hints.link_hints([self.linked(machine, b"f", kind)], 12, 0, 1, 0)
            )
            self.assertIn(words, found)

    def test_names_of_compilers(self):
        for name, words in (
            (b"__stack_chk_fail", "compile it with -fno-stack-protector"),
            (b"__stack_chk_guard", "compile it with -fno-stack-protector"),
            (b"_mcount", "compile it without -pg"),
            (b"_Unwind_Resume", "compile it with -fno-exceptions"),
            (b"__tls_get_addr", "thread-local variables, which elfmap does not link"),
            (
                b"__errno_location",
                "`errno` is one of a thread: compile for a C library such as klibc",
            ),
            (b"__gxx_personality_v0", "compile it with -fno-exceptions"),
            (b"__cxa_guard_acquire", "compile with -fno-threadsafe-statics"),
            (b"__fentry__", "compile it without -pg"),
            (b"__memcpy_chk", "compile it with -U_FORTIFY_SOURCE"),
            (b"__ubsan_handle_shift", "compile it without -fsanitize=undefined"),
            (b"__init_array_end", "ld defines __init_array_end as the end of .init_array"),
        ):
            self.assertIn(
                words, " ".join(_link_hints.link_hints([self.linked(name=name)], 9, 0, 0, 0))
            )

    def test_names_that_are_not_of_compilers(self):
        """They have in their middle, or at their end, what those begin with."""
        for name in (b"of__asan_init", b"a__gcov_", b"memcpy2", b"my_memcpy", b"__memcpy_chk_"):
            with self.subTest(name=name):
                found = _link_hints.link_hints([self.linked(name=name)], 9, 0, 0, 0)
                self.assertEqual(list(found), [])

    def test_what_other_files_begin_with(self):
        """By the formats: LLVM's bitcode and its wrapper, Mach-O, gzip (RFC 1952), xz and zstd (RFC
        8878). One may be short."""
        for front, words in (
            (b"!<thin>\n", "it is a thin archive"),
            (b"BC\xc0\xde", "it is LLVM bitcode: compile without -flto"),
            (b"\xde\xc0\x17\x0b", "it is LLVM bitcode: compile without -flto"),
            (b"#!/bin/sh\n", "it is a script"),
            (b"MZ", "it is a program for Windows"),
            (b"\xcf\xfa\xed\xfe", "it is a Mach-O file"),
            (b"\x1f\x8b\x08", "it is compressed by gzip: decompress it first"),
            (b"\xfd7zXZ\0", "it is compressed by xz: decompress it first"),
            (b"\x28\xb5\x2f\xfd", "it is compressed by zstd: decompress it first"),
        ):
            self.assertIn(words, self.hints(front, 2))
            self.assertIn(words, self.hints(front.ljust(100, b"x"), 3))

    def test_other_files(self):
        self.assertIn("it is an archive: elfmap-lint checks its members", self.hints(GNU, 3))
        for machine, order, words in (
            (3, "little", "it is a file of class 32, as -m32 makes it: compile it with -m64"),
            (2, "big", "it is a file of class 32, as -m32 makes it: compile it with -m64"),
            (40, "little", "it is a file of class 32: compile it for a processor of 64 bits"),
        ):
            front = b"\x7fELF\1" + bytes([1 + (order == "big"), 1]) + bytes(11)
            self.assertEqual(self.hints(front + machine.to_bytes(2, order) + bytes(80), 4), words)
        program = Made(text()).with_bytes(16, b"\2")
        self.assertIn("the file is an executable", self.hints(program, 70))


class KnownNamesTest(unittest.TestCase):
    """Some that are met often, by the lists of the gABI and of the supplements for processors."""

    def test_machines(self):
        for number, name in (
            (3, "386"),
            (8, "MIPS"),
            (21, "PPC64"),
            (22, "S390"),
            (40, "ARM"),
            (183, "AARCH64"),
            (243, "RISCV"),
            (258, "LOONGARCH"),
        ):
            self.assertEqual(_names.machine_words(number), f"{number} (EM_{name})")

    def test_section_types_of_processors(self):
        for number, machine, name in (
            (0x70000001, 62, "X86_64_UNWIND"),
            (0x70000003, 243, "RISCV_ATTRIBUTES"),
            (0x70000001, 183, "0x70000001"),
            (1, 62, "PROGBITS"),
        ):
            self.assertEqual(_names.section_type(number, machine), name)


@unittest.skipUnless(ELF_H.is_file(), "elf.h is not installed")
class NamesTest(unittest.TestCase):
    """The names are those of the C library's header, of which a later one may have more."""

    def constants(self, prefix):
        found = re.findall(
            rf"^#define\s+({prefix}\w+)\s+(0x[0-9a-fA-F]+|\d+)\b", ELF_H.read_text(), re.M
        )
        return {name: int(value, 0) for name, value in found}

    def test_machines(self):
        known = self.constants("EM_")
        self.assertEqual({f"EM_{it}" for it in _names.MACHINES.values()} - set(known), set())
        for number, name in _names.MACHINES.items():
            self.assertEqual(known[f"EM_{name}"], number)

    def test_section_types(self):
        known = {name.lower(): number for name, number in self.constants("SHT_").items()}
        for number, name in _names.SECTION_TYPES.items():
            # LLVM's is not in the header.
            self.assertEqual(known.get(f"sht_{name}".lower(), 0x6FFF4C03), number)

    def test_segment_types_and_tags(self):
        for prefix, names in (("PT_", _names.SEGMENT_TYPES), ("DT_", _names.DYNAMIC_TAGS)):
            known = self.constants(prefix)
            for number, name in names.items():
                self.assertEqual(known.get(f"{prefix}{name}"), number, name)

    def test_relocation_types(self):
        known = self.constants("R_")
        aliases = re.findall(r"^#define\s+(R_PPC64_\w+)\s+(R_PPC_\w+)", ELF_H.read_text(), re.M)
        known.update((name, known[other]) for name, other in aliases)
        for machine in _names.machines_with_relocations():
            for number, name in _names.relocation_types(machine).items():
                self.assertEqual(known.get(name), number, name)


if __name__ == "__main__":
    unittest.main()
