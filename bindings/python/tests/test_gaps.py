"""elfmap-gaps: the gaps of files that are made here by hand, and how it ends."""

import os
import struct
import subprocess
import sys
import unittest
from pathlib import Path

from tests.made import (
    CLASS_32,
    ENVIRONMENT,
    GOOD,
    SHARING,
    FolderCase,
    Made,
    archive_member,
    setUpModule,
    text,
)  # noqa: F401

PROGRAM = [sys.executable, "-m", "elfmap.gaps"]
# .text has the bytes from 0x40 to below 0x53, .data those from 0x78 to below 0x80, and the headers
# begin at 0x98.
GAPPED = Made(text(), (b".data", 1, bytes(8), {})).with_field(1, "size", 0x13)
LONG = "[0x53, 0x78) between .text and .data, not only zeros"
SHORT = "[0x97, 0x98) between .shstrtab and the section headers, zeros"


class GapsTest(FolderCase):
    def gaps(self, *words):
        """The status, and the lines on standard output and on standard error."""
        ran = subprocess.run(
            [*PROGRAM, *words], stdin=subprocess.DEVNULL, capture_output=True, env=ENVIRONMENT
        )
        said = (
            it.decode("utf-8", "surrogateescape").splitlines() for it in (ran.stdout, ran.stderr)
        )
        return ran.returncode, *said

    def test_a_file(self):
        self.put(a__o=GAPPED)
        lines = [f"37 a.o: {LONG}", f"1 a.o: {SHORT}", "2 gaps of 38 bytes in 1 ELF file"]
        self.assertEqual(self.gaps("a.o"), (0, lines, []))

    def test_the_end_of_a_file(self):
        self.put(a__o=GAPPED + b"\1" * 100)
        end = len(GAPPED) + 100
        self.assertEqual(
            self.gaps("a.o")[1][0],
            f"100 a.o: [{len(GAPPED):#x}, {end:#x}) after the section headers, not only zeros",
        )

    def test_the_longest(self):
        lib = (
            b"!<arch>\n" + archive_member(b"m.o", GAPPED) + archive_member(b"text", b"no ELF file")
        )
        self.put(**{"a/b__o": GAPPED, "a/lib__a": lib, "a/a__o": GAPPED, "a/narrow__o": CLASS_32})
        longest = [f"37 {it}: {LONG}" for it in ("a/a.o", "a/b.o", "a/lib.a(m.o)")]
        last = "6 gaps of 114 bytes in 3 ELF files; skipped: 1 not ELF, 1 of class 32"
        self.assertEqual(self.gaps("--most", "3", "a"), (0, [*longest, last], []))
        self.assertEqual(self.gaps("--most", "0", "a"), (0, [last], []))
        self.assertEqual(len(self.gaps("a")[1]), 6 + 1)
        self.assertEqual(
            self.gaps("--exclude", "*.a", "--exclude", "narrow*", "a")[1][-1],
            "4 gaps of 76 bytes in 2 ELF files",
        )

    def test_a_long_gap(self):
        """It is longer than what is read at once, and its last byte is the only one that is not
        zero."""
        size = (3 << 20) + 5
        for last, words in ((b"\0", "zeros"), (b"\1", "not only zeros")):
            self.put(a__o=GAPPED + bytes(size - 1) + last)
            self.assertTrue(self.gaps("a.o")[1][0].endswith(f"after the section headers, {words}"))

    def test_statuses(self):
        self.put(good__o=GOOD, bad__o=SHARING)
        os.mkfifo("pipe")
        status, lines, said = self.gaps("good.o", "bad.o", "none", "pipe")
        self.assertEqual((status, lines[-1]), (3, "1 gap of 4 bytes in 1 ELF file"))
        self.assertEqual(
            said,
            [
                "elfmap-gaps: bad.o: offset 0x72: SHARED_BYTE (33); elfmap-lint says more",
                "elfmap-gaps: none: no such file or directory",
                "elfmap-gaps: pipe: it is no regular file",
            ],
        )
        for words in ([], ["--most", "-1", "good.o"], ["--none", "good.o"]):
            self.assertEqual(self.gaps(*words)[0], 2)

    def test_a_named_file_that_is_no_elf_file(self):
        """It is an error, as in elfmap-lint; in a directory, or with --skip, it is skipped."""
        self.put(**{"text": b"no ELF file", "empty": b"", "a/text": b"no ELF file", "a/empty": b""})
        self.put(good__o=GOOD, lib__a=b"!<arch>\n" + archive_member(b"text", b"no ELF file"))
        told = {
            "text": "it is neither an ELF file nor an archive; --skip skips it",
            "empty": "it is empty; --skip skips it",
        }
        last = "1 gap of 4 bytes in 1 ELF file"
        for name, reason in told.items():
            status, lines, said = self.gaps("good.o", name)
            self.assertEqual((status, said), (3, [f"elfmap-gaps: {name}: {reason}"]))
            self.assertEqual(lines[-1], last)
            found = self.gaps("--skip", "good.o", name)
            self.assertEqual((found[0], found[2]), (0, []))
            self.assertEqual(found[1][-1], f"{last}; skipped: 1 not ELF")
        for words, count in ((["a"], 2), (["lib.a"], 1)):
            status, lines, said = self.gaps("good.o", *words)
            self.assertEqual((status, said), (0, []))
            self.assertEqual(lines[-1], f"{last}; skipped: {count} not ELF")

    def test_excluded(self):
        self.put(**{"a/a__o": GAPPED, "a/b__o": GAPPED, "c/a__o": GAPPED})
        for words, count in ((["--exclude", "a.o"], 1), (["--exclude", "a/*"], 1), ([], 3)):
            summary = self.gaps(*words, "a", "c")[1][-1]
            self.assertTrue(summary.endswith(f" in {count} ELF file{'s' * (count > 1)}"), summary)

    def test_many_sections(self):
        sections = [(b".s", 1, b"\1", {}) for _ in range(500)]
        self.put(a__o=bytes(Made(*sections).data))
        self.assertEqual(self.gaps("a.o")[1][0], "7 a.o: [0x41, 0x48) between .s and .s, zeros")

    def test_twenty_of_many(self):
        self.put(a__o=bytes(Made(*((b".s", 1, b"\1", {}) for _ in range(30))).data))
        lines = self.gaps("a.o")[1]
        self.assertEqual(len(lines), 20 + 1)
        # The last one is between the last section and the names.
        for at, line in zip(range(64, 64 + 20 * 8, 8), lines):
            place = f"[{at + 1:#x}, {at + 8:#x})"
            self.assertEqual(line, f"7 a.o: {place} between .s and .s, zeros")

    def test_a_section_without_a_name(self):
        self.put(a__o=Made(text(), (b"", 1, bytes(8), {})).with_field(1, "size", 0x13))
        self.assertEqual(
            self.gaps("a.o")[1][0],
            "37 a.o: [0x53, 0x78) between .text and section 2, not only zeros",
        )

    def test_program_headers(self):
        """They are after a gap of eight bytes, which ends with a byte that is not zero."""
        data = bytearray(Made(text()).with_bytes(16, b"\2"))
        start = len(data) + 8
        data[32:40] = start.to_bytes(8, "little")
        data[54:58] = struct.pack("<HH", 56, 1)
        self.put(
            run=bytes(data) + bytes(7) + b"\1" + struct.pack("<IIQQQQQQ", 1, 4, 0, 0, 0, 0, 0, 1)
        )
        lines = [
            f"8 run: [{len(data):#x}, {start:#x}) between the section headers and the program"
            " headers, not only zeros"
        ]
        self.assertEqual(self.gaps("--most", "1", "run")[1][:1], lines)

    def test_a_full_device(self):
        self.put(good__o=GOOD)
        with open("/dev/full", "wb") as out:
            ran = subprocess.run(
                [*PROGRAM, "good.o"], stdout=out, stderr=subprocess.PIPE, env=ENVIRONMENT
            )
        self.assertEqual(
            (ran.returncode, ran.stderr), (3, b"elfmap-gaps: no space left on device\n")
        )

    def test_names_of_any_bytes(self):
        Path(os.fsdecode(b"\xff\n.o")).write_bytes(GAPPED)
        self.assertEqual(self.gaps(".")[1][0], f"37 ./\\xff\\x0a.o: {LONG}")

    def test_a_closed_pipe_ends_it_silently(self):
        self.put(good__o=GOOD)
        reading, writing = os.pipe()
        os.close(reading)
        ran = subprocess.run(
            [*PROGRAM, "good.o"], stdout=writing, stderr=subprocess.PIPE, env=ENVIRONMENT
        )
        os.close(writing)
        self.assertEqual(ran.stderr, b"")


if __name__ == "__main__":
    unittest.main()
