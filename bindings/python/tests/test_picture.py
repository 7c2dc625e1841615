"""elfmap-picture: what is in the picture of files that are made here by hand, and how it ends.

docs/picture.svg is compared by `tools/test shown-commands`.
"""

import os
import struct
import subprocess
import sys
import unittest
from pathlib import Path
from xml.etree import ElementTree

from elfmap import picture

from tests.made import (
    ENVIRONMENT,
    GOOD,
    SHARING,
    FolderCase,
    Made,
    setUpModule,
    symbols,
    text,
)  # noqa: F401

PROGRAM = [sys.executable, "-m", "elfmap.picture"]


def bare(*segments, kind=1, order="<", tail=b""):
    """A file without sections: its header, a program header for each segment, and more bytes. A
    segment is its type, flags, offset, address, size in the file and in memory."""
    ident = b"\x7fELF\2\1\1" if order == "<" else b"\x7fELF\2\2\1"
    counts = (64, 56, len(segments)) if segments else (64, 0, 0)
    header = ident, kind, 62, 1, 0, 64 if segments else 0, 0, 0, *counts, 0, 0, 0
    data = struct.pack(f"{order}16sHHIQQQIHHHHHH", *header)
    for segment_type, flags, offset, address, size, memory in segments:
        row = segment_type, flags, offset, address, address, size, memory, 0x1000
        data += struct.pack(f"{order}IIQQQQQQ", *row)
    return data + tail


def gap(start, length):
    return picture.Part(start, length, "gap", "", "zeros", "gap")


def elements(drawn, tag):
    """The elements of a picture that have a tag."""
    return [it for it in ElementTree.fromstring(drawn).iter() if it.tag.endswith(f"}}{tag}")]


class Case(FolderCase):
    def draw(self, *words, stdin=b"", **env):
        """The status, the texts of the picture, and what is said on standard error."""
        own = {**ENVIRONMENT, **env}
        ran = subprocess.run([*PROGRAM, *words], input=stdin, capture_output=True, env=own)
        texts = [it.text for it in elements(ran.stdout, "text")] if ran.stdout else []
        return ran.returncode, texts, ran.stderr.decode()

    def test_a_file(self):
        made = Made(text(), symbols(3, (1, 0x10, 1)), (b".strtab", 3, b"\0<&>\0", {}))
        Path("a<&>.o").write_bytes(made.data)
        status, texts, said = self.draw("a<&>.o")
        self.assertEqual((status, said, texts[0]), (0, "", "a<&>.o"))
        of_text = ("section 1", ".text", "0x40", "51")
        of_symbols = ("section 2", ".symtab", "symbols")
        for it in (*of_text, *of_symbols, "section table"):
            self.assertIn(it, texts)
        self.assertTrue(any(it.endswith("relocatable, EM_X86_64, little-endian") for it in texts))

    def test_standard_input(self):
        """From a pipe and from a file."""
        head = "64 bytes in 1 part, 0 of them in 0 gaps; relocatable, EM_X86_64, little-endian"
        status, texts, _ = self.draw("-", "a", "title", stdin=bare())
        self.assertEqual((status, texts[0]), (0, "a title"))
        self.assertIn(head, texts)
        Path("a.o").write_bytes(bare())
        with open("a.o", "rb") as file:
            ran = subprocess.run([*PROGRAM, "-"], stdin=file, capture_output=True, env=ENVIRONMENT)
        texts = [it.text for it in elements(ran.stdout, "text")]
        self.assertEqual((ran.returncode, texts[0]), (0, "standard input"))
        self.assertIn(head, texts)

    def test_a_path_and_a_section(self):
        """The title is the name of the file; what a section holds is told by its type, or else by
        its flags."""
        held = {".s0": "code", ".s1": "data", ".s2": "constants", ".s3": "other"}
        sections = []
        for name, flags in zip(held, (6, 3, 2, 0)):
            sections.append((name.encode(), 1, b"\1", dict(flags=flags)))
        self.put(**{"a/b__o": bytes(Made(*sections).data)})
        texts = self.draw("a/b.o")[1]
        self.assertEqual(texts[0], "b.o")
        held[".shstrtab"] = "strings"
        self.assertEqual({it: texts[texts.index(it) + 1] for it in held}, held)

    def test_heads(self):
        names = ("no type", "relocatable", "executable", "shared object", "core")
        for number, name in (*enumerate(names), (9, "type 9")):
            head = picture.read(bare(kind=number))[1]
            self.assertEqual(head, f"{name}, EM_X86_64, little-endian")
        self.assertEqual(picture.read(bare(order=">"))[1], "relocatable, EM_X86_64, big-endian")

    def test_names(self):
        """A name in letters that can be printed; without one there is nothing."""
        made = Made((b"a\xff\x1b", 1, b"\1", {}), (b"", 1, b"\1", {}))
        names = [it.name for it in picture.read(made.data)[0] if it.owner[:7] == "section"]
        self.assertEqual(names[:2], ["a\\xff\\x1b", ""])

    def test_gaps(self):
        """What a gap holds: zeros, or its first six bytes; the head has how many bytes all have."""
        for held, said in (
            (bytes(5), "zeros"),
            (bytes(1 << 17), "zeros"),
            (bytes.fromhex("00112233445566"), "001122334455…"),
            (bytes.fromhex("001122334455"), "001122334455"),
            (bytes(1 << 17) + b"\1", "000000000000…"),
        ):
            parts, _ = picture.read(bare(tail=held))
            self.assertEqual([it.holds for it in parts if it.owner == "gap"], [said])
            self.assertEqual([it.length for it in parts], [64, len(held)])
        texts = self.draw("-", stdin=bare(tail=b"\1" * 20))[1]
        self.assertIn(
            "84 bytes in 2 parts, 20 of them in 1 gap; relocatable, EM_X86_64, little-endian", texts
        )

    def test_segments_of_a_file_without_sections(self):
        """Two loadable segments of the file, each of which ends one byte before what is after it,
        one of memory alone, and a note, which cuts nothing."""
        segments = [
            (1, 5, 0x120, 0x400120, 0x5F, 0x5F),
            (1, 4, 0x180, 0x401180, 0x7F, 0x7F),
            (1, 6, 0x200, 0x402200, 0, 0x300),
            (4, 4, 0x190, 0x401190, 0x10, 0x10),
        ]
        data = bytearray(bare(*segments, kind=2))
        data += bytes(0x200 - len(data))
        data[0x1FF] = 0xAB
        parts, head = picture.read(data)
        self.assertEqual(head, "executable, EM_X86_64, little-endian")
        self.assertEqual(
            [(it.start, it.length, it.owner, it.name, it.holds) for it in parts],
            [
                (0, 0x40, "header", "", ""),
                (0x40, 0xE0, "program table", "", ""),
                (0x120, 0x5F, "segment 0", "0x400120 to 0x40017f", "code RX"),
                (0x17F, 1, "gap", "", "zeros"),
                (0x180, 0x7F, "segment 1", "0x401180 to 0x4011ff", "constants R"),
                (0x1FF, 1, "gap", "", "ab"),
                (0x200, 0, "segment 2", "0x402200 to 0x402500", "zeros in memory RW"),
            ],
        )
        # Of the first one more bytes are in memory than in the file.
        longer = bare((*segments[0][:5], 0x6F), tail=bytes(0x200))
        self.assertEqual(picture.read(longer)[0][3].name, "0x400120 to 0x40018f")

    def bars(self, *parts):
        """Of each row where its bar begins, and how wide it is: the last ones that have a title."""
        drawn = [it for it in elements(picture.picture("", list(parts), ""), "rect") if len(it)]
        return [(float(it.get("x")), float(it.get("width"))) for it in drawn[len(parts) :]]

    def test_bars_are_drawn_to_scale(self):
        """The file is 520 points long, from 640 on."""
        header = picture.Part(0, 64, "header")
        self.assertEqual(self.bars(header, gap(64, 192)), [(640, 130), (770, 390)])
        short = gap(64, 0xFFFBF), gap(0xFFFFF, 1)
        self.assertEqual(self.bars(header, *short), [(640, 2), (640.03, 519.97), (1158, 2)])

    def test_words_that_are_too_long(self):
        found = [picture.cut("abcdefghij", it) for it in (4, 5, 9, 10)]
        self.assertEqual(found, ["a…ij", "ab…ij", "abcd…ghij", "abcdefghij"])

    def test_the_largest_parts(self):
        """Of 401 parts the largest have rows; all others, which are beside each other, have one
        together."""
        starts = [64 + sum(range(1, it)) for it in range(1, 402)]
        parts = [picture.Part(0, 64, "header")]
        parts += [gap(at, size) for size, at in zip(range(1, 401), starts)]
        rows = picture.folded(parts)
        self.assertEqual(sum(it.length for it in rows), starts[-1])
        self.assertEqual([it.start for it in rows], [0, *(it.start for it in rows[1:])])
        self.assertEqual([it.length for it in rows[-150:]], [*range(251, 401)])
        self.assertLessEqual(len(rows), 150 + 2)

    def test_equal_parts(self):
        """Of 400 equal parts the first 150 have rows."""
        parts = []
        for k in range(400):
            parts.append(picture.Part(16 * k, 16, f"section {k}", f".s{k}", "PROGBITS", "data"))
        self.assertEqual([it.length for it in picture.folded(parts)], [16] * 150 + [16 * 250])

    def test_a_row_for_each_part(self):
        """Of up to 300 parts; of one more the first 150 of equal ones."""
        for count, rows in ((300, 300), (301, 151)):
            parts = []
            for k in range(count):
                parts.append(picture.Part(16 * k, 16, f"section {k}", f".s{k}", "", "data"))
            self.assertEqual(len(picture.folded(parts)), rows)

    def test_many_parts(self):
        """A thousand sections of one byte, and between each two of them a gap of seven."""
        made = Made(*((b".s", 1, b"\1", {}) for _ in range(1000)))
        parts, head = picture.read(made.data)
        self.assertEqual((len(parts), head), (2003, "relocatable, EM_X86_64, little-endian"))
        self.assertLess(picture.picture("many", parts, head).count("<rect"), 3 * picture.MOST)

    def test_what_is_rejected(self):
        for stdin, name, refused in (
            (SHARING, "bad.o", "refused 33 114"),
            (b"", "-", "refused 2 0"),
            (b"file little 1 62 0x0 0x0\n", "-", "refused 2 25"),
            (b"x" * 100_000, "-", "refused 3 0"),
        ):
            Path("bad.o").write_bytes(stdin)
            status, texts, said = self.draw(name, stdin=stdin)
            self.assertEqual((status, texts), (1, []))
            reason = f"elfmap refuses it: {refused}; elfmap-explain says why"
            self.assertEqual(said, f"elfmap-picture: {name}: {reason}\n")

    def test_what_can_not_be_read(self):
        os.mkfifo("pipe")
        for name in ("none", "pipe", "."):
            self.assertEqual(self.draw(name)[0], 3)
        self.assertEqual(self.draw()[0], 2)

    def test_a_closed_pipe_ends_it_silently(self):
        Path("good.o").write_bytes(GOOD)
        reading, writing = os.pipe()
        os.close(reading)
        ran = subprocess.run(
            [*PROGRAM, "good.o"], stdout=writing, stderr=subprocess.PIPE, env=ENVIRONMENT
        )
        os.close(writing)
        self.assertEqual(ran.stderr, b"")


if __name__ == "__main__":
    unittest.main()
