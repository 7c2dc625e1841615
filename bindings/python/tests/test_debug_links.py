"""elfmap-lint --debug-files: a file of debug information that another file of the run names."""

import gzip
import shutil
import struct
import subprocess
import unittest
import zlib
from pathlib import Path
from unittest import mock

from elfmap import _debug_links, _sources, lint

from tests.made import GOOD, SHARING, Made, text, setUpModule  # noqa: F401
from tests.test_deviations import DYN, NOBITS, DebugCase, program


def data_alone(*more):
    """A file of debug information without code, whose segment is beyond its end."""
    made = Made((b".bss", NOBITS, b"", dict(flags=3, size=8)), *more)
    data = bytearray(program(made, kind=DYN))
    at = len(data)
    data += struct.pack("<2I6Q", 1, 6, 0x1000, 0x1000, 0x1000, 8, 8, 0x1000)
    struct.pack_into("<Q", data, 32, at)
    struct.pack_into("<HH", data, 54, 56, 1)
    return bytes(data), at


def naming(name, content, order="<", more=0, section=b".gnu_debuglink"):
    """A file whose .gnu_debuglink names a file of this content."""
    own = name + b"\0" + bytes(-(len(name) + 1) % 4)
    own += struct.pack(f"{order}I", zlib.crc32(content) + more & 0xFFFFFFFF)
    return bytes(Made(text(), (section, 1, own, {}), order=order).data)


class LinkTest(DebugCase):
    def last(self, *words):
        return self.told("--debug-files", *words)[-1]

    def test_a_file_that_is_named(self):
        data, _ = data_alone()
        self.put(**{"usr/a": naming(b"a.debug", data), "debug/a__debug": data})
        known = "0 findings in 0 of 2 ELF files; known deviations: 1 debug-segments"
        # Whichever is first, and by several processes; also in pieces.
        for module, name, number in ((_debug_links, "_PIECE", 7), (lint, "_MOST_FILES", 1)):
            patched = mock.patch.object(module, name, number)
            self.addCleanup(patched.stop)
            patched.start()
        for words in (["usr", "debug"], ["debug", "usr"], ["-j2", "usr/a", "debug/a.debug"]):
            with self.subTest(words=words):
                self.assertEqual(self.last(*words), known)
        # Each by itself, by --strict, and without the option, it is none.
        self.assertEqual(self.last("debug"), "1 finding in 1 of 1 ELF file")
        for words in (["--strict"], []):
            self.assertEqual(self.lint(*words, "usr", "debug")[0], 1)

    def test_in_both_byte_orders(self):
        data, _ = data_alone()
        for order in "<>":
            self.put(a=naming(b"a.debug", data, order), a__debug=data)
            self.assertEqual(self.lint("--debug-files", "a", "a.debug")[0], 0)

    def test_names_of_each_length(self):
        """Zeros fill the name to a multiple of 4, before its sum."""
        data, _ = data_alone()
        for name in ("a", "ab", "abc", "abcd", "abcde"):
            self.put(**{"one": naming(name.encode(), data), name: data})
            with self.subTest(name=name):
                self.assertEqual(self.lint("--debug-files", "one", name)[0], 0)

    def test_what_names_another_file(self):
        data, _ = data_alone()
        for one in (
            naming(b"b.debug", data),
            naming(b"a.debug", data, more=1),
            naming(b"a.debug", data + b"\0"),
            naming(b"", data),
            GOOD,
            bytes(Made(text(), (b".gnu_debuglink", 1, b"a.debug", {})).data),
            bytes(Made(text(), (b".gnu_debuglink", 1, b"", {})).data),
            naming(b"a.debug", data, section=b".gnu_debuglinks"),
        ):
            self.put(a=one, a__debug=data)
            self.assertEqual(self.lint("--debug-files", "a", "a.debug")[0], 1)

    def test_what_has_data(self):
        """A file that is named, and is no file of debug information, is a finding all the same."""
        data, at = data_alone((b".data", 1, b"1234", dict(flags=3)))
        self.put(a=naming(b"a.debug", data), a__debug=data)
        lines = self.told("--debug-files", "a", "a.debug")
        self.assertIn("a.debug: offset %#x: SEGMENT_PAST_END (25)" % (at + 8), lines[0])
        self.assertEqual(lines[1:], ["1 finding in 1 of 2 ELF files"])

    def test_another_rule(self):
        """Of the copy another rule is found."""
        content = struct.pack("<IBBHQQ", 1, 0x10, 0, 99, 0, 0)
        names = (b".strtab", 3, b"\0f\0", {})
        table = (b".symtab", 2, bytes(24) + content, dict(link=2, info=1, entsize=24))
        data, _ = data_alone(names, table)
        self.put(a=naming(b"a.debug", data), a__debug=data)
        line = self.told("--debug-files", "--tables", "a", "a.debug")[0]
        self.assertIn("WRONG_SYMBOL_SECTION (51)", line)
        last = self.last("--tables", "--ignore", "51", "a", "a.debug")
        words = "0 findings in 0 of 2 ELF files, 1 suppressed; known deviations: 1 debug-segments"
        self.assertEqual(last, words)
        # Also beside a finding of the first check.
        self.put(bad__o=SHARING)
        last = self.last("--tables", "--ignore", "51", "--ignore", "33", "a", "a.debug", "bad.o")
        words = "0 findings in 0 of 3 ELF files, 2 suppressed; known deviations: 1 debug-segments"
        self.assertEqual(last, words)

    def test_a_file_in_a_package(self):
        """It is not searched for."""
        data, _ = data_alone()
        self.put(a=naming(b"a.debug", data), a__debug=gzip.compress(data))
        self.assertEqual(self.lint("--debug-files", "a", "a.debug")[0], 1)

    def test_names_of_a_test_case(self):
        """A file that is checked again is one test case."""
        data, _ = data_alone()
        self.put(a=naming(b"a.debug", data), a__debug=data)
        out = self.lint("--debug-files", "--format", "junit", "a", "a.debug")[1]
        self.assertEqual(out.count(b"<testcase "), 2)

    def test_what_vanishes(self):
        self.assertFalse(_debug_links._sum_in(b"none", [0]))

    @unittest.skipUnless(all(map(shutil.which, ("cc", "eu-strip"))), "cc or eu-strip")
    def test_a_library_of_data(self):
        Path("a.c").write_text("int values[9999] = {1};\n")
        words = ["cc", "-g", "-shared", "-nostdlib", "-Wl,-z,separate-code", "-o", "a.so", "a.c"]
        subprocess.run(words, check=True)
        subprocess.run(["eu-strip", "-f", "a.debug", "a.so"], check=True)
        with _sources.opened(b"a.so") as source:
            name, number = _debug_links.link_of(source)
        self.assertEqual(name, b"a.debug")
        self.assertEqual(number, zlib.crc32(Path("a.debug").read_bytes()))
        self.assertEqual(self.lint("a.debug")[0], 1)
        self.assertEqual(self.lint("--debug-files", "a.debug", "a.so")[0], 0)


if __name__ == "__main__":
    unittest.main()
