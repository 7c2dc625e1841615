"""What of a report is suppressed: rules by machine, section and producer, and baselines that
outlast another path."""

import json
import os
import shutil
import struct
import subprocess
import time
import unittest
from pathlib import Path
from unittest import mock

from elfmap import _checks, _findings, _origin, _sources, _suppressed, _words

from tests.made import (
    GNU,
    GOOD,
    LONG,
    SHARING,
    Made,
    archive_member,
    text,
    setUpModule,
)  # noqa: F401
from tests.test_lint import Case

GCC = b"GCC: (Debian 12.2.0-14) 12.2.0"
COMMENT = (b".comment", 1, b"\0" + GCC + b"\0clang\0" + GCC + b"\0", {})
NOTE = b".note.gnu.build-id", 7, struct.pack("<3I", 4, 4, 3) + b"GNU\0\xde\xad\xbe\xef", {}


def made(*sections, machine=62, order="<"):
    """A file whose section .data shares a byte with .text before it."""
    data = (b".data", 1, b"\1\2\3\4", {})
    found = Made(text(), data, *sections, order=order)
    content = bytearray(found.with_field(2, "offset", 0x72))
    content[18:20] = machine.to_bytes(2, "little" if order == "<" else "big")
    return bytes(content)


class OriginTest(Case):
    def origin(self, content):
        self.put(file=content)
        with _sources.opened(b"file") as it:
            return _origin.origin_of(_words.Words(it))

    def test_all(self):
        gcc = (GCC.decode(), "clang")
        for order, machine, name in (("<", 62, "X86_64"), (">", 22, "S390"), ("<", 65000, "65000")):
            note = NOTE[:2] + (struct.pack(f"{order}3I", 4, 4, 3) + NOTE[2][12:], {})
            found = self.origin(made(COMMENT, note, machine=machine, order=order))
            self.assertEqual(found, (name, gcc, "deadbeef"))

    def test_what_is_not_there(self):
        self.assertEqual(self.origin(made()), ("X86_64", (), ""))
        wrong = [
            (b".note", 7, struct.pack("<3I", 4, 4, 1) + b"GNU\0\1\2\3\4", {}),
            (b".note", 7, struct.pack("<3I", 4, 0, 3) + b"GNU\0", {}),
            (b".note", 7, struct.pack("<3I", 2**32 - 1, 2**32 - 1, 3) + b"GNU\0", {}),
            (b".note", 7, b"\4", {}),
            (b".comments", 1, b"other\0", {}),
        ]
        self.assertEqual(self.origin(made(*wrong)), ("X86_64", (), ""))

    def test_the_second_note(self):
        other = struct.pack("<3I", 5, 3, 1) + b"Else\0\0\0\0\1\2\3\0"
        note = (b".note", 7, other + NOTE[2], {})
        self.assertEqual(self.origin(made(note)).build_id, "deadbeef")

    @unittest.skipUnless(all(map(shutil.which, ("cc", "readelf", "strip"))), "cc or binutils")
    def test_of_a_compiler(self):
        """As readelf prints them; the build id also by its segment."""
        Path("a.c").write_text("int main(void) { return 0; }\n")
        subprocess.run(["cc", "-Wl,--build-id", "a.c", "-o", "a"], check=True)
        said = subprocess.run(
            ["readelf", "-nWp", ".comment", "a"], capture_output=True, text=True, check=True
        ).stdout
        found = self.origin(Path("a").read_bytes())
        self.assertIn(f"Build ID: {found.build_id}\n", said)
        self.assertIn(f"]  {found.producers[0]}\n", said)
        content = bytearray(Path("a").read_bytes())
        content[40:48] = bytes(8)
        content[60:64] = bytes(4)
        self.assertEqual(self.origin(bytes(content)), (found.machine, (), found.build_id))

    def test_in_a_report(self):
        self.put(bad__o=made(COMMENT, NOTE))
        line = json.loads(self.told("--format", "jsonl", "bad.o")[0])
        self.assertEqual(
            (line["machine"], line["producers"], line["build_id"]),
            ("X86_64", [GCC.decode(), "clang"], "deadbeef"),
        )


class IgnoreTest(Case):
    def setUp(self):
        super().setUp()
        self.put(bad__o=made(COMMENT))

    def test_each_condition(self):
        for word, is_ignored in (
            ("33:machine=X86_64", True),
            ("33:machine=x86-64", True),
            ("33:machine=EM_X86_64", True),
            ("33:machine=em_x86*", True),
            ("33:machine=X86", False),
            ("33:machine=AARCH64", False),
            ("33:section=.data", True),
            ("33:section=.tex?", True),
            ("33:section=.DATA", False),
            ("33:section=data", False),
            ("33:producer=clang", True),
            ("33:producer=GCC: (Debian*", True),
            ("33:producer=GCC", False),
            ("33:path=bad.o", True),
            ("33:path=good.o", False),
            ("SHARED_BYTE:bad.o:machine=X86_64", True),
            ("33:good.o:machine=X86_64", False),
            ("33:machine=X86_64:section=.data:producer=clang:path=*.o", True),
            ("33:machine=X86_64:section=.bss", False),
            ("*", True),
            ("*:machine=X86_64", True),
            ("*:machine=ALPHA", False),
            ("32:machine=X86_64", False),
            # What is no key belongs to the path.
            ("33:arch=X86_64", False),
        ):
            with self.subTest(word=word):
                self.assertEqual(self.lint("--ignore", word, "bad.o")[0], 0 if is_ignored else 1)

    def test_several(self):
        """One that holds is enough."""
        words = ["--ignore", "33:machine=ALPHA", "--ignore", "33:section=.data"]
        self.assertSaid([*words, "bad.o"], 0, [b"0 findings in 0 of 1 ELF file, 1 suppressed"])

    def test_no_glob(self):
        for word in ("33:machine=", "33:", "*:", "33:section=:machine=x"):
            with self.subTest(word=word):
                self.assertEqual(self.lint("--ignore", word, "bad.o")[0], 2)


class BaselineTest(Case):
    def entries(self):
        return json.loads(Path("known").read_bytes())

    def test_without_the_first_components(self):
        self.put(**{"pkg-1__0/lib/bad__o": SHARING, "pkg-1__0/lib/lib__a": GNU})
        strip = ["--strip-components", "1"]
        self.assertEqual(self.lint(*strip, "--write-baseline", "known", "pkg-1.0")[0], 0)
        found = self.entries()
        self.assertEqual(found["strip_components"], 1)
        paths = ["lib/bad.o", f"lib/lib.a({LONG.decode()})"]
        self.assertEqual([it["path"] for it in found["findings"]], paths)
        os.rename("pkg-1.0", "pkg-1.1")
        # The baseline says itself how many.
        for words in ([], strip):
            for path in ("pkg-1.1", "./pkg-1.1", "pkg-1.1//"):
                with self.subTest(words=words, path=path):
                    self.assertEqual(self.lint("--baseline", "known", *words, path)[0], 0)
        # Of another tree the rest is another one.
        more = ["--strip-components", "2"]
        self.assertEqual(self.lint("--baseline", "known", *more, "pkg-1.1/lib/bad.o")[0], 0)
        os.rename("pkg-1.1/lib", "pkg-1.1/lib64")
        self.assertEqual(self.lint("--baseline", "known", "pkg-1.1")[0], 1)
        self.assertEqual(self.lint("--baseline", "known", *more, "pkg-1.1")[0], 0)

    def test_an_older_baseline(self):
        """It has all components; so many are dropped of it too."""
        self.put(**{"a-1/bad__o": SHARING})
        self.lint("--write-baseline", "known", "a-1")
        self.assertEqual(
            self.entries(),
            {
                "version": 1,
                "findings": [
                    {"path": "a-1/bad.o", "rule": "SHARED_BYTE", "sections": [".text", ".data"]}
                ],
            },
        )
        os.rename("a-1", "a-2")
        self.assertEqual(self.lint("--baseline", "known", "a-2")[0], 1)
        words = ["--baseline", "known", "--strip-components"]
        self.assertEqual(self.lint(*words, "1", "a-2")[0], 0)
        self.assertEqual(self.lint(*words, "9", "a-2")[0], 0)
        status, _, said = self.lint(*words[:2], "--strip-components=-1", "a-2")
        self.assertEqual((status, b"needs a number from 0 on" in said), (2, True))

    def test_components(self):
        for path, count, found in (
            ("a/b/c", 0, "a/b/c"),
            ("./a//b", 0, "./a//b"),
            ("a/b/c", 1, "b/c"),
            ("./a//b/c", 1, "b/c"),
            ("/a/b", 1, "b"),
            ("a/b", 7, "b"),
            ("a", 1, "a"),
            ("/", 1, "/"),
            ("", 1, ""),
        ):
            with self.subTest(path=path, count=count):
                self.assertEqual(_suppressed.stripped(path, count), found)

    def test_by_build_id(self):
        archive = b"!<arch>\n" + archive_member(b"x.o", made(NOTE)) + archive_member(b"y.o", GOOD)
        self.put(**{"old/bad__o": made(NOTE), "old/lib__a": archive})
        self.lint("--write-baseline", "known", "old")
        found = [(it.get("member"), it["build_id"]) for it in self.entries()["findings"]]
        self.assertEqual(found, [(None, "deadbeef"), ("(x.o)", "deadbeef")])
        self.put(**{"new/other__o": made(NOTE), "new/liba-2__a": archive})
        self.assertEqual(self.lint("--baseline", "known", "new")[0], 0)
        # Each is one: of two files of a build id, one more is found.
        self.put(**{"new/third__o": made(NOTE)})
        self.assertEqual(
            self.told("--baseline", "known", "new")[-1],
            "1 finding in 1 of 4 ELF files, 2 suppressed",
        )
        # Another build, another member, and no build id.
        other = NOTE[:2] + (NOTE[2][:-1] + b"\0", {})
        second = archive.replace(b"x.o/", b"z.o/")
        for content in (made(other), second, made()):
            self.put(**{"last/bad__o": content})
            self.assertEqual(self.lint("--baseline", "known", "last")[0], 1)

    def test_the_entry_that_a_copy_uses_up(self):
        """The first one by its path: the others fit what is at their paths, without a build id
        too."""
        self.put(**{"old/a__o": made(NOTE), "old/b__o": made(NOTE)})
        self.lint("--write-baseline", "known", "old")
        os.unlink("old/a.o")
        self.put(**{"new/c__o": made(NOTE), "old/b__o": made()})
        self.assertEqual(self.lint("--baseline", "known", "new", "old")[0], 0)

    def test_many_copies_of_a_build(self):
        """Each finding uses one entry up, of its own path first, in linear time."""
        count = 20000
        of_path = {"rule": "SHARED_BYTE", "sections": [], "build_id": "ab"}
        entries = [{"path": f"{k:05}", **of_path} for k in range(count)]
        Path("known").write_text(json.dumps({"findings": entries}))
        baseline = _suppressed.Baseline.read("known")
        rule = _findings.rule_of("33")

        def finds(path, build_id="ab"):
            origin = _origin.Origin("X86_64", (), build_id)
            return _findings.Finding(path, 0, rule, "SHARED_BYTE", "", (), path, 0, origin)

        started = time.process_time()
        self.assertTrue(baseline.match(finds(b"00007")))
        self.assertFalse(baseline.match(finds(b"00007", "cd")))
        for k in range(count - 1):
            self.assertTrue(baseline.match(finds(b"new/%d" % k)))
        self.assertFalse(baseline.match(finds(b"00007")))
        self.assertFalse(baseline.match(finds(b"last")))
        self.assertLess(time.process_time() - started, 2)

    def test_what_can_not_be_read(self):
        """An entry accepts one archive, for the reason that it has or for any."""
        self.put(**{"a-1/lib__a": GNU[:-5], "a-1/good__o": GOOD})
        strip = ["--strip-components", "1"]
        status, _, said = self.lint("a-1")
        self.assertEqual(status, 3)
        self.assertEqual(self.lint(*strip, "--write-baseline", "known", "a-1")[0], 0)
        (entry,) = self.entries()["unreadable"]
        self.assertEqual(entry["path"], "lib.a")
        self.assertEqual(said.decode(), f"elfmap-lint: a-1/lib.a: {entry['reason']}\n")
        os.rename("a-1", "a-2")
        status, out, said = self.lint("--baseline", "known", "a-2")
        self.assertEqual((status, said), (0, b""))
        self.assertEqual(out, b"0 findings in 0 of 3 ELF files, 2 suppressed\n")
        # Another reason, or another path.
        self.put(**{"a-2/lib__a": GNU[:100]})
        self.assertEqual(self.lint("--baseline", "known", "a-2")[0], 3)
        document = self.entries()
        del document["unreadable"][0]["reason"]
        Path("known").write_text(json.dumps(document))
        self.assertEqual(self.lint("--baseline", "known", "a-2")[0], 0)
        os.rename("a-2/lib.a", "a-2/libb.a")
        self.assertEqual(self.lint("--baseline", "known", "a-2")[0], 3)

    def test_what_is_not_there_is_never_accepted(self):
        self.put(bad__o=SHARING)
        self.assertEqual(self.lint("--write-baseline", "known", "bad.o", "none.o")[0], 3)
        self.assertNotIn("unreadable", self.entries())
        entry = {"path": "none.o"}
        Path("known").write_text(json.dumps({"findings": [], "unreadable": [entry]}))
        self.assertEqual(self.lint("--baseline", "known", "none.o")[0], 3)

    def test_a_lack_of_memory_is_never_accepted(self):
        """It is not due to the file."""
        self.put(good__o=GOOD)
        with mock.patch.object(_checks.Checks, "faults", side_effect=MemoryError):
            self.assertEqual(self.lint("--write-baseline", "known", "good.o")[0], 3)
        self.assertNotIn("unreadable", self.entries())

    def test_no_baseline(self):
        finding = {"path": "a", "rule": "SHARED_BYTE", "sections": []}
        for document in (
            {},
            [],
            None,
            {"findings": [{**finding, "path": 1}]},
            {"findings": [{**finding, "sections": [1]}]},
            {"findings": [{**finding, "build_id": 1}]},
            {"findings": [{**finding, "member": None}]},
            {"findings": [], "strip_components": "1"},
            {"findings": [], "strip_components": -1},
            {"findings": [], "strip_components": True},
            {"findings": [], "version": 2},
            {"findings": [], "unreadable": [{}]},
            {"findings": [], "unreadable": [{"path": "a", "reason": 1}]},
            {"findings": [], "unreadable": 1},
        ):
            Path("known").write_text(json.dumps(document))
            self.put(bad__o=SHARING)
            with self.subTest(document=document):
                status, _, said = self.lint("--baseline", "known", "bad.o")
                self.assertEqual((status, said), (2, b"elfmap-lint: known is no baseline\n"))


if __name__ == "__main__":
    unittest.main()
