"""elfmap-same --ignore-debug, and the strings that differ; and what elfmap-explain says of a rule.

Compilers write objects with and without debug information; the rest is the same.
"""

import os
import shutil
import struct
import subprocess
import unittest
from pathlib import Path

from elfmap import _findings, _rules, _strings_in, build

from tests.made import SHARING, setUpModule, symbols, text  # noqa: F401
from tests.test_explain import Case as ExplainCase
from tests.test_same import Case, an_object

SOURCE = """\
const char *name(void) { return "hello"; }
inline int twice(int x) { return 2 * x; }
int limit = 3;
int answer(int x) { return x < limit ? twice(x) : 42; }
"""
MERGED = dict(flags=0x32, entsize=1)


def strings(content, **fields):
    return b".rodata.str1.1", 1, content, {**MERGED, **fields}


@unittest.skipUnless(all(map(shutil.which, ("cc", "c++", "objcopy", "strip"))), "cc or binutils")
class DebugTest(Case):
    def compiled(self, name, *words, source=SOURCE, compiler="cc"):
        language = "c++" if compiler == "c++" else "c"
        words = [compiler, "-x", language, "-O1", "-o", name, *words, "-"]
        subprocess.run(words, input=source.encode(), check=True, capture_output=True)

    def test_objects_with_and_without(self):
        inline = SOURCE + "struct A { virtual ~A() {} }; A a;"
        for compiler, source in (("cc", SOURCE), ("c++", inline)):
            self.compiled("without.o", "-c", source=source, compiler=compiler)
            for words in (["-g"], ["-g3"], ["-gdwarf-4"], ["-g", "-gz"], ["-g", "-gsplit-dwarf"]):
                own = {"source": source, "compiler": compiler}
                self.compiled("with.o", "-c", *words, **own)
                with self.subTest(compiler=compiler, words=words):
                    self.assertEqual(self.same("with.o", "without.o")[0], 1)
                    self.assertSame("--ignore-debug", "with.o", "without.o", lines=["the same"])
                    self.assertSame("--ignore-debug", "without.o", "with.o", lines=["the same"])

    def test_objects_that_differ(self):
        self.compiled("a.o", "-c", "-g")
        self.compiled("b.o", "-c", "-g3", source=SOURCE.replace("limit = 3", "limit = 4"))
        line = "section .data: offset 0x0 is 0x03 in a.o, and 0x04 in b.o"
        self.assertDiffer("--ignore-debug", "a.o", "b.o", lines=[line, "different"])
        self.assertGreater(len(self.same("a.o", "b.o")[1]), 2)

    def test_two_paths(self):
        """As two builds in two directories: only debug information has the path."""
        for folder in ("one", "another"):
            os.mkdir(folder)
            Path(folder, "a.c").write_text(SOURCE)
            words = ["cc", "-g", "-c", "-O1", "a.c", "-o", f"../{folder}.o"]
            subprocess.run(words, cwd=folder, check=True)
        self.assertEqual(self.same("one.o", "another.o")[0], 1)
        self.assertSame("--ignore-debug", "one.o", "another.o", lines=["the same"])

    def test_numbers_of_sections_that_look_reserved(self):
        """A symbol that is an absolute number, 0xfff1, is in no section of that number."""
        sections = [f".section .s{k}\n" for k in range(65000)]
        sections += [f".section .debug_{k}\n" for k in range(65000, 65600)]
        for value in (5, 6):
            source = "".join(sections) + f".globl number\nnumber = {value}\n"
            words = ["as", "-o", f"{value}.o"]
            subprocess.run(words, input=source.encode(), check=True)
        line = "symbol number: its value is 0x5 in 5.o, and 0x6 in 6.o"
        self.assertDiffer("--ignore-debug", "5.o", "6.o", lines=[line, "different"])

    def test_programs(self):
        """Without the names of symbols, whose section numbers are others."""
        main = SOURCE + "int main(void) { return answer(limit); }\n"
        for name, words in (("a", ["-g"]), ("b", [])):
            self.compiled(name, "-Wl,--build-id", *words, source=main)
        subprocess.run(["strip", "b"], check=True)
        subprocess.run(["objcopy", "--strip-debug", "a", "c"], check=True)
        subprocess.run(["objcopy", "--only-keep-debug", "a", "a.debug"], check=True)
        subprocess.run(["strip", "a", "-o", "d"], check=True)
        subprocess.run(["objcopy", "--add-gnu-debuglink=a.debug", "d"], check=True)
        self.assertEqual(self.same("d", "b")[0], 1)
        self.assertSame("--ignore-debug", "d", "b", lines=["the same"])
        self.compiled("e", "-Wl,--build-id", "-s", source=main.replace("42", "43"))
        status, lines, _ = self.same("--ignore-debug", "b", "e")
        self.assertEqual(status, 1)
        self.assertRegex(lines[0], r"^section \.text: offset 0x[0-9a-f]+ is 0x2a in b, and 0x2b")


class NameTest(Case):
    def test_what_is_no_debug_information(self):
        """What takes memory is compared, whatever its name, and names that only begin alike."""
        for name, fields in (
            (b".debug_gdb_scripts", dict(flags=2)),
            (b".debt", {}),
            (b"debug", {}),
            (b".rela.debug_info", {}),
        ):
            one, other = (an_object(more=[(name, 1, it, fields)]) for it in (b"a", b"b"))
            self.put(a__o=one, b__o=other)
            with self.subTest(name=name):
                self.assertEqual(self.same("--ignore-debug", "a.o", "b.o")[0], 1)

    def test_an_empty_group(self):
        """It has no sections of debug information."""
        fields = dict(info=1, link=2, entsize=4)
        groups = ((b".group", 17, struct.pack("<I", it), fields) for it in (0, 1))
        one, other = (an_object(more=[it]) for it in groups)
        self.put(a__o=one, b__o=other)
        for words in ([], ["--ignore-debug"]):
            self.assertEqual(self.same(*words, "a.o", "b.o")[0], 1)

    def test_what_is(self):
        for name in (b".debug_info", b".debug", b".zdebug_line", b".stabstr", b".gnu_debuglink"):
            one, other = (an_object(more=[(name, 1, it, {})]) for it in (b"a", b"b"))
            self.put(a__o=one, b__o=other)
            with self.subTest(name=name):
                self.assertEqual(self.same("a.o", "b.o")[0], 1)
                self.assertSame("--ignore-debug", "a.o", "b.o", lines=["the same"])
                self.put(b__o=an_object())
                self.assertSame("--ignore-debug", "a.o", "b.o", lines=["the same"])


class StringTest(Case):
    def differ(self, one, other):
        self.put(a__o=an_object(more=[one]), b__o=an_object(more=[other]))
        return self.same("a.o", "b.o")[1][:-1]

    def test_what_it_was_and_is(self):
        found = self.differ(strings(b"one\0two words\0"), strings(b"one\0two works\0"))
        place = "section .rodata.str1.1: offset 0xb: the string at 0x4"
        self.assertEqual(found, [f'{place} is "two words" in a.o, and "two works" in b.o'])

    def test_one_that_goes_on(self):
        found = self.differ(strings(b"one\0two\0"), strings(b"one\0twos\0"))
        place = "section .rodata.str1.1: offset 0x7: the string at 0x4"
        self.assertEqual(found[-1], f'{place} is "two" in a.o, and "twos" in b.o')

    def test_an_empty_one(self):
        found = self.differ(strings(b"\0a\0"), strings(b"b\0\0"))
        place = "section .rodata.str1.1: offset 0x0: the string at 0x0"
        self.assertEqual(found, [f'{place} is "" in a.o, and "b" in b.o'])

    def test_bytes_that_are_no_text(self):
        found = self.differ(strings(b"a\xff\x1b\0"), strings(b"b\xff\x1b\0"))
        self.assertIn('is "a\\xff\\x1b" in a.o, and "b\\xff\\x1b" in b.o', found[0])

    def test_of_any_data(self):
        """Only what a person reads as text, and no code, nor wide letters."""
        for fields, one, other, is_text in (
            ({}, b"\1\0text\0", b"\1\0test\0", True),
            ({}, b"\1\0tab\t\0", b"\1\0tap\n\0", True),
            ({}, b"\1\0tex\0", b"\1\0tes\0", False),
            ({}, b"\1\2\3\4\5\0", b"\1\2\3\4\6\0", False),
            ({}, b"te\xffxt\0", b"te\xffst\0", False),
            (dict(flags=6), b"texts\0", b"tests\0", False),
            (dict(flags=0x32, entsize=4), b"texts\0\0\0", b"tests\0\0\0", False),
        ):
            found = self.differ((b".data", 1, one, fields), (b".data", 1, other, fields))
            with self.subTest(one=one, fields=fields):
                self.assertEqual("the string at" in found[0], is_text, found)

    def test_a_long_one(self):
        """As many letters as of any name, and none of one that begins too far away."""
        for before, has_words in ((0, True), (4096, True), (4097, False), (9000, False)):
            one, other = (b"x" * before + it + b"x" * 9000 + b"\0" for it in (b"a", b"b"))
            (found,) = self.differ(strings(one), strings(other))
            with self.subTest(before=before):
                self.assertLess(len(found), 700)
                self.assertEqual("the string at 0x0 is" in found, has_words)
                self.assertEqual("the string at" in found, has_words)
            one, other = (b"\0" + it for it in (one, other))
            (found,) = self.differ(strings(one), strings(other))
            self.assertEqual("the string at 0x1 is" in found, has_words)

    def test_the_ends(self):
        for content, at, pair in (
            (b"abc", 1, (0, b"abc")),
            (b"\0abc", 2, (1, b"abc")),
            (b"a\0bc\0d", 2, (2, b"bc")),
        ):
            view = memoryview(content)
            found = _strings_in.strings_at(view, view, at, 0x20, 1)
            self.assertEqual((found.start, found.one), pair)


class RuleTest(ExplainCase):
    def test_each_rule(self):
        """By its name and its number, as docs/RULES.md has it."""
        page = (build.REPOSITORY / "docs/RULES.md").read_text(encoding="utf-8")
        every = [(str(number), number, it) for number, it in _rules.RULES.items()]
        links = _rules.LINK_RULES.items()
        every += [(f"link-{number}", f"link {number}", it) for number, it in links]
        status, out, err = self.explain(*[key for key, _, _ in every])
        self.assertEqual((status, err), (0, ""))
        texts = out.removesuffix("\n").split("\n\n")
        self.assertEqual(len(texts), len(every))
        for text_, (key, words, (name, sentence, advice)) in zip(texts, every):
            with self.subTest(key=key):
                line = " ".join(text_.split())
                self.assertTrue(line.startswith(f"{name} ({words}): {sentence}"), line)
                self.assertIn(f" what to do: {advice} docs/RULES.md#", line)
                self.assertIn(f'id="{line.rpartition("#")[2]}"', page)
        names = [name.lower().replace("_", "-") for _, _, (name, _, _) in every]
        by_name = self.explain(*names)[1].removesuffix("\n").split("\n\n")
        self.assertEqual(set(by_name), set(texts))

    def test_several(self):
        found = self.explain("33", "TLS")[1]
        self.assertEqual(found, self.explain("33")[1] + "\n" + self.explain("link-3")[1])

    def test_what_is_none(self):
        """A file comes first, and other words are files."""
        self.put(**{"33": SHARING})
        self.assertIn("33, offset 114 (0x72): ", self.explain("33")[1])
        for words in (["34"], ["33", "none"], ["NO_RULE_AT_ALL"], ["link-0"], ["3 3"]):
            with self.subTest(words=words):
                self.assertEqual(self.explain(*words)[0], 3)
        self.assertEqual([it.words for it in _findings.rules_of("0033")], ["33"])


if __name__ == "__main__":
    unittest.main()
