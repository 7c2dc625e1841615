"""elfmap-lint --link: its words and statuses, the formats of its findings, what elfmap-explain says
of them, and what is known of rules and names.

What is expected is what the pages of the package and the supplements of processors say.
"""

import json
import re
import struct
import subprocess
import unittest
from pathlib import Path
from unittest import mock
from xml.etree import ElementTree

from elfmap import (
    _link_hints,
    _link_map,
    _link_warnings,
    _link_words,
    _linker_names,
    _map_lines,
    _names,
    _rule_files,
    _rules,
    _words,
    build,
)
from elfmap._link_words import Linked

from tests.made import Made, relocations, setUpModule, symbols, text  # noqa: F401
from tests.test_explain import explained
from tests.test_preflight import (
    CONSTRUCTOR,
    CONSTRUCTORS,
    EXIT,
    INDIRECT,
    RULES,
    SUMMARY,
    WHICH,
    X86_64,
    PreflightCase,
)


class WordTest(PreflightCase):
    def test_zeros_in_front(self):
        """Any number of them, in the words of a link and in its rules."""
        start = self.made("start", EXIT + "void _start(void) { leave(0); }")
        more = ["--base", "0" * 5000 + "4194304", "--page", "0" * 30 + "4096"]
        Path("long.rules").write_text(Path(X86_64).read_text() + "0" * 5000 + "77 pc 4 signed\n")
        status, lines = self.linked(start, rules="long.rules", more=more)
        self.assertEqual((status, lines[-1:]), (0, ["0 findings in 0 of 1 ELF file; they link"]))

    def test_usage(self):
        start = self.made("start", EXIT + "void _start(void) { leave(0); }")
        Path("bad.rules").write_text("1 abs 8 wrap\n2 pc 3 signed\n")
        link = ["--link", "--rules", X86_64]
        for words, said in (
            (["--rules", X86_64, start], "--rules needs --link"),
            (["--entry", "x", start], "--entry needs --link"),
            (["--base", "0", start], "--base needs --link"),
            (["--page", "1", start], "--page needs --link"),
            (["--link", start], "--link needs --rules FILE"),
            (["--link", "--rules", "bad.rules", start], "bad.rules: line 2 is no rule"),
            ([*link, "--base", "x", start], "--base needs a decimal number below 2^64"),
            ([*link, "--base", str(2**64), start], "--base needs a decimal number below 2^64"),
            ([*link, "--base", "0x" + "0" * 17, start], "--base needs"),
            ([*link, "--page", "0xA", start], "--page needs"),
            ([*link, "--page=-1", start], "--page needs"),
            ([*link, "--page", "", start], "--page needs"),
            ([*link, "--page", "1" * 5000, start], "--page needs"),
            ([*link, *[start] * 65], "a link has 1 to 64 files, and not 65"),
            ([*link, "--files0-from", "/dev/null"], "a link has 1 to 64 files, and not 0"),
            (link, "PATH is missing"),
        ):
            status, out, err = self.lint(*words)
            self.assertEqual((status, out, said in err.decode()), (2, b"", True), (words, err))
        # So many files are not too many, though they define a name twice.
        self.assertEqual(self.lint(*link, *[start] * 64)[0], 1)
        self.assertEqual(self.lint(*link, "--base", "00", "--page", "0x1", start)[0], 0)
        self.assertEqual(
            self.lint(*link, "--base", "%d" % (2**64 - 2**30), "--page", "1", start)[0], 0
        )

    def test_what_can_not_be_read(self):
        start = self.made("start", EXIT + "void _start(void) { leave(0); }")
        status, out, said = self.lint("--link", "--rules", "none", start)
        self.assertEqual((status, said), (3, b"elfmap-lint: none: no such file or directory\n"))
        self.assertEqual(out, b"0 findings in 0 of 0 ELF files; 1 unreadable\n")
        for name in ("none.o", "."):
            status, out, said = self.lint("--link", "--rules", X86_64, start, name)
            self.assertEqual((status, out), (3, b"0 findings in 0 of 0 ELF files; 1 unreadable\n"))
            self.assertTrue(said.startswith(f"elfmap-lint: {name}: ".encode()), said)
        status, out, _ = self.lint("--link", "--rules", X86_64, start, "--files0-from", "none")
        self.assertEqual((status, b"they link" in out), (3, False))

    def test_files_and_names_of_any_kind(self):
        start = self.made("start", EXIT + "void _start(void) { leave(0); }")
        content = Path(start).read_bytes()
        link = ["--link", "--rules", X86_64, "--entry", "_start"]
        clean = (SUMMARY % "1 ELF file").encode() + b"\n"
        self.assertEqual(self.lint(*link, "-", stdin=content), (0, clean, b""))
        Path("list").write_bytes(start.encode() + b"\0")
        self.assertEqual(self.lint(*link, "--files0-from", "list"), (0, clean, b""))
        renamed = content.replace(b"_start", b"\xff\nart\x1b")
        Path("other\x7f.o").write_bytes(renamed)
        name = b"\xff\nart\x1b".decode("utf-8", "surrogateescape")
        self.assertClean("other\x7f.o", entry=name)
        self.assertIn(": the entry point (no name); ", self.refusal("NO_ENTRY", start, entry=""))
        line = self.refusal("NO_ENTRY", "other\x7f.o", entry=name + "\n")
        self.assertIn(
            "other\\x7f.o: offset 0x0: NO_ENTRY (link 10): the entry point \\xff\\nart\\x1b\\n; ",
            line,
        )
        self.assertIn(
            "the entry point _" + "e" * 199 + "…; ",
            self.refusal("NO_ENTRY", start, entry="_" + "e" * 300),
        )

    def test_one_file_twice(self):
        start = self.made("start", EXIT + "void _start(void) { leave(0); }")
        line = self.refusal("TWO_DEFINITIONS", start, start)
        self.assertRegex(
            line,
            "two definitions of _start, the second one at symbol (\\d+) of start.o; start.o has it"
            " at symbol \\1; ",
        )
        quiet = self.made("quiet", "static int it; int *f(void);")
        self.assertClean(start, quiet, quiet)
        link = ["--link", "--rules", X86_64, "--entry", "_start"]
        status, out, said = self.lint(*link, "-", "-", stdin=Path(start).read_bytes())
        self.assertEqual((status, said), (1, b""))
        self.assertRegex(out.decode(), r"^-: offset .*: (TOO_SHORT|TWO_DEFINITIONS) ")

    def test_what_is_no_object(self):
        """Each is a finding, and the link is refused."""
        start = self.made("start", EXIT + "void _start(void) { leave(0); }")
        subprocess.run(["ar", "rc", "lib.a", start], check=True)
        subprocess.run(["ld", start, "-o", "program"], check=True)
        Path("empty.o").write_bytes(b"")
        Path("text.o").write_text(
            "int main(void) { return 0; } /* no file of the format, but long */"
        )
        for path, name, words in (
            ("lib.a", "WRONG_MAGIC", "it is an archive: elfmap-lint checks its members"),
            ("program", "NOT_RELOCATABLE", "the file is an executable: an object is what cc -c"),
            ("empty.o", "TOO_SHORT", "it is shorter than an ELF header"),
            ("text.o", "WRONG_MAGIC", "it is no ELF file"),
        ):
            self.assertIn(words, self.refusal(name, start, path))
            self.assertIn(words, self.refusal(name, path, start))

    def test_the_order_of_files(self):
        """Of two WEAK definitions the first one counts, also where the paths are in another
        order."""
        weak = "__attribute__((weak)) int which(void) { return %d; }"
        start = self.made("z", EXIT + "int which(void); void _start(void) { leave(which()); }")
        plain = self.made("b", weak % 1)
        indirect = self.made("a", WHICH)
        subprocess.run(["objcopy", "--weaken-symbol=which", indirect], check=True)
        self.assertClean(start, plain, indirect)
        self.assertWarned(["INDIRECT_FUNCTION"], start, indirect, plain)

    def test_suppressed(self):
        files = self.made("start", INDIRECT), self.made("which", WHICH)
        summary = [f"0 findings in 0 of 2 ELF files, 1 suppressed; they link"]
        for word in ("INDIRECT_FUNCTION", "warning-1", "Indirect-Function", "warning-1:which.o"):
            self.assertEqual(self.linked(*files, more=["--ignore", word]), (0, summary))
        self.assertEqual(self.linked(*files, more=["--ignore", "link-1"])[0], 1)
        self.assertEqual(self.linked(*files, more=["--write-baseline", "known"]), (0, summary))
        self.assertEqual(self.linked(*files, more=["--baseline", "known"]), (0, summary))
        self.assertEqual(self.lint("--ignore", "warning-11", "x")[0], 2)
        # A refusal that is suppressed makes no program.
        missing = self.made("missing", "int none(void); int f(void) { return none(); }")
        status, lines = self.linked(*files, missing, more=["--ignore", "UNDEFINED_NAME"])
        self.assertEqual(
            (status, lines), (1, ["0 findings in 0 of 3 ELF files, 1 suppressed; they do not link"])
        )

    def test_a_map_that_is_too_long(self):
        start = self.made("start", EXIT + "void _start(void) { leave(0); }")
        with mock.patch.object(_link_map, "LONGEST", 10):
            status, out, said = self.lint("--link", "--rules", X86_64, start)
        self.assertEqual(
            (status, said), (3, b"elfmap-lint: start.o: the link map is longer than 2^30 bytes\n")
        )

    def test_any_bytes(self):
        """A byte of an object is another one: no error but those that are documented."""
        content = Path(self.made("start", INDIRECT)).read_bytes()
        other = self.made("which", WHICH)
        for at in range(0, len(content), 7):
            changed = bytearray(content)
            changed[at] ^= 0xFF
            Path("changed.o").write_bytes(changed)
            status, out, said = self.lint(
                "--link", "--rules", X86_64, "--entry", "_start", "changed.o", other
            )
            self.assertIn((status, said), ((0, b""), (1, b"")), at)
            self.assertRegex(out.decode(), r"they (do not )?link\n$")
        for front in (b"", b"\x7f", content[:64], content[:70], content[:-1]):
            Path("changed.o").write_bytes(front)
            self.assertEqual(self.lint("--link", "--rules", X86_64, "changed.o")[0], 1)


class FormatTest(PreflightCase):
    def setUp(self):
        super().setUp()
        self.files = self.made("start", INDIRECT), self.made("which", WHICH)

    def said(self, name, *files, status=1):
        words = ["--link", "--rules", X86_64, "--entry", "_start", "--format", name]
        found, out, said = self.lint(*words, *(files or self.files))
        self.assertEqual((found, said), (status, b""))
        return out

    def test_jsonl(self):
        warning, summary = map(json.loads, self.said("jsonl").splitlines())
        self.assertEqual(
            [warning[it] for it in ("path", "rule", "name", "sections")],
            ["which.o", "warning-1", "INDIRECT_FUNCTION", [".symtab"]],
        )
        self.assertEqual(summary["summary"]["links"], True)
        refusal, summary = map(json.loads, self.said("jsonl", self.files[0]).splitlines())
        found = [refusal[it] for it in ("path", "rule", "name", "sections")]
        self.assertEqual(found, ["start.o", "link-9", "UNDEFINED_NAME", [".symtab"]])
        self.assertEqual(summary["summary"]["links"], False)
        (summary,) = map(json.loads, self.lint("--format", "jsonl", *self.files)[1].splitlines())
        self.assertNotIn("links", summary["summary"])

    def test_sarif(self):
        log = json.loads(self.said("sarif"))
        self.assert_sarif(log)
        (run,) = log["runs"]
        (result,) = run["results"]
        (rule,) = run["tool"]["driver"]["rules"]
        self.assertEqual((result["ruleId"], result["level"]), ("INDIRECT_FUNCTION", "warning"))
        self.assertEqual(rule["defaultConfiguration"], {"level": "warning"})
        self.assertTrue(rule["shortDescription"]["text"].startswith("warning 1: the program may"))
        self.assertTrue(rule["help"]["text"].endswith("; see docs/RULES.md#warning-1"))
        self.assertEqual(run["properties"]["links"], True)
        self.assert_sarif(json.loads(self.said("sarif", self.files[0])))

    def test_junit(self):
        suites = ElementTree.fromstring(self.said("junit"))
        self.assertEqual((suites.get("tests"), suites.get("failures")), ("2", "1"))
        (failure,) = suites.iter("failure")
        self.assertEqual(failure.get("type"), "INDIRECT_FUNCTION")
        (it,) = suites.iter("property")
        self.assertEqual(it.attrib, {"name": "links", "value": "1"})
        (it,) = ElementTree.fromstring(self.said("junit", self.files[0])).iter("property")
        self.assertEqual(it.attrib, {"name": "links", "value": "0"})

    def test_github(self):
        lines = self.said("github").decode().splitlines()
        self.assertTrue(
            lines[0].startswith("::warning file=which.o,title=INDIRECT_FUNCTION (warning 1)::")
        )
        self.assertEqual(lines[1], "1 finding in 1 of 2 ELF files; they link")
        self.assertTrue(self.said("github", self.files[0]).startswith(b"::error file=start.o"))

    def test_text_of_records(self):
        words = ["-0", "--link", "--rules", X86_64, "--entry", "_start", *self.files]
        self.assertEqual(self.lint(*words)[1].count(b"\0"), 2)

    def test_each_warning_is_in_the_list_of_rules(self):
        listed = self.lint("--list-rules")[1].decode()
        for number, (name, sentence, _) in _rules.WARNINGS.items():
            self.assertIn(f"\nwarning-{number} {name}: {sentence}\n", listed)


class ExplainTest(PreflightCase):
    """What elfmap-explain says of findings, and of the lines of a link."""

    def test_warnings(self):
        Path("none.rules").write_text(Path(X86_64).read_text().replace("\n2 pc 4", "\n2 none 4"))
        files = self.made("start", CONSTRUCTORS), self.made("first", CONSTRUCTOR % ("", "sum += 5"))
        found = {}
        for name in ("text", "jsonl"):
            out = self.lint("--link", "--rules", "none.rules", "--format", name, *files)[1]
            for line in out.decode().splitlines()[:-1]:
                found.setdefault(name, []).append(explained(line, []))
        self.assertEqual(found["text"], found["jsonl"])
        told = "\n".join(found["text"])
        for words in (
            "NAME_OF_LINKER: the program may not be that of `ld` because a field refers",
            "what to do: define __init_array_start as a label in a section .init_array",
            "docs/RULES.md#warning-2",
            "FIELD_UNCHANGED: the program may not be that of `ld`",
            "what to do: the rule file needs the line `2 pc 4 signed`, as in rules/x86-64.rules",
            "relocation 0, of symbol",
        ):
            self.assertIn(words, told)
        start = files[0]
        for line in (
            f"{start}: offset 0x1: X (warning 99): y",
            f"{start}: offset 0x1: X (warning 2): y",
            f"{start}: offset 0xffffffffffffffff: X (warning 3): y",
        ):
            self.assertTrue(explained(line, []))
        self.assertIn(
            "there is no warning 99", explained(f"{start}: offset 0x1: X (warning 99): y", [])
        )

    def test_warnings_of_sections(self):
        """Of each what is at its offset, and what to do."""
        source = (
            '.globl _start\n.section .init,"ax"\n.balign 16\n_start: ret\n'
            '.section .note.GNU-stack,"x",@progbits\n'
        )
        second = source.replace("_start", "other")
        files = self.made("a", source, compiler="as"), self.made("b", second, compiler="as")
        lines = self.lint("--link", "--rules", X86_64, *files)[1].decode().splitlines()[:-1]
        told = {re.search(r" (\w+) \(warning", it)[1]: explained(it, []) for it in lines}
        self.assertEqual(set(told), {"EXECUTABLE_STACK", "GAP_IN_CODE"})
        for name, words in (
            ("EXECUTABLE_STACK", (".note.GNU-stack of type PROGBITS: sh_flags, which is 4", 7)),
            ("GAP_IN_CODE", (".init of type PROGBITS: sh_addralign, which is 0x10", 9)),
        ):
            self.assertIn(words[0], told[name])
            self.assertIn(f"what to do: {_rules.WARNINGS[words[1]][2]}", told[name])
            self.assertTrue(told[name].endswith(f"docs/RULES.md#warning-{words[1]}"), told[name])

    def test_refusals(self):
        call = "int far(void); int f(void) { return far(); }"
        files = self.made("f", call), self.made("far", "int far(void) { return 1; }")
        Path("few.rules").write_text("2 pc 4 signed\n")
        line = self.lint("--link", "--rules", "few.rules", *files)[1].decode().splitlines()[0]
        own = explained(line, [])
        of_link = explained("refused 12 0 1 0", files)
        for words in (
            "likely cause: the rule file has no line for type 4, R_X86_64_PLT32 of machine 62"
            " (EM_X86_64); R_X86_64_PLT32 is a call,",
            "the rule file needs the line `4 pc 4 signed`, as in rules/x86-64.rules",
            "`none` is for kinds alone that the psABI defines to change nothing",
            "relocation 0, of symbol",
            "docs/RULES.md#link-12",
        ):
            self.assertIn(words, own)
            self.assertIn(words, of_link)
        line = self.lint("--link", "--rules", X86_64, files[0])[1].decode().splitlines()[0]
        self.assertIn("undefined name far, needed by f.o (its symbol", explained(line, []))
        line = self.lint("--link", "--rules", X86_64, "--base", "1", files[1])[1].decode()
        self.assertIn("at no one place", explained(line.splitlines()[0], []))
        self.assertIn(
            "too long", self.lint("--link", "--rules", X86_64, files[1])[1].decode() + "too long"
        )
        line = "far.o: offset 0x0: EXECUTABLE_TOO_LONG (link 0): the"
        self.assertIn(
            "longer than 2^30 bytes, or have more than 65,534 segments", explained(line, [])
        )
        self.assertIn(
            "machine 62 (EM_X86_64), flags",
            explained("far.o: offset 0x12: MISMATCH (link 2): x", []),
        )
        self.assertIn(
            "there is no rule 99 of the link", explained("far.o: offset 0x12: X (link 99): x", [])
        )


class KnownTest(unittest.TestCase):
    def test_the_files_of_rules(self):
        """They are those of the repository, and each of its machine, as <elf.h> has it."""
        own = {it.path: it for it in _rule_files.RULE_FILES}
        self.assertEqual(set(own), {f"rules/{it.name}" for it in RULES.glob("*.rules")})
        self.assertEqual(len(own), 12)
        machines = "62 62 183 36902 224 50 258 8 21 243 22 43".split()
        self.assertEqual([str(it.machine) for it in _rule_files.RULE_FILES], machines)
        for path, it in own.items():
            content = (build.REPOSITORY / path).read_text()
            lines = [rule.line(kind) for kind, rule in it.rules.items()]
            self.assertEqual(lines, content.splitlines())

    def test_kinds_without_bytes(self):
        """By the supplements: R_*_NONE, and R_RISCV_RELAX, R_LARCH_RELAX and R_MIPS_JALR; no
        others."""
        found = {
            (machine, kind)
            for machine in {it.machine for it in _rule_files.RULE_FILES}
            for kind in range(300)
            if _rule_files.changes_no_bytes(machine, kind)
        }
        more = {(183, 256), (243, 51), (258, 100), (8, 37)}
        self.assertEqual(found, {(it.machine, 0) for it in _rule_files.RULE_FILES} | more)
        self.assertEqual([_rule_files.changes_no_bytes(247, it) for it in (0, 1)], [True, False])

    def test_what_no_rule_can_say(self):
        for machine, kind, words in (
            (183, 283, "rules/aarch64.rules, which is for this machine, has no line for it either"),
            (243, 19, "rules/riscv64.rules, which is for this machine, has no line for it either"),
            (
                62,
                12,
                "the rule file needs the line `12 abs 2 unsigned`, as in rules/x86-64-boot.rules",
            ),
            (62, 23, "variables of threads are not linked"),
            (
                224,
                0,
                "it needs the line `0 none 1 wrap`: the psABI defines that it changes nothing",
            ),
            (247, 1, "none of the twelve files of rules/ is for this machine"),
            (243, 20, "R_RISCV_GOT_HI20 is by a global offset table"),
        ):
            self.assertIn(words, _link_hints.kind_words(machine, "<", kind))
        self.assertIn("MIPS of this byte order", _link_hints.kind_words(8, "<", 2))
        self.assertIn("as in rules/mips64.rules", _link_hints.kind_words(8, ">", 2))

    def test_kinds_by_tables_and_of_threads(self):
        """By the supplements, of the kinds that <elf.h> has names for: those whose formula has the
        global offset table or a place in it (of PowerPC the TOC), and those of threads."""
        for machine, of_tables, of_threads in (
            (
                21,
                {*range(14, 18), *range(47, 56), 58, 59, *range(63, 67)},
                {*range(67, 109), *range(112, 116)},
            ),
            (
                22,
                {6, 7, *range(13, 16), 21, 24, *range(26, 37), 58, 59},
                {*range(37, 57), 60},
            ),
            (62, {3, 9, *range(25, 32), 41, 42}, {*range(16, 24), *range(34, 37)}),
            (
                183,
                {*range(300, 314)},
                {*range(184, 188), *range(512, 574), *range(1028, 1032)},
            ),
            (243, {20}, {*range(6, 12), 21, 22, *range(29, 33), 49, 50}),
            (247, set(), set()),
            (258, {25}, {*range(6, 12), *range(26, 29)}),
        ):
            kinds = _names.relocation_types(machine)
            words = {it: _link_hints.kind_words(machine, "<", it) for it in kinds}
            table = {it for it, own in words.items() if "by a global offset table" in own}
            threads = {it for it, own in words.items() if "variables of threads are" in own}
            self.assertEqual((machine, table), (machine, of_tables & set(kinds)))
            self.assertEqual((machine, threads), (machine, of_threads & set(kinds)))

    def test_options_against_tables(self):
        """Models of code are x86-64's; and the code of PowerPC has a TOC by any option."""
        for machine, kind, words in (
            (62, 9, "-fno-pic, without -fno-plt, and with -mcmodel=small, kernel or large, as its"),
            (183, 311, "elfmap does not make: compile with -fno-pic, and without -fno-plt"),
            (243, 20, "elfmap does not make: compile with -fno-pic, and without -fno-plt"),
            (22, 26, "elfmap does not make: compile with -fno-pic, and without -fno-plt"),
            (21, 48, "so that no option avoids it"),
        ):
            own = _link_hints.kind_words(machine, "<", kind)
            self.assertIn(words, own)
            self.assertEqual("-mcmodel" in own, machine == 62)
            self.assertEqual("-fno-pic" in own, machine != 21)

    def test_none_is_proposed_for_no_other_kind(self):
        for machine in [*{it.machine for it in _rule_files.RULE_FILES}, 247]:
            for order in "<>":
                for kind in range(300):
                    words = _link_hints.kind_words(machine, order, kind)
                    is_proposed = re.search(r"`\d+ none ", words) is not None
                    self.assertLessEqual(is_proposed, _rule_files.changes_no_bytes(machine, kind))

    def test_names_of_many_letters(self):
        name = b"__start_" + b"x" * 5000
        found = _linker_names.linker_name(name, 62)
        self.assertLess(len(found.words), 300)
        self.assertLess(len(found.advice("y")), 400)
        for other in (
            b"__start_",
            b"__start_1",
            b"__stop_a-b",
            b"__start_x\n",
            b"__init_array_start\n",
            b".startof.",
            b".sizeof",
            b".startofx",
            b"",
        ):
            self.assertIsNone(_linker_names.linker_name(other, 62), other)

    def test_the_section_of_a_symbol(self):
        """Its index may be in the index table, if 16 bits are not enough for it."""
        table = b".symtab_shndx", 18, struct.pack("<3I", 0, 0, 1), dict(link=2, entsize=4)
        made = Made(
            text(),
            symbols(3, (1, 0x10, 4), (1, 0x10, 0xFFFF)),
            (b".strtab", 3, b"\0f\0", {}),
            table,
        )
        it = _words.Words(bytes(made.data))
        self.assertEqual([it.symbol_section(2, index) for index in range(4)], [0, 4, 1, 0])
        without = _words.Words(made.with_field(4, "type", 1))
        self.assertEqual(without.symbol_section(2, 2), 0xFFFF)

    def test_two_lines_for_a_kind(self):
        """The first one counts, whatever zeros are before the number (docs/RULE_FILES.md)."""
        found = _rule_files.read_rules("02 pc 4 signed\n0 none 0 any\n2 abs 8 any\n")
        signed = _rule_files.Rule("pc", 4, "signed")
        self.assertEqual(found, {2: signed, 0: _rule_files.Rule("none", 0, "any")})

    def test_symbols_in_arrays(self):
        """Also those whose index is in the index table."""
        indexes = struct.pack("<4I", 0, 0, 5, 0)
        array = b".init_array.00100", 14, bytes(8), dict(flags=3)
        made = Made(
            text(),
            symbols(3, (1, 0x10, 1), (1, 0x10, 0xFFFF), (1, 0x10, 5)),
            (b".strtab", 3, b"\0f\0", {}),
            (b".symtab_shndx", 18, indexes, dict(link=2, entsize=4)),
            array,
        )
        linked = Linked("a.o", _words.Words(bytes(made.data)))
        addresses = {(0, number): 0 for number in range(len(linked.kept))}
        link = mock.Mock(addresses=addresses, discarded=())
        it = _link_warnings._Object(0, linked, bytes(made.data), link)
        self.assertEqual(it.symbols_in_arrays(), {2: b".init_array", 3: b".init_array"})

    def test_default_versions(self):
        """Of a name the whole one, from where a string begins."""
        strings = b"\0xfoo@@V0\0foo@@V12\0foo@@V1\0bar@V1\0"
        made = Made(text(), symbols(3, (1, 0x10, 1)), (b".strtab", 3, strings, {}))
        it = Linked("a.o", _words.Words(bytes(made.data)))
        for name, version in (
            (b"foo", "foo@@V12"),
            (b"foo@V1", "foo@@V1"),
            (b"foo@V2", ""),
            (b"oo", ""),
            (b"xfoo", "xfoo@@V0"),
            (b"bar", ""),
        ):
            # Also where a part of the name is in the next bytes that are read.
            for at_once in (1, 5, 1 << 20):
                with mock.patch.object(_link_words, "_BYTES_AT_ONCE", at_once):
                    self.assertEqual((name, it.default_version(name)), (name, version))

    def test_lines_of_the_map(self):
        lines = (
            "output 0x1 0x2 bits 0x6 .text\nmember 0x10 0x2 3 4\ncommon 0x1 0x2 c\ndiscarded 5 6\n"
            "name 0x7 strong a\nname - weak -\nname 0x0 zero #ff20\n"
        )
        found = _map_lines.LinkMap(lines)
        self.assertEqual(found.addresses, {(3, 4): 16})
        self.assertEqual(found.discarded, {(5, 6)})
        self.assertEqual(
            found.names, {b"a": (7, "strong"), b"": (None, "weak"), b"\xff ": (0, "zero")}
        )

    def test_positions(self):
        """Where a rule is broken leads back to the position that it is broken at."""
        made = Made(
            text(),
            symbols(3, (1, 0x12, 1), (1, 0x10, 0)),
            (b".strtab", 3, b"\0f\0", {}),
            relocations(2, 1, 2),
            relocations(2, 1),
        )
        it = Linked("a.o", _words.Words(bytes(made.data)))
        for rule, index, entry in (
            (3, 0, 0),
            (5, 2, 0),
            (9, 1, 0),
            (6, 0, 0),
            (12, 1, 1),
            (13, 2, 0),
        ):
            at = it.place(rule, index, entry)
            self.assertEqual(it.position_at(rule, at), (index, entry))
        self.assertEqual(it.position_at(12, 0), (3, 0))
        self.assertEqual(it.position_at(3, made.table), (3, 0))


if __name__ == "__main__":
    unittest.main()
