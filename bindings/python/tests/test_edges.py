"""The edges of all commands: closed standard streams, names that can't be printed, and the order of
words."""

import contextlib
import io
import os
import shutil
import signal
import subprocess
import sys
import unittest
from pathlib import Path
from unittest import mock

from elfmap import _commands, _words, build, lint

from tests.made import (
    ENVIRONMENT,
    GNU,
    GOOD,
    PACKAGE,
    SHARING,
    FolderCase,
    Made,
    archive_member,
    setUpModule,
    symbols,
    text,
)  # noqa: F401

COMMANDS = "explain", "gaps", "lint", "picture", "same", "view"
# It writes to a file alone.
EVERY = *COMMANDS, "symbols"
LINK = ["--base=0", "--page=1", "--entry=start", "-oout"]
LINK.append(f"--rules={build.REPOSITORY}/rules/x86-64.rules")
# Escape, a control character of one letter, a mark that turns the direction of a line, a byte that
# is no UTF-8, and what looks like an escape.
NAME = b"\x1b[31m\xc2\x9b1m\xe2\x80\xae\xff\\x1b"
# As UTF-8 they are the bytes 1b, c2 9b, e2 80 ae, and ff. A backslash is written twice.
ESCAPED = r"\x1b[31m\xc2\x9b1m\xe2\x80\xae\xff\\x1b"


class Case(FolderCase):
    def ran(self, command, *words, streams="", stdin=b""):
        """The status, standard output and standard error of a command, where the shell says what
        its streams are."""
        shell = ["sh", "-c", f'"$@" {streams}', "sh"]
        script = [*shell, sys.executable, "-m", f"elfmap.{command}", *words]
        ran = subprocess.run(script, input=stdin, capture_output=True, env=ENVIRONMENT, timeout=60)
        return ran.returncode, ran.stdout, ran.stderr


class ClosedTest(Case):
    """A closed stream changes no status, but where something is to be read from it or written to
    it."""

    def setUp(self):
        super().setUp()
        self.put(good__o=GOOD, bad__o=SHARING)

    def broken(self, command):
        """Words with which a command looks at bad.o."""
        if command == "symbols":
            return [*LINK, "bad.o"]
        return ["bad.o", "bad.o"] if command == "same" else ["bad.o"]

    def test_standard_error(self):
        for command in EVERY:
            broken = self.broken(command)
            missing = [it.replace("bad.o", "none") for it in broken]
            for words in (broken, missing, ["--none"], [], ["--help"], ["--version"]):
                with self.subTest(command=command, words=words):
                    status, out, _ = self.ran(command, *words)
                    for streams in ("2>&-", "2> /dev/full"):
                        found = self.ran(command, *words, streams=streams)
                        self.assertEqual(found, (status, out, b""), streams)

    def test_statuses(self):
        """Those of the README, with standard error closed."""
        for command, words, status in (
            *((it, ["--none"], 2) for it in COMMANDS),
            *((it, ["none"], 3) for it in COMMANDS if it != "same"),
            ("same", ["none", "none"], 3),
            ("same", ["bad.o"], 2),
            ("lint", ["bad.o"], 1),
            ("lint", [], 2),
            ("lint", ["--ignore", "no-such-rule", "bad.o"], 2),
            ("explain", ["bad.o"], 0),
            ("explain", ["refused", "bad.o"], 2),
            ("gaps", ["bad.o"], 3),
            ("gaps", [], 2),
            ("picture", ["bad.o"], 1),
            ("picture", [], 2),
            ("view", ["bad.o"], 1),
            ("view", [], 2),
            ("symbols", [*LINK, "bad.o"], 1),
            ("symbols", [*LINK, "none"], 3),
            ("symbols", [], 2),
        ):
            for streams in ("2>&-", "2>&- <&-", "2>&- < /dev/null"):
                with self.subTest(command=command, words=words, streams=streams):
                    self.assertEqual(self.ran(command, *words, streams=streams)[0], status)

    def test_standard_output(self):
        for command in COMMANDS:
            words = ["good.o", "good.o"] if command == "same" else ["good.o"]
            closed = f"elfmap-{command}: bad file descriptor\n".encode()
            for streams in (">&-", "<&- >&-"):
                self.assertEqual(self.ran(command, *words, streams=streams), (3, b"", closed))
            self.assertEqual(self.ran(command, *words, streams=">&- 2>&-"), (3, b"", b""))
            full = f"elfmap-{command}: no space left on device\n".encode()
            self.assertEqual(self.ran(command, *words, streams="> /dev/full")[::2], (3, full))

    def test_no_file_gets_the_number_of_a_closed_stream(self):
        """Messages are lost, and do not come into what is written."""
        for streams in ("2>&-", "<&- >&- 2>&-"):
            self.assertEqual(self.ran("lint", "-o", "out", "bad.o", "none", streams=streams)[0], 3)
            finding, *others = Path("out").read_text().splitlines()
            self.assertEqual(finding[:14], "bad.o: offset ")
            self.assertEqual(others, ["1 finding in 1 of 1 ELF file; 1 unreadable"])

    def test_standard_input(self):
        closed = "standard input is closed\n"
        for command, words, said in (
            ("explain", [], closed),
            ("explain", ["-", "bad.o"], closed),
            ("picture", ["-"], f"-: {closed}"),
            ("lint", ["-"], f"-: {closed}"),
            ("view", ["-"], f"-: {closed}"),
            ("lint", ["--files0-from=-"], "-: bad file descriptor\n"),
        ):
            with self.subTest(command=command, words=words):
                status, _, err = self.ran(command, *words, streams="<&-")
                self.assertEqual((status, err.decode()), (3, f"elfmap-{command}: {said}"))
        status, out, _ = self.ran("lint", "-", "bad.o", streams="<&-")
        summary = b"1 finding in 1 of 1 ELF file; 1 unreadable"
        self.assertEqual((status, out.splitlines()[-1]), (3, summary))

    def test_standard_input_that_is_not_read(self):
        for command in EVERY:
            words = self.broken(command)
            closed = self.ran(command, *words, streams="<&-")
            self.assertEqual(closed, self.ran(command, *words, streams="< /dev/null"))


def unprintable(out):
    """What of an output is no letter that can be printed, and ends no line."""
    letters = out.decode("utf-8", "surrogateescape")
    return [it for it in letters if it != "\n" and not it.isprintable()]


class NamesTest(Case):
    """Names of files and in files may have any bytes. On a terminal none of them is obeyed."""

    def setUp(self):
        super().setUp()
        made = Made(text(NAME), (NAME + b"2", 1, b"\1\2\3\4", {}))
        self.bad = NAME + b".o"
        Path(os.fsdecode(self.bad)).write_bytes(made.with_field(2, "offset", 0x72))
        archive = GNU.replace(b"good.o/".ljust(16), b"\x1b\x9b\x07.o/".ljust(16))
        Path(os.fsdecode(NAME + b".a")).write_bytes(archive)
        self.put(good__o=GOOD)

    def runs(self):
        """Commands that print such names."""
        missing = NAME
        bad = self.bad
        archive = NAME + b".a"
        for format in ("text", "jsonl", "sarif", "junit", "github"):
            yield "lint", "--format", format, "--object", bad, missing, archive, "."
        for option in ("--baseline", "--ignore", "--files0-from", "--format", "-j", "--no"):
            yield "lint", option, missing, bad
        yield "lint", b"--" + missing, bad
        for option in ("-o", "--write-baseline"):
            yield "lint", option, missing + b"/out", bad
        for words in ([bad], [missing], ["refused", "33", missing], ["refused", "33", "114", bad]):
            yield "explain", *words
        for words in ([bad], [missing], ["."], [archive], ["--most", missing]):
            yield "gaps", *words
        for words in ([bad, missing], [missing, bad], ["good.o", archive], [".", "good.o"]):
            yield "same", *words
        for words in ([bad], [missing], ["good.o", missing]):
            yield "picture", *words
        for words in ([bad], [missing], ["--all", archive], ["--hex", missing, bad]):
            yield "view", *words
        for words in ([bad], [missing], ["-o", missing + b"/out", "good.o"], [b"--" + missing]):
            yield "symbols", *LINK, *words
        for option in ("--base", "--entry", "--rules"):
            yield "symbols", *LINK, option, missing, "good.o"

    def test_nothing_is_obeyed(self):
        seen = set()
        for command, *words in self.runs():
            _, out, err = self.ran(command, *words)
            with self.subTest(command=command, words=words):
                self.assertEqual((unprintable(out), unprintable(err)), ([], []))
                self.assertNotIn(b"Traceback", err)
            seen |= {(command, ESCAPED.encode() in it) for it in (out, err)}
        self.assertLessEqual({(it, True) for it in EVERY}, seen)

    def test_a_path_in_text(self):
        self.assertEqual(_words.one_line(NAME).decode(), ESCAPED)
        for path in (NAME, b"plain", "naïve ✓".encode(), b"\x00\x7f\x80\n", b"a\\x1b", b"\\\\"):
            self.assertEqual(_words.original_path(_words.one_line(path)), path)
        self.assertEqual(_words.one_line(b"a\\x1b"), b"a\\\\x1b")
        status, out, _ = self.ran("lint", self.bad)
        self.assertTrue(out.startswith(f"{ESCAPED}.o: offset 0x72: ".encode()), out)
        self.assertEqual(self.ran("lint", "-0", self.bad)[1].partition(b": ")[0], self.bad)

    def test_findings_of_such_paths_are_explained(self):
        bad = Path(os.fsdecode(self.bad)).read_bytes()
        Path("bad.a").write_bytes(b"!<arch>\n" + archive_member(b"\x1b\x9b\x07.o", bad))
        for path in (self.bad, b"bad.a"):
            for words in ((), ("-0",), ("--format", "jsonl")):
                found = self.ran("lint", *words, path)[1]
                of_paths = words if "-0" in words else ()
                status, out, err = self.ran("explain", *of_paths, stdin=found)
                self.assertEqual((status, err, out.count(b"what to do")), (0, b"", 1), out)

    def test_paths_that_look_alike_are_two(self):
        """One file has an escape in its name, the other one what it looks like."""
        Path("a\x1b.o").write_bytes(SHARING)
        Path("a\\x1b.o").write_bytes(GOOD[:-1])
        for path, told in (
            ("a\x1b.o", r"a\x1b.o: offset 0x72: "),
            (r"a\x1b.o", r"a\\x1b.o: offset 0x28: "),
        ):
            out = self.ran("lint", path)[1]
            self.assertEqual(out[: len(told)].decode(), told)
            explained = self.ran("explain", stdin=out)[1].decode()
            self.assertTrue(explained.startswith(told), explained)
            self.assertEqual("SHARED_BYTE: " in explained, "0x72" in told)
        status, _, err = self.ran("lint", r"none\x1b")
        self.assertEqual(
            (status, err), (3, b"elfmap-lint: none\\\\x1b: no such file or directory\n")
        )

    def test_a_path_for_a_shell(self):
        """What is to be typed names the file: a shell undoes the escapes."""
        made = Made(
            text(),
            symbols(3, (1, 0x10, 1)),
            (b".strtab", 3, b"\0f\0", {}),
            (b".llvm_addrsig", 0x6FFF4C03, b"\1", dict(link=2)),
        )
        for path in (NAME, b"a'b\\\n", b"a b", b"a'b"):
            Path(os.fsdecode(path)).write_bytes(made.data)
            out = self.ran("explain", "refused", "78", str(made.at(4, "link")), path)[1].decode()
            lines = out.replace("\n  ", " ").splitlines()
            (command,) = [it for it in lines if it.startswith("likely cause: ")]
            word = command.partition("objcopy --remove-section=.llvm_addrsig ")[2]
            printed = ["bash", "-c", f"printf %s {word}"]
            told = subprocess.run(printed, capture_output=True, check=True).stdout
            self.assertEqual((told, unprintable(out.encode())), (path, []))


class ExamplesTest(Case):
    """The example programs: what they print of files, of which others chose the names, and their
    statuses."""

    def setUp(self):
        super().setUp()
        strings = (b".strtab", 3, b"\0" + NAME + b"\0", {})
        made = Made(text(NAME), symbols(3, (1, 0x10, 1, 0x1234)), strings)
        self.put(symbols__o=bytes(made.data), bad__o=SHARING)

    def printed(self, *words):
        """The status, the lines, and what is said on standard error."""
        ran = subprocess.run(words, capture_output=True, env=ENVIRONMENT, timeout=60)
        return ran.returncode, ran.stdout.decode("ascii").splitlines(), ran.stderr

    def compiled(self, name):
        """The program of bindings/c."""
        folder = build.REPOSITORY
        try:
            archive = build.archive()
        except FileNotFoundError as fault:
            raise unittest.SkipTest(str(fault)) from None
        sources = [f"{folder}/bindings/c/{name}.c", str(archive)]
        compiler = ["cc", "-std=c99", f"-I{folder}/include"]
        subprocess.run([*compiler, *sources, "-o", name], check=True)
        return f"./{name}"

    def test_python(self):
        script = [sys.executable, str(PACKAGE / "examples/symbols.py")]
        lines = ["0x0 ", f"0x1234 {ESCAPED}"]
        self.assertEqual(self.printed(*script, "symbols.o"), (0, lines, b""))
        self.assertEqual(self.printed(*script, "bad.o"), (1, ["refused 33 114"], b""))

    @unittest.skipUnless(shutil.which("cc"), "cc is not installed")
    def test_symbols_in_c(self):
        program = self.compiled("symbols")
        lines = ["0x0 ", f"0x1234 {ESCAPED}"]
        self.assertEqual(self.printed(program, "symbols.o"), (0, lines, b""))
        self.assertEqual(self.printed(program, "bad.o"), (1, ["refused 33 114"], b""))
        lost = b"symbols: the file can't be read\n"
        self.assertEqual(self.printed(program, "none"), (3, [], lost))
        self.assertEqual(self.printed(program), (2, [], b"usage: symbols FILE\n"))

    @unittest.skipUnless(shutil.which("cc"), "cc is not installed")
    def test_sections_in_c(self):
        program = self.compiled("sections")
        size = len(b"\0" + NAME + b"\0")
        names = [f"0x33 {ESCAPED}", "0x30 .symtab", f"{size:#x} .strtab"]
        own = 1 + len(NAME) + 1 + len(b".symtab\0.strtab\0.shstrtab\0")
        lines = ["0x0 ", *names, f"{own:#x} .shstrtab"]
        self.assertEqual(self.printed(program, "symbols.o"), (0, lines, b""))
        self.assertEqual(self.printed(program, "bad.o"), (1, ["refused 33 114"], b""))
        lost = b"sections: the file can't be read\n"
        self.assertEqual(self.printed(program, "none"), (3, [], lost))
        self.assertEqual(self.printed(program), (2, [], b"usage: sections FILE\n"))


class ReaderTest(Case):
    def test_a_reader_that_has_gone(self):
        """Each command ends silently, with the status of a program that SIGPIPE ends."""
        self.put(good__o=GOOD, bad__o=SHARING)
        for unbuffered, command, words in self.runs():
            reading, writing = os.pipe()
            os.close(reading)
            script = [sys.executable, "-m", f"elfmap.{command}", *words]
            env = {**ENVIRONMENT, "PYTHONUNBUFFERED": unbuffered}
            with open(writing, "wb") as out, self.subTest(command=command, words=words):
                streams = dict(stdin=subprocess.DEVNULL, stdout=out, stderr=subprocess.PIPE)
                ran = subprocess.run(script, env=env, timeout=60, **streams)
                said = [it for it in ran.stderr.splitlines() if b": no such file or " not in it]
                said = [it for it in said if b": SHARED_BYTE (33): " not in it]
                self.assertEqual((ran.returncode, said), (128 + signal.SIGPIPE, []))

    def runs(self):
        """Whether Python is to write at once, a command and its words."""
        for command, words in (
            *((it, ["good.o"]) for it in COMMANDS if it != "same"),
            ("lint", ["bad.o"]),
            ("lint", ["none"]),
            ("lint", ["--format", "sarif", "bad.o"]),
            ("explain", ["refused", "33", "114", "bad.o"]),
            ("gaps", ["none"]),
            ("same", ["good.o", "good.o"]),
            ("same", ["good.o", "bad.o"]),
        ):
            yield "", command, words
        for command in EVERY:
            yield "", command, ["--help"]
            yield "1", command, ["--version"]

    def test_an_end_with_a_text(self):
        """What `sys.exit` is given is the status, or a message."""
        for given, status, said in (
            (None, 0, ""),
            (0, 0, ""),
            (2, 2, ""),
            ("why", 3, "elfmap-x: why\n"),
            ("why\x1b", 3, "elfmap-x: why\\x1b\n"),
        ):
            words = io.StringIO()
            with contextlib.redirect_stderr(words), self.assertRaises(SystemExit) as raised:
                _commands.run_script("elfmap-x", lambda it=given: sys.exit(it))
            self.assertEqual((raised.exception.code, words.getvalue()), (status, said))


class CallerTest(FolderCase):
    """Who calls a command in Python may have put another file in place of standard error."""

    def lint_of_no_file(self, stream):
        """Runs elfmap-lint with a stream in place of standard error, and without an output."""
        with contextlib.ExitStack() as stack:
            stack.enter_context(contextlib.redirect_stderr(stream))
            output = stack.enter_context(mock.patch.object(lint, "Output"))
            out = stack.enter_context(open(os.devnull, "wb"))
            output.return_value.__enter__.return_value = out
            self.assertEqual(lint.main(["none"]), 3)

    def test_messages(self):
        said = "elfmap-lint: none: no such file or directory\n"
        words = io.StringIO()
        self.lint_of_no_file(words)
        self.assertEqual(words.getvalue(), said)
        letters = io.BytesIO()
        stream = io.TextIOWrapper(letters)
        self.lint_of_no_file(stream)
        self.assertEqual(letters.getvalue().decode(), said)
        with mock.patch.object(sys, "stderr", None), self.assertRaises(SystemExit) as raised:
            lint.main(["--none"])
        self.assertEqual(raised.exception.code, 2)


class OrderTest(Case):
    """Options may come after other words, and no option after `--`."""

    def setUp(self):
        super().setUp()
        self.put(good__o=GOOD, bad__o=SHARING)

    def test_options_between_paths(self):
        for command, words in (
            ("lint", ["good.o", "--tables", "bad.o"]),
            ("gaps", ["good.o", "--most", "1", "bad.o"]),
        ):
            with self.subTest(command=command):
                status, out, err = self.ran(command, *words)
                self.assertEqual(status, 1 if command == "lint" else 3)
                self.assertIn(b"SHARED_BYTE", out + err)
                self.assertNotIn(b"usage", err)

    def test_paths_that_begin_as_options(self):
        self.put(**{"-0": SHARING, "--help": SHARING})
        for command, status in (("lint", 1), ("gaps", 3)):
            ended, out, err = self.ran(command, "--", "-0", "--help")
            self.assertEqual((ended, (out + err).count(b"SHARED_BYTE")), (status, 2), err)
        self.assertEqual(self.ran("explain", "-0", "--", "--help")[1].count(b"what to do"), 1)

    def test_standard_input_after_a_path(self):
        """A hyphen is standard input wherever it is among the paths."""
        for words in (["-", "good.o"], ["good.o", "-"], ["good.o", "--tables", "-"]):
            status, out, err = self.ran("lint", *words, stdin=SHARING)
            self.assertEqual((status, out[:3], err), (1, b"-: ", b""), words)
        for words in (["-", "good.o", "bad.o"], ["good.o", "-", "bad.o"], ["good.o", "bad.o", "-"]):
            status, out, err = self.ran("explain", *words, stdin=b"file 1 refused 33 114\n")
            self.assertEqual((status, b"bad.o, offset 114 " in out, err), (0, True, b""), words)


if __name__ == "__main__":
    unittest.main()
