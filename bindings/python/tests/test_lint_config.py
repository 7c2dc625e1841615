"""The configuration file of elfmap-lint, and its colours. A key is a long option without `--`."""

import json
import os
import pty
import subprocess
import sys
import unittest
from pathlib import Path
from unittest import mock

from elfmap import _config, _findings, lint

from tests.made import CLASS_32, ENVIRONMENT, GOOD, SHARING, setUpModule  # noqa: F401
from tests.test_lint import PROGRAM, SHARED, Case

BAD = b"bad.o: " + SHARED
ONE = b"1 finding in 1 of 1 ELF file"
# A value that each key may have; a file is named from the directory of the configuration.
VALUES = {
    "files0-from": "files",
    "exclude": ["*.x"],
    "follow-thin": True,
    "unpack-limit": 7,
    "skip": True,
    "class32": "skip",
    "tables": True,
    "object": True,
    "strict": True,
    "debug-files": True,
    "ignore": ["33:*.x", "*:machine=alpha"],
    "baseline": "known.json",
    "strip-components": 2,
    "write-baseline": "/new.json",
    "format": "jsonl",
    "zero": True,
    "output": "-o",
    "color": "never",
    "quiet": True,
    "jobs": 3,
    "fail-on-empty": True,
}


@unittest.skipIf(sys.version_info < (3, 11), "Python 3.11 has the module tomllib")
class ConfigTest(Case):
    def configure(self, text, folder="."):
        os.makedirs(folder, exist_ok=True)
        Path(folder, _config.NAME).write_text(text)

    def assert_wrong(self, words, *options):
        status, out, said = self.lint(*options)
        self.assertEqual((status, out), (2, b""))
        self.assertIn(words, said.decode().splitlines()[-1])

    def test_at_or_above_the_first_path(self):
        self.put(**{"a/b/bad__o": SHARING, "c/bad__o": SHARING})
        self.configure('ignore = ["33"]', "a")
        for words, status in (
            (["a"], 0),
            (["a/b"], 0),
            (["a/b/bad.o"], 0),
            ([os.path.abspath("a/b")], 0),
            (["a/b", "c"], 0),
            (["c"], 1),
            (["c", "a"], 1),
            (["-"], 1),
            (["-", "a"], 0),
        ):
            with self.subTest(words=words):
                self.assertEqual(self.lint(*words, stdin=SHARING)[0], status)
        # The nearest one is read, and no other.
        self.configure("", "a/b")
        self.assertEqual(self.lint("a/b")[0], 1)
        # Of standard input it is that of the working directory.
        self.configure('ignore = ["33"]')
        self.assertEqual(self.lint("-", stdin=SHARING)[0], 0)

    def test_all_options(self):
        """Each option has a key, and each key its option."""
        parser = lint._parser()
        keys = _config.keys_of(parser)
        self.assertEqual(set(keys), set(VALUES))
        for key, value in VALUES.items():
            self.configure(f"{key} = {json.dumps(value)}", "a")
            words = ["a/x"]
            if key in ("files0-from", "output", "write-baseline"):
                with self.assertRaises(_findings.BadWord):
                    _config.configured(parser, parser.in_any_order(words, "paths"))
                words += ["--config", os.path.abspath(f"a/{_config.NAME}")]
            found = _config.configured(parser, parser.in_any_order(words, "paths"))
            dest = {"files0-from": "files0_from", "write-baseline": "write_baseline"}
            names = {"baseline", "files0-from", "output"}
            wanted = os.path.abspath(f"a/{value}") if key in names else value
            with self.subTest(key=key):
                self.assertEqual(found, {dest.get(key, key.replace("-", "_")): wanted})

    def test_the_command_line_comes_first(self):
        self.put(bad__o=SHARING, two__o=SHARING, old__o=CLASS_32)
        self.configure('ignore = ["33:bad.o"]\nclass32 = "fail"\nformat = "jsonl"')
        status, out, _ = self.lint("--format", "text", "--class32=skip", "bad.o", "two.o", "old.o")
        self.assertEqual((status, out.splitlines()[0]), (1, b"two.o: " + SHARED))
        # What it lists is added.
        self.assertEqual(self.lint("--ignore", "33:two.o", "bad.o", "two.o")[0], 0)
        self.assertEqual(self.lint("--no-config", "bad.o")[1].splitlines(), [BAD, ONE])

    def test_a_named_one(self):
        self.put(bad__o=SHARING)
        self.configure("quiet = true")
        self.put(**{"a/other__toml": b'ignore = ["33"]\noutput = "report"'})
        self.assertSaid(["--config", "a/other.toml", "bad.o"], 0, [])
        out = Path("a/report").read_bytes()
        self.assertEqual(out, b"0 findings in 0 of 1 ELF file, 1 suppressed\n")
        self.put(**{"a/other__toml": b'files0-from = "-"'})
        self.assertSaid(["--config", "a/other.toml"], 1, [BAD, ONE], stdin=b"bad.o\0")
        self.assert_wrong("none.toml: no such file", "--config", "none.toml", "bad.o")
        self.assert_wrong(".: is a directory", "--config", ".", "bad.o")

    def test_what_is_wrong(self):
        self.put(bad__o=SHARING)
        for text, words in (
            ("tables", "is no TOML: "),
            ("depth = 3", ".elfmap-lint.toml: there is no option 'depth'"),
            ("fail_on_empty = true", "there is no option 'fail_on_empty'"),
            ("paths = []", "there is no option 'paths'"),
            ("help = true", "there is no option 'help'"),
            ("decompress = true", "there is no option 'decompress'"),
            ("tables = 1", "tables is true or false"),
            ("tables = []", "tables is true or false"),
            ('ignore = "33"', "ignore is a list of strings"),
            ("ignore = [33]", "ignore is a list of strings"),
            ("jobs = true", "jobs is a number"),
            ('jobs = "3"', "jobs is a number"),
            ("class32 = 3", "class32 is a string"),
            ('class32 = "no"', "class32 is one of warn, skip, fail"),
            ('ignore = ["none"]', "there is no rule 'none'"),
            ("jobs = -1", "-j needs a positive number"),
            ("strict = true\ndebug-files = true", "--strict and --debug-files exclude each other"),
            ("x = " + "[" * 5000, "is no TOML: "),
        ):
            self.configure(text)
            with self.subTest(text=text[:30]):
                self.assert_wrong(words, "bad.o")
                self.assertEqual(self.lint("--no-config", "bad.o")[0], 1)
        self.configure("strict = true")
        self.assert_wrong("exclude each other", "--debug-files", "bad.o")
        Path(_config.NAME).write_bytes(b"# \xff")
        self.assert_wrong("is no TOML: ", "bad.o")

    def test_without_a_reader_of_toml(self):
        self.put(bad__o=SHARING)
        self.configure("tables = true")
        with mock.patch.dict(sys.modules, tomllib=None, tomli=None):
            self.assert_wrong("a configuration needs Python 3.11", "bad.o")
            self.assertEqual(self.lint("--no-config", "bad.o")[0], 1)
            os.unlink(_config.NAME)
            self.assertEqual(self.lint("bad.o")[0], 1)

    def test_rules_need_none(self):
        self.configure("wrong")
        self.assertEqual(self.lint("--list-rules")[0], 0)


class ColorTest(Case):
    def on_a_terminal(self, *words, **environment):
        """What a terminal gets."""
        master, end = pty.openpty()
        own = {k: v for k, v in ENVIRONMENT.items() if k != "NO_COLOR"}
        env = {**own, "TERM": "xterm", **environment}
        with open(master, "rb", buffering=0) as reader:
            subprocess.run([*PROGRAM, *words], stdout=end, stderr=subprocess.DEVNULL, env=env)
            os.close(end)
            found = b""
            while True:
                try:
                    piece = reader.read(4096)
                except OSError:  # The other end is closed.
                    return found.replace(b"\r\n", b"\n")
                found += piece

    def setUp(self):
        super().setUp()
        self.put(bad__o=SHARING, good__o=GOOD)
        self.plain = BAD + b"\n" + ONE + b"\n"
        line = BAD.replace(b"bad.o", b"\x1b[1mbad.o\x1b[0m", 1)
        line = line.replace(b"SHARED_BYTE", b"\x1b[31mSHARED_BYTE\x1b[0m", 1)
        self.colored = line + b"\n\x1b[31m" + ONE + b"\x1b[0m\n"

    def test_on_a_terminal(self):
        self.assertEqual(self.on_a_terminal("bad.o"), self.colored)
        clean = b"\x1b[32m0 findings in 0 of 1 ELF file\x1b[0m\n"
        self.assertEqual(self.on_a_terminal("good.o"), clean)
        lost = b"\x1b[31m0 findings in 0 of 1 ELF file; 1 unreadable\x1b[0m\n"
        self.assertEqual(self.on_a_terminal("good.o", "none"), lost)

    def test_not_wanted(self):
        for words, environment in (
            ([], {"NO_COLOR": "1"}),
            ([], {"TERM": "dumb"}),
            (["--color=never"], {}),
        ):
            with self.subTest(words=words, environment=environment):
                self.assertEqual(self.on_a_terminal(*words, "bad.o", **environment), self.plain)
        # An empty NO_COLOR is none.
        self.assertEqual(self.on_a_terminal("bad.o", NO_COLOR=""), self.colored)

    def test_not_on_a_terminal(self):
        self.assertEqual(self.lint("bad.o")[1], self.plain)
        self.assertEqual(self.lint("--color=always", "bad.o")[1], self.colored)
        # Records, files and other formats have none.
        for words in (["-0"], ["--format", "github"], ["-o", "/dev/stdout"]):
            with self.subTest(words=words):
                self.assertNotIn(b"\x1b", self.on_a_terminal("--color=always", *words, "bad.o"))

    def test_names_that_could_be_obeyed(self):
        self.put(**{"\x1b[31m\N{RIGHT-TO-LEFT OVERRIDE}__o": SHARING})
        found = self.lint("--color=always", "\x1b[31m\N{RIGHT-TO-LEFT OVERRIDE}.o")[1]
        self.assertTrue(found.startswith(b"\x1b[1m\\x1b[31m\\xe2\\x80\\xae.o\x1b[0m: "), found)


if __name__ == "__main__":
    unittest.main()
