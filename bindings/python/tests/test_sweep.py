"""`tools/dev sweep`: which packages it draws, and the page that it makes of packages by hand."""

import contextlib
import gzip
import io
import sys
import unittest
from pathlib import Path
from types import SimpleNamespace
from unittest import mock

from elfmap import build

from tests.made import GOOD, SHARING, FolderCase, archive_member, setUpModule  # noqa: F401
from tests.test_lint_packages import tar_member
from tests.test_lint_suppressed import COMMENT, made

sys.path.insert(0, str(build.REPOSITORY / "tools" / "lib"))
from elfmap_tools import sweep  # noqa: E402


def deb(*contents):
    """A package that has these files."""
    data = b"".join(tar_member(b"./%d.o" % k, it) for k, it in enumerate(contents)) + bytes(1024)
    front = b"!<arch>\n" + archive_member(b"debian-binary", b"2.0\n", b"")
    return front + archive_member(b"data.tar.gz", gzip.compress(data), b"")


class DrawTest(unittest.TestCase):
    def test_the_same_draw(self):
        names = [f"{k}.deb" for k in range(50)]
        found = sweep.drawn(names, 5, 1)
        self.assertEqual((len(found), found), (5, sorted(found)))
        self.assertEqual(sweep.drawn(reversed(names), 5, 1), found)
        self.assertNotEqual(sweep.drawn(names, 5, 2), found)
        self.assertEqual(sweep.drawn(names, 99, 1), sorted(names))

    def test_the_name_of_a_package(self):
        path = "/var/a(b)/libc6_2.36-9+deb12u1_amd64.deb(lib/x.a(y.deb(z)))"
        self.assertEqual(sweep.package_of(path), "libc6")


class PageTest(FolderCase):
    def sweep(self, *, count=9, seed=1, folder="debs", output="-"):
        """The status, and what is printed."""
        options = SimpleNamespace(count=count, seed=seed, folder=folder, output=output)
        out = io.StringIO()
        said = io.StringIO()
        packed = mock.patch.object(sweep, "packed")
        with packed, contextlib.redirect_stdout(out), contextlib.redirect_stderr(said):
            return sweep.main(options), out.getvalue()

    def setUp(self):
        super().setUp()
        folder = mock.patch.object(sweep, "FOLDER", build.named_folder() or sweep.FOLDER)
        self.addCleanup(folder.stop)
        folder.start()
        self.put(
            **{"debs/a_1__0-1_amd64__deb": deb(made(COMMENT), made(COMMENT), GOOD)},
            **{"debs/b_2_all__deb": deb(SHARING, made(COMMENT), made(machine=22))},
            **{"debs/c_3_all__deb": deb(GOOD)[:-30], "debs/none__txt": SHARING},
        )

    def test_all(self):
        status, out = self.sweep()
        self.assertEqual(status, 0)
        lines = out.splitlines()
        self.assertEqual(lines[0], "# A sweep over packages")
        self.assertTrue(
            lines[2].startswith("`tools/dev sweep 3 1` makes the tables of this page. ")
        )
        words = " ".join(out.split())
        self.assertIn("It draws 3 of the 3 packages of Debian in the folder `debs`.", words)
        self.assertIn("6 files were checked, and 5 of them break a rule; 1 can't be read.", words)
        gcc = "GCC: (Debian 12.2.0-14) 12.2.0"
        self.assertEqual(
            [it for it in lines if it.startswith("| 33")],
            [
                f"| 33 `SHARED_BYTE` | X86_64 | {gcc} | 3 | 3 | 2 | a |",
                "| 33 `SHARED_BYTE` | S390 | not said | 1 | 1 | 1 | b |",
                "| 33 `SHARED_BYTE` | X86_64 | not said | 1 | 1 | 1 | b |",
            ],
        )
        self.assertIn("\na_1.0-1_amd64, b_2_all, c_3_all\n", out)
        self.assertLessEqual(max(len(it) for it in lines if it[:1] != "|"), sweep.COLUMNS)

    def test_a_file(self):
        self.assertEqual(self.sweep(count=1, output="page.md"), (0, ""))
        self.assertIn("`tools/dev sweep 1 1` makes", Path("page.md").read_text())

    def test_nothing_to_draw(self):
        for words in (dict(count=0), dict(count=-1), dict(folder="none"), dict(folder=".")):
            with self.subTest(words=words):
                self.assertEqual(self.sweep(**words), (2, ""))

    def test_a_run_that_fails(self):
        with mock.patch.object(sweep, "DEPTH", ["--no-such-option"]):
            with self.assertRaises(SystemExit) as raised:
                self.sweep()
        self.assertIn("--no-such-option", str(raised.exception))


if __name__ == "__main__":
    unittest.main()
