"""The commands on damaged and hostile trees, each as a process of its own: no crash, no hang, and
nothing missed. tests/test_lint.py has the single cases.
"""

import contextlib
import os
import random
import shutil
import signal
import subprocess
import sys
import tempfile
import threading
import time
import unittest
from pathlib import Path

from tests.made import (
    BSD,
    ENVIRONMENT,
    GNU,
    GOOD,
    SHARING,
    FolderCase,
    Made,
    relocations,
    setUpModule,
    symbols,
    text,
    thin,
)  # noqa: F401

MILLION = 1_000_000
FOLDERS = 10
LONGEST = 300
LINT = ["lint", "--tables", "--object"]
MEMORY = "/dev/shm"


# A process begins with the peak memory of the one that starts it, and that of the tests is large.
# So a small one starts the command.
START = """
import os, sys
words = [sys.executable, *sys.argv[2:]]
_, status, usage = os.wait4(os.posix_spawn(words[0], words, os.environ), 0)
os.write(int(sys.argv[1]), f"{os.waitstatus_to_exitcode(status)} {usage.ru_maxrss}".encode())
"""


def run(*words, limit=LONGEST):
    """The status, standard output and standard error of a command of the package, and its peak
    memory in MiB."""
    with (
        tempfile.TemporaryFile() as out,
        tempfile.TemporaryFile() as err,
        tempfile.TemporaryFile() as ended,
    ):
        command = [
            sys.executable,
            "-c",
            START,
            str(ended.fileno()),
            "-m",
            f"elfmap.{words[0]}",
            *words[1:],
        ]
        keep = {"pass_fds": [ended.fileno()], "env": ENVIRONMENT, "start_new_session": True}
        process = subprocess.Popen(
            command, stdin=subprocess.DEVNULL, stdout=out, stderr=err, **keep
        )
        timer = threading.Timer(limit, os.killpg, [process.pid, signal.SIGKILL])
        timer.start()
        process.wait()
        timer.cancel()
        written = (os.pread(it.fileno(), 1 << 26, 0) for it in (out, err))
        said = [it.decode("utf-8", "surrogateescape") for it in written]
        status, peak = os.pread(ended.fileno(), 100, 0).split()
        return int(status), *said, int(peak) / 1024


def room_in_memory(files):
    """A folder in memory that takes so many files, if there is one: the disk takes some minutes."""
    with contextlib.suppress(OSError):
        it = os.statvfs(MEMORY)
        if (
            it.f_favail > files
            and it.f_bavail * it.f_frsize > 4 << 30
            and os.access(MEMORY, os.W_OK)
        ):
            return MEMORY
    return None


class MillionTest(unittest.TestCase):
    def test_a_million_empty_files(self):
        """Two files among them are found, and memory does not grow by them."""
        room = tempfile.mkdtemp(prefix="elfmap-million-", dir=room_in_memory(MILLION * 11 // 10))
        # Python's own removal takes much longer.
        self.addCleanup(subprocess.run, ["rm", "-rf", room], check=True)
        before = run("lint", room)
        for folder in range(FOLDERS):
            os.mkdir(f"{room}/{folder}")
            handle = os.open(f"{room}/{folder}", os.O_RDONLY)
            for number in range(MILLION // FOLDERS):
                os.mknod(str(number), 0o100600, dir_fd=handle)
            os.close(handle)
        Path(f"{room}/3/bad.o").write_bytes(SHARING)
        Path(f"{room}/9/good.o").write_bytes(GOOD)
        status, out, err, peak = run("lint", room)
        self.assertEqual((status, err), (1, ""))
        self.assertTrue(out.startswith(f"{room}/3/bad.o: offset 0x72: SHARED_BYTE "), out)
        self.assertEqual(
            out.splitlines()[1:], [f"1 finding in 1 of 2 ELF files; skipped: {MILLION} not ELF"]
        )
        self.assertLess(peak, before[3] + 16)
        status, out, err, _ = run("same", f"{room}/9", f"{room}/9")
        self.assertEqual(
            (status, out, err), (0, f"1 the same; skipped: {MILLION // FOLDERS} not ELF\n", "")
        )
        status, out, err, _ = run("gaps", f"{room}/9")
        self.assertEqual((status, err), (0, ""))
        self.assertTrue(
            out.endswith(f" in 1 ELF file; skipped: {MILLION // FOLDERS} not ELF\n"), out
        )


class TreeTest(FolderCase):
    def tree(self, folder):
        """Good and bad files and archives, and what is no file: the names of the bad ones."""
        os.makedirs(f"{folder}/sub")
        self.put(
            **{
                f"{folder}/lib__a": GNU,
                f"{folder}/bsd__a": BSD,
                f"{folder}/sub/good__o": GOOD,
                f"{folder}/empty": b"",
            }
        )
        for number in range(40):
            self.put(**{f"{folder}/sub/{number}__o": SHARING})
        os.mkfifo(f"{folder}/pipe")
        os.symlink(".", f"{folder}/loop")
        os.symlink("../sub", f"{folder}/sub/up")
        os.symlink("b", f"{folder}/a")
        os.symlink("a", f"{folder}/b")
        with open(f"{folder}/zeros", "wb") as it:
            it.truncate(1 << 30)
        members = (
            f"{folder}/{it}.a(a name of more than sixteen letters.o)" for it in ("lib", "bsd")
        )
        return sorted([*members, *(f"{folder}/sub/{it}.o" for it in range(40))])

    def found(self, out):
        return sorted(it.partition(": ")[0] for it in out.splitlines()[:-1])

    def test_what_is_no_file(self):
        bad = self.tree("a")
        for jobs in ("-j1", "-j3"):
            status, out, err, peak = run(*LINT, jobs, "a")
            self.assertEqual((status, err, self.found(out)), (1, "", bad))
            self.assertLess(peak, 200)
        shutil.copytree(
            "a", "b", symlinks=True, ignore=lambda _, names: {*names} & {"pipe", "zeros"}
        )
        status, out, err, peak = run("same", "a", "b")
        # Those that are rejected are not compared.
        self.assertEqual((status, "Traceback" in err, "not compared" in out), (3, False, True))
        self.assertLess(peak, 200)
        status, _, err, _ = run("gaps", "a")
        self.assertEqual((status, err.count("SHARED_BYTE")), (3, len(bad)))

    def test_what_changes_meanwhile(self):
        """Files and folders vanish, shrink, grow and become something else: what stays is found."""
        bad = self.tree("a/stays")
        Path("a/moves").mkdir()
        contents = [
            SHARING,
            GOOD,
            GNU,
            GOOD[:70],
            b"",
            GOOD + bytes(1 << 20),
            bytes(Made(text(), symbols(3, (1, 0x10, 1))).data),
        ]
        ended = threading.Event()
        thread = threading.Thread(target=self.change, args=(ended, contents))
        thread.start()
        self.addCleanup(thread.join)
        self.addCleanup(ended.set)
        for turn in range(12):
            status, out, err, _ = run(*LINT, "-j2" if turn % 2 else "-j1", "a")
            self.assertIn(status, (1, 3), err)
            self.assertEqual([it for it in self.found(out) if it.startswith("a/stays")], bad)
            lines = [it for it in err.splitlines() if not it.startswith("elfmap-lint: a/moves")]
            self.assertEqual((lines, "signal" in err), ([], False))
        for turn in range(4):
            status, out, err, _ = run("same", "a", "a")
            self.assertEqual((status, "Traceback" in err), (3, False), err)

    def change(self, ended, contents):
        """Until the end changes what is below a/moves."""
        choose = random.Random(66)
        while not ended.is_set():
            path = f"a/moves/{choose.randrange(8)}"
            with contextlib.suppress(OSError):
                [self.write, self.cut, self.remove, self.folder, self.pipe, self.link][
                    choose.randrange(6)
                ](path, choose, contents)

    def write(self, path, choose, contents):
        # A FIFO is not waited for.
        handle = os.open(path, os.O_WRONLY | os.O_CREAT | os.O_TRUNC | os.O_NONBLOCK)
        with open(handle, "wb") as it:
            it.write(choose.choice(contents))

    def cut(self, path, choose, contents):
        os.truncate(path, choose.randrange(1 << 10))

    def remove(self, path, choose, contents):
        os.rename(path, f"{path}-gone")
        subprocess.run(["rm", "-rf", f"{path}-gone"], check=True)

    def folder(self, path, choose, contents):
        os.mkdir(path)
        Path(f"{path}/a.o").write_bytes(choose.choice(contents))
        os.rename(path, f"a/moves/{choose.randrange(8)}")

    def pipe(self, path, choose, contents):
        with contextlib.suppress(FileExistsError):
            os.mkfifo(f"{path}-pipe")
        os.rename(f"{path}-pipe", path)

    def link(self, path, choose, contents):
        with contextlib.suppress(FileExistsError):
            os.symlink(f"{choose.randrange(8)}", f"{path}-link")
        os.rename(f"{path}-link", path)

    def test_archives_cut_anywhere(self):
        """All cuts of three archives in one tree: each is checked up to the cut."""
        for name, whole in (("gnu", GNU), ("bsd", BSD), ("thin", thin(b"good.o", b"bad.o"))):
            for length in range(len(whole)):
                self.put(**{f"cut/{name}-{length:05}__a": whole[:length]})
        self.put(cut__a=b"")
        self.put(**{"cut/good__o": GOOD, "cut/bad__o": SHARING})
        status, out, err, _ = run(*LINT, "cut")
        self.assertEqual(status, 3)
        lines = [it for it in err.splitlines() if not it.startswith("elfmap-lint: cut/")]
        self.assertEqual(lines, [])
        found = self.found(out)
        end = GNU.index(SHARING) + len(SHARING)
        member = "(a name of more than sixteen letters.o)"
        wanted = {f"cut/gnu-{it:05}.a{member}" for it in range(end, len(GNU))}
        self.assertLessEqual(wanted, {*found})
        self.assertIn("cut/bad.o", found)

    def test_many_findings_of_a_file(self):
        """Each of its tables breaks a rule: the time does not grow with the square of their
        number."""
        count = 20_000
        made = Made(text(), *(relocations(0) for _ in range(count)))
        self.put(bad__o=bytes(made.data))
        begun = time.monotonic()
        status, out, err, _ = run("lint", "--tables", "bad.o")
        self.assertEqual((status, err, len(out.splitlines())), (1, "", count + 1))
        Path("found").write_text(out)
        words = [sys.executable, "-m", "elfmap.explain"]
        with open("found") as it:
            ran = subprocess.run(
                words, stdin=it, stdout=subprocess.PIPE, env=ENVIRONMENT, timeout=LONGEST
            )
        self.assertEqual(ran.stdout.count(b"what to do: "), count)
        self.assertLess(time.monotonic() - begun, count / 100)

    def test_deep_folders(self):
        path = "."
        for _ in range(1500):
            path += "/d"
            os.mkdir(path)
        Path(f"{path}/bad.o").write_bytes(SHARING)
        self.addCleanup(subprocess.run, ["rm", "-r", os.path.abspath("d")], check=True)
        status, out, err, _ = run("lint", ".")
        self.assertEqual((status, err, self.found(out)), (1, "", [f"{path}/bad.o"]))


class MemoryTest(FolderCase):
    """Peak memory is bounded by the largest table, and not by the file."""

    TABLE = 24 << 20

    def peak(self, tables):
        """That of a file with so many tables of relocations, all zeros, which take no disk."""
        sections = [(b".rela", 4, b"", dict(link=2, info=1, entsize=24)) for _ in range(tables)]
        made = Made(text(), symbols(3), (b".strtab", 3, b"\0", {}), *sections)
        data = bytearray(made.data)
        start = (len(data) + 7) // 8 * 8
        for number in range(tables):
            row = made.table + 64 * (4 + number)
            data[row + 24 : row + 32] = (start + number * self.TABLE).to_bytes(8, "little")
            data[row + 32 : row + 40] = self.TABLE.to_bytes(8, "little")
        with open("long.o", "wb") as it:
            it.write(data)
            it.truncate(start + tables * self.TABLE)
        status, out, err, peak = run("lint", "--tables", "-j1", "long.o")
        self.assertEqual((status, out, err), (0, "0 findings in 0 of 1 ELF file\n", ""))
        return peak

    def test_tables(self):
        none = self.peak(0)
        one = self.peak(1)
        many = self.peak(16)
        self.assertLess(one, none + 3 * self.TABLE / 2**20)
        self.assertLess(many, one + self.TABLE / 2**20)

    def test_names_that_share_bytes(self):
        """Each name of an object is the end of one string: written one after the other they have
        many GiB."""
        count = 40_000
        step = 16
        string = random.Random(67).randbytes(count * step).replace(b"\0", b"\1")
        named = symbols(3, *((1 + step * it, 0x10, 1) for it in range(count)))
        self.put(
            names__o=bytes(Made(text(), named, (b".strtab", 3, b"\0" + string + b"\0", {})).data)
        )
        status, out, err, peak = run("lint", "--object", "-j1", "names.o")
        self.assertEqual((status, out, err), (0, "0 findings in 0 of 1 ELF file\n", ""))
        self.assertLess(peak, 200)

    def test_contents(self):
        """A file of 1 GiB, of which no table is large."""
        made = Made(text(), (b".filler", 1, b"", {}))
        before = run("lint", "--tables", "-j1", ".")[3]
        with open("long.o", "wb") as it:
            data = bytearray(made.data)
            row = made.table + 64 * 2
            data[row + 24 : row + 32] = len(data).to_bytes(8, "little")
            data[row + 32 : row + 40] = (2**30 - len(data)).to_bytes(8, "little")
            it.write(data)
            it.truncate(2**30)
        for words in (["lint", "--tables", "-j1"], ["gaps"]):
            status, _, err, peak = run(*words, "long.o")
            self.assertEqual((status, err), (0, ""))
            self.assertLess(peak, before + 16)


if __name__ == "__main__":
    unittest.main()
