"""The files that commands write: completely or not at all, with nothing left beside them, and with
the path of the user in each message."""

import errno
import os
import resource
import signal
import stat
import subprocess
import sys
import threading
import unittest
from pathlib import Path
from unittest import mock

from elfmap import _outputs
from elfmap._outputs import Output

from tests.made import ENVIRONMENT, FolderCase, with_signals

WAITING = """
import sys
from elfmap._commands import run_script
from elfmap._outputs import Output

def main():
    with Output("out") as it:
        it.write(b"a beginning")
        it.flush()
        print("written", flush=True)
        sys.stdin.read()

run_script("waiting", main)
"""


class OutputTest(FolderCase):
    def setUp(self):
        super().setUp()
        self.put(old=b"before")
        os.mkdir("folder")
        self.before = sorted(os.listdir())

    def refused(self, path, content=b"content"):
        """What the error of writing a file is: its number, and the path that it names. Nothing is
        written."""
        with self.assertRaises(OSError) as raised:
            with Output(path) as it:
                it.write(content)
        self.assertEqual(sorted(os.listdir()), self.before)
        self.assertEqual(Path("old").read_bytes(), b"before")
        self.assertIsNone(raised.exception.filename2)
        return raised.exception.errno, raised.exception.filename

    def test_paths_that_are_no_file(self):
        """The error is that of a shell for `> PATH`, and names the path as it was given."""
        numbers = {
            "": errno.ENOENT,
            "folder": errno.EISDIR,
            "folder/": errno.EISDIR,
            ".": errno.EISDIR,
            "new/": errno.EISDIR,
            "old/": errno.ENOTDIR,
            "old/new": errno.ENOTDIR,
            "none/new": errno.ENOENT,
            "none/..": errno.ENOENT,
            "none/.": errno.ENOENT,
            "none/../new": errno.ENOENT,
            "folder/none/": errno.EISDIR,
            "n" * 300: errno.ENAMETOOLONG,
        }
        for path, number in numbers.items():
            with self.subTest(path=path):
                self.assertEqual(self.refused(path), (number, path))
                shell = subprocess.run(["bash", "-c", '> "$1"', "bash", path], capture_output=True)
                # The shell takes any path that ends in a slash for that of a directory.
                said = errno.EISDIR if path == "old/" else number
                self.assertIn(os.strerror(said).encode(), shell.stderr)

    def test_links_that_lead_nowhere(self):
        os.symlink("loop", "loop")
        os.symlink("none/new", "dangling")
        self.before = sorted(os.listdir())
        self.assertEqual(self.refused("loop"), (errno.ELOOP, "loop"))
        self.assertEqual(self.refused("dangling"), (errno.ENOENT, "dangling"))
        os.mkdir("none")
        with Output("dangling") as it:
            it.write(b"content")
        self.assertEqual(Path("none/new").read_bytes(), b"content")
        self.assertTrue(os.path.islink("dangling"))

    def test_a_file_that_cant_be_replaced(self):
        """Where its path becomes a directory meanwhile."""
        with self.assertRaises(IsADirectoryError) as raised:
            with Output("new") as it:
                it.write(b"content")
                os.mkdir("new")
        self.assertEqual((raised.exception.filename, os.listdir("new")), ("new", []))
        self.assertEqual(sorted(os.listdir()), ["folder", "new", "old"])

    def test_a_full_device(self):
        """What is buffered fails when the file is closed; the path is in the error all the same."""
        for content in (b"a", bytes(1 << 20)):
            self.assertEqual(self.refused("/dev/full", content), (errno.ENOSPC, "/dev/full"))

    def test_a_full_disk(self):
        """A file that is too long for its limit."""
        before = resource.getrlimit(resource.RLIMIT_FSIZE)
        self.addCleanup(resource.setrlimit, resource.RLIMIT_FSIZE, before)
        self.addCleanup(
            signal.signal, signal.SIGXFSZ, signal.signal(signal.SIGXFSZ, signal.SIG_IGN)
        )
        resource.setrlimit(resource.RLIMIT_FSIZE, (4096, before[1]))
        for content in (bytes(4097), bytes(1 << 20)):
            self.assertEqual(self.refused("old", content), (errno.EFBIG, "old"))

    def test_the_first_error_counts(self):
        """Where the rest can't be written either."""
        with self.assertRaises(KeyboardInterrupt):
            with Output("/dev/full") as it:
                it.write(b"a")
                raise KeyboardInterrupt

    def test_an_interrupt(self):
        """While it is written, when the file has just been made, and when it gets its name."""
        with self.assertRaises(KeyboardInterrupt):
            with Output("old") as it:
                it.write(b"a")
                raise KeyboardInterrupt
        self.assertEqual(sorted(os.listdir()), self.before)
        self.assertEqual(Path("old").read_bytes(), b"before")
        for name in ("open", "replace"):
            real = getattr(os, name)

            def interrupted(*words):
                real(*words)
                raise KeyboardInterrupt

            with mock.patch.object(_outputs.os, name, interrupted):
                with self.assertRaises(KeyboardInterrupt):
                    with Output("new") as it:
                        it.write(b"content")
            with self.subTest(name=name):
                replaced = ["new"] if name == "replace" else []
                self.assertEqual(sorted(os.listdir()), sorted([*self.before, *replaced]))

    def test_a_signal(self):
        """It ends the command, and the file is as it was."""
        words = [sys.executable, "-c", WAITING]
        self.put(out=b"before")
        for number in (signal.SIGINT, signal.SIGTERM, signal.SIGHUP):
            with self.subTest(signal=number):
                with subprocess.Popen(
                    words,
                    stdin=subprocess.PIPE,
                    stdout=subprocess.PIPE,
                    env=ENVIRONMENT,
                    preexec_fn=with_signals,
                ) as it:
                    self.assertEqual(it.stdout.readline(), b"written\n")
                    it.send_signal(number)
                    self.assertEqual(it.wait(60), 128 + number)
                self.assertEqual(sorted(os.listdir()), sorted([*self.before, "out"]))
                self.assertEqual(Path("out").read_bytes(), b"before")

    def test_signals_of_the_caller(self):
        """A handler stays where there is one, and none is left behind. Another thread has none."""
        own = [signal.SIG_IGN, lambda *_: None]
        self.addCleanup(signal.signal, signal.SIGHUP, signal.getsignal(signal.SIGHUP))
        for it in (*own, signal.SIG_DFL):
            signal.signal(signal.SIGHUP, it)
            with Output("new"):
                self.assertEqual(signal.getsignal(signal.SIGHUP) == it, it in own)
            self.assertEqual(signal.getsignal(signal.SIGHUP), it)
        found = []
        thread = threading.Thread(target=lambda: found.append(self.in_a_thread()))
        thread.start()
        thread.join()
        self.assertEqual(found, [signal.SIG_DFL])

    def in_a_thread(self):
        with Output("new") as it:
            it.write(b"content")
            return signal.getsignal(signal.SIGHUP)

    def test_standard_output(self):
        """By its path it is written as it is: a log is appended to, also one that has no name."""
        words = f'"{sys.executable}" -c "$1" >> log; cat log'
        script = "from elfmap._outputs import Output\nwith Output('/dev/stdout') as it:\n"
        for more, said in ((" it.write(b'more')", b"before more"), (" 1 / 0", b"before ")):
            self.put(log=b"before ")
            ran = subprocess.run(
                ["sh", "-c", words, "sh", script + more], env=ENVIRONMENT, capture_output=True
            )
            self.assertEqual(ran.stdout, said)
        with open("gone", "wb+") as gone:
            os.unlink("gone")
            subprocess.run(
                [sys.executable, "-c", script + " it.write(b'more')"],
                env=ENVIRONMENT,
                stdout=gone,
                check=True,
            )
            gone.seek(0)
            self.assertEqual(gone.read(), b"more")
        os.unlink("log")
        self.assertEqual(sorted(os.listdir()), self.before)

    def test_without_standard_output(self):
        saved = os.dup(1)
        self.addCleanup(os.close, saved)
        self.addCleanup(os.dup2, saved, 1)
        os.close(1)
        with Output("old") as it:
            it.write(b"content")
        self.assertEqual(Path("old").read_bytes(), b"content")

    def test_who_may_read_it(self):
        """Whoever may read a file that a shell makes."""
        for mask, mode in ((0o022, 0o644), (0o077, 0o600), (0, 0o666)):
            self.addCleanup(os.umask, os.umask(mask))
            with Output("new") as it:
                it.write(b"content")
            self.assertEqual(stat.S_IMODE(os.stat("new").st_mode), mode)


if __name__ == "__main__":
    unittest.main()
