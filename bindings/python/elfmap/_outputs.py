"""What a command writes: standard output, or a file."""

from __future__ import annotations

import io
import os
import signal
import stat
import sys
import threading
from collections.abc import Iterator
from contextlib import contextmanager, suppress
from typing import Any, BinaryIO, NoReturn, Optional, Union

# The signals by which others end a command.
_ENDING = (signal.SIGTERM, signal.SIGHUP)


@contextmanager
def about(path: str) -> Iterator[None]:
    """Errors of the system name this path: that of the user, and of no file that was made in its
    place."""
    try:
        yield
    except OSError as fault:
        raise OSError(fault.errno, fault.strerror or str(fault), path) from None


class _File(io.FileIO):
    """An open file, or one that is opened by its path, whose errors name the path of the user."""

    def __init__(self, file: Union[int, str], path: str) -> None:
        self._path = path
        with about(path):
            super().__init__(file, "wb")

    def write(self, content: Any) -> int:
        with about(self._path):
            return super().write(content)

    def close(self) -> None:
        with about(self._path):
            super().close()


def _is_standard_output(found: os.stat_result) -> bool:
    with suppress(OSError):
        return os.path.samestat(found, os.fstat(1))
    return False


class _Signals:
    """The signals that would end the command raise SystemExit from `take` to `give_back`, as SIGINT
    raises KeyboardInterrupt by itself."""

    def __init__(self) -> None:
        self._taken: list[signal.Signals] = []

    def take(self) -> None:
        # Python sets handlers in the main thread alone.
        if threading.current_thread() is threading.main_thread():
            self._taken = [it for it in _ENDING if signal.getsignal(it) == signal.SIG_DFL]
        for it in self._taken:
            signal.signal(it, _end)

    def give_back(self) -> None:
        for it in self._taken:
            signal.signal(it, signal.SIG_DFL)


def _end(number: int, _: object) -> NoReturn:
    sys.exit(128 + number)


class Output:
    """Standard output, or a file that is written completely or not at all.

    The file is made beside the path, and gets its name when all is written.
    """

    def __init__(self, path: Optional[str]) -> None:
        self._path = path
        self._file: Optional[BinaryIO] = None
        self._signals = _Signals()
        # The file that is written, and the one that it becomes.
        self._made = ""
        self._target = ""

    def __enter__(self) -> BinaryIO:
        try:
            self._signals.take()
            self._file = self._opened()
        except BaseException:
            self._drop()
            raise
        return self._file

    def _opened(self) -> BinaryIO:
        if self._path is None:
            return open(1, "wb", closefd=False)
        with about(self._path):
            return io.BufferedWriter(_File(self._writable(self._path), self._path))

    def _writable(self, path: str) -> Union[int, str]:
        """A new file that becomes the one of a path; standard output if it is the path of that; or
        the path, if it is that of a device or of a directory."""
        with suppress(FileNotFoundError):
            found = os.stat(path)
            if _is_standard_output(found):
                # What a shell has open is not replaced: it may be a log that is appended to.
                return os.dup(1)
            if not stat.S_ISREG(found.st_mode):
                return path
        # The file that a link names is written, not the link.
        self._target = os.path.realpath(path) if os.path.islink(path) else path
        folder, name = os.path.split(self._target)
        if not name:
            # It is empty or ends in a slash: the system says what is wrong, and makes no file.
            return path
        # The name is kept first, so that the file is removed whenever the command is interrupted.
        self._made = os.path.join(folder, f".elfmap-{os.urandom(8).hex()}")
        return os.open(self._made, os.O_WRONLY | os.O_CREAT | os.O_EXCL | os.O_CLOEXEC, 0o666)

    def __exit__(self, kind: object, *_: object) -> None:
        try:
            self._close(kind is not None)
            if self._made and self._path and kind is None:
                with about(self._path):
                    os.replace(self._made, self._target)
                self._made = ""
        finally:
            self._drop()

    def _close(self, has_failed: bool) -> None:
        """Writes the rest and closes the file. What failed before is what is told."""
        with suppress(*((OSError,) if has_failed else ())):
            if self._file:
                self._file.close()

    def _drop(self) -> None:
        """Removes the file that did not become the one of the path."""
        if self._made:
            with suppress(FileNotFoundError):
                os.unlink(self._made)
        self._signals.give_back()
