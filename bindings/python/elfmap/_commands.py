"""What the commands of the package share: how they read their words, their statuses, and how they
end."""

from __future__ import annotations

import argparse
import itertools
import os
import re
import signal
import sys
from collections.abc import Callable, Sequence
from contextlib import suppress
from typing import Any, NoReturn, Optional, TextIO

from elfmap._sources import reason_of
from elfmap._words import one_line, visible

DONE, FOUND, USAGE, UNREADABLE = range(4)
# Of a terminal that does not say how wide it is.
_COLUMNS = 80


class Parser(argparse.ArgumentParser):
    """Reads the words of a command. A usage error has its status also where standard error is
    closed."""

    def __init__(self, **words: Any) -> None:
        # Without a width the formatter imports what tells it, before it has anything to write.
        super().__init__(formatter_class=_formatter, **words)

    def error(self, message: str) -> NoReturn:
        _write(self.format_usage().encode("utf-8", "backslashreplace"))
        complain(self.prog, b"error: " + message.encode("utf-8", "surrogateescape"))
        sys.exit(USAGE)

    def _print_message(self, message: str, file: Any = None) -> None:
        """Writes the help or the version. If that fails, the command has failed: argparse would go
        on."""
        if file is None:
            _write(message.encode("utf-8", "backslashreplace"))
        else:
            file.write(message)

    def in_any_order(self, words: Optional[Sequence[str]], operands: str) -> argparse.Namespace:
        """Reads words among which options may be anywhere; after `--` there are none. `operands`
        names the others."""
        every = list(sys.argv[1:] if words is None else words)
        end = every.index("--") if "--" in every else len(every)
        front = every[:end]
        # Where options come first nothing is mixed. The other call takes a millisecond more: it
        # writes the usage.
        rest = itertools.dropwhile(_is_option, front)
        is_mixed = any(map(_is_option, rest))
        found = self.parse_intermixed_args(front) if is_mixed else self.parse_args(front)
        setattr(found, operands, [*getattr(found, operands), *every[end + 1 :]])
        return found


def terminal_width() -> int:
    """How many columns COLUMNS says that there are, or else the terminal of standard output."""
    columns = os.environ.get("COLUMNS", "")
    if columns.isdecimal() and int(columns):
        return int(columns)
    try:
        return os.get_terminal_size(1).columns or _COLUMNS
    except OSError:
        return _COLUMNS


def _formatter(prog: str) -> argparse.HelpFormatter:
    return argparse.HelpFormatter(prog, width=terminal_width() - 2)


def _is_option(word: str) -> bool:
    return word.startswith("-") and word != "-"


def complain(program: str, words: bytes) -> None:
    """Prints a message, whose names are escaped, on standard error. What else can't be printed is
    escaped here."""
    _write(b"\n".join(map(visible, (program.encode() + b": " + words).split(b"\n"))) + b"\n")


def _write(message: bytes) -> None:
    """Writes to standard error as it is in Python, where a caller may have put another file."""
    with suppress(OSError, ValueError):
        if hasattr(sys.stderr, "buffer"):
            sys.stderr.buffer.write(message)
        elif sys.stderr is not None:
            sys.stderr.write(message.decode("utf-8", "backslashreplace"))
        if sys.stderr is not None:
            sys.stderr.flush()


def failure(fault: OSError) -> bytes:
    """What an error is about, and its reason."""
    words = reason_of(fault).encode("utf-8", "surrogateescape")
    if not isinstance(fault.filename, (str, bytes)):
        return words
    return (one_line(os.fsencode(fault.filename)) or b"''") + b": " + words


def run_script(program: str, main: Callable[[], int]) -> NoReturn:
    """Runs a command as a console script, and ends with its status."""
    _occupy_closed()
    status = _status(program, main)
    for stream, number in ((sys.stdout, 1), (sys.stderr, 2)):
        _drop_unwritten(stream, number)
    sys.exit(status)


def _status(program: str, main: Callable[[], int]) -> int:
    """The status of a run. A reader that closes the pipe ends it silently, with the status that the
    shell has for a program that SIGPIPE ends."""
    try:
        status = _ended(program, main)
        sys.stdout.flush()
    except KeyboardInterrupt:
        status = 128 + signal.SIGINT
    except BrokenPipeError:
        status = 128 + signal.SIGPIPE
    except OSError as fault:
        complain(program, failure(fault))
        status = UNREADABLE
    return status


def _drop_unwritten(stream: TextIO, number: int) -> None:
    """Drops what can't be written: at the end of Python it would fail once more, and change the
    status."""
    try:
        stream.flush()
    except OSError:
        with suppress(OSError):
            os.dup2(os.open(os.devnull, os.O_WRONLY), number)


def _ended(program: str, main: Callable[[], int]) -> int:
    """The status with which a command ends, also by `sys.exit`; a text there is its message."""
    try:
        return main()
    except SystemExit as end:
        if end.code is None or isinstance(end.code, int):
            return end.code or DONE
        complain(program, str(end.code).encode("utf-8", "surrogateescape"))
        return UNREADABLE


def _occupy_closed() -> None:
    """Gives the numbers of closed standard streams away, so that no file that is opened later has
    one of them.

    What is written to standard output then fails, and what is written to standard error is lost.
    """
    with suppress(OSError):
        for number, access in ((1, os.O_RDONLY), (2, os.O_WRONLY)):
            if not is_open(number):
                handle = os.open(os.devnull, access)
                if handle != number:
                    os.dup2(handle, number)
                    os.close(handle)
    sys.stdout = sys.stdout or open(1, "w", closefd=False)
    sys.stderr = sys.stderr or open(2, "w", closefd=False, errors="backslashreplace")


def is_open(number: int) -> bool:
    try:
        os.fstat(number)
    except OSError:
        return False
    return True


def number_of(word: str) -> Optional[int]:
    """A number as `elfmap link` reads it: decimal, or 0x and at most 16 digits, and below 2^64;
    None of any other word."""
    if not re.fullmatch("[0-9]+|0x[0-9a-f]{1,16}", word):
        return None
    if word.startswith("0x"):
        return int(word, 16)
    # Python reads no number of thousands of digits, and zeros in front may be as many.
    digits = word.lstrip("0") or "0"
    number = int(digits) if len(digits) <= 20 else 2**64
    return number if number < 2**64 else None
