"""Where the viewer writes: standard output, or on a terminal a pager, as git has it.

The pager is what ELFMAP_PAGER or PAGER says, or less. None is used if that is empty or `cat`.
"""

from __future__ import annotations

import os
from contextlib import suppress
from typing import TYPE_CHECKING, BinaryIO, Optional

if TYPE_CHECKING:
    import subprocess


def pager_command(is_wanted: bool) -> Optional[str]:
    """The command of the pager; None where there is none to be used."""
    if not is_wanted or not os.isatty(1) or os.environ.get("TERM", "dumb") == "dumb":
        return None
    # Most screens go to a pipe or a file, and start without these modules.
    import shutil

    found = os.environ.get("ELFMAP_PAGER", os.environ.get("PAGER", "less"))
    if found in ("", "cat") or found == "less" and not shutil.which("less"):
        return None
    return found


class Paged:
    """What is written to: a pager, or else standard output. A pager that ends early is no error."""

    def __init__(self, command: Optional[str]) -> None:
        self._command = command
        self._process: Optional[subprocess.Popen[bytes]] = None

    def __enter__(self) -> BinaryIO:
        if not self._command:
            self._out: BinaryIO = open(1, "wb", closefd=False)
            return self._out
        import subprocess

        # less ends where all fits on a screen, keeps colours, and leaves the text there.
        own = {"LESS": "FRX", "LV": "-c", **os.environ}
        self._process = subprocess.Popen(
            self._command, shell=True, stdin=subprocess.PIPE, env=own, bufsize=-1
        )
        assert self._process.stdin
        self._out = self._process.stdin  # type: ignore[assignment]
        return self._out

    def __exit__(self, kind: Optional[type[BaseException]], *_: object) -> bool:
        if not self._process:
            if kind is None:
                self._out.close()
            else:
                with suppress(OSError):
                    self._out.close()
            return False
        with suppress(BrokenPipeError):
            self._out.close()
        while True:
            # The pager ends by itself, also where a key interrupts this program.
            with suppress(KeyboardInterrupt):
                self._process.wait()
                break
        return kind is not None and issubclass(kind, (BrokenPipeError, KeyboardInterrupt))
