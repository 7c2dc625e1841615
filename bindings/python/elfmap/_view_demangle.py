"""Names of C++ and Rust as people write them, by the programs that know how."""

from __future__ import annotations

import re
from collections.abc import Iterable
from typing import Optional

# Names that were mangled by Rust: those of its second scheme, and those of the first one.
_OF_RUST = re.compile(r"_R|_ZN.*17h[0-9a-f]{16}E")
_MANGLED = re.compile(r"_[ZR][\x21-\x7e]+")
_MOST_SECONDS = 60


def _demangled(program: str, names: list[str]) -> dict[str, str]:
    """What a program makes of names; it prints a line for each."""
    # Only who asks for it waits for the module.
    import subprocess

    try:
        ran = subprocess.run(
            [program],
            input="".join(f"{it}\n" for it in names).encode("ascii"),
            stdout=subprocess.PIPE,
            stderr=subprocess.DEVNULL,
            timeout=_MOST_SECONDS,
        )
    except (OSError, subprocess.TimeoutExpired):
        return {}
    lines = ran.stdout.decode("utf-8", "replace").split("\n")[:-1]
    return dict(zip(names, lines)) if len(lines) == len(names) else {}


def _program(*names: str) -> Optional[str]:
    import shutil

    return next((it for it in names if shutil.which(it)), None)


class Demangler:
    """Demangles names, or leaves them as they are."""

    def __init__(self, is_wanted: bool) -> None:
        self.is_wanted = is_wanted
        self._known: dict[str, str] = {}

    def learn(self, names: Iterable[str]) -> None:
        """Asks the programs for many names at once."""
        if not self.is_wanted:
            return
        new = [
            it for it in dict.fromkeys(names) if it not in self._known and _MANGLED.fullmatch(it)
        ]
        of_rust = [it for it in new if _OF_RUST.match(it)]
        others = [it for it in new if not _OF_RUST.match(it)]
        for own, program in (
            (of_rust, _program("rustfilt", "c++filt")),
            (others, _program("c++filt")),
        ):
            if own and program:
                self._known.update(_demangled(program, own))

    def name(self, name: str) -> str:
        found = self._known.get(name, name)
        return found if found.isprintable() else name
