"""Strings in contents: what stands around a byte, where a person would read it as text."""

from __future__ import annotations

from elfmap.constants import SHF

from typing import NamedTuple, Optional

_EXECINSTR = SHF.EXECINSTR.value
_STRINGS = SHF.STRINGS.value
# So many bytes before and after a byte are searched for the ends of a string.
_MOST_BYTES = 4096
# In a content that need not be strings a text has so many letters.
_LEAST_LETTERS = 4


class Pair(NamedTuple):
    """Where two strings begin that differ, and the strings."""

    start: int
    one: bytes
    other: bytes


def strings_at(
    one: memoryview, other: memoryview, at: int, flags: int, size: int
) -> Optional[Pair]:
    """The strings around the first byte that differs, in a section of these flags whose entries
    have this size; None where it has none, or one that begins too far away."""
    start = _start(one, at)
    if start is None or flags & _EXECINSTR or size > 1:
        return None
    found = Pair(start, _string(one, start, at), _string(other, start, at))
    is_certain = flags & _STRINGS
    return found if is_certain or _is_text(found.one) and _is_text(found.other) else None


def _start(content: memoryview, at: int) -> Optional[int]:
    """Where the string begins that has the byte at an offset; None if that is too far away."""
    least = max(at - _MOST_BYTES - 1, 0)
    start = least + bytes(content[least:at]).rfind(b"\0") + 1
    return start if at - start <= _MOST_BYTES else None


def _string(content: memoryview, start: int, at: int) -> bytes:
    return bytes(content[start : at + _MOST_BYTES]).partition(b"\0")[0]


def _is_text(string: bytes) -> bool:
    """Whether it is text, as far as that can be seen."""
    try:
        words = string.decode("utf-8")
    except UnicodeDecodeError:
        return False
    letters = words.translate({9: " ", 10: " ", 13: " "})
    return len(letters) >= _LEAST_LETTERS and letters.isprintable()
