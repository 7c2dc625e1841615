"""A link as the proved engines answer it: whether files link, and the lines of `elfmap map`.

Nothing of a link is worked out here: the lines say which sections are live, where they are,
and what each name is bound to.
"""

from __future__ import annotations

import ctypes
from collections.abc import Sequence
from typing import Any, NamedTuple, Optional, Union

from elfmap import BadRules, NotLinked, Refused, TooLong, _declared, _library
from elfmap._map_lines import LinkMap
from elfmap._sources import LONGEST, Unreadable

MOST_FILES = 64
Refusal = Union[Refused, NotLinked, TooLong, BadRules]
# The bytes of a text, or a buffer, and how many there are.
_Text = tuple[Any, int]
_NOTHING: _Text = (_library.nowhere, 0)


class Options(NamedTuple):
    """The words of a link: without an entry point none is looked for."""

    rules: bytes
    base: int
    page: int
    entry: Optional[bytes]


class Link:
    """The files of a link, whose bytes are not copied."""

    def __init__(self, contents: Sequence[bytes], options: Options) -> None:
        self._options = options
        # The addresses of the files are those of their bytes as long as these views are there.
        self._views = [memoryview(it) for it in contents]
        self._files = _library.files_of(self._views)

    def refusal(self) -> Optional[Refusal]:
        """Why the files do not link, as `elfmap link` prints it; None if they do. Without an entry
        point none is looked for, and how long the executable would be does not count."""
        rules = self._options.rules, len(self._options.rules)
        entry = self._options.entry
        if entry is not None:
            return _refusal(*self._call("elfmap_link", (entry, len(entry)), rules, room=_NOTHING))
        return _refusal(*self._call("elfmap_link_verdict", _NOTHING, rules))

    def map(self) -> Optional[LinkMap]:
        """The link map without relocations; None if the files break a rule before these."""
        status, outcome = self._call("elfmap_map", _NOTHING, room=_NOTHING)
        if status != _declared.SMALL_ROOM:
            _refusal(status, outcome)
            return LinkMap("")
        length = outcome.length
        if length > LONGEST:
            raise Unreadable("the link map is longer than 2^30 bytes")
        room = ctypes.create_string_buffer(length)
        status, outcome = self._call("elfmap_map", _NOTHING, room=(room, length))
        is_refused = _refusal(status, outcome) is not None
        return None if is_refused else LinkMap(room.raw[: outcome.length].decode("ascii"))

    def _call(
        self, name: str, *texts: _Text, room: Optional[_Text] = None
    ) -> tuple[int, _declared.Outcome]:
        """A call of an engine with its texts, the last of which is that of the rules, and the
        buffer for what it writes, if it writes anything."""
        outcome = _declared.Outcome()
        uses_rules = texts[-1] is not _NOTHING
        options = _declared.Options(self._options.base, self._options.page, uses_rules)
        words = (it for text in (*texts, *([room] if room else [])) for it in text)
        call = getattr(_library.library(), name)
        return call(self._files, len(self._files), options, *words, outcome), outcome

    def bad_line(self) -> int:
        """The first line of the rules that is bad, from 1; 0 if there is none."""
        fault = self.refusal()
        return fault.line if isinstance(fault, BadRules) else 0


def _refusal(status: int, it: _declared.Outcome) -> Optional[Refusal]:
    if status == _declared.REFUSED:
        return Refused(it.rule, it.at, it.file)
    if status == _declared.NOT_LINKED:
        return NotLinked(it.rule, it.file, it.index, it.at)
    if status == _declared.TOO_LONG:
        return TooLong()
    if status == _declared.BAD_RULES:
        return BadRules(it.at)
    if status == _declared.NO_MEMORY:
        raise Unreadable("there is no memory for the link")
    return None
