"""A source of chance that gives the same numbers by every version of Python: SplitMix64."""

from collections.abc import Sequence
from typing import TypeVar

T = TypeVar("T")
WORD = 2**64


def seed_of(text: str) -> int:
    """A number of 64 bits by a text: FNV-1a."""
    found = 0xCBF29CE484222325
    for byte in text.encode():
        found = (found ^ byte) * 0x100000001B3 % WORD
    return found


class Chance:
    """Numbers by chance. The same seed gives the same numbers."""

    def __init__(self, seed: str) -> None:
        self.state = seed_of(seed)

    def word(self) -> int:
        """A number below 2^64."""
        self.state = (self.state + 0x9E3779B97F4A7C15) % WORD
        mixed = self.state
        mixed = (mixed ^ mixed >> 30) * 0xBF58476D1CE4E5B9 % WORD
        mixed = (mixed ^ mixed >> 27) * 0x94D049BB133111EB % WORD
        return mixed ^ mixed >> 31

    def below(self, bound: int) -> int:
        """A number below this one."""
        return self.word() % bound

    def one_of(self, items: Sequence[T]) -> T:
        """One of these."""
        return items[self.below(len(items))]

    def some_bytes(self, count: int) -> bytes:
        """So many bytes."""
        return bytes(self.below(256) for _ in range(count))
