"""The numbers of the gABI where they are written by hand beside the Python package: in the crate
elf_field, once in the code and once in the definitions. `tools/test rules-tables` compares them."""

import re
from collections.abc import Iterator

from elfmap import _names, constants

from .constants_in_rust import TYPES
from .suite import Tally
from .tree import read_text

CODE = "crates/elf_field/src/abi.rt"
DEFINITIONS = "crates/elf_field/specs/Abi.antt"
KIND = "|".join(TYPES)
# A constant of the code, and one of the definitions.
FORMS = {
    CODE: re.compile(rf"^pub const (?P<name>(?:{KIND})_\w+): \w+ = (?P<number>\w+);", re.M),
    DEFINITIONS: re.compile(rf"^(?P<name>(?:{KIND})_\w+) = (?:pos )?(?P<number>\w+)$", re.M),
}
# A bound of a kind is no number of it, but for that of the reserved indexes.
BOUNDS = {"SHN_LORESERVE"}


def known() -> dict[str, int]:
    """The numbers of the Python package by their whole names."""
    return {
        f"{prefix}_{name}": int(it)
        for prefix, (kind, _) in TYPES.items()
        for name, it in kind.__members__.items()
    }


def written(path: str) -> Iterator[tuple[str, int]]:
    """The numbers in a file of the crate."""
    for it in FORMS[path].finditer(read_text(path)):
        if not it["name"].endswith("_AT") and it["name"] not in BOUNDS:
            yield it["name"], int(it["number"], 0)


def compare_numbers(tally: Tally) -> None:
    """Both files have the numbers of the Python package; and it has those of machines once more,
    among the names of all."""
    numbers = known()
    for path in FORMS:
        found = dict(written(path))
        tally.check(len(found) > 50, f"{path} has {len(found)} numbers of the gABI")
        for name, number in found.items():
            tally.check(numbers.get(name) == number, f"{path}: {name} is another number")
    for machine in constants.EM:
        own = _names.MACHINES.get(machine.value)
        tally.check(own == machine.name, f"EM_{machine.name} is called {own} too")
