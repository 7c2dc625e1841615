"""`tools/test rules-tables`: the tables of rules in the crates and the bindings are those of
docs/RULES.md, and reference/image.py has the same names. The constants of the crate for Rust and of
the page are those of the Python package, and the crate elf_field has the same numbers. Both
bindings, the page and the crates declare what include/elfmap.h declares."""

from .header import PATH, parsed
from .header_in_crates import compare_crates
from .numbers_in_crates import compare_numbers
from .reference import RULE_NAMES
from .rules_in_code import tables
from .rules_page import rules_of
from .suite import Tally, Test
from .tree import Options, read_text

# What the reader of the header does not know, and may not pass over.
UNKNOWN = (
    "typedef int number;\n",
    "enum { ELFMAP_DONE = -1 };\n",
    "struct elfmap_pair {\n    uint64_t first, second;\n};\n",
    "struct elfmap_long {\n    long number;\n};\n",
    "bool elfmap_many(const uint8_t *bytes, ...);\n",
)


def is_refused(text: str) -> bool:
    """Whether the reader refuses a header."""
    try:
        parsed(text)
    except SystemExit:
        return True
    return False


@Test(
    "rules-tables",
    "what the crates and the bindings have of docs/RULES.md and include/elfmap.h is the same",
)
def try_rules_tables(tally: Tally, options: Options) -> None:
    for path, text in tables().items():
        why = f"{path} is not what it is made from; `tools/release tables` makes it again"
        tally.check(read_text(path) == text, why)
    names = [it.name for it in rules_of("image", range(1, 34))]
    tally.check(RULE_NAMES == names, "reference/image.py has other names than docs/RULES.md")
    compare_crates(tally)
    compare_numbers(tally)
    for it in UNKNOWN:
        tally.check(is_refused(read_text(PATH) + it), f"{PATH} may have {it!r}")
