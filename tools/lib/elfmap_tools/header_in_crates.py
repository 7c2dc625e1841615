"""What the crates of the library for C declare for C: it has to be what include/elfmap.h declares,
with the fields of each struct in the same order."""

import re

from .header import HIGHEST, NUMBERS, PREFIX, Type, of_library
from .suite import Tally
from .tree import LIBRARIES_OF, read_text, texts_of

# The numbers of Rattle, as C has them.
IN_C = {rattle: name for name, rattle in NUMBERS.items()}
# The struct of C for a slice of bytes, where there are many of them. Crates have no struct for it.
SLICE = f"{PREFIX}bytes"
# The comment on a struct begins with its tag.
STRUCT = re.compile(
    rf"^/// `struct ({PREFIX}\w+)`.*\n#\[repr\(C\)\]\n(?:#.*\n)*pub struct (\w+) \{{\n([^}}]*)\}}",
    re.M,
)
FIELD = re.compile(r"^    pub (\w+): (.+),$", re.M)
CALL = re.compile(rf' extern "C" fn ({PREFIX}\w+)\(([^)]*)\) -> (\w+)')
# An allocator passes nothing in C.
PARAMETER = re.compile(r"\w+: (?!Global)([^,]+)")
TYPE = re.compile(r"^(&mut |&|)\[?(\w+)(?:; (\d+))?\]?$")
CONSTANT = re.compile(r"^(?:pub\S* )?const (\w+): (u\d+) = ([\d_]+);", re.M)


def text_of_crates() -> str:
    """The code of the library's crates, with numbers for the constants of others."""
    paths = (path for it in LIBRARIES_OF if it.startswith("elf_c") for path in texts_of(it))
    text = "\n".join(read_text(it) for it in paths if it.endswith(".rt"))
    return text.replace("u64::MAX", str(HIGHEST)).replace("EI_NIDENT", "16")


def type_of(kind: str, tags: dict[str, str]) -> Type:
    """A type of Rattle as C has it, with the tags of structs by their names."""
    ((borrow, name, length),) = TYPE.findall(kind.replace("&[&[u8]]", f"&[{SLICE}]"))
    own = IN_C.get(name, tags.get(name, name))
    return Type(own, bool(borrow), borrow == "&", int(length or 0))


def parameters(text: str, tags: dict[str, str]) -> list[Type]:
    """The types of a call's parameters as C has them: a slice is a pointer and a length."""
    found: list[Type] = []
    for kind in PARAMETER.findall(text):
        found += [type_of(kind, tags), *([Type("size_t")] if "[" in kind else [])]
    return found


def compare_structs(tally: Tally, text: str, tags: dict[str, str]) -> None:
    """The structs of the crates are those of the header."""
    found = STRUCT.findall(text)
    declared = {it.tag: it.fields for it in of_library().structs}
    tally.same("the structs for C", {*tags.values(), SLICE}, set(declared))
    tally.same("the structs for C that have a tag", len(found), text.count("#[repr(C)]"))
    for tag, name, body in found:
        fields = [(field, type_of(kind, tags)) for field, kind in FIELD.findall(body)]
        right = [(it.name, it.type) for it in declared.get(tag, [])]
        tally.same(f"the fields of {name}", fields, right)


def compare_crates(tally: Tally) -> None:
    """The crates declare what the header declares."""
    text = text_of_crates()
    tags = {name: tag for tag, name, _ in STRUCT.findall(text)}
    compare_structs(tally, text, tags)
    right = {it.name: (it.result, [own.type for own in it.parameters]) for it in of_library().calls}
    calls = CALL.findall(text)
    found = {name: (IN_C[result], parameters(given, tags)) for name, given, result in calls}
    tally.same("the calls for C", found, right)
    constants = {it.name: (NUMBERS[it.type], str(it.value)) for it in of_library().constants}
    for name, kind, value in CONSTANT.findall(text):
        if name in constants:
            tally.same(f"the constant {name}", (kind, value.replace("_", "")), constants[name])
