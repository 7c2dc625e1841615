"""Small files made by hand, for the tests that change them or make calls on them fail."""

from .reference import (
    ALLOC,
    COMMON,
    HASH,
    PROGBITS,
    WRITE,
    edited,
    group,
    number_words,
    object_file,
    relocations,
    section,
    symbol,
    text,
)

# The names of those of a link together, with a symbol at which its executable can begin.
BY_HAND: dict[tuple[str, ...], str] = {
    ("one_section",): "",
    ("many_sections",): "",
    ("call_0", "call_1"): "main",
    ("common_0", "common_1", "common_2"): "x",
    ("groups_0", "groups_1"): "f",
    ("hash",): "",
}
CALL = b"\xe8\0\0\0\0"


def of_one_symbol(name: bytes, **more: int) -> bytes:
    """An object that has this symbol alone."""
    return object_file([], [symbol(name, None, **more)])


def call_files() -> dict[str, bytes]:
    """A file with a call of what the other one defines."""
    called = relocations([(1, 2, 2, 2**64 - 4)], 0)
    names = [symbol(b"main", 0), symbol(b"callee", None)]
    return {
        "call_0": object_file([text(CALL + b"\xc3"), called], names),
        "call_1": object_file([text()], [symbol(b"callee", 0)]),
    }


def common_files() -> dict[str, bytes]:
    """A weak definition, and two commons of its name."""
    data = section(b".data", PROGBITS, number_words("little", 1), WRITE | ALLOC, 4)
    return {
        "common_0": object_file([data], [symbol(b"x", 0, 0x20)]),
        "common_1": of_one_symbol(b"x", value=4, size=4, reserved=COMMON),
        "common_2": of_one_symbol(b"x", value=2, size=8, reserved=COMMON),
    }


def group_files() -> dict[str, bytes]:
    """Two files with the same group, of which the second calls a symbol in it."""
    grouped = [group([1]), text(flags=0x206, name=b".text.f")]
    f = symbol(b"f", 1)
    called = relocations([(1, 1, 2, 2**64 - 4)], 2)
    return {
        "groups_0": object_file(grouped, [f]),
        "groups_1": object_file([*grouped, text(CALL), called], [f]),
    }


def hash_file() -> bytes:
    """A file with a hash table of its symbol table."""
    table = section(b".hash", HASH, number_words("little", 2, 4, 1, 3, 0, 2, 0, 0), ALLOC, 4, 4)
    undefined = [symbol(it, None) for it in (b"printf", b"exit", b"a")]
    return edited(object_file([table], undefined), ("sh_link", 1, 2))


def files_by_hand() -> dict[str, bytes]:
    """The files by their names."""
    return {
        "one_section": object_file([text(align=16)]),
        "many_sections": object_file([section(b"", PROGBITS)] * 65600),
        **call_files(),
        **common_files(),
        **group_files(),
        "hash": hash_file(),
    }
