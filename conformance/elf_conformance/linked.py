"""What a linked program says of names. The entry point of each program of the suite is a table:
`TAB`, the number of its rows, a bit for each row that is relative to its place, and the rows,
addresses of eight bytes. A row leads to eight bytes, by which one knows the definition."""

from typing import Any

from .build import value_of

Reading = dict[str, Any]
LOAD = 1
FIRST = 8


def loaded(file: bytes, address: int, size: int) -> bytes | None:
    """The bytes at an address of a program; nothing if no segment has it."""
    for k in range(value_of(file, "e_phnum")):
        names = ("p_type", "p_vaddr", "p_memsz", "p_filesz", "p_offset")
        type, start, memory, filled, offset = (value_of(file, name, k) for name in names)
        if type == LOAD and start <= address and address + size <= start + memory:
            content = file[offset : offset + filled].ljust(min(memory, filled + 4096), b"\0")
            at = address - start
            return content[at : at + size].ljust(size, b"\0")
    return None


def row(file: bytes, at: int, is_relative: bool) -> Reading:
    """What a row leads to."""
    own = int.from_bytes(loaded(file, at, 8) or b"", "little")
    address = (own + at) % 2**64 if is_relative else own
    if address == 0:
        return {"points": "nothing"}
    content = loaded(file, address, 8)
    if content is None:
        return {"points": "no segment", "value": address}
    return {"points": "zeros" if content == bytes(8) else content.decode("latin-1")}


def table(file: bytes) -> Reading | None:
    """The rows of a program's table; nothing if its entry point is none."""
    if file[:4] != b"\x7fELF" or len(file) < 64:
        return None
    begin = value_of(file, "e_entry")
    head = loaded(file, begin, FIRST)
    if head is None or head[:3] != b"TAB":
        return {"links": []}
    relative = int.from_bytes(head[4:], "little")
    rows = [row(file, begin + FIRST + 8 * k, bool(relative >> k & 1)) for k in range(head[3])]
    return {"links": rows}
