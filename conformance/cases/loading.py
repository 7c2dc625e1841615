"""Programs for x86-64 that a loader runs. Each ends with status 42 if it is loaded as its program
headers say. They have a dynamic array, so that loaders of libraries take them too."""

from collections.abc import Callable

from elf_conformance.build import LOAD, Elf, edited, record, words, xwords, SYMBOL

from .case import RULES, single

BASE = 0x400000
STATUS = 42
PAGE = 0x1000
# How long the dynamic array and its tables are.
TABLES = 12 * 16 + 24 + 8 + 16


def exit_with(status_code: bytes) -> bytes:
    """Code that ends the process with the status in edi, which this code sets."""
    return status_code + b"\xb8\x3c\0\0\0\x0f\x05"


EXIT_42 = exit_with(b"\xbf\x2a\0\0\0")


def exit_with_byte_at(address: int, more: int = 0) -> bytes:
    """Code that ends with the status that is the byte at an address, and so much more."""
    load = b"\x0f\xb6\x3c\x25" + address.to_bytes(4, "little")
    return exit_with(load + b"\x83\xc7" + bytes([more]))


def program(code: bytes, *others: dict[str, int], data: bytes = b"", **first: int) -> bytes:
    """A program: one segment with the header, the tables and the code, and others; the data are
    after the first page of the file."""
    it = Elf(e_type=2)
    count = 2 + len(others)
    begin = 64 + 56 * count
    at = BASE + begin
    symbols = at + 12 * 16
    names = symbols + 24
    hashes = names + 8
    entries = (4, hashes, 5, names, 6, symbols, 10, 1, 11, 24, 0, 0)
    content = xwords("little", *entries).ljust(12 * 16, b"\0") + record("little", SYMBOL)
    content += bytes(8) + words("little", 1, 1, 0, 0)
    it.header["e_entry"] = at + len(content)
    length = begin + len(content) + len(code)
    whole = {"p_filesz": length, "p_memsz": length, "p_flags": 7, "p_align": PAGE}
    it.segment(LOAD, p_vaddr=BASE, **{"p_paddr": BASE, **whole, **first})
    for fields in others:
        it.segment(**{"type": LOAD, "p_flags": 6, "p_align": PAGE, **fields})
    place = {"p_offset": begin, "p_vaddr": at, "p_paddr": at, "p_align": 8, "p_flags": 6}
    it.segment(2, p_filesz=96, p_memsz=96, **place)
    file = it.file() + content + code
    return file.ljust(PAGE, b"\xee") + data if data else file


def loading(rule: int = 0) -> Callable[[Callable[[], bytes]], Callable[[], bytes]]:
    """Adds a program: one that is loaded, or breaks a rule."""

    def add(function: Callable[[], bytes]) -> Callable[[], bytes]:
        name = f"5-program-header/load-{function.__name__.replace('_', '-')}"
        more: dict[str, object] = {"answer": "accepts", "reading": {"loading": {"status": STATUS}}}
        if rule:
            known = RULES[rule]
            more = {"answer": "refuses", "rule": {"number": rule, "breaks": True}}
            more |= {"part": known.part, "sentence": known.sentence, "point": known.point}
        single("loading", name, function, [function()], **more)
        return function

    return add


@loading()
def program_of_one_segment() -> bytes:
    """A program of one segment."""
    return program(EXIT_42)


@loading()
def data_in_a_second_segment() -> bytes:
    """The status is a byte of a second segment."""
    place = {"p_offset": PAGE, "p_vaddr": 0x600000, "p_filesz": 1, "p_memsz": 1}
    return program(exit_with_byte_at(0x600000), place, data=b"\x2a")


@loading()
def memory_after_the_file_is_zero() -> bytes:
    """The status is 42 more than a byte right after the bytes of the file, which is zero, though
    the file has another byte there."""
    place = {"p_offset": PAGE, "p_vaddr": 0x600000, "p_filesz": 1, "p_memsz": 64}
    return program(exit_with_byte_at(0x600001, 42), place, data=b"\x2a" + b"\xff" * 64)


@loading()
def memory_of_the_next_page_is_zero() -> bytes:
    """The status is 42 more than a byte of a page that has no bytes in the file."""
    place = {"p_offset": PAGE, "p_vaddr": 0x600000, "p_filesz": 1, "p_memsz": 3 * PAGE}
    return program(exit_with_byte_at(0x600000 + 2 * PAGE, 42), place, data=b"\x2a" + b"\xff" * 64)


@loading()
def segment_without_bytes_in_the_file() -> bytes:
    """The status is 42 more than a byte of a segment that has no bytes in the file."""
    place = {"p_offset": 0, "p_vaddr": 0x600000, "p_filesz": 0, "p_memsz": 64}
    return program(exit_with_byte_at(0x600010, 42), place)


@loading()
def segment_in_the_middle_of_a_page() -> bytes:
    """The second segment begins in the middle of a page, in the file and in memory."""
    place = {"p_offset": PAGE + 0x123, "p_vaddr": 0x600123, "p_filesz": 1, "p_memsz": 1}
    return program(exit_with_byte_at(0x600123), place, data=b"\xff" * 0x123 + b"\x2a")


@loading()
def alignment_of_0() -> bytes:
    """The alignment of the segment is 0, which asks for none."""
    return program(EXIT_42, p_align=0)


@loading()
def alignment_of_2_mib() -> bytes:
    """The alignment of the segment is 2 MiB, to which its address is a multiple."""
    return program(EXIT_42, p_align=0x200000)


@loading()
def segment_of_type_null() -> bytes:
    """A program header of type NULL, whose other fields mean nothing."""
    far = {"type": 0, "p_offset": 2**63, "p_vaddr": 5, "p_filesz": 2**63, "p_memsz": 1}
    return program(EXIT_42, far)


@loading()
def segment_of_an_unknown_type() -> bytes:
    """A program header of a type of an operating system that nobody knows."""
    return program(EXIT_42, {"type": 0x6FFF1234, "p_align": 1})


@loading()
def physical_address_of_another_place() -> bytes:
    """The physical address of a segment is another one, which a process does not see."""
    return program(EXIT_42, p_paddr=0x12345)


@loading(6)
def identification_of_version_2() -> bytes:
    """The version in the identification is 2."""
    return edited(program(EXIT_42), "ei_version", 2)


@loading(5)
def big_endian_by_its_identification() -> bytes:
    """The data encoding is 3, which is not defined."""
    return edited(program(EXIT_42), "ei_data", 3)


@loading(4)
def class_of_3() -> bytes:
    """The class is 3, which is not defined."""
    return edited(program(EXIT_42), "ei_class", 3)


@loading(7)
def version_of_2() -> bytes:
    """`e_version` is 2."""
    return edited(program(EXIT_42), "e_version", 2)


@loading(8)
def header_size_of_63() -> bytes:
    """`e_ehsize` is 63."""
    return edited(program(EXIT_42), "e_ehsize", 63)


@loading(19)
def program_headers_of_57_bytes() -> bytes:
    """`e_phentsize` is 57."""
    return edited(program(EXIT_42), "e_phentsize", 57)


@loading(25)
def segment_past_the_file() -> bytes:
    """A segment of two pages passes the end of the file."""
    file = program(EXIT_42)
    return edited(edited(file, "p_filesz", 2 * PAGE), "p_memsz", 2 * PAGE)


@loading(26)
def memory_below_the_file() -> bytes:
    """`p_memsz` is less than `p_filesz`."""
    return edited(program(EXIT_42), "p_memsz", 64)


@loading(27)
def alignment_of_3() -> bytes:
    """`p_align` is 3."""
    return edited(program(EXIT_42), "p_align", 3)


@loading(28)
def address_that_is_not_congruent() -> bytes:
    """`p_vaddr` and `p_offset` of a second segment differ modulo `p_align`."""
    place = {"p_offset": PAGE + 1, "p_vaddr": 0x600000, "p_filesz": 1, "p_memsz": 1}
    return program(EXIT_42, place, data=b"\0\x2a")


@loading(29)
def segments_out_of_order() -> bytes:
    """The second segment has a lower address than the first."""
    place = {"p_offset": PAGE, "p_vaddr": 0x200000, "p_filesz": 1, "p_memsz": 1}
    return program(EXIT_42, place, data=b"\x2a")
