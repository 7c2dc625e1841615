"""The executable of a link (System V ABI, generic part, chapter 4, ELF Header, and chapter 5,
Program Header; which segments there are, and where their bytes stand, is this project's profile):
one segment of type LOAD for each output section that takes memory, and one for the commons if they
do."""
import link
import objects
from objects import record
from records import HEADER, LOAD, PN_XNUM, PROGRAM_HEADER

EXEC = 2
PF_X = 1
PF_W = 2
PF_R = 4
SHF_WRITE = 1
SHF_EXECINSTR = 4
EHDR_SIZE = 64
PHDR_SIZE = 56
MAX_LEN = 2**30


def permissions(flags):
    return PF_R + (PF_W if flags & SHF_WRITE else 0) + (PF_X if flags & SHF_EXECINSTR else 0)


def output_content(it, start, length, members):
    """The bytes of an output section with bits: its members at their addresses, and zeros
    between."""
    relocated = link.relocated(it)
    content = bytearray(length)
    for f, s, at in members:
        content[at - start : at - start + len(relocated[f, s])] = relocated[f, s]
    return bytes(content)


def segments(it):
    """The address, the size, the permissions and the bytes of each segment; None for the bytes of
    one that has none in the file."""
    all_outputs, common_at = link.placed(it)
    for (_, flags, is_without_bits), start, length, members in all_outputs:
        if length > 0:
            content = None if is_without_bits else output_content(it, start, length, members)
            yield start, length, permissions(flags), content
    chosen = link.commons(it)
    if chosen:
        start = common_at[chosen[0][0]]
        last, size, _ = chosen[-1]
        if common_at[last] + size > start:
            yield start, common_at[last] + size - start, PF_R + PF_W, None


def entry_address(it):
    return 0 if it.entry is None else link.value_of(it, it.at, it.common_at, it.entry)[0]


def file_header(it, count):
    if it.files:
        first = it.files[0]
    else:
        first = objects.Value(order="little", osabi=0, abi=0, machine=0, flags=0)
    data = 1 if first.order == "little" else 2
    identification = b"\x7fELF\2" + bytes([data, 1, first.osabi, first.abi]) + bytes(7)
    fields = record(
        first.order,
        HEADER,
        e_type=EXEC,
        e_machine=first.machine,
        e_version=1,
        e_entry=entry_address(it),
        e_phoff=EHDR_SIZE if count else 0,
        e_flags=first.flags,
        e_ehsize=EHDR_SIZE,
        e_phentsize=PHDR_SIZE if count else 0,
        e_phnum=count,
    )
    return first.order, identification + fields[16:]


def executable(it):
    """The file; None where it is too long, or has too many segments for its header."""
    all_segments = list(segments(it))
    end = EHDR_SIZE + PHDR_SIZE * len(all_segments)
    places = []
    for _, _, _, content in all_segments:
        places.append(link.up(end, it.page) if content is not None else 0)
        end = places[-1] + len(content) if content is not None else end
    if end > MAX_LEN or len(all_segments) >= PN_XNUM:
        return None
    order, file = file_header(it, len(all_segments))
    for (address, size, flags, content), place in zip(all_segments, places):
        file += record(
            order,
            PROGRAM_HEADER,
            p_type=LOAD,
            p_flags=flags,
            p_offset=place,
            p_vaddr=address,
            p_paddr=address,
            p_filesz=len(content or b""),
            p_memsz=size,
            p_align=it.page,
        )
    for (_, _, _, content), place in zip(all_segments, places):
        if content is not None:
            file = file.ljust(place, b"\0") + content
    return file


def answer(contents, base, page, rules, entry):
    """What `elfmap link` says of these files: the text of a refusal, empty where there is none, and
    the executable."""
    refused, it = link.validated(contents, base, page, rules, entry)
    if refused:
        return refused, b""
    file = executable(it)
    return ("too long\n", b"") if file is None else ("", file)
