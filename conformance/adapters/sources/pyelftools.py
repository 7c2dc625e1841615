"""Prints what pyelftools reads of a file, as JSON in the form of the index."""

import json
import struct
import sys

sys.path.append("/usr/lib/python3/dist-packages")
import elftools  # noqa: E402
from elftools.common.exceptions import ELFError  # noqa: E402
from elftools.construct import ConstructError  # noqa: E402
from elftools.elf import enums  # noqa: E402
from elftools.elf.elffile import ELFFile  # noqa: E402
from elftools.elf.relocation import RelocationSection  # noqa: E402
from elftools.elf.sections import SymbolTableSection  # noqa: E402


def number(value, names):
    """A number, which pyelftools gives as its name if it knows one."""
    return names.get(value, value)


def name_of(text):
    """A name in which each character is a byte."""
    return text.encode("utf-8", "surrogateescape").decode("latin-1")


def row(fields, before, **numbers):
    """The fields of a record without what is before their names."""
    made = {key[len(before) :]: fields[key] for key in fields if key.startswith(before)}
    return {**made, **numbers}


def symbol(it):
    """A symbol."""
    info = it.entry["st_info"]
    place = number(it.entry["st_shndx"], enums.ENUM_ST_SHNDX)
    made = {"name": name_of(it.name), "value": it.entry["st_value"], "size": it.entry["st_size"]}
    made["binding"] = number(info["bind"], enums.ENUM_ST_INFO_BIND)
    made["type"] = number(info["type"], enums.ENUM_ST_INFO_TYPE)
    # The escape is left to the caller.
    return {**made, **({} if place == 0xFFFF else {"section": place})}


def relocation(it):
    """A relocation."""
    made = {"offset": it["r_offset"], "symbol": it["r_info_sym"], "type": it["r_info_type"]}
    return {**made, **({"addend": it["r_addend"]} if it.is_RELA() else {})}


def reading(file):
    """What it reads."""
    e = file.header
    header = {"entry": e["e_entry"], "phoff": e["e_phoff"], "shoff": e["e_shoff"]}
    header |= {"flags": e["e_flags"], "order": "little" if file.little_endian else "big"}
    sections = []
    symbols = {}
    relocations = {}
    for index, it in enumerate(file.iter_sections()):
        kind = number(it["sh_type"], enums.ENUM_SH_TYPE_BASE)
        own = row(it.header, "sh_", type=kind, name=name_of(it.name))
        sections.append({key: value for key, value in own.items() if isinstance(value, (int, str))})
        if isinstance(it, SymbolTableSection):
            symbols[str(index)] = [symbol(one) for one in it.iter_symbols()]
        elif isinstance(it, RelocationSection):
            relocations[str(index)] = [relocation(one) for one in it.iter_relocations()]
    segments = [
        row(it.header, "p_", type=number(it["p_type"], enums.ENUM_P_TYPE_BASE))
        for it in file.iter_segments()
    ]
    made = {"header": header, "sections": sections, "segments": segments}
    return {**made, "symbols": symbols, "relocations": relocations}


def only_known(made):
    """Without types that it gives by a name of a processor or a system."""
    for it in [*made["sections"], *made["segments"]]:
        if isinstance(it.get("type"), str):
            del it["type"]
    return made


if sys.argv[1] == "--version":
    print("pyelftools", elftools.__version__)
    sys.exit()
try:
    with open(sys.argv[1], "rb") as stream:
        print(json.dumps(only_known(reading(ELFFile(stream)))))
except (ELFError, ConstructError, struct.error, UnicodeError, ValueError, OSError) as error:
    print(f"{type(error).__name__}: {error}", file=sys.stderr)
    sys.exit(1)
