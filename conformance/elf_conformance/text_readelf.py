"""What `readelf -W -h -S -l -s -r -g -n -d` of binutils prints, as a reading."""

import re
from typing import Any

from .names import (
    BINDINGS,
    INDEXES,
    SECTION_TYPES,
    SEGMENT_TYPES,
    SYMBOL_TYPES,
    VISIBILITIES,
    flags,
    known,
)
from .text_header import header

Reading = dict[str, Any]
HEADER = {
    "flags": r"Flags: +(0x[0-9a-f]+)",
    "phentsize": r"Size of program headers: +(\d+)",
    "phnum": r"Number of program headers: +(\d+)",
    "shentsize": r"Size of section headers: +(\d+)",
    "shnum": r"Number of section headers: +(\d+)",
}
# Types whose names have several words.
TYPES_OF_WORDS = [it for it in SECTION_TYPES if " " in it]
SECTION = re.compile(
    r"^ *\[ *(\d+)\] (.*?) +([0-9a-f]{16}) ([0-9a-f]{6,}) ([0-9a-f]{6,}) ([0-9a-f]{2,}) "
    r"+([A-Za-z]*) +(\d+) +(\d+) +(\d+)$",
    re.M,
)
SEGMENT = re.compile(
    r"^ +(<[^>]+>: \S+|\S+) +0x([0-9a-f]+) 0x([0-9a-f]{16}) 0x([0-9a-f]{16}) "
    r"0x([0-9a-f]+) 0x([0-9a-f]+) (...) (?:0x)?([0-9a-f]+)$",
    re.M,
)
TABLE = re.compile(
    r"^Symbol table '(.*)' contains (\d+) entr(?:y|ies):\n +Num:.*\n((?:(?: +\d+:).*\n)*)", re.M
)
SYMBOL = re.compile(
    r"^ +\d+: ([0-9a-f]{16}) +(0x[0-9a-f]+|\d+) (<[^>]+>: \S+|\S+) +(<[^>]+>: \S+|\S+) +"
    r"(\S+)(?: +\[.*?\])? +([A-Z]+ ?\[0x[0-9a-f]+\]|\d+|[A-Z]+) ?(.*)$"
)
RELOCATIONS = re.compile(
    r"^Relocation section '.*' at offset 0x([0-9a-f]+) contains \d+ entr(?:y|ies):\n.*\n"
    r"((?:[0-9a-f]{16} .*\n)*)",
    re.M,
)
GROUP = re.compile(
    r"^(COMDAT )?group section \[ *(\d+)\] `.*' \[(.*)\] contains \d+ sections?:\n.*Name\n"
    r"((?: +\[ *\d+\].*\n)*)",
    re.M,
)
DYNAMIC = re.compile(
    r"^Dynamic section at offset 0x([0-9a-f]+) contains \d+ entr(?:y|ies):\n.*\n"
    r"((?: 0x[0-9a-f]{16} .*\n)*)",
    re.M,
)
NOTES = re.compile(r"^Displaying notes found in: (.*)\n +Owner.*\n((?:  .*\n)*)", re.M)
NOTE = re.compile(r"^  (\S*) *\t?0x([0-9a-f]{8})\t", re.M)


def numbered(words: str, names: dict[str, int]) -> int | None:
    """The number of a name; of `<unknown>: N` the number itself."""
    if words in names:
        return names[words]
    unknown = re.search(r"<.*>: (?:0x)?([0-9a-f]+)$", words)
    return int(unknown[1], 16) if unknown and not names.get("") else None


def kind_and_name(words: str) -> tuple[int | None, str | None]:
    """The type and the name of a section, from what is in front of its address."""
    for name in (words.rpartition(" ")[2], *TYPES_OF_WORDS):
        if name not in SECTION_TYPES:
            continue
        if words == name or words.endswith(f" {name}"):
            own = words[: -len(name)].rstrip(" ")
            # A name that is shown in the place of one that is not there.
            return SECTION_TYPES[name], "" if own in ("<no-strings>", "<none>") else own
    return None, None


def sections(text: str) -> list[Reading]:
    """The section headers."""
    made: list[Reading] = []
    for it in SECTION.findall(text):
        kind, name = kind_and_name(it[1].strip())
        address, offset, size, entsize = (int(number, 16) for number in it[2:6])
        link, info, align = (int(number) for number in it[7:])
        own = known({"type": kind, "name": name, "flags": flags(it[6])})
        places = {"addr": address, "offset": offset, "size": size, "entsize": entsize}
        made.append({**own, **places, "link": link, "info": info, "addralign": align})
    return made


def segments(text: str) -> list[Reading]:
    """The program headers."""
    made: list[Reading] = []
    for it in SEGMENT.findall(text):
        offset, address, physical, size, memory = (int(number, 16) for number in it[1:6])
        # A number in the place of a name is cut.
        own = known({"type": SEGMENT_TYPES.get(it[0])})
        places = {"offset": offset, "vaddr": address, "paddr": physical}
        sizes = {"filesz": size, "memsz": memory, "align": int(it[7], 16)}
        bits = 4 * (it[6][0] == "R") + 2 * (it[6][1] == "W") + (it[6][2] == "E")
        # Other bits of the flags are not shown.
        made.append({**own, **places, **sizes, "low_flags": bits})
    return made


def symbol(line: str) -> Reading:
    """A symbol of a line; nothing that is shown in words which are not known."""
    it = SYMBOL.match(line)
    if not it:
        return {}
    value, size, kind, binding, visibility, place, name = it.groups()
    type = numbered(kind, SYMBOL_TYPES)
    made = known({"type": type, "binding": numbered(binding, BINDINGS)})
    made |= {"value": int(value, 16), "size": int(size, 0)}
    if place.isdecimal():
        made["section"] = int(place)
    elif place in INDEXES:
        made["section"] = INDEXES[place]
    elif reserved := re.search(r"\[(0x[0-9a-f]+)\]", place):
        made["section"] = int(reserved[1], 16)
    # A symbol of type SECTION is shown with the name of its section.
    if type != SYMBOL_TYPES["SECTION"]:
        # A version is after the name.
        made["name"] = name.partition("@")[0]
    if visibility in VISIBILITIES and "[" not in line[: -len(name) or None]:
        made["other"] = VISIBILITIES[visibility]
    return made


def symbols(text: str, of_file: list[Reading]) -> Reading:
    """The symbol tables, by the indexes of their sections."""
    left = [i for i, it in enumerate(of_file) if it.get("type") in (2, 11)]
    made: Reading = {}
    for name, _, lines in TABLE.findall(text):
        fits = [i for i in left if of_file[i].get("name") == name] or left
        if fits:
            first = fits[0]
            left.remove(first)
            made[str(first)] = [symbol(line) for line in lines.splitlines()]
    return made


def relocation(line: str, has_addend: bool) -> Reading:
    """A relocation of a line."""
    place, info, rest = line.split(maxsplit=2)
    number = int(info, 16)
    made = {"offset": int(place, 16), "symbol": number >> 32, "type": number % 2**32}
    if has_addend:
        signed = re.search(r"([+-]) ([0-9a-f]+)$", rest)
        alone = re.search(r" {2,}(-?)([0-9a-f]+)$", rest)
        found = signed or alone
        if found:
            made["addend"] = int(found[2], 16) * (-1 if found[1] == "-" else 1)
    return made


def relocations(text: str, of_file: list[Reading]) -> Reading:
    """The relocations, by the indexes of their sections."""
    made: Reading = {}
    for offset, lines in RELOCATIONS.findall(text):
        for i, it in enumerate(of_file):
            if it.get("type") in (4, 9) and it["offset"] == int(offset, 16) and it["size"]:
                rows = [relocation(line, it["type"] == 4) for line in lines.splitlines()]
                made[str(i)] = rows
    return made


def groups(text: str) -> Reading:
    """The section groups."""
    made: Reading = {}
    for comdat, index, signature, lines in GROUP.findall(text):
        members = [int(it) for it in re.findall(r"\[ *(\d+)\]", lines)]
        made[index] = {"flags": int(bool(comdat)), "signature": signature, "members": members}
    return made


def dynamic(text: str, of_file: list[Reading]) -> Reading:
    """The dynamic array up to NULL; a name is in brackets."""
    made: Reading = {}
    for offset, lines in DYNAMIC.findall(text):
        rows: list[Reading] = []
        for tag, rest in re.findall(r"^ (0x[0-9a-f]{16}) (.*)$", lines, re.M):
            if int(tag, 16) == 0:
                break
            row: Reading = {"tag": int(tag, 16)}
            if name := re.search(r": \[(.*)\]$", rest):
                row["string"] = name[1]
            elif number := re.search(r" (0x[0-9a-f]+)$", rest):
                row["value"] = int(number[1], 16)
            rows.append(row)
        for i, it in enumerate(of_file):
            if it.get("type") == 6 and it["offset"] == int(offset, 16):
                made[str(i)] = rows
    return made


def notes(text: str, of_file: list[Reading]) -> Reading | None:
    """The owners and sizes of notes, by the sections of their names; nothing if a name is of no one
    section."""
    made: Reading = {}
    for name, lines in NOTES.findall(text):
        fits = [i for i, it in enumerate(of_file) if (it.get("name"), it.get("type")) == (name, 7)]
        if len(fits) != 1:
            return None
        made[str(fits[0])] = [
            {"name": "" if owner == "(NONE)" else owner, "size": int(size, 16)}
            for owner, size in NOTE.findall(lines)
        ]
    return made


def reading(text: str) -> Reading:
    """All that it prints."""
    own = sections(text.partition("\nKey to Flags:")[0])
    made: Reading = {"header": header(text, HEADER), "sections": own}
    made["segments"] = segments(text.partition("\nProgram Headers:")[2].partition("\n\n")[0] + "\n")
    made["symbols"] = symbols(text, own)
    made["relocations"] = relocations(text, own)
    made["groups"] = groups(text)
    if any(it.get("type") == 6 for it in own) and "\nDynamic section at" in text:
        made["dynamic"] = dynamic(text, own)
    of_notes = notes(text, own) if "Displaying notes" in text else None
    if of_notes is not None:
        made["notes"] = of_notes
    return made
