"""What `llvm-readobj --all --expand-relocs` prints, as a reading."""

import re
from typing import Any

Reading = dict[str, Any]
OPENS = re.compile(r"^(.*?) ?([\[{])(?: \((.*)\))?$")
IN_BRACKETS = re.compile(r"\((0x[0-9A-Fa-f]+|\d+)\)$")


class Node:
    """A block of the output: its title, what is in brackets after it, its values, the blocks in it,
    and its other lines."""

    def __init__(self, title: str, number: str = "") -> None:
        self.title = title
        self.number = number
        self.values: dict[str, str] = {}
        self.nodes: list[Node] = []
        self.lines: list[str] = []

    def named(self, title: str) -> "list[Node]":
        """The blocks in it that have this title."""
        return [it for it in self.nodes if it.title == title]

    def inside(self, title: str) -> "list[Node]":
        """The blocks in the first one that has this title."""
        found = self.named(title)
        return found[0].nodes if found else []

    def integer(self, name: str) -> int | None:
        """A value that is a number, or that has one in brackets at its end."""
        word = self.values.get(name, "")
        found = IN_BRACKETS.search(word)
        return whole(found[1] if found else word)


def whole(word: str) -> int | None:
    """A number in digits; nothing if it is none."""
    try:
        return int(word, 0)
    except ValueError:
        return None


def tree(text: str) -> Node:
    """The blocks of an output."""
    open = [Node("")]
    for line in text.splitlines():
        line = line.strip()
        if line in ("}", "]") and len(open) > 1:
            open.pop()
            continue
        begins = OPENS.match(line)
        key, colon, value = line.partition(":")
        if re.match("0x[0-9A-Fa-f]+ +[A-Z<]", line):
            open[-1].lines.append(line)
        elif begins and not (colon and not begins[1].startswith("Section (")):
            node = Node(begins[1].strip(), begins[3] or "")
            open[-1].nodes.append(node)
            open.append(node)
        elif colon:
            open[-1].values[key] = value.strip()
        elif line:
            open[-1].lines.append(line)
    return open[0]


def numbers(node: Node, names: dict[str, str]) -> Reading:
    """The numbers of a block, by our names for them."""
    found = {ours: node.integer(theirs) for ours, theirs in names.items()}
    return {name: it for name, it in found.items() if it is not None}


def bits(node: Node, title: str) -> Reading:
    """The number in brackets of a block of flags."""
    found = node.named(title)
    value = whole(found[0].number) if found else None
    return {} if value is None else {title.lower(): value}


def name_of(node: Node) -> Reading:
    """A name, which has its offset in brackets after it."""
    found = re.match(r"(.*?) ?\(\d+\)$", node.values.get("Name", ""))
    return {"name": found[1]} if found else {}


HEADER = {
    "type": "Type",
    "machine": "Machine",
    "version": "Version",
    "entry": "Entry",
    "phoff": "ProgramHeaderOffset",
    "shoff": "SectionHeaderOffset",
    "ehsize": "HeaderSize",
    "phentsize": "ProgramHeaderEntrySize",
    "shentsize": "SectionHeaderEntrySize",
}
# With extended numbering these have the real number in brackets.
COUNTS = {
    "phnum": "ProgramHeaderCount",
    "shnum": "SectionHeaderCount",
    "shstrndx": "StringTableSectionIndex",
}
SECTION = {
    "type": "Type",
    "addr": "Address",
    "offset": "Offset",
    "size": "Size",
    "link": "Link",
    "info": "Info",
    "addralign": "AddressAlignment",
    "entsize": "EntrySize",
}
SEGMENT = {
    "type": "Type",
    "offset": "Offset",
    "vaddr": "VirtualAddress",
    "paddr": "PhysicalAddress",
    "filesz": "FileSize",
    "memsz": "MemSize",
    "align": "Alignment",
}
SYMBOL = {"value": "Value", "size": "Size", "binding": "Binding", "type": "Type", "other": "Other"}
IDENT = {"class": "Class", "osabi": "OS/ABI", "abiversion": "ABIVersion"}
ORDERS = {1: "little", 2: "big"}


def header(root: Node) -> Reading:
    """The header."""
    found = root.named("ElfHeader")
    if not found:
        return {}
    made = numbers(found[0], HEADER) | bits(found[0], "Flags")
    for ours, theirs in COUNTS.items():
        words = found[0].values.get(theirs, "").split()
        if words and words[0].isdecimal():
            made[ours] = int(words[0])
    for it in found[0].named("Ident"):
        made |= numbers(it, IDENT)
        data = it.integer("DataEncoding")
        made |= {"order": ORDERS[data]} if data in ORDERS else {}
    return made


def symbol(node: Node) -> Reading:
    """A symbol."""
    made = numbers(node, SYMBOL) | name_of(node) | bits(node, "Other")
    # A symbol without a name is shown with that of its section.
    if made.get("type") == 3:
        made.pop("name", None)
    place = node.integer("Section")
    # With the escape the section is shown by its name alone.
    if place is not None and place != 0xFFFF:
        made["section"] = place
    return made


def relocations(root: Node) -> Reading:
    """The relocations, by the indexes of their sections."""
    made: Reading = {}
    for table in root.inside("Relocations"):
        index = re.match(r"Section \((\d+)\)", table.title)
        if not index:
            continue
        rows: list[Reading] = []
        for it in table.nodes:
            row = numbers(it, {"offset": "Offset", "type": "Type", "symbol": "Symbol"})
            if "Addend" in it.values:
                addend = it.integer("Addend") or 0
                row["addend"] = addend - 2**64 if addend >= 2**63 else addend
            rows.append(row)
        made[index[1]] = rows
    return made


def groups(root: Node) -> Reading:
    """The section groups."""
    made: Reading = {}
    for it in root.inside("Groups"):
        members = [
            int(found[1])
            for part in it.nodes
            for line in part.lines
            if (found := re.search(r"\((\d+)\)$", line))
        ]
        own = {"signature": it.values.get("Signature", ""), "members": members}
        made[it.values.get("Index", "")] = own | numbers(it, {"flags": "Type"})
    return made


def notes(root: Node, of_file: list[Reading]) -> Reading:
    """The owners and sizes of notes, by the offsets of their sections."""
    made: Reading = {}
    for part in root.inside("Notes") + root.inside("NoteSections"):
        offset = part.integer("Offset")
        rows = [
            {"name": it.values.get("Owner", "")} | numbers(it, {"size": "Data size"})
            for it in (part.named("Note") or part.inside("Notes"))
        ]
        for i, it in enumerate(of_file):
            if it.get("type") == 7 and it["offset"] == offset:
                made[str(i)] = rows
    return made


def dynamic(root: Node, of_file: list[Reading]) -> Reading:
    """The dynamic array up to NULL."""
    tables = [str(i) for i, it in enumerate(of_file) if it.get("type") == 6]
    found = root.named("DynamicSection")
    if not found or len(tables) != 1:
        return {}
    rows: list[Reading] = []
    for tag, rest in (it.split(maxsplit=1) for it in found[0].lines if it.startswith("0x")):
        if int(tag, 16) == 0:
            break
        row: Reading = {"tag": int(tag, 16)}
        if name := re.search(r": \[(.*)\]$", rest):
            row["string"] = name[1]
        elif number := re.search(r" (0x[0-9A-Fa-f]+)$", rest):
            row["value"] = int(number[1], 16)
        rows.append(row)
    return {tables[0]: rows}


def hashes(root: Node, of_file: list[Reading]) -> Reading:
    """The hash table."""
    tables = [str(i) for i, it in enumerate(of_file) if it.get("type") == 5]
    found = root.named("HashTable")
    if not found or len(tables) != 1 or "Buckets" not in found[0].values:
        return {}
    lists = (re.findall(r"\d+", found[0].values.get(it, "")) for it in ("Buckets", "Chains"))
    buckets, chains = ([int(it) for it in one] for one in lists)
    return {tables[0]: {"buckets": buckets, "chains": chains}}


def reading(text: str) -> Reading:
    """All that it prints."""
    root = tree(text)
    made: Reading = {"header": header(root)}
    own = [numbers(it, SECTION) | name_of(it) | bits(it, "Flags") for it in root.inside("Sections")]
    made["sections"] = own
    made["segments"] = [
        numbers(it, SEGMENT) | bits(it, "Flags") for it in root.inside("ProgramHeaders")
    ]
    made["relocations"] = relocations(root)
    made["groups"] = groups(root)
    symbols: Reading = {}
    for title, type in (("Symbols", 2), ("DynamicSymbols", 11)):
        tables = [str(i) for i, it in enumerate(own) if it.get("type") == type]
        # It shows one table of a type.
        if len(tables) == 1 and root.named(title):
            symbols[tables[0]] = [symbol(it) for it in root.inside(title)]
    if symbols:
        made["symbols"] = symbols
    for name, found in (
        ("notes", notes(root, own)),
        ("dynamic", dynamic(root, own)),
        ("hash", hashes(root, own)),
    ):
        if found:
            made[name] = found
    return made
