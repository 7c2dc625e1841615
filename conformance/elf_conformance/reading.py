"""The full reading of a file by the second implementation (`reference/`): the answers of the suite.
A name is a text in which each character is a byte."""

import hashlib
import json
import os
import sys
from typing import Any

HERE = os.path.dirname(os.path.abspath(__file__))
# In the archive it is beside the suite, in the repository beside its folder.
for place in (f"{HERE}/../reference", f"{HERE}/../../reference"):
    if os.path.isdir(place) and place not in sys.path:
        sys.path.insert(0, place)

import image  # noqa: E402
import records  # noqa: E402
import show  # noqa: E402
import tables  # noqa: E402

Reading = dict[str, Any]
NAMES = {number: rule.__name__ for number, rule in image.RULES}
NAMES |= {
    number: rule.__name__
    for rules in (tables.OWN, tables.STRING_RULES, *tables.FURTHER.values())
    for number, rule in rules
}
SYMBOLS = (records.SYMTAB, records.DYNSYM)
RELOCATIONS = (records.RELA, records.REL)


def text(name: bytes) -> str:
    """A name as a text."""
    return name.decode("latin-1")


def fields(it: Any, layout: dict[str, tuple[int, int]], *left_out: str) -> dict[str, Any]:
    """The fields of a record, by their names without what is before the first `_`."""
    names = (name for name in layout if name not in left_out)
    return {name.partition("_")[2]: getattr(it, name) for name in names}


def sections(f: Any) -> list[Any]:
    """Each section header with its name."""
    found: list[Any] = []
    names = f.content(f.name_table) if f.name_table else b""
    for _, it in f.sections():
        is_named = f.name_table and it.sh_type != records.NULL
        name = names[it.sh_name :].split(b"\0", 1)[0] if is_named else b""
        own = fields(it, records.SECTION_HEADER, "sh_name")
        found.append({"name": text(name), **own})
    return found


def symbols(f: Any, i: int) -> list[Any]:
    """The symbols of a table; the section of one is its real index, or the reserved one."""
    names = f.content(f.section(i).sh_link)
    has_words = tables.index_words(f, i)
    found: list[Any] = []
    for k, it in enumerate(tables.symbols(f, i)):
        is_far = it.st_shndx == records.XINDEX
        made = {
            "name": text(names[it.st_name :].split(b"\0", 1)[0]),
            "binding": it.st_info // 16,
            "type": it.st_info % 16,
            "other": it.st_other,
            "section": has_words[k][1] if is_far else it.st_shndx,
            "value": it.st_value,
            "size": it.st_size,
        }
        # An index from 0xff00 on of a section is told from a reserved one.
        found.append(made | ({"extended": True} if is_far else {}))
    return found


def relocations(f: Any, i: int) -> list[Any]:
    """The relocations of a section; one of type REL has no addend."""
    kind = f.section(i).sh_type
    found: list[Any] = []
    for it in f.entries(i, records.RELOCATION, tables.ENTRY_SIZE[kind]):
        made = {"offset": it.r_offset, "symbol": it.r_info >> 32, "type": it.r_info % 2**32}
        if kind == records.RELA:
            made["addend"] = show.signed(it.r_addend, 64)
        found.append(made)
    return found


def group(f: Any, i: int) -> Any:
    """A section group."""
    it = f.section(i)
    flags, *members = [number for _, number in f.words(i)]
    signature = text(show.symbol_name(f, it.sh_link, it.sh_info))
    return {"flags": flags, "signature": signature, "members": members}


def notes(f: Any, i: int) -> list[Any]:
    """The notes of a section; a name is without its last zero."""
    found: list[Any] = []
    for at, _, name, size in tables.notes(f, i):
        begin = at + 12 + tables.padded(name)
        own = text(f.bytes[at + 12 : at + 12 + name][:-1])
        desc = f.bytes[begin : begin + size].hex()
        found.append({"name": own, "type": f.number(at + 8, 4), "size": size, "desc": desc})
    return found


def dynamic(f: Any, i: int) -> list[Any]:
    """The entries of a dynamic array up to the first NULL."""
    strings = f.content(f.section(i).sh_link)
    found: list[Any] = []
    for it in tables.entries_before_null(f, i):
        made = {"tag": it.d_tag, "value": it.d_un}
        if it.d_tag in show.WITH_STRING:
            made["string"] = text(strings[it.d_un :].split(b"\0", 1)[0])
        found.append(made)
    return found


def hashes(f: Any, i: int) -> Any:
    """The words of a hash table."""
    buckets, chains = tables.buckets_and_chains(f, i)
    counts = {"nbucket": len(buckets), "nchain": len(chains)}
    return {**counts, "buckets": [it for _, it in buckets], "chains": [it for _, it in chains]}


# Of each type of section the name of its tables, and how one is read.
TABLES = {
    **{it: ("symbols", symbols) for it in SYMBOLS},
    **{it: ("relocations", relocations) for it in RELOCATIONS},
    records.GROUP: ("groups", group),
    records.NOTE: ("notes", notes),
    records.DYNAMIC_SECTION: ("dynamic", dynamic),
    records.HASH: ("hash", hashes),
}


def broken(rule: int, offset: int) -> Reading:
    """The rule that is broken, and the lowest offset where it is."""
    return {"rule": rule, "name": NAMES[rule], "offset": offset}


def reading(content: bytes) -> Reading:
    """What a file says: the rule that it breaks; or all its values, and the tables that break a
    rule."""
    verdict = image.verdict(content)
    if verdict:
        return {"refused": broken(*verdict)}
    f = image.File(content)
    ident = {"class": content[4], "osabi": content[7], "abiversion": content[8]}
    header = {"order": f.order, **ident, **fields(f.header, records.HEADER)}
    made: Reading = {"header": header, "sections": sections(f)}
    made["segments"] = [fields(it, records.PROGRAM_HEADER) for it in f.segments()]
    made["parts"] = [
        {"offset": start, "size": size, "owner": owner.split()[0]}
        for start, size, owner in show.parts(f)
    ]
    for i, it in f.sections():
        kind, read = TABLES.get(it.sh_type, ("", None))
        if read is None:
            continue
        fault = tables.verdict(f, i)
        if fault:
            made.setdefault("refused_tables", {})[str(i)] = broken(*fault)
        else:
            made.setdefault(kind, {})[str(i)] = read(f, i)
    return made


# A list of more rows than this is sampled in the index.
MOST_ROWS = 400
LONGEST_NAME = 2000


def short(row: Any) -> Any:
    """A row without a very long name."""
    if isinstance(row, dict) and len(row.get("name", "")) > LONGEST_NAME:
        return {key: value for key, value in row.items() if key != "name"}
    return row


def sampled(made: Any) -> Any:
    """A reading in which of a long list are the number of rows and some of them."""
    if isinstance(made, dict):
        return {key: sampled(value) for key, value in made.items()}
    if not isinstance(made, list) or len(made) <= MOST_ROWS and made == [short(it) for it in made]:
        return made
    last = len(made) - 1
    chosen = sorted({0, 1, 2, last // 2, last - 1, last})
    return {"count": len(made), "rows": {str(k): short(made[k]) for k in chosen}}


def first_refused(made: Reading) -> Reading | None:
    """The rule that a file breaks: of files, or of its first table that breaks one, with the
    section."""
    if "refused" in made:
        return made["refused"]  # type: ignore[no-any-return]
    for section, it in made.get("refused_tables", {}).items():
        return {**it, "section": int(section)}
    return None


def digest(made: object) -> str:
    """The sha256 of a reading, as JSON in one way."""
    packed = json.dumps(made, sort_keys=True, separators=(",", ":"))
    return hashlib.sha256(packed.encode()).hexdigest()
