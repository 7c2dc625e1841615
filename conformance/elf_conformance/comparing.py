"""What a tool read beside the index. A tool gives a part of a reading: only what it gives is
compared, value by value."""

import re
from typing import Any, NamedTuple

from .names import FLAGS

# Printable ASCII without `@`, after which tools show a version.
PLAIN = re.compile(r"[!-?A-~]*\Z")
TABLES = ("symbols", "relocations", "groups", "notes", "dynamic", "hash")
MOST = 5
# Parts of fields, of tools that do not show the other bits: the flags of segments, the flags of
# sections that have a letter, and the visibility of a symbol.
PARTS = {
    "low_flags": ("flags", 7),
    "letter_flags": ("flags", sum(FLAGS.values())),
    "visibility": ("other", 3),
}


class Difference(NamedTuple):
    """A value that a tool reads otherwise: where it is, and both."""

    place: str
    right: object
    found: object

    def __str__(self) -> str:
        return f"{self.place} is {shown(self.right)}, and the tool reads {shown(self.found)}"


def shown(it: object) -> str:
    """A value in words: large numbers in hexadecimal too."""
    if isinstance(it, int) and abs(it) > 9:
        return f"{it} ({it:#x})"
    return repr(it) if isinstance(it, str) else str(it)


def same(right: Any, found: Any) -> bool:
    """Whether two values are the same. A name with other bytes than printable ASCII is written in
    many ways, and is not compared."""
    if isinstance(right, str) and not PLAIN.match(right):
        return True
    return bool(right == found)


def in_fields(place: str, right: dict[str, Any], found: dict[str, Any]) -> list[Difference]:
    """The fields that a tool gives, and that differ."""
    made: list[Difference] = []
    for name, (of, mask) in PARTS.items():
        if name in found and of in right and right[of] & mask != found[name]:
            made.append(Difference(f"{place}.{of}", right[of], found[name]))
    for name, value in found.items():
        if name in right and not same(right[name], value):
            made.append(Difference(f"{place}.{name}", right[name], value))
    return made


def in_rows(place: str, right: Any, found: list[Any]) -> list[Difference]:
    """The rows of a table that differ. Of a long table the index has some."""
    if isinstance(right, dict):
        if right["count"] != len(found):
            return [Difference(f"the number of {place}", right["count"], len(found))]
        chosen = [(int(k), it) for k, it in right["rows"].items()]
        return [more for k, it in chosen for more in in_fields(f"{place}[{k}]", it, found[k])]
    if len(right) != len(found):
        return [Difference(f"the number of {place}", len(right), len(found))]
    made: list[Difference] = []
    for k, (it, own) in enumerate(zip(right, found)):
        made += in_fields(f"{place}[{k}]", it, own)
    return made


def without_null(rows: Any) -> Any:
    """Section headers, of which those of type NULL have their type alone: their other members have
    undefined values."""
    if isinstance(rows, dict):
        own = {k: without_null([it])[0] for k, it in rows["rows"].items()}
        return {**rows, "rows": own}
    return [it if it["type"] else {"type": 0} for it in rows]


def is_compressed(sections: Any, index: str) -> bool:
    """Whether a section says that its content is compressed: then what is read of it as a table is
    left open."""
    if isinstance(sections, dict):
        return False
    return bool(sections[int(index)]["flags"] & FLAGS["C"])


def in_tables(kind: str, right: dict[str, Any], found: dict[str, Any]) -> list[Difference]:
    """The tables of a kind that differ, by the indexes of their sections."""
    made: list[Difference] = []
    for section, it in right.items():
        place = f"{kind} of section {section}"
        if found.get(section, 0) is None:
            # The tool does not read this table.
            continue
        if section not in found:
            if it:
                made.append(Difference(f"the number of {place}", len(it), 0))
        elif isinstance(it, list) or "rows" in it:
            made += in_rows(place, it, found[section])
        else:
            made += in_fields(place, it, found[section])
    return made


# What a copy keeps: the flags WRITE, ALLOC and EXECINSTR of sections with bits and without.
KEPT_TYPES = (1, 8)
KEPT_FLAGS = 7
RESERVED = {0: "undefined", 0xFFF1: "absolute", 0xFFF2: "common"}


def copied_of(right: dict[str, Any]) -> dict[str, Any]:
    """What a copy of a file has to have: its sections of bytes that are loaded, and its symbols
    that are not local; nothing if the file has a table that breaks a rule."""
    if "sections" not in right or right.get("refused_tables") or "rows" in right["sections"]:
        return {}
    rows = [it for it in right["sections"] if it["type"] in KEPT_TYPES and it["flags"] & 2]
    made: dict[str, Any] = {
        "sections": sorted(
            [it["name"], it["type"], it["flags"] & KEPT_FLAGS, it["addr"], it["size"]]
            for it in rows
        )
    }
    tables = [it for it in right.get("symbols", {}).items()]
    own = [it for i, it in tables if right["sections"][int(i)]["type"] == 2]
    if len(own) == 1 and isinstance(own[0], list):
        made["symbols"] = sorted(
            [it["name"], it["binding"], it["size"], RESERVED.get(it["section"], "defined")]
            for it in own[0]
            if it["binding"] and it["name"]
        )
    return made


def named_sections(right: dict[str, Any]) -> list[Any]:
    """The sections of bytes that have a name."""
    rows = right["sections"] if isinstance(right["sections"], list) else []
    return [[it["name"], it["addr"], it["size"]] for it in rows if it["type"] in KEPT_TYPES]


def in_lists(place: str, right: list[Any], found: list[Any]) -> list[Difference]:
    """The items of one list that the other has not, the first of each."""
    lost = [it for it in right if it not in found]
    more = [it for it in found if it not in right]
    if not lost and not more:
        return []
    return [Difference(place, lost[0] if lost else "not there", more[0] if more else "not there")]


def in_own_forms(right: dict[str, Any], found: dict[str, Any]) -> list[Difference]:
    """What differs in the forms of some tools: copies, names of sections and symbols, needed
    libraries, links and programs that are run."""
    made: list[Difference] = []
    if "copied" in found:
        own = copied_of(right)
        for kind in own.keys() & found["copied"].keys():
            made += in_lists(f"in the copy, a row of {kind}", own[kind], found["copied"][kind])
    if "named_sections" in found:
        own_sections = named_sections(right)
        lost = [it for it in own_sections if it[2] and it not in found["named_sections"]]
        if lost:
            made.append(Difference("a section with its address and size", lost[0], "not there"))
    if "needed" in found and right.get("dynamic"):
        rows = [row for it in right.get("dynamic", {}).values() for row in it]
        needed = [it["string"] for it in rows if it["tag"] == 1]
        made += in_lists("a needed library", needed, found["needed"])
    return made


def in_refusals(right: dict[str, Any], found: dict[str, Any]) -> list[Difference]:
    """What a tool says otherwise of the rules that are broken, if it says it."""
    made: list[Difference] = []
    if "refused" in found:
        made += in_fields("the rule that is broken", right.get("refused") or {}, found["refused"])
    if "refused_tables" in found:
        own = right.get("refused_tables", {})
        if own.keys() != found["refused_tables"].keys():
            made.append(Difference("tables that break a rule", list(own), list(found)))
        for section in own.keys() & found["refused_tables"].keys():
            place = f"the rule that is broken in section {section}"
            made += in_fields(place, own[section], found["refused_tables"][section])
    return made


def differences(right: dict[str, Any], found: dict[str, Any]) -> list[Difference]:
    """What a tool read otherwise, the first of them. Of what the index has not it may say
    anything."""
    if "links" in right and "links" in found:
        return in_rows("rows of the table", right["links"], found["links"])[:MOST]
    if "loading" in right and "loading" in found:
        return in_fields("the program", right["loading"], found["loading"])
    made = in_refusals(right, found)
    if "header" not in right:
        return made
    made += in_own_forms(right, found)
    made += in_fields("header", right["header"], found.get("header", {}))
    for kind in ("sections", "segments"):
        if kind in found:
            own = without_null(right[kind]) if kind == "sections" else right[kind]
            made += in_rows(kind, own, found[kind])
    for kind in TABLES:
        if kind in found:
            own_tables = {
                section: it
                for section, it in right.get(kind, {}).items()
                if not is_compressed(right["sections"], section)
            }
            made += in_tables(kind, own_tables, found[kind])
    return made[:MOST]
