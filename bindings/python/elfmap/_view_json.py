"""A file as JSON: one object, or for large tables a line for each entry. The schema is in
_view_schema.py."""

from __future__ import annotations

import itertools
import json
from collections.abc import Callable, Iterable, Iterator
from typing import Any

from elfmap._names import MACHINES, STRING_TAGS, relocation_types, section_type
from elfmap._origin import origin_of
from elfmap._rules import RULES
from elfmap._view_faults import BROKEN, DOUBTFUL
from elfmap._view_image import View, place_words
from elfmap._view_names import (
    dynamic_tag,
    note_owner,
    note_words,
    segment_type,
    symbol_binding,
    symbol_type,
    symbol_visibility,
)
from elfmap._view_schema import FIELDS_OF_SECTION, FIELDS_OF_SEGMENT, MOST_SECTIONS, VERSION
from elfmap._view_sizes import by_section, by_segment, by_symbol
from elfmap._view_tables import all_printable
from elfmap._words import ENTRY_SIZES, HEADER, explain, printable
from elfmap.constants import SHT

_MARKS = {BROKEN: "broken", DOUBTFUL: "depends", "": None}
# So many objects of small tables are made at once.
_AT_ONCE = 64
Record = dict[str, Any]


encoded = json.JSONEncoder().encode


# The texts of objects, some at a time: there may be millions of them.
Texts = Iterator[list[str]]
Fields = Iterator[tuple[str, Any]]


def _fields(view: View) -> Fields:
    """All of a file, but for its symbols and relocations: values, and the texts of objects."""
    yield "schema", VERSION
    yield from _path(view).items()
    yield "size", view.size
    yield "verdict", _verdict(view)
    if not view.has_header:
        yield "header", None
        return
    origin = origin_of(view.words)
    yield "header", _header(view)
    yield "machine_name", MACHINES.get(view.machine)
    yield "build_id", origin.build_id or None
    yield "producers", list(origin.producers)
    yield "mark", _MARKS[view.marks.of_all]
    yield "sections", _texts(_section(view, it) for it in range(len(view.sections)))
    yield "sections_missing", view.missing[0]
    yield "segments", _texts(_segment(view, it) for it in range(len(view.segments)))
    yield "segments_missing", view.missing[1]
    yield "parts", _texts(_parts(view))
    yield "dynamic", _texts(_dynamic(view))
    yield "notes", _texts(_notes(view))
    yield "groups", _texts(_groups(view))


def _texts(records: Iterator[Record]) -> Texts:
    while some := [encoded(it) for it in itertools.islice(records, _AT_ONCE)]:
        yield some


def _object(fields: Fields) -> Iterator[str]:
    """An object in a line, in pieces."""
    front = "{"
    for name, value in fields:
        yield f'{front}"{name}": '
        front = ", "
        if isinstance(value, Iterator):
            yield from _list(value)
        else:
            yield encoded(value)
    yield "}\n"


def _list(every: Texts) -> Iterator[str]:
    front = "["
    for some in every:
        yield front + ", ".join(some)
        front = ", "
    yield "]" if front != "[" else "[]"


def _path(view: View) -> Record:
    try:
        return {"path": view.path.decode("utf-8")}
    except UnicodeDecodeError:
        path = view.path.decode("utf-8", "backslashreplace")
        return {"path": path, "path_hex": view.path.hex()}


def _verdict(view: View) -> Record:
    faults = view.faults
    return {
        "sound": faults.is_sound and not faults.of_tables,
        "refused": not faults.is_sound,
        "complete": faults.is_complete,
        "faults": [
            {
                "rule": it.rule,
                "name": RULES[it.rule][0],
                "offset": it.at,
                "table": it.table,
                "message": explain(view.words, it.rule, it.at, it.table).message,
            }
            for it in faults.every
        ],
    }


def _header(view: View) -> Record:
    found: Record = {"e_ident": view.data[:16].hex()}
    marks: Record = {}
    for name, (at, width) in HEADER.items():
        is_named = not name.startswith("the ")
        if is_named:
            found[name] = view.words.number(at, width)
        mark = view.marks.header(name)
        key = name if is_named else "e_ident"
        # Of the parts of e_ident the one that breaks a rule says more.
        if mark and marks.get(key) != _MARKS[BROKEN]:
            marks[key] = _MARKS[mark]
    return {**found, "marks": marks}


def _section(view: View, index: int) -> Record:
    it = view.sections[index]
    own = {field: getattr(it, field) for field in FIELDS_OF_SECTION}
    marks = {field: view.marks.section(index, field) for field in FIELDS_OF_SECTION}
    marks["sh_name"] = view.marks.name(index)
    marks["content"] = view.marks.content(index)
    return {
        "index": index,
        "name": printable(it.name),
        "type": section_type(it.sh_type, view.machine),
        **own,
        "past_end": max(view.content_end(it) - view.size, 0),
        "marks": {field: _MARKS[mark] for field, mark in marks.items() if mark},
    }


def _segment(view: View, index: int) -> Record:
    it = view.segments[index]
    own = {field: getattr(it, field) for field in FIELDS_OF_SEGMENT}
    marks = {field: view.marks.segment(index, field) for field in FIELDS_OF_SEGMENT}
    return {
        "index": index,
        "type": segment_type(it.p_type),
        **own,
        # Of very many segments and sections the list would be too long.
        "sections": view.sections_in(it, MOST_SECTIONS)[:MOST_SECTIONS],
        "past_end": max(it.p_offset + it.p_filesz - view.size, 0) if it.p_type else 0,
        "marks": {field: _MARKS[mark] for field, mark in marks.items() if mark},
    }


def _parts(view: View) -> Iterator[Record]:
    for it in view.with_gaps:
        own = {"start": it.start, "end": it.end, "owner": it.owner, "section": it.section}
        yield {**own, "name": it.name, "holds": it.holds, "mark": _MARKS[view.marks.of_all]}


def _dynamic(view: View) -> Iterator[Record]:
    for table in view.tables(SHT.DYNAMIC):
        for index, it in enumerate(view.image.entries_of_dynamic(table)):
            place = view.sections[table].sh_offset + 16 * index
            yield {
                "table": table,
                "index": index,
                "d_tag": it.d_tag,
                "tag": dynamic_tag(it.d_tag),
                "d_un": it.d_un,
                "string": printable(it.string) if it.d_tag in STRING_TAGS else None,
                "mark": _MARKS[view.marks.entry(table, place, 16)],
            }


def _notes(view: View) -> Iterator[Record]:
    for table in view.tables(SHT.NOTE):
        for it in view.image.notes(table):
            yield {
                "table": table,
                "owner": note_owner(it.name),
                "n_type": it.n_type,
                "type": note_words(it.name, it.n_type),
                "desc": bytes(it.desc).hex(),
                "mark": _MARKS[view.marks.content(table)],
            }


def _groups(view: View) -> Iterator[Record]:
    for table in view.tables(SHT.GROUP):
        section = view.sections[table]
        found = view.symbol(section.sh_link, section.sh_info)
        words = view.image.words(table)
        yield {
            "table": table,
            "signature": printable(found.name) if found else None,
            "flags": words[0] if words else None,
            "members": list(words[1:]),
            "mark": _MARKS[view.marks.content(table)],
        }


# ---- Large tables


# An entry is a text from the first: these tables may have millions.


def symbol_texts(view: View) -> Texts:
    """All symbols, each as the text of an object, many at a time."""
    for table in view.tables(SHT.SYMTAB, SHT.DYNSYM):
        fields = _Fields(lambda it: _symbol_fields(view, it))
        for some in view.image.symbol_blocks(table):
            count = len(some.st_name)
            names = map(encoded, all_printable(view.names_of(table, some)))
            numbers = zip(range(some.first, some.first + count), names, some.st_value, some.st_size)
            marks = _marks_of(view, table, 24, some.first, count)
            others = zip(some.st_info, some.st_other, some.st_shndx, some.section, marks)
            yield [
                f'{{"table": {table}, "index": {index}, "name": {name}, "st_value": {value},'
                f' "st_size": {size}, {fields[other]}}}'
                for (index, name, value, size), other in zip(numbers, others)
            ]


def _symbol_fields(view: View, values: tuple[Any, ...]) -> Record:
    """The fields of a symbol that many others share."""
    info, other, st_shndx, section, mark = values
    return {
        "type": symbol_type(info & 15),
        "binding": symbol_binding(info >> 4),
        "visibility": symbol_visibility(other),
        "st_shndx": st_shndx,
        "section": section,
        "place": place_words(view, st_shndx, section),
        "mark": _MARKS[mark],
    }


class _Fields(dict[tuple[Any, ...], str]):
    """The text of the fields that these values make, without its braces."""

    def __init__(self, fields: Callable[[tuple[Any, ...]], Record]) -> None:
        super().__init__()
        self._fields = fields

    def __missing__(self, values: tuple[Any, ...]) -> str:
        self[values] = encoded(self._fields(values))[1:-1]
        return self[values]


def _marks_of(view: View, table: int, size: int, first: int, count: int) -> Iterable[str]:
    """The marks of so many entries of a table."""
    marks = view.marks
    start = view.sections[table].sh_offset + size * first
    if not marks.broken_in(start, start + size * count):
        return itertools.repeat(marks.content(table), count)
    places = range(start, start + size * count, size)
    return [marks.entry(table, it, size) for it in places]


def relocation_texts(view: View) -> Texts:
    """All relocations, each as the text of an object, many at a time."""
    names = relocation_types(view.machine)
    types = _Fields(lambda it: {"r_type": it[0], "type": names.get(it[0])})
    for table in view.tables(SHT.RELA, SHT.REL):
        size = ENTRY_SIZES[view.sections[table].sh_type]
        for some in view.image.relocation_blocks(table):
            marks = _marks_of(view, table, size, some.first, len(some.r_offset))
            rows = zip(*some[1:], marks)
            yield [
                f'{{"table": {table}, "index": {index}, "r_offset": {offset}, {types[kind,]},'
                f' "symbol": {symbol}, "r_addend": {addend}, "mark": {encoded(_MARKS[mark])}}}'
                for index, (offset, addend, symbol, kind, mark) in enumerate(rows, some.first)
            ]


def size_record(view: View) -> Record:
    """What `--sizes` prints: in each table the bytes in the file add up to its size."""
    tables = {"sections": by_section(view), "segments": by_segment(view)}
    tables["symbols"] = by_symbol(view)
    every = {name: [it._asdict() for it in sizes] for name, sizes in tables.items()}
    return {**every, "mark": _MARKS[view.marks.of_all]}


def _large_tables(view: View, symbols: bool, relocations: bool) -> list[tuple[str, Texts]]:
    """Those that are asked for, and what an entry of each is called."""
    found = []
    if view.has_header and symbols:
        found.append(("symbol", symbol_texts(view)))
    if view.has_header and relocations:
        found.append(("relocation", relocation_texts(view)))
    return found


def _sizes(view: View, is_asked: bool) -> Fields:
    if is_asked and view.has_header:
        yield "sizes", size_record(view)


def pieces(view: View, symbols: bool, relocations: bool, sizes: bool) -> Iterator[str]:
    """The object of a file in a line, with the large tables that are asked for."""
    tables = ((f"{name}s", it) for name, it in _large_tables(view, symbols, relocations))
    yield from _object(itertools.chain(_fields(view), tables, _sizes(view, sizes)))


def lines(view: View, symbols: bool, relocations: bool, sizes: bool) -> Iterator[str]:
    """The object of a file in a line, and a line for each entry of the large tables."""
    own = itertools.chain([("record", "file")], _fields(view), _sizes(view, sizes))
    yield from _object(own)
    for name, every in _large_tables(view, symbols, relocations):
        front = encoded({"record": name, **_path(view)})[:-1]
        for some in every:
            yield "".join(f"{front}, {it[1:]}\n" for it in some)
