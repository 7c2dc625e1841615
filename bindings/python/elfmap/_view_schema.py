"""The JSON schema of what `elfmap-view --json` prints of a file, and its version.

A change that a reader may stumble over has another version: a field that is gone, or another type.
Fields may be added.
"""

from __future__ import annotations

from typing import Any

VERSION = "elfmap-view/1"
# So many sections of a segment are listed.
MOST_SECTIONS = 256
FIELDS_OF_SECTION = (
    "sh_type",
    "sh_flags",
    "sh_addr",
    "sh_offset",
    "sh_size",
    "sh_link",
    "sh_info",
    "sh_addralign",
    "sh_entsize",
)
FIELDS_OF_SEGMENT = (
    "p_type",
    "p_flags",
    "p_offset",
    "p_vaddr",
    "p_paddr",
    "p_filesz",
    "p_memsz",
    "p_align",
)
_FIELDS_OF_HEADER = (
    "e_type",
    "e_machine",
    "e_version",
    "e_entry",
    "e_phoff",
    "e_shoff",
    "e_flags",
    "e_ehsize",
    "e_phentsize",
    "e_phnum",
    "e_shentsize",
    "e_shnum",
    "e_shstrndx",
)
Schema = dict[str, Any]
_NUMBER: Schema = {"type": "integer", "minimum": 0, "maximum": 2**64 - 1}
_SIGNED: Schema = {"type": "integer", "minimum": -(2**63), "maximum": 2**63 - 1}
_TEXT: Schema = {"type": "string"}
_TRUTH: Schema = {"type": "boolean"}
_MARK: Schema = {"enum": ["broken", "depends", None]}
_MARKS: Schema = {
    "type": "object",
    "additionalProperties": {"enum": ["broken", "depends"]},
}
_HEX: Schema = {"type": "string", "pattern": "^([0-9a-f]{2})*$"}
_MAYBE_NUMBER: Schema = {**_NUMBER, "type": ["integer", "null"]}
_MAYBE_TEXT: Schema = {"type": ["string", "null"]}


def _object(required: Schema, more: Schema = {}) -> Schema:
    return {
        "type": "object",
        "required": list(required),
        "properties": {**required, **more},
        "additionalProperties": False,
    }


def _list(of: Schema) -> Schema:
    return {"type": "array", "items": of}


_FAULT = _object(
    {
        "rule": {"type": "integer", "minimum": 1, "maximum": 69},
        "name": _TEXT,
        "offset": _NUMBER,
        "table": _MAYBE_NUMBER,
        "message": _TEXT,
    }
)
_VERDICT = _object(
    {"sound": _TRUTH, "refused": _TRUTH, "complete": _TRUTH, "faults": _list(_FAULT)}
)
_HEADER = _object({"e_ident": _HEX, **dict.fromkeys(_FIELDS_OF_HEADER, _NUMBER), "marks": _MARKS})
_SECTION = _object(
    {
        "index": _NUMBER,
        "name": _TEXT,
        "type": _TEXT,
        **dict.fromkeys(FIELDS_OF_SECTION, _NUMBER),
        "past_end": {"type": "integer", "minimum": 0},
        "marks": _MARKS,
    }
)
_SEGMENT = _object(
    {
        "index": _NUMBER,
        "type": _TEXT,
        **dict.fromkeys(FIELDS_OF_SEGMENT, _NUMBER),
        "sections": {**_list(_NUMBER), "maxItems": MOST_SECTIONS},
        "past_end": {"type": "integer", "minimum": 0},
        "marks": _MARKS,
    }
)
_PART = _object(
    {
        "start": _NUMBER,
        "end": {"type": "integer", "minimum": 0},
        "owner": {"enum": ["header", "section headers", "program headers", "section", "gap"]},
        "section": _MAYBE_NUMBER,
        "name": _TEXT,
        "holds": _TEXT,
        "mark": _MARK,
    }
)
_DYNAMIC = _object(
    {
        "table": _NUMBER,
        "index": _NUMBER,
        "d_tag": _SIGNED,
        "tag": _TEXT,
        "d_un": _NUMBER,
        "string": _MAYBE_TEXT,
        "mark": _MARK,
    }
)
_NOTE = _object(
    {
        "table": _NUMBER,
        "owner": _TEXT,
        "n_type": _NUMBER,
        "type": _TEXT,
        "desc": _HEX,
        "mark": _MARK,
    }
)
_GROUP = _object(
    {
        "table": _NUMBER,
        "signature": _MAYBE_TEXT,
        "flags": _MAYBE_NUMBER,
        "members": _list(_NUMBER),
        "mark": _MARK,
    }
)
SYMBOL = _object(
    {
        "table": _NUMBER,
        "index": _NUMBER,
        "name": _TEXT,
        "st_value": _NUMBER,
        "st_size": _NUMBER,
        "type": _TEXT,
        "binding": _TEXT,
        "visibility": {"enum": ["DEFAULT", "INTERNAL", "HIDDEN", "PROTECTED"]},
        "st_shndx": _NUMBER,
        "section": _NUMBER,
        "place": _TEXT,
        "mark": _MARK,
    }
)
RELOCATION = _object(
    {
        "table": _NUMBER,
        "index": _NUMBER,
        "r_offset": _NUMBER,
        "r_type": _NUMBER,
        "type": _MAYBE_TEXT,
        "symbol": _NUMBER,
        "r_addend": _SIGNED,
        "mark": _MARK,
    }
)
_SIZE = _object({"name": _TEXT, "file": _NUMBER, "memory": {"type": "integer", "minimum": 0}})
_SIZES = _object(
    {**{it: _list(_SIZE) for it in ("sections", "segments", "symbols")}, "mark": _MARK}
)
# The object of a file. One that has no header of class 64 has the required fields alone.
SCHEMA: Schema = {
    "$schema": "https://json-schema.org/draft/2020-12/schema",
    "$id": VERSION,
    **_object(
        {
            "schema": {"enum": [VERSION]},
            "path": _TEXT,
            "size": _NUMBER,
            "verdict": _VERDICT,
            "header": {"anyOf": [{"type": "null"}, _HEADER]},
        },
        {
            "path_hex": _HEX,
            "machine_name": _MAYBE_TEXT,
            "build_id": _MAYBE_TEXT,
            "producers": _list(_TEXT),
            # That of what is not a field of a record: the build id, the producers and the machine.
            "mark": _MARK,
            "sections": _list(_SECTION),
            "sections_missing": {"type": "integer", "minimum": 0},
            "segments": _list(_SEGMENT),
            "segments_missing": {"type": "integer", "minimum": 0},
            "parts": _list(_PART),
            "dynamic": _list(_DYNAMIC),
            "notes": _list(_NOTE),
            "groups": _list(_GROUP),
            "symbols": _list(SYMBOL),
            "relocations": _list(RELOCATION),
            "sizes": _SIZES,
        },
    ),
}
