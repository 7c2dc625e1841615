"""`tools/release page`: a page for a browser on which a file is dropped, and that shows its verdict
and what each of its bytes belongs to.

It is one file, which needs no network: the library for C as a WebAssembly module, and the scripts
of page/. The module is made of the same proved crates as the library for C: the kit's compiler
makes it for a memory of 64-bit addresses, which not every browser has, and wasm-opt (of binaryen)
lowers it to one of 32-bit addresses."""

import base64
import ctypes
import hashlib
import html
import json
import os
import shutil
from typing import Any

from elfmap import _declared, _names as names

from .building import built_below, is_current, kit, words
from .header import class_name, of_library
from .library import FOLDER, VERDICTS as CRATE
from .rules_page import file_rules
from .tree import TOP, cells, filled, read_bytes, read_text, wanted

Structs = dict[str, dict[str, Any]]
MODULE = f"{FOLDER}/{CRATE}.wasm"
LOWERED = [
    "--enable-memory64",
    "--enable-bulk-memory",
    "--enable-sign-ext",
    "--enable-nontrapping-float-to-int",
    "--enable-mutable-globals",
    "--enable-multivalue",
    "--memory64-lowering",
]


def module() -> str:
    """The path of the module, which is made where it is older than the library's texts."""
    if is_current(CRATE, MODULE):
        return MODULE
    folder_of, lacking = built_below([CRATE])
    if lacking:
        raise SystemExit(f"page: tools/dev prove {CRATE} builds {', '.join(lacking)} first")
    if not shutil.which("wasm-opt"):
        raise SystemExit("page: there is no wasm-opt, of the package binaryen")
    os.makedirs(FOLDER, exist_ok=True)
    target = ["--target", "wasm64-unknown-unknown", "--toolchain", f"{kit()}/toolchain"]
    folder = f"{TOP}/crates/{CRATE}"
    wide = f"{FOLDER}/wide"
    build = [f"{kit()}/bin/rattle", "build", *words(CRATE, folder_of), *target]
    wanted(*build, "-o", f"{wide}.a", folder=folder)
    link = [f"{kit()}/bin/rattle-link", *target]
    wanted(*link, "-o", f"{wide}.wasm", f"{wide}.a", folder=folder)
    wanted("wasm-opt", *LOWERED, f"{wide}.wasm", "-o", MODULE)
    return MODULE


def layout() -> Structs:
    """The structs of include/elfmap.h, as the Python package declares them: the size of each, and
    its fields with their offsets."""
    tags = {getattr(_declared, class_name(it.tag)): it.tag for it in of_library().structs}
    found: Structs = {}
    for made, tag in tags.items():
        found[tag] = {"size": ctypes.sizeof(made), "align": ctypes.alignment(made), "fields": []}
        for name, kind in made._fields_:
            own = kind._type_ if issubclass(kind, ctypes.Array) else kind
            place = {"name": name, "at": getattr(made, name).offset, "width": ctypes.sizeof(own)}
            more = {
                "struct": tags.get(own),
                "count": own is not kind and kind._length_,
                "signed": own is ctypes.c_int64,
            }
            found[tag]["fields"].append(place | {key: it for key, it in more.items() if it})
    return found


def constants(**values: object) -> str:
    """A script that defines constants."""
    lines = ""
    for name, it in values.items():
        lines += f"const {name} = {json.dumps(it, separators=(',', ':'))};\n"
    return lines


def sum_of(text: str) -> str:
    """The sum by which a policy allows a text."""
    digest = hashlib.sha256(text.encode()).digest()
    return f"'sha256-{base64.b64encode(digest).decode()}'"


def policy(script: str, style: str) -> str:
    """The Content-Security-Policy of the page: nothing is loaded but these two texts, the worker
    and the icon that are in the page, and nothing is sent. A worker of a blob has the policy of its
    page. Without 'wasm-unsafe-eval' it could not compile the module."""
    allowed = {
        "default-src": "'none'",
        "script-src": f"{sum_of(script)} 'wasm-unsafe-eval'",
        "style-src": sum_of(style),
        "worker-src": "blob:",
        "img-src": "data:",
        "base-uri": "'none'",
        "form-action": "'none'",
    }
    return "; ".join(f"{directive} {sources}" for directive, sources in allowed.items())


def tools_table() -> str:
    """The rows of the table of docs/generated/CONFORMANCE.md, as rows of a table of the page."""
    text = read_text("docs/generated/CONFORMANCE.md").partition("\n## ")[0]
    head, *rows = [cells(it) for it in text.splitlines() if it.startswith("| ")]
    made = [f"<thead><tr>{''.join(f'<th>{html.escape(it)}</th>' for it in head)}</tr></thead>"]
    for row in rows:
        made.append(f"<tr>{''.join(f'<td>{html.escape(it)}</td>' for it in row)}</tr>")
    return "\n".join(made)


def page() -> str:
    """The page."""
    code = base64.b64encode(read_bytes(module())).decode("ascii")
    # The names of relocations, as the Python package has them.
    relocations = {
        machine: names.relocation_types(machine) for machine in names.machines_with_relocations()
    }
    common = constants(LAYOUT=layout(), RELOCATION_TYPES=relocations)
    common += "".join(read_text(f"page/{it}.js") for it in ("names", "declared", "words"))
    of_worker = ("reader", "tables", "archive", "parts", "worker")
    worker = common + "".join(read_text(f"page/{it}.js") for it in of_worker)
    # Of each rule of files its name, why a file is refused, and what to do.
    rules = {
        it.number: [it.name, it.sentence.replace("`", ""), it.advice.replace("`", "")]
        for it in file_rules()
    }
    of_page = "".join(read_text(f"page/{it}.js") for it in ("refused", "draw"))
    script = common + constants(RULES=rules, MODULE=code) + of_page
    if "</script" in worker + script:
        raise SystemExit("page: a script ends its own element")
    style = read_text("page/style.css")
    return filled(
        read_text("page/page.html"),
        CONFORMANCE=tools_table(),
        POLICY=policy(script, style),
        STYLE=style,
        WORKER=worker,
        SCRIPT=script,
    )
