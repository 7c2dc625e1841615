"""`tools/test conformance`: the conformance suite, from its archive alone. The index fits its
schema. elfmap answers each file as the index says. The runner runs readelf with nothing on the PATH
but /usr/bin and /bin. And it finds what tools do that are made to crash, to hang, to read something
else, or to refuse."""

import hashlib
import json
import os
import sys
from typing import Any

from . import conformance, conformance_index as made
from .requirements import JSONSCHEMA
from .suite import Tally, Test, number
from .tree import PROGRAM, Options, read_bytes, read_text, said, write

PLAIN = {"PATH": "/usr/bin:/bin", "LC_ALL": "C.UTF-8"}
# So many generated files go through elfmap, and through readelf. The first numbers are of all runs.
GENERATED = 1500
FEW = 40
# Tools that are made, by what they do: a script, and the column in which it is found.
WRONG = '{"header":{"order":"little","type":7}}'
FAKES = {
    "crashes": ("kill -SEGV $$", "crashes"),
    "hangs": ("exec sleep 60", "hangs"),
    "panics": ("echo \"thread 'main' panicked at 'x'\" >&2; exit 101", "crashes"),
    "wrong": (f"echo '{WRONG}'", "reads something else"),
    "refuses": ("exit 1", "sound: refuses"),
    "warns": ("echo 'warning: odd' >&2", "sound: refuses"),
    "right": ('echo \'{"header":{"order":"little","type":1}}\'', "sound: right"),
    "no-json": ("echo text", "open"),
}
SOUND = "4-elf-header/02-keeps-header-of-64-bytes-le"
Results = dict[str, Any]


def unpacked(tally: Tally) -> str:
    """Packs the suite twice, and unpacks it in an empty folder: its folder."""
    first = conformance.pack(f"{tally.folder}/first")
    second = conformance.pack(f"{tally.folder}/second")
    is_same = read_bytes(first) == read_bytes(second)
    tally.check(is_same, "the archive is another one the second time")
    empty = tally.new_folder("empty")
    ended = said("tar", "xf", first, folder=empty)
    tally.check(ended.returncode == 0, f"tar does not unpack the archive: {ended.stdout}")
    return f"{empty}/{os.path.basename(first).removesuffix('.tar.xz')}"


def try_index(tally: Tally, folder: str) -> Results:
    """The index fits its schema, and each file has its sha256."""
    import jsonschema

    index: Results = json.loads(read_text(f"{folder}/index.json"))
    schema = json.loads(read_text(f"{folder}/schema.json"))
    checker = jsonschema.Draft202012Validator(schema)
    wrong = [f"{[*it.absolute_path][:4]}: {it.message[:200]}" for it in checker.iter_errors(index)]
    tally.check(not wrong, f"the index does not fit its schema: {wrong[:3]}")
    broken = {**index, "cases": [{**index["cases"][0], "answer": "maybe"}]}
    tally.check(not checker.is_valid(broken), "the schema accepts an answer that is none")
    for it in index["cases"]:
        for path, right in zip(it["files"], it["sha256"]):
            found = hashlib.sha256(read_bytes(f"{folder}/{path}")).hexdigest()
            tally.check(found == right, f"{path} has not the sha256 of the index")
    return index


def try_rules(tally: Tally, index: Results) -> None:
    """Each rule of files and tables is broken and kept, in both byte orders; but for those of which
    no small file can be."""
    for breaks in (True, False):
        for order in ("little", "big"):
            found = {
                it["rule"]["number"]
                for it in index["cases"]
                if "rule" in it and it["order"] == order and it["rule"]["breaks"] == breaks
            }
            # The byte order of a file whose identification is wrong is that of its numbers.
            lacking = set(made.RULES) - found - ({5} if breaks and order == "big" else set())
            tally.check(not lacking, f"{order}, breaks {breaks}: no file for {sorted(lacking)}")


def ran(tally: Tally, folder: str, *words: str, **more: str) -> list[Results]:
    """Runs the suite: what it found of each tool."""
    path = f"{tally.folder}/results.json"
    own = {**PLAIN, "HOME": tally.folder, **more}
    command = [sys.executable, "run.py", "--json", path, *words]
    ended = said(*command, folder=folder, env=own)
    if not tally.check(os.path.exists(path), f"{' '.join(words)}: {ended.stdout[-2000:]}"):
        return []
    found: list[Results] = json.loads(read_text(path))["tools"]
    os.remove(path)
    return found


def try_readelf(tally: Tally, folder: str) -> None:
    """readelf has its row, and reads most files as the index says."""
    for it in ran(tally, folder, "--tool", "readelf", "--generated", str(FEW), "--set", "rules"):
        counts = it["counts"]
        tally.check(counts["sound: right"] > 100, f"readelf: {counts}")
        tally.check(counts["reads something else"] == 0, f"readelf: {it['found']}")


def try_elfmap(tally: Tally, folder: str, count: int) -> None:
    """elfmap answers each file as the index says, with the rule and the offset, and links as it
    says."""
    words = ["--tool", "elfmap", "--tool", "elfmap link", "--generated", str(count), "--all"]
    for it in ran(tally, folder, *words, ELFMAP=PROGRAM):
        own = f"{it['tool']}: {it['found'][:5]}"
        tally.check(not it["found"], f"{own} is not what the index says")
        wrong = {"broken: accepts", "broken: does not claim to check", "profile: accepts", "open"}
        wrong = {column for column in wrong if it["counts"][column]}
        tally.check(not wrong, f"{it['tool']} is in {wrong}: {it['counts']}")


def try_fakes(tally: Tally, folder: str) -> None:
    """Tools that are made to do one thing are found to do it."""
    for name, (script, column) in FAKES.items():
        path = write(f"{tally.folder}/{name}", f"#!/bin/sh\n{script}\n")
        os.chmod(path, 0o755)
        words = ["--command", f"{path} {{file}}", "--case", SOUND, "--seconds", "1"]
        for it in ran(tally, folder, *words):
            found = {key for key, count in it["counts"].items() if count}
            tally.same(f"the column of a tool that {name}", found, {column})


def try_numbers(tally: Tally) -> None:
    """A case whose file or answer changed, that has no number, or that is gone is found."""
    own = conformance.entries()
    tally.same("cases that changed", list(made.changed(own)), [])
    first = own[0]
    another = {**first, "sha256": ["0" * 64]}
    for entries, why in (
        ([another, *own[1:]], "changed"),
        ([{**first, "answer": "either"}, *own[1:]], "changed"),
        ([*own, {**first, "name": "new"}], "has no number"),
        (own[1:], "is gone"),
    ):
        found = list(made.changed(entries))
        is_found = len(found) == 1 and why in found[0]
        tally.check(is_found, f"a case that {why} is not found: {found}")


# It makes and tries files with all processors.
@Test(
    "conformance",
    "the conformance suite, from its archive: the index, elfmap beside it, and the runner",
    f"tar xz readelf {JSONSCHEMA}",
    "elfmap",
    alone=True,
    options=(number("count", GENERATED, "so many generated files through elfmap"),),
)
def try_conformance(tally: Tally, options: Options) -> None:
    count = options.count
    try_numbers(tally)
    folder = unpacked(tally)
    index = try_index(tally, folder)
    try_rules(tally, index)
    try_fakes(tally, folder)
    try_readelf(tally, folder)
    try_elfmap(tally, folder, count)
