"""The index of the conformance suite (`conformance/`): its cases, with the answers of the reference
implementation. A case has a number in conformance/numbers.txt, and a digest of its files and of its
answer. Neither changes without a new number."""

import hashlib
import importlib
import sys
from collections.abc import Iterator
from functools import cache
from typing import Any

from .tree import TOP, read_text, side_by_side, write

FOLDER = f"{TOP}/conformance"
sys.path.insert(0, FOLDER)
import cases  # noqa: E402
from cases.case import CASES, RULES as RULES, Case  # noqa: E402
from elf_conformance import generated, large  # noqa: E402
from elf_conformance.build import order_of, read  # noqa: E402
from elf_conformance.reading import digest, first_refused, reading, sampled  # noqa: E402
from elf_conformance.running import MEMORY, SECONDS  # noqa: E402
from elf_conformance.suite import answer_line  # noqa: E402

MODULES = (
    "header",
    "sections",
    "segments",
    "symbols",
    "tables",
    "readings",
    "hostile",
    "links",
    "loading",
)
NUMBERS = "conformance/numbers.txt"
LARGE = "conformance/large.json"
ANSWERS = "generated.txt"
SCHEMA = "https://json-schema.org/draft/2020-12/schema"
Entry = dict[str, Any]
HEAD = (
    "# The numbers of the cases: of each its name, and a digest of its files and of its answer.\n"
    "# `tools/release conformance-numbers` adds new cases at the end. A line never changes: a\n"
    "# case with another file or another answer gets a new name and a new number.\n"
)


@cache
def all_cases() -> list[Case]:
    """The cases of all modules, in order."""
    for name in MODULES:
        importlib.import_module(f"{cases.__name__}.{name}")
    return CASES


def about_rule(rule: int) -> Entry:
    """What the index says of whose point a rule is."""
    known = RULES[rule]
    return {"point": known.point, "part": known.part, "sentence": known.sentence}


def type_of(file: bytes) -> int:
    """The type of a file."""
    return read(file, 16, 2)


def with_answer(entry: Entry, files: list[bytes], own: Entry, is_sound: bool) -> Entry:
    """The entry of a case with its answer: by what its file says."""
    refused = first_refused(own)
    entry |= {"answer": "refuses" if refused else "accepts", "sound": is_sound and not refused}
    entry |= {"order": order_of(files[0]), "type": type_of(files[0])}
    if refused:
        entry["refused"] = refused
        if "part" not in entry:
            entry |= about_rule(refused["rule"])
    if "refused" not in own:
        entry["reading"] = own
    return entry


def file_names(case: Case) -> list[str]:
    """The places of the files of a case."""
    if len(case.files) == 1:
        return [f"files/{case.name}.elf"]
    return [f"files/{case.name}-{k}.elf" for k in range(len(case.files))]


def of_case(case: Case) -> Entry:
    """The entry of a case."""
    entry: Entry = {"name": case.name, "set": case.set, "about": case.about}
    entry |= {"files": file_names(case), "size": [len(it) for it in case.files]}
    entry["sha256"] = [hashlib.sha256(it).hexdigest() for it in case.files]
    if case.rule:
        entry["rule"] = {"number": case.rule, "breaks": case.breaks}
    if case.part:
        entry |= {"point": case.point, "part": case.part, "sentence": case.sentence}
    if case.more:
        own = {"point": "gABI", "order": "little", "type": type_of(case.files[0])}
        is_accepted = case.more["answer"] == "accepts"
        return {**entry, **own, "sound": is_accepted, **case.more}
    is_sound = case.set != "hostile"
    made = with_answer(entry, case.files, reading(case.files[0]), is_sound)
    return {"point": "gABI", **made}


def large_content(name: str) -> bytes:
    """The whole file of a name."""
    return large.content_of(name).ljust(large.MADE[name[:-3]].length, b"\0")


def of_large(name: str) -> Entry:
    """The entry of a file that is made when it is needed."""
    own = large.MADE[name[:-3]]
    file = large_content(name)
    entry: Entry = {"name": f"{own.folder}/{name}", "set": own.set, "about": own.about}
    entry |= {"files": [], "made": name, "size": [len(file)]}
    entry["sha256"] = [hashlib.sha256(file).hexdigest()]
    if own.rule:
        entry["rule"] = {"number": own.rule, "breaks": own.breaks}
        entry |= about_rule(own.rule)
    made = with_answer(entry, [file], sampled(reading(file)), True)
    return {"point": "gABI", **made}


def large_names() -> list[str]:
    """The names of the files that are made when they are needed."""
    return [name for name, _, _ in large.all_made()]


def is_huge(name: str) -> bool:
    """Whether the file of a name is as long as one may be."""
    return large.MADE[name[:-3]].length > 0


def digest_of(entry: Entry) -> str:
    """The digest of a case: of its files, and of its answer."""
    parts = ("sha256", "answer", "refused", "reading", "point")
    return digest({part: entry.get(part) for part in parts})[:16]


def numbered() -> dict[str, tuple[int, str]]:
    """The numbers that are given, by the names: each with the digest."""
    found: dict[str, tuple[int, str]] = {}
    for line in read_text(NUMBERS).splitlines():
        if line and not line.startswith("#"):
            number, name, own = line.split()
            found[name] = int(number), own
    return found


def changed(entries: list[Entry]) -> Iterator[str]:
    """What is wrong with the numbers: cases without one, that are gone, or that changed."""
    given = numbered()
    for it in entries:
        if it["name"] not in given:
            yield f"{it['name']} has no number: `tools/release conformance-numbers` gives it one"
        elif given[it["name"]][1] != digest_of(it):
            yield f"{it['name']} changed: give it another name, and so a new number"
    for name in given.keys() - {it["name"] for it in entries}:
        yield f"{name} has a number and is gone"


def put_numbers(entries: list[Entry]) -> list[str]:
    """Gives new cases a number: what is wrong with the others."""
    given = numbered()
    wrong = [it for it in changed(entries) if "has no number" not in it]
    if wrong:
        return wrong
    lines = [f"{number} {name} {own}" for name, (number, own) in given.items()]
    for it in entries:
        if it["name"] not in given:
            lines.append(f"{len(lines) + 1} {it['name']} {digest_of(it)}")
    write(f"{TOP}/{NUMBERS}", HEAD + "\n".join(lines) + "\n")
    return []


def generated_lines(part: range) -> list[str]:
    """The lines of some generated files."""
    lines: list[str] = []
    for k in part:
        content = generated.made(k)
        lines.append(answer_line(content, reading(content)))
    return lines


@cache
def generated_answers() -> str:
    """The answers of all generated files."""
    step = 250
    parts = [range(k, k + step) for k in range(0, generated.COUNT, step)]
    made = side_by_side(generated_lines, parts, by_processes=True)
    return "".join(f"{line}\n" for lines in made for line in lines)


def index(version: str, entries: list[Entry], answers: str) -> Entry:
    """The whole index."""
    given = numbered()
    own = [{"number": given[it["name"]][0], **it} for it in entries]
    own.sort(key=lambda it: it["number"])
    return {
        "suite": "elf-conformance",
        "version": version,
        "bounds": {"seconds": SECONDS, "memory": MEMORY},
        "generated": {
            "seed": generated.SEED,
            "count": generated.COUNT,
            "sha256": hashlib.sha256(answers.encode()).hexdigest(),
            "answers": ANSWERS,
        },
        "cases": own,
    }
