"""The suite as a runner needs it: the cases of the index, and the files that are made when they are
needed."""

import hashlib
import json
import os
from collections.abc import Iterator
from typing import Any, NamedTuple

from . import generated, large
from .adapter import Problem
from .reading import Reading, digest, first_refused, reading

HERE = os.path.dirname(os.path.dirname(os.path.abspath(__file__)))
GENERATED = "generated"
# The sets that are run if nothing else is said.
USUAL = ("rules", "readings", "extended", "hostile", "links", "loading", GENERATED)
# How many generated files are run if nothing else is said: all take minutes by slow tools.
USUAL_COUNT = 1000


class Case(NamedTuple):
    """A case, as a tool is tried on it."""

    number: int
    name: str
    set: str
    about: str
    paths: list[str]
    answer: str
    point: str
    # Whether all that is known of the file is that it is right: then to refuse it is worth a look.
    is_sound: bool
    order: str
    type: int
    entry: dict[str, Any]

    @property
    def problem(self) -> Problem:
        """What a tool is asked."""
        return Problem(self.set, self.paths, self.order, self.type)

    @property
    def reading(self) -> Reading:
        """What is right."""
        found: Reading = self.entry.get("reading", {})
        return found


def sha256_of(path: str) -> str:
    """The sha256 of a file."""
    whole = hashlib.sha256()
    with open(path, "rb") as it:
        while block := it.read(1 << 20):
            whole.update(block)
    return whole.hexdigest()


class Suite:
    """The index, and a folder for files that are made."""

    def __init__(self, folder: str) -> None:
        with open(f"{HERE}/index.json", encoding="utf-8") as it:
            self.index = json.load(it)
        self.folder = folder

    def case(self, it: dict[str, Any]) -> Case:
        """A case of the index. A file that is made is made now."""
        paths = [f"{HERE}/{path}" for path in it["files"]]
        if "made" in it:
            paths = [f"{self.folder}/{it['made']}"]
            if not os.path.exists(paths[0]):
                os.makedirs(self.folder, exist_ok=True)
                large.put_made(it["made"], paths[0])
                if sha256_of(paths[0]) != it["sha256"][0]:
                    raise SystemExit(f"run.py: {it['made']} is not made as the index says")
        return Case(
            it["number"],
            it["name"],
            it["set"],
            it["about"],
            paths,
            it["answer"],
            it["point"],
            it["sound"],
            it["order"],
            it["type"],
            it,
        )

    def cases(self, sets: set[str], only: list[str]) -> Iterator[Case]:
        """The cases of these sets whose number or a part of whose name is given; all if none is."""
        for it in self.index["cases"]:
            is_wanted = not only or any(
                word == str(it["number"]) or word in it["name"] for word in only
            )
            if it["set"] in sets and is_wanted:
                yield self.case(it)

    def answers(self) -> list[list[str]]:
        """Of each generated file a part of its sha256, the rule that it breaks with its place, and
        a part of the digest of its reading."""
        with open(f"{HERE}/{self.index['generated']['answers']}", encoding="utf-8") as it:
            return [line.split() for line in it.read().splitlines()]

    def generated(self, k: int, answer: list[str]) -> Case:
        """A generated file with its reading, which are those that the index has."""
        content = generated.made(k, self.index["generated"]["seed"])
        path = f"{self.folder}/generated-{k}"
        with open(path, "wb") as it:
            it.write(content)
        own = reading(content)
        found = answer_line(content, own)
        if found.split() != answer:
            raise SystemExit(f"run.py: generated file {k} is {found}, and the index has {answer}")
        return generated_case(k, path, content, own)


def answer_line(content: bytes, own: Reading) -> str:
    """The line of a generated file: a part of its sha256, the rule that it breaks with its offset
    and section, and a part of the digest of its reading."""
    refused = first_refused(own)
    place = "- - -"
    if refused:
        place = f"{refused['rule']} {refused['offset']} {refused.get('section', '-')}"
    return f"{hashlib.sha256(content).hexdigest()[:16]} {place} {digest(own)[:16]}"


def generated_case(k: int, path: str, content: bytes, own: Reading) -> Case:
    """The case of a generated file."""
    refused = first_refused(own)
    header = own.get("header", {})
    order = "big" if content[5:6] == b"\2" else "little"
    index: dict[str, Any] = {"reading": own, "refused": refused}
    about = f"generated file {k}"
    answer = "refuses" if refused else "accepts"
    name = f"{GENERATED}/{k}"
    is_sound = k % 4 == 0
    type = header.get("type", 0)
    # Which of the rules is whose, the cases of the rules say.
    return Case(k, name, GENERATED, about, [path], answer, "gABI", is_sound, order, type, index)
