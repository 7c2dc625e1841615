"""`tools/test fuzzed-files`: files with fields changed, by chance, beside the reference
implementation, which was written from docs/RULES.md and shares nothing with the crates. The same
seed makes the same files; what went wrong is put into the current folder, as fuzzed-SEED-K.

Every other one is a file: of real ones, objects, libraries and executables of gcc, clang, rustc,
`as` and their linkers in both byte orders, and every fourth time of a generated one; through
`check`, `show` and `rewrite`. Each call ends by itself within ten seconds, with status 0 or 1; they
say what the reference implementation says: the verdict, all lines, the object in its canonical
layout or why there is none; `check --seek` says what `check` does; and what `rewrite` wrote it
writes again.

The others are of two objects that are linked, and of the rules of rules/x86-64.rules, through
`map`, `map --rules` and `link`: a bad line of the rules is an error of status 2, a file that is not
there one of status 3; else all say what the reference says, and `check` accepts what `link`
wrote."""

import os
import random
import re
import subprocess
from functools import partial
from itertools import zip_longest

from .chance_files import Chance, a_file
from .changes import fuzzed
from .reference import RELA, answer
from .suite import Tally, Test, by_chance
from .tree import (
    PROGRAM,
    RULES,
    Answer,
    Options,
    answer_of,
    compiled,
    ending,
    read_bytes,
    run,
    write,
)
from .tries import count_tries

ABOUT = "files and links with fields changed, beside the reference implementation"
COMPILERS = "gcc g++ clang ld.lld rustc as"
LONGEST = 1 << 19
BIG = "--target=powerpc64-unknown-linux-gnu"
BUILDS = f"""
gcc -c -g defining.c -o part.o
gcc -c -ffunction-sections templates.cc -o templates.o
gcc -shared -nostdlib -fPIC defining.c -Wl,--hash-style=sysv -o part.so
gcc -nostdlib -static defining.c -o part
clang -c {BIG} defining.c -o part-big.o
clang -c {BIG} templates.cc -o templates-big.o
ld.lld -shared --hash-style=sysv part-big.o -o part-big.so
ld.lld part-big.o -o part-big
rustc --crate-type lib --emit obj -C opt-level=s -C codegen-units=1 held.rs -o held.o
as parts.s -o parts.o
""".strip().splitlines()

PAIR = tuple(
    f"gcc -c -O1 -fno-pic -fno-pie -fcommon {it}.c -o linked-{it}.o"
    for it in ("caller", "defining")
)
SYSTEM = (
    "/usr/lib/x86_64-linux-gnu/crt1.o",
    "/usr/lib/x86_64-linux-gnu/libutil.so.1",
    "/usr/bin/true",
)
# Bases and pages; the last pair breaks rule 1.
PLACES = [
    ("0x400000", "0x1000"),
    ("65536", "1"),
    ("0", "1"),
    ("0x80000000", "16"),
    ("0x7ffff000", "0x1000"),
    ("0xffffffffffff0000", "4096"),
    ("0x1001", "0x1000"),
]

ENTRIES = ("caller", "counted", "half", "once", "absent", "nowhere")
RULE = re.compile(rb"[0-9]+ (abs|pc|none) [1248] (signed|unsigned|wrap)")
# So many lines of rules at most.
MOST_RULES = 256


def fuzzed_rules(rules: bytes, chance: Chance) -> bytes:
    """The rules, and every fourth time others, or lines that are none."""
    kind = chance.randrange(24)
    if kind == 0:
        old = chance.choice((b"4", b"8", b"signed", b"pc", b" "))
        new = chance.choice((b"1", b"2", b"4", b"8", b"none", b"wrap", b"3", b"  "))
        return rules.replace(old, new)
    if kind == 1:
        at = chance.randrange(len(rules))
        return rules[:at] + bytes([chance.randrange(256)]) + rules[at + 1 :]
    if kind == 2:
        return rules[: chance.randrange(len(rules) + 1)]
    if kind == 3:
        return rules * chance.choice((2, 36, 37, 40))
    if kind == 4:
        number = chance.choice((b"4294967295", b"4294967296", b"0001", b"-1", b""))
        return number + b" abs 4 wrap\n" + rules
    if kind == 5:
        return b"".join(chance.sample(rules.splitlines(True), chance.randrange(8)))
    return rules


def bad_line(rules: bytes) -> int:
    """The first line of the rules that is none, from 1 on; 0 where there is no such line."""
    *lines, rest = rules.split(b"\n")
    for number, line in enumerate(lines, 1):
        is_rule = RULE.fullmatch(line) and int(line.split(b" ")[0]) < 1 << 32
        if number > MOST_RULES or not is_rule:
            return number
    return len(lines) + 1 if rest else 0


def right_answer(words: list[str], files: dict[str, bytes]) -> Answer | None:
    """The answer of the reference, or that the first line of the rules that is none is bad, or that
    a file is missing."""
    if "--rules" in words and (number := bad_line(files["rules"])):
        return 2, b"", b"bad rule line %d\n" % number
    if "missing" in words:
        return 3, b"", b"cannot open missing\n"
    return answer(words, files)


def difference(found: Answer, right: Answer | None) -> str:
    """What an answer says otherwise than the right one, which the reference may leave open."""
    status, out, _ = found
    if found == right or right is None and status in (0, 1):
        return ""
    lines = zip_longest(out.splitlines(), right[1].splitlines() if right else [])
    different = next((it for it in lines if it[0] != it[1]), ())
    wanted = right and (right[0], right[2])
    return f"and not {wanted}; first other line {different!r}"


def wrong_again(folder: str, command: str, out: bytes) -> str:
    """What is wrong with what `rewrite` or `link` wrote: it is accepted, and an object is written
    again as it is."""
    again = run(PROGRAM, command, write(f"{folder}/written", out), timeout=10)
    is_right = again.returncode == 0 and (command == "check" or again.stdout == out)
    return "" if is_right else f"{command} of what is written {ending(again)}"


def wrong_answer(folder: str, words: list[str], files: dict[str, bytes]) -> str:
    """What is wrong with an answer on the files of a folder, or with what was written."""
    ended = run(PROGRAM, *words, folder=folder, timeout=10)
    found = answer_of(ended)
    if why := difference(found, right_answer(words, files)):
        return f"{ending(ended)}, {why}"[:600]
    status, out, _ = found
    if status == 1 and out and words[0] == "rewrite":
        return "it refuses and writes"
    if status or words[0] not in ("rewrite", "link"):
        return ""
    return wrong_again(folder, "rewrite" if words[0] == "rewrite" else "check", out)


def commands_of_link(chance: Chance) -> list[str]:
    """The commands that take the two objects of a link."""
    place = "--base {} --page {}".format(*chance.choice(PLACES))
    link = f"link {place} --entry {chance.choice(ENTRIES)} --rules rules"
    return [f"map {place}", f"map {place} --rules rules", link]


def fuzzed_contents(names: list[str], number: int, chance: Chance) -> dict[str, bytes]:
    """The contents of these files by their names, of which one at least is changed."""
    types = (RELA,) if number % 2 and chance.randrange(2) else ()
    changed = chance.randrange(len(names))
    found: dict[str, bytes] = {}
    for k, name in enumerate(names):
        file = a_file(chance) if number % 8 == 6 else read_bytes(name)
        is_changed = k == changed or chance.randrange(4) == 0
        found[os.path.basename(name)] = fuzzed(file, chance, types) if is_changed else file
    return found


def wrong_fuzzed_file(
    sources: list[str], pair: list[str], seed: int, number: int, folder: str
) -> str:
    """What is wrong with the answers on fuzzed file NUMBER, or on a link of two files, which are
    written into a folder."""
    chance = random.Random(f"{seed} {number}")
    is_link = number % 2 == 1
    names = pair if is_link else [sources[number // 2 % len(sources)]]
    files = fuzzed_contents(names, number, chance)
    given = list(files)
    commands = ["check", "check --seek", "show", "rewrite"]
    if is_link:
        files["rules"] = fuzzed_rules(read_bytes(RULES), chance)
        commands = commands_of_link(chance)
        given += ["missing"] if chance.randrange(40) == 0 else []
    for name, content in files.items():
        write(f"{folder}/{name}", content)
    for command in commands:
        try:
            wrong = wrong_answer(folder, [*command.split(), *given], files)
        except subprocess.TimeoutExpired as late:
            return f"{late.cmd[1]} did not end"
        if wrong:
            return f"{command}: {wrong}"
    return ""


@Test(
    "fuzzed-files",
    ABOUT,
    COMPILERS,
    "elfmap",
    alone=True,
    family="fuzz",
    options=by_chance(500, "files"),
)
def try_fuzzed_files(tally: Tally, options: Options) -> None:
    system = [it for it in SYSTEM if os.path.exists(it) and os.path.getsize(it) <= LONGEST]
    files = [*compiled(tally.folder, BUILDS), *system]
    pair = compiled(tally.folder, PAIR)
    if not tally.check(files and len(pair) == 2, "the compilers make no files"):
        return
    count_tries(tally, options, "fuzzed", partial(wrong_fuzzed_file, files, pair))
    tally.note(
        f"{options.count} fuzzed files of {len(files)} files and a link, seed {options.seed}"
    )
