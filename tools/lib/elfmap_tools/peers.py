"""`tools/dev peers`: the tables of docs/generated/PEERS.md, what other tools say of files that
elfmap refuses. The page says how the files are made; which rule one breaks the reference
implementation says. Tools that are not installed have no column."""

import random
import re
import shutil
import subprocess
import tempfile
from collections.abc import Iterator

from .reference import object_verdict, shown, verdict
from .rules_page import file_rules
from .tree import TOP, Options, by_cc, read_bytes, read_text, run, write
from .written_cases import every_case

PAGE = "docs/generated/PEERS.md"
# So many files break a rule; and so many bytes are changed, one at a time.
FILES_A_RULE = 2
CHANGES = 30000
# How cc makes the files that are changed: an object, one with groups and debug information, an
# executable, and a library with a hash table.
LIBRARY = "-shared -nostdlib -fPIC -O1 -Wl,--hash-style=sysv -Wl,-soname,answer.so"
MADE_BY_CC = {
    "an object": "-c -O1",
    "an object of C++": "-x c++ -c -O1 -g",
    "an executable": "-nostdlib -static -O1",
    "a library": LIBRARY,
}
# Each tool, and how it is called; its version it says by --version.
PEERS = {
    "readelf": "readelf -aW a.o",
    "eu-readelf": "eu-readelf -a a.o",
    "eu-elflint": "eu-elflint --gnu-ld a.o",
    "llvm-readobj": "llvm-readobj --all a.o",
    "objcopy": "objcopy a.o b.o",
    "ld -r": "ld -r a.o -o b.o",
    "lld -r": "ld.lld -r a.o -o b.o",
}
# The rules by the command that answers them.
KINDS = {"check": range(1, 34), "show": range(40, 70), "rewrite": range(70, 80)}
Files = dict[int, list[bytes]]


def note(found: Files, rule: int | None, content: bytes) -> None:
    """Keeps a file that breaks a rule, if there are few of the rule."""
    if rule is None:
        return
    own = found.setdefault(rule, [])
    if content not in own and len(own) < FILES_A_RULE:
        own.append(content)


def refused_by(answer: str) -> int | None:
    """The rule by which an answer refuses something, None where it doesn't."""
    found = re.search(r"^refused (?:\d+ )?(\d+) \d+$", answer, re.M)
    return int(found[1]) if found else None


def case_files() -> Files:
    """Of each rule the first files of the cases that break it."""
    found: Files = {}
    for it in every_case():
        if it.words[:1] and it.words[0] in KINDS and len(it.words) == 2 and len(it.needs) == 1:
            # `rewrite` prints a refusal on standard error.
            rule = refused_by((it.out + it.err).decode("latin1"))
            if rule in KINDS[it.words[0]]:
                note(found, rule, bytes(it.files[it.needs[0].partition("=")[2]]))
    return found


def first_rule(content: bytes) -> int | None:
    """The first rule that a file breaks: of images, else of its tables, else of objects."""
    broken = verdict(content)
    rule = broken[0] if broken else refused_by(shown(content))
    if rule is None and content[16:18] == b"\1\0" and (broken := object_verdict(content)):
        return broken[0]
    return rule


def changed_files(whole: list[bytes]) -> Files:
    """Of each rule the first files with one byte changed that break it."""
    choose = random.Random(8)
    found: Files = {}
    for _ in range(CHANGES):
        content = bytearray(choose.choice(whole))
        table = int.from_bytes(content[40:48], "little")
        start, end = choose.choice(((0, 64), (table, len(content)), (64, table)))
        at = choose.randrange(start, end)
        value = choose.choice((0, 1, 2, 255, content[at] ^ 1, content[at] ^ 128))
        if value != content[at]:
            content[at] = value
            note(found, first_rule(bytes(content)), bytes(content))
    return found


def said_of(tool: str, content: bytes) -> str:
    """What a tool says of a file, in one word."""
    with tempfile.TemporaryDirectory(prefix="peers-") as room:
        write(f"{room}/a.o", content)
        try:
            ran = run(*PEERS[tool].split(), folder=room, timeout=60)
        except subprocess.TimeoutExpired:
            return "takes over a minute"
    if ran.returncode:
        return "killed" if ran.returncode < 0 else "refuses"
    complains = ran.stderr.strip() or re.search(rb"\b(warning|error)\b", ran.stdout, re.I)
    return "warns" if complains else "silent"


def row(title: str, contents: list[bytes], tools: list[str]) -> str:
    """A row of the table: what each tool says of these files."""
    said = ([said_of(tool, it) for it in contents] for tool in tools)
    cells = (", ".join(it if len(set(it)) > 1 else it[:1]) for it in said)
    return f"| {title} | {len(contents)} | {' | '.join(cells)} |"


def version_of(tool: str) -> str:
    """The first line that a tool says of its version."""
    command = PEERS[tool].split()[0]
    return run(command, "--version").stdout.decode().strip().splitlines()[0].strip()


def rows(tools: list[str]) -> Iterator[str]:
    """The rows of the table, the files that break no rule first; and last how many files break
    one."""
    with tempfile.TemporaryDirectory(prefix="peers-") as room:
        made: dict[str, bytes] = {}
        for name, words in MADE_BY_CC.items():
            made[name] = read_bytes(by_cc(f"{room}/made", words, "answer_peers.c"))
    for name, content in made.items():
        yield row(f"none: {name}", [content], tools)
    changed = changed_files(list(made.values()))
    found = case_files() | changed
    names = {it.number: it.name for it in file_rules()}
    for rule, contents in sorted(found.items()):
        mark = "" if rule in changed else " *"
        yield row(f"{rule} `{names[rule]}`{mark}", contents, tools)
    yield f"\n{sum(map(len, found.values()))} files."


def main(options: Options) -> None:
    """`tools/dev peers`: writes the page."""
    tools = [it for it, words in PEERS.items() if shutil.which(words.split()[0])]
    # The page says above its list of tools what it has.
    lines = [read_text(PAGE).partition("\n- `")[0]]
    lines += [f"- `{PEERS[it]}`: {version_of(it)}" for it in tools]
    lines += ["", f"| rule | files | {' | '.join(f'`{it}`' for it in tools)} |"]
    lines += [f"|---|---|{'---|' * len(tools)}", *rows(tools), ""]
    write(f"{TOP}/{PAGE}", "\n".join(lines))
