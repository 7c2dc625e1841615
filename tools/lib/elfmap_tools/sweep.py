"""`tools/dev sweep N SEED`: checks N packages of Debian by elfmap-lint, and writes
docs/generated/SWEEP.md, a table of the rules that their files break, by machine and producer.

The packages are those of a folder, as apt keeps what it has downloaded; nothing is fetched.
`apt-get install --download-only NAME..`, or `apt-get download NAME..` in the folder, gets more."""

import glob
import json
import os
import random
import re
import sys
import textwrap
from collections import Counter, defaultdict
from collections.abc import Iterable, Iterator
from typing import Any, NamedTuple

from .library import FOLDER, packed
from .tree import PACKAGE, TOP, Options, run, write

PAGE = "docs/generated/SWEEP.md"
APT = "/var/cache/apt/archives"
COLUMNS = 140
NO_PRODUCER = "not said"
DEPTH = ["--tables", "--format", "jsonl"]
# The version of a package in its name.
VERSION = re.compile(r"_[^_]*_[^_]*\.deb$")
TITLE = "# A sweep over packages"
# The paragraphs of the page's head, and the items of its list.
HEAD = [
    "`tools/dev sweep {count} {seed}` makes the tables of this page. Do not edit them by hand: run "
    "it again.",
    "It draws {count} of the {among} packages of Debian in the folder `{folder}`. That is what apt "
    "has downloaded on this machine. The number {seed} is the seed of the draw. "
    "`elfmap-lint --tables` checks all ELF-64 files in the packages, also those in archives.",
    "{files} files were checked, and {bad} of them break a rule; {unreadable} can't be read. "
    "`--strict` counts known deviations too.",
]
ITEMS = [
    "*producer* is the first string of `.comment`, as compilers and linkers write it. What a "
    "machine has no name for is its number.",
    "*strict* is how many findings there are with `--strict`, *reported* how many without it: the "
    "rest are [known deviations](../MANUAL.md#known-deviations).",
    "*packages* is how many packages have such a finding, and *for example* is one of them.",
]


class Kind(NamedTuple):
    """What findings have in common that are in one row: a rule, a machine, a producer."""

    rule: int | str
    name: str
    machine: str
    producer: str


def drawn(names: Iterable[str], count: int, seed: int) -> list[str]:
    """So many of these names, or all if there are fewer, in ascending order: always the same of the
    same names."""
    every = sorted(names)
    return sorted(random.Random(seed).sample(every, min(count, len(every))))


def linted(paths: list[str], *options: str) -> list[dict[str, Any]]:
    """What elfmap-lint prints of packages, as lines of JSON. Its status may be that of findings, or
    of something that can't be read."""
    env = os.environ | {"PYTHONPATH": PACKAGE, "ELFMAP_LIB_DIR": FOLDER}
    words = [sys.executable, "-B", "-m", "elfmap.lint", "--no-config", *DEPTH, *options]
    ran = run(*words, "--", *paths, env=env)
    if ran.returncode not in (0, 1, 3):
        raise SystemExit(f"sweep: elfmap-lint failed: {ran.stderr.decode()}")
    return [json.loads(it) for it in ran.stdout.splitlines()]


def kind_of(finding: dict[str, Any]) -> Kind:
    """The row of a finding."""
    producers = finding.get("producers") or [NO_PRODUCER]
    return Kind(finding["rule"], finding["name"], finding.get("machine", ""), producers[0])


def package_of(path: str) -> str:
    """The name of the package that has a file."""
    return VERSION.sub("", os.path.basename(path.partition(".deb(")[0] + ".deb"))


def rows(strict: list[dict[str, Any]], plain: list[dict[str, Any]]) -> Iterator[str]:
    """The rows of the table, the most frequent kind first."""
    counts = Counter(map(kind_of, strict))
    reported = Counter(map(kind_of, plain))
    packages: dict[Kind, set[str]] = defaultdict(set)
    for it in strict:
        packages[kind_of(it)].add(package_of(it["path"]))
    order = sorted(counts.items(), key=lambda it: (-it[1], *map(str, it[0])))
    for kind, count in order:
        own = sorted(packages[kind])
        cells = [f"{kind.rule} `{kind.name}`", kind.machine, cell(kind.producer)]
        numbers = [str(it) for it in (count, reported[kind], len(own))]
        yield f"| {' | '.join([*cells, *numbers, own[0]])} |"


def cell(words: str) -> str:
    """Words in a cell of a table."""
    return words.replace("|", "\\|").replace("`", "'")


def findings_of(lines: list[dict[str, Any]]) -> list[dict[str, Any]]:
    """The findings among the lines of a run."""
    return [it for it in lines if "rule" in it]


def page(options: Options, among: int, paths: list[str]) -> str:
    """The page of these packages."""
    strict = linted(paths, "--strict")
    summary = strict[-1]["summary"]
    numbers = {
        "count": len(paths),
        "seed": options.seed,
        "among": among,
        "folder": options.folder or APT,
        "files": summary["checked"],
        "bad": summary["files_with_findings"],
        "unreadable": summary["unreadable"],
    }
    paragraphs = [textwrap.fill(it.format(**numbers), COLUMNS) for it in HEAD]
    items = [textwrap.fill(f"- {it}", COLUMNS, subsequent_indent="  ") for it in ITEMS]
    head = "\n\n".join([TITLE, *paragraphs, "\n".join(items)])
    table = [
        "| rule | machine | producer | strict | reported | packages | for example |",
        "|---|---|---|---|---|---|---|",
        *rows(findings_of(strict), findings_of(linted(paths))),
    ]
    names = ", ".join(os.path.basename(it).removesuffix(".deb") for it in paths)
    drawn_ones = textwrap.fill(names, COLUMNS, break_long_words=False, break_on_hyphens=False)
    return f"{head}\n\n" + "\n".join(table) + f"\n\n## The packages\n\n```\n{drawn_ones}\n```\n"


def main(options: Options) -> int:
    """`tools/dev sweep`: writes the page."""
    folder = options.folder or APT
    every = glob.glob(f"{glob.escape(folder)}/*.deb")
    if options.count < 1 or not every:
        print(f"sweep: {folder} has no packages, or none is wanted", file=sys.stderr)
        return 2
    packed()
    paths = drawn(every, options.count, options.seed)
    text = page(options, len(every), paths)
    if options.output == "-":
        print(text, end="")
    else:
        write(options.output or f"{TOP}/{PAGE}", text)
    return 0
