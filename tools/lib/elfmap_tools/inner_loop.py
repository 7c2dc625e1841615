"""`tools/dev check`, the loop while one writes: what is open of a crate, of some functions of it,
or of a test."""

import glob
import os
import re
import resource
import shutil
import sys
import tempfile
import time

from .building import FolderOf, built_below, checked, kit, link_words, words
from .tree import TOP, Options, read_text, said, write

# What a check says of what is proved, and of its own work.
QUIET = re.compile(
    r"(fn|struct|enum|union|impl|trait|const|static) \S+: (proved|assumed)"
    r"|(crate|library|statements|logic|axioms|linked|hides) "
    r"|(logic|only|tests|by-macro)[:=]|so far:"
    r"|(\S+: )?note: large solution|note: antt's advice|$"
)
WIDTH = 300
# A test with its comment, as `rt fmt` lays it out: it ends with the brace below its attribute.
TEST = re.compile(
    r"^(?: *///.*\n)*( *)#\[test\]\n(?:.*\n)*?\1(?:pub )?fn (\w+)(?:.*\n)*?(?:\1}|.*{})\n", re.M
)
COUNTS = re.compile(r"^only=(\d+) proved=(\d+)$", re.M)


def end_of(output: str) -> tuple[bool, str]:
    """Whether all is proved, and how a check ended, in words."""
    if counts := COUNTS.search(output):
        return counts[1] == counts[2], f"{counts[2]} of {counts[1]} functions proved"
    whole = re.search(r"^logic=proved .*?functions=(\d+)", output, re.M)
    return bool(whole), f"proved, {whole[1]} functions" if whole else "NOT PROVED"


def without_other_tests(folder: str, name: str) -> list[str]:
    """Takes each test whose name does not hold this one out of the texts of this folder: the names
    of those that stay."""
    kept: list[str] = []

    def left(match: re.Match[str]) -> str:
        if name not in match[2]:
            return ""
        kept.append(match[2])
        return match[0]

    for path in glob.glob(f"{folder}/src/**/*.rt", recursive=True):
        write(path, TEST.sub(left, read_text(path)))
    return kept


def tested(crate: str, folder_of: FolderOf, kept: str, name: str) -> tuple[bool, str]:
    """Proves and builds the tests of this name alone, in a copy of the crate, and runs them."""
    with tempfile.TemporaryDirectory(prefix="one-test-") as room:
        for part in ("src", "specs", "proofs"):
            if os.path.isdir(f"{TOP}/crates/{crate}/{part}"):
                shutil.copytree(f"{TOP}/crates/{crate}/{part}", f"{room}/{part}")
        if not without_other_tests(room, name):
            raise SystemExit(f"check: {crate} has no test whose name holds {name}")
        command = [f"{kit()}/bin/rattle", "build", *words(crate, folder_of), "--test"]
        command += ["--incremental", kept, "--toolchain", f"{kit()}/toolchain", "-o", "tests.o"]
        output = said(*command, folder=room).stdout
        if not os.path.isfile(f"{room}/tests.o"):
            return False, output
        output += said(*link_words("tests", "tests.o"), folder=room).stdout
        ran = said(f"{kit()}/bin/rattle-test", "--seconds", "60", "tests", folder=room)
        return ran.returncode == 0, output + ran.stdout


def libraries_of(crate: str) -> FolderOf:
    """The folder of each library below a crate, all of which have to be built."""
    folder_of, lacking = built_below([crate])
    if lacking:
        what = f"these libraries below {crate} are not built, or were changed since"
        print(f"check: {what}: {' '.join(lacking)}", file=sys.stderr)
        raise SystemExit(f"check: build them with `tools/dev prove {crate}`")
    return folder_of


def print_open(output: str) -> None:
    """The lines on what is not proved, and why, their beginnings; and of tests how each ended."""
    for line in output.splitlines():
        if not QUIET.match(line) and not line.startswith("  = "):
            print(line if len(line) <= WIDTH else f"{line[:WIDTH]} ..")


def check(options: Options) -> int:
    """`tools/dev check`: proves a crate, some functions of it, or a test."""
    crate = options.crate
    begun = time.monotonic()
    if options.test and options.function:
        raise SystemExit("usage: tools/dev check CRATE [FUNCTION.. | --test NAME]")
    folder_of = libraries_of(crate)
    folder = f"{TOP}/crates/{crate}"
    kept = f"{folder}/out/loop"
    os.makedirs(kept, exist_ok=True)
    if options.test:
        is_well, output = tested(crate, folder_of, kept, options.test)
    else:
        output = checked(crate, options.function, folder, folder_of, kept)
        is_well, _ = end_of(output)
    write(f"{folder}/out/check.log", output)
    print_open(output)
    used = resource.getrusage(resource.RUSAGE_CHILDREN)
    seconds = time.monotonic() - begun
    times = f"{seconds:.0f} s, {used.ru_utime + used.ru_stime:.0f} of a processor"
    print(f"check: {crate}: {end_of(output)[1]}; {times}")
    return 0 if is_well else 1
