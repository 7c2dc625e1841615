"""`tools/test c-library`: the libraries for C, of the crates elf_c (verdicts, records and tables,
without memory) and elf_c_engines (show, rewrite, map and link, with the three functions of memory
under the names that include/elfmap.h gives them), beside the header.

By cc, and by clang with its checks of addresses and of undefined behavior, bindings/c/test.c
passes, and says of each file of cases/*.txt, and of some of the machine's own, what the reference
implementation says; and bindings/c/engines.c answers what each case of the commands show, rewrite,
map and link says. C++ takes the header too."""

import os
import re
from collections.abc import Iterator
from dataclasses import replace

from elfmap._declared import BAD_RULES, DONE, NOT_LINKED, REFUSED, TOO_LONG

from .building import built
from .dump import c_lines
from .header import calls, version
from .library import BOTH, ENGINES, FUNCTIONS, RENAMED, SOURCES, VERDICTS, WARNINGS
from .reference import parsed, shown
from .requirements import SANITIZERS
from .suite import Tally, Test
from .tree import TOP, Options, read_bytes, read_text, said, wanted, write
from .written_cases import Case, case_files, every_case

CHECKERS = f"cc c++ clang nm objcopy {SANITIZERS}"
COMPILERS = {
    "cc": ["-O2"],
    "clang": ["-O1", "-g", "-fsanitize=address,undefined", "-fno-sanitize-recover=all"],
}
MACHINE_FILES = [
    "/bin/true",
    "/bin/ls",
    "/lib/x86_64-linux-gnu/libc.so.6",
    "/usr/lib/x86_64-linux-gnu/crt1.o",
]
# The results of the calls of each library, one or the other.
RESULTS = {VERDICTS: ["bool", "uint64_t"], ENGINES: ["uint32_t"]}
COMMANDS = ("show", "rewrite", "map", "link")
# What the engines may need of the C library beside the functions of memory.
ON_BYTES = {"bcmp", "memchr", "memcmp", "memcpy", "memmove", "memset", "strlen"}


def compare_names(
    tally: Tally, library: str, crate: str, needs: set[str], may_need: set[str]
) -> None:
    """The library exports what the header declares, and needs these names, and at most some
    more."""
    names = [it.split() for it in said("nm", "-g", library).stdout.splitlines() if " " in it]
    defined = sorted(it[-1] for it in names if it[-2] != "U")
    needed = {it[-1] for it in names if it[-2] == "U"}
    tally.same(f"what {crate} exports", defined, sorted(calls(*RESULTS[crate])))
    tally.check(needed - may_need == needs, f"{crate} needs {sorted(needed)}")


def compile_and_run(tally: Tally, compiler: str, program: str, *words: str) -> None:
    """A test in C, whose source is the first word, passes."""
    wanted(compiler, *WARNINGS, *COMPILERS[compiler], *words, "-o", program)
    ran = said(program)
    is_passed = ran.returncode == 0 and re.search(r"^\d+ passed, 0 failed$", ran.stdout, re.M)
    tally.check(is_passed, f"{words[0]} by {compiler}:\n{ran.stdout}")


def compare_files(tally: Tally, program: str, files: dict[str, list[str]]) -> None:
    """The test prints the lines of each file twice, of its bytes in two places."""
    found = said(program, *files).stdout.split("-- ")[1:]
    for k, (path, right) in enumerate(files.items()):
        both = [it.rstrip("\n").split("\n")[1:] for it in found[2 * k : 2 * k + 2]]
        other: list[str] = next((lines for lines in both if lines != right), [])
        different = [pair for pair in zip(other, right) if pair[0] != pair[1]]
        tally.check(both == [right, right], f"{path}: {different[:2]}")


def answer(
    status: int, text: bytes = b"", offset: int = 0, file: int = 0, index: int = 0, rule: int = 0
) -> bytes:
    """What the test prints of an answer in C: its status, the length of its text, the numbers of
    its outcome, and the text."""
    return f"{status} {len(text)} {offset} {file} {index} {rule}\n".encode() + text


def answer_of(case: Case) -> bytes | None:
    """The case's answer in C; None where the arguments or the files are wrong, not the rules."""
    if case.status == 0:
        return answer(DONE, case.out)
    is_on_output = case.status == 1 and case.words[0] in ("show", "map")
    line = (case.out if is_on_output else case.err).decode().rstrip("\n")
    if case.status > 1:
        bad = re.fullmatch(r"bad rule line (\d+)", line)
        return answer(BAD_RULES, offset=int(bad[1])) if bad else None
    if line == "too long":
        return answer(TOO_LONG)
    if one := re.fullmatch(r"(?:file (\d+) )?refused (\d+) (\d+)", line):
        return answer(REFUSED, case.out, int(one[3]), int(one[1] or 0), 0, int(one[2]))
    rule, number, index, entry = map(int, line.removeprefix("refused ").split())
    return answer(NOT_LINKED, case.out, entry, number, index, rule)


def call_of(case: Case) -> list[str] | None:
    """The arguments of the test for a case; None where it needs a file that is none."""
    given = dict(it.partition("=")[::2] for it in case.needs)
    options, files = parsed(case.words)
    command = case.words[0]
    rules = options.get("--rules")
    needed = [*files, rules] if rules else files
    if "--seek" in options or not all(given.get(it) for it in needed):
        return None
    if command in ("show", "rewrite"):
        return [command, *files]
    entry = [options["--entry"]] if command == "link" else []
    return [command, options["--base"], options["--page"], *entry, rules or "-", *files]


def tries_of_engines() -> Iterator[tuple[Case, bytes]]:
    """The calls of the engines by the cases, with their right answers, and on files of the
    machine."""
    for case in every_case():
        if case.words[:1] and case.words[0] in COMMANDS:
            right = answer_of(case)
            words = call_of(case) if right else None
            if right and words:
                yield replace(case, words=words), right
    for path in filter(os.path.isfile, MACHINE_FILES):
        yield Case(["show", path], []), answer(DONE, shown(read_bytes(path)).encode())


def try_engines(tally: Tally, program: str) -> None:
    """What the engines answer of the cases, and of files of the machine."""
    tried: set[str] = set()
    for call, right in tries_of_engines():
        tried.add(call.words[0])
        status, out, err = call.found(program)
        said = err.decode(errors="replace")[:2000]
        why = f"{status} {out[:200]!r}, and not {right[:200]!r} {said}"
        tally.check((status, out) == (0, right), f"{call}: {why}")
    tally.same("the commands of the cases that were tried", tried, set(COMMANDS))


@Test(
    "c-library",
    "the libraries for C, and the header, by cc and by clang with its checks",
    CHECKERS,
    BOTH,
)
def try_c_library(tally: Tally, options: Options) -> None:
    room = tally.folder
    verdicts = built(VERDICTS)
    tally.same("the version of the header", version(), read_text("VERSION").splitlines()[0])
    compare_names(tally, verdicts, VERDICTS, set(), set())
    paths = [write(f"{room}/{name}", content) for content, name in case_files().items()]
    paths += filter(os.path.isfile, MACHINE_FILES)
    files = {path: c_lines(read_bytes(path)) for path in paths}
    engines = f"{room}/lib{ENGINES}.a"
    wanted("objcopy", *RENAMED, built(ENGINES), engines)
    compare_names(tally, engines, ENGINES, {f"elfmap_{it}" for it in FUNCTIONS}, ON_BYTES)
    of_engines = [f"{SOURCES}/engines.c", engines, verdicts]
    for compiler in COMPILERS:
        program = f"{room}/test-{compiler}"
        compile_and_run(tally, compiler, program, f"{SOURCES}/test.c", verdicts)
        compare_files(tally, program, files)
        compile_and_run(tally, compiler, f"{program}-engines", *of_engines)
        try_engines(tally, f"{program}-engines")
    over_malloc = f"{room}/over-malloc"
    memory = ["-DOVER_MALLOC", f"{SOURCES}/memory.c"]
    compile_and_run(tally, "cc", over_malloc, of_engines[0], *memory, engines, verdicts)
    try_engines(tally, over_malloc)
    strict = ["-Wall", "-Wextra", "-Werror", "-fsyntax-only", "-x", "c++"]
    wanted("c++", *strict, f"{TOP}/include/elfmap.h")
