"""The subcommands of `tools/dev` and `tools/release`, and the tests of `tools/test`."""

import argparse
import os
import subprocess
import sys
from collections.abc import Callable, Iterable
from functools import partial
from typing import NamedTuple

from . import (
    application,
    bindings,
    inner_loop,
    c_library,
    cases,
    changed_files,
    conformance,
    conformance_page,
    conformance_runs,
    coverage,
    definitions,
    definitions_page,
    doc,
    doc_examples,
    doc_page,
    dump,
    explain,
    failing_calls,
    format,
    fuzzed_files,
    generated_programs,
    guarantees,
    hostile_files,
    import_paths,
    instructions,
    launcher,
    laws,
    lemmas_page,
    library,
    linked_elsewhere,
    linked_kinds,
    linked_like_ld,
    linked_runs,
    make_cases,
    man,
    memory_faults,
    minutes,
    must_not_compile,
    mutations,
    names,
    package_files,
    packages,
    page,
    page_picture,
    pages,
    peers,
    real_files,
    real_objects,
    release,
    release_files,
    rules_in_code,
    rules_tables,
    shared_tails,
    shown_commands,
    slow_files,
    source_files,
    sweep,
    types,
    web_page,
)
from .building import Build
from .suite import (
    TESTS,
    Option,
    Test,
    commands_of,
    families,
    flag,
    number,
    run_one,
    run_several,
    word,
)
from .requirements import setup
from .tree import LIBRARIES_OF, PACKAGE, PROCESSORS, TOP, Options, progress


class Command(NamedTuple):
    """A subcommand: its name, what it does, the function, which returns the status, and its
    words."""

    name: str
    about: str
    call: Callable[[Options], int | None]
    words: Iterable[Option] = ()


def package_command(options: Options) -> int:
    """Runs a command of bindings/python, over the program and the library of the repository."""
    words = [sys.executable, "-B", "-m", f"elfmap.{options.command}", *options.words]
    own = {"ELFMAP": f"{TOP}/elfmap", **os.environ, "PYTHONPATH": PACKAGE}
    return subprocess.run(words, env=own).returncode


# ---- tools/dev

CRATE = word("crate", "a crate of crates.txt", choices=LIBRARIES_OF)
FUNCTION = word(
    "function",
    "a function's path in the crate, or the end of it that fits one alone, or a module, or a type",
    nargs="*",
)
TEST = word("--test", "the tests alone whose names hold this", metavar="NAME")
OF_PACKAGE = word("words", "its words", nargs=argparse.REMAINDER)
OBJECTS = [
    word("program", "elfmap"),
    word("file", "an object, or an archive of objects", nargs="+"),
]
CONFORMANCE = [
    number("generated", 1000, "so many generated files"),
    word("--results", "a folder that keeps what is found of each tool", metavar="FOLDER"),
]
SWEEP = [
    word("count", "how many packages", type=int),
    word("seed", "the seed of the draw", type=int),
    word("--from", "the folder of the packages (what apt has)", dest="folder", metavar="FOLDER"),
    word("--output", "another file than the page, or -", metavar="FILE"),
]
DEV = [
    Command(
        "check",
        "prove a crate, or some functions of it, or a test, and print what is open",
        inner_loop.check,
        [CRATE, FUNCTION, TEST],
    ),
    Command(
        "prove",
        "prove the libraries below a crate; build it if it is a program or library for C",
        lambda it: Build(it.crate).all(),
        [CRATE],
    ),
    Command("doc", "print the page of the whole library, for a browser", doc_page.main),
    Command(
        "explain",
        "explain in words why elfmap refuses a file: elfmap-explain of the Python package",
        package_command,
        [OF_PACKAGE],
    ),
    Command(
        "picture",
        "draw the bytes of a file: elfmap-picture of the Python package",
        package_command,
        [OF_PACKAGE],
    ),
    Command(
        "view",
        "show what is in a file, also in a broken one: elfmap-view of the Python package",
        package_command,
        [OF_PACKAGE],
    ),
    Command(
        "peers",
        "write the tables of docs/generated/PEERS.md: what other tools say of files that elfmap "
        "refuses",
        peers.main,
    ),
    Command(
        "conformance",
        "write docs/generated/CONFORMANCE.md and its reports: how tools read the suite's files",
        conformance_page.main,
        CONFORMANCE,
    ),
    Command(
        "coverage",
        "print which branches of the Python package and of the page their tests take",
        coverage.main,
        [coverage.WORD],
    ),
    Command(
        "sweep",
        "write docs/generated/SWEEP.md: the rules that the files of N packages of Debian break",
        sweep.main,
        SWEEP,
    ),
    Command(
        "shared-tails",
        "print how much shorter string tables are whose names share tails",
        shared_tails.main,
        OBJECTS,
    ),
    Command(
        "minutes",
        "print at its end the processor minutes of a process",
        minutes.print_minutes,
        [word("pid", "its number", type=int)],
    ),
    Command(
        "dump",
        "write the files that the tests of bindings/ read, and what they have to print",
        dump.main,
        [word("folder", "where to")],
    ),
]

# ---- tools/release

VERSION = word("version", "the version", nargs="?", default="")
HERE = word("folder", "where to (here)", nargs="?", default=".")
THERE = word("folder", "where to (crates/elf_c/out)", nargs="?", default=library.FOLDER)
ANSWERS_OF_LARGE = flag("large", "make the answers of its large files again, in minutes")
PICTURE = [word("file", "an ELF file"), word("picture", "the picture, as PNG")]
RELEASE = [
    Command(
        "pack",
        "pack what is built into one archive",
        lambda it: print(release_files.pack(it.folder, it.version)),
        [HERE, VERSION],
    ),
    Command(
        "packages",
        "make all packages of what is built: of Debian, Python and Rust, and the archive",
        package_files.make_packages,
        [HERE],
    ),
    Command(
        "sources",
        "pack the sources of the library, with a template of an application",
        lambda it: print(source_files.pack(it.folder, it.version)),
        [HERE, VERSION],
    ),
    Command(
        "conformance",
        "pack the conformance suite, whose version is in conformance/VERSION",
        lambda it: print(conformance.pack(it.folder)),
        [HERE],
    ),
    Command(
        "conformance-numbers",
        "give new cases of the conformance suite their numbers",
        conformance.give_numbers,
        [ANSWERS_OF_LARGE],
    ),
    Command(
        "library",
        "pack the library for C",
        lambda it: print(library.pack(os.path.abspath(it.folder))),
        [THERE],
    ),
    Command(
        "man",
        "print the manual page",
        lambda it: print(man.page(release_files.version_of(it.version)), end=""),
        [VERSION],
    ),
    Command("page", "print the page for a browser", lambda _: print(web_page.page(), end="")),
    Command(
        "page-picture",
        "take a picture of the page with a file on it (docs/page.png)",
        page_picture.picture,
        PICTURE,
    ),
    Command(
        "tables",
        "write what the crates and the bindings have of docs/RULES.md and include/elfmap.h",
        rules_in_code.write_tables,
    ),
    Command(
        "definitions",
        "write docs/generated/DEFINITIONS.md, from the comments in crates/*/specs/",
        definitions_page.write_definitions,
    ),
    Command(
        "imports",
        "write docs/generated/IMPORTS.md and specs/ of the crate elf, from what public crates show",
        import_paths.write_imports,
    ),
    Command(
        "lemmas",
        "write docs/generated/LEMMAS.md, from the comments in crates/*/proofs/",
        lemmas_page.write_lemmas,
    ),
]

# ---- tools/test

# The modules that have a test, in the order in which these are begun.
MODULES = [
    failing_calls,
    hostile_files,
    c_library,
    laws,
    bindings,
    explain,
    instructions,
    memory_faults,
    linked_like_ld,
    linked_runs,
    linked_elsewhere,
    linked_kinds,
    types,
    format,
    definitions,
    names,
    import_paths,
    rules_tables,
    guarantees,
    doc,
    doc_examples,
    must_not_compile,
    cases,
    make_cases,
    conformance_runs,
    release,
    launcher,
    application,
    packages,
    pages,
    shown_commands,
    mutations,
    fuzzed_files,
    changed_files,
    generated_programs,
    page,
    real_files,
    real_objects,
    slow_files,
]


def tests_in_order() -> dict[str, Test]:
    """The tests by their names."""
    order = [it.__name__ for it in MODULES]
    own = sorted(TESTS, key=lambda it: order.index(it.function.__module__))
    return {it.name: it for it in own}


def commands_of_tests(tests: list[Test]) -> list[Command]:
    """The commands of `tools/test`: each test, each family of them, and what installs what they
    need."""
    found = [Command(it.name, it.about, partial(run_one, it), it.options) for it in tests]
    for name, members in families(tests).items():
        about = f"these: {', '.join(it.name for it in members)}"
        found.append(Command(name, about, partial(run_several, members)))
    about = "install the Debian packages that the tests need, as root or by sudo"
    found.append(Command("setup", about, lambda _: not setup(commands_of(tests))))
    return found


ABOUTS = {
    "dev": (
        "What you need while you change code. What is tested is in tools/test, and what a release "
        "has in tools/release."
    ),
    "release": "What a release has, and what is generated.",
    "test": (
        "Runs the tests of the repository: all, as the gate does after `rt ci`, or some by their "
        "names or the name of their family."
    ),
}


def add_commands(
    parser: argparse.ArgumentParser, commands: list[Command], is_required: bool
) -> None:
    """Adds subcommands to a parser."""
    added = parser.add_subparsers(
        dest="command", required=is_required, metavar="NAME", title="commands"
    )
    for it in commands:
        about = f"{it.about[0].upper()}{it.about[1:]}."
        own = added.add_parser(it.name, help=it.about, description=about)
        own.set_defaults(call=it.call)
        for option, words in it.words:
            own.add_argument(option, **words)  # type: ignore[arg-type]


def run_tests(words: list[str]) -> int:
    """Runs `tools/test` with these words: a test, or several, or all."""
    parser = argparse.ArgumentParser("tools/test", description=ABOUTS["test"])
    jobs = "so many tests side by side (one a processor)"
    parser.add_argument("-j", type=int, dest="jobs", metavar="N", help=jobs)
    tests = tests_in_order()
    given = words[2:] if words[:1] == ["-j"] else words
    if len(given) > 1 and tests.keys() >= {*given}:
        # Several tests, by their names.
        tests = {it: tests[it] for it in given}
        words = words[: -len(given)]
    wanted = [*tests.values()]
    parser.set_defaults(jobs=PROCESSORS, call=partial(run_several, wanted))
    add_commands(parser, commands_of_tests(wanted), is_required=False)
    options = parser.parse_args(words)
    # What runs is said by the tests themselves.
    return int(options.call(options) or 0)


def main(tool: str, words: list[str]) -> int:
    """Runs `tools/dev`, `tools/release` or `tools/test`, by its name there, with these words."""
    if tool == "test":
        return run_tests(words)
    parser = argparse.ArgumentParser(f"tools/{tool}", description=ABOUTS[tool])
    add_commands(parser, DEV if tool == "dev" else RELEASE, is_required=True)
    options = parser.parse_args(words)
    with progress(lambda: f"tools/{tool} {options.command}"):
        return int(options.call(options) or 0)
