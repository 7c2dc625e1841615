#!/usr/bin/env python3
"""Runs ELF tools on the files of this suite, and prints how each answers: README.md says more."""

import argparse
import importlib
import json
import os
import pkgutil
import sys
import tempfile

HERE = os.path.dirname(os.path.abspath(__file__))
sys.dont_write_bytecode = True
sys.path.insert(0, HERE)
import adapters  # noqa: E402
from elf_conformance import table  # noqa: E402
from elf_conformance.adapter import Adapter, Json  # noqa: E402
from elf_conformance.suite import GENERATED, USUAL, USUAL_COUNT, Suite  # noqa: E402
from elf_conformance.trying import LISTED, try_all  # noqa: E402


def all_tools() -> list[Adapter]:
    """The tools of all adapters."""
    found: list[Adapter] = []
    for it in sorted(pkgutil.iter_modules(adapters.__path__), key=lambda it: it.name):
        module = importlib.import_module(f"adapters.{it.name}")
        found += module.TOOLS
    return found


def own_tool(command: str) -> Adapter:
    """A tool of your own, which prints a reading as JSON."""
    own = Json()
    own.words = tuple(command.split())
    own.name = os.path.basename(own.words[0])
    own.version_words = (own.words[0], "--version")
    return own


def wanted(names: list[str], commands: list[str]) -> list[Adapter]:
    """The tools of these names, or all that are here."""
    every = {it.name: it for it in all_tools()}
    unknown = [it for it in names if it not in every]
    if unknown:
        raise SystemExit(f"run.py: no adapter {', '.join(unknown)}; --list lists them")
    own = [own_tool(it) for it in commands]
    chosen = [every[it] for it in names] if names or own else list(every.values())
    found: list[Adapter] = []
    for it in [*chosen, *own]:
        if it.is_there():
            found.append(it)
        else:
            print(f"{it.name} is not here{it.package and f' (Debian: {it.package})'}")
    if not found:
        raise SystemExit("run.py: none of the tools is here")
    return found


def list_tools() -> None:
    """Prints the adapters, and which tools are here."""
    for it in all_tools():
        state = it.version() if it.is_there() else f"not here{it.package and f' ({it.package})'}"
        print(f"{it.name:20} {it.about}; {state}")


def arguments() -> argparse.Namespace:
    """The words of the command line."""
    parser = argparse.ArgumentParser("run.py", description=__doc__)
    add = parser.add_argument
    add("--tool", action="append", default=[], metavar="NAME", help="this tool (all that are here)")
    add(
        "--command",
        action="append",
        default=[],
        metavar="WORDS",
        help="a tool of your own, as `mytool {file}`, which prints a reading as JSON",
    )
    add("--list", action="store_true", help="list the adapters, and which tools are here")
    add("--set", action="append", default=[], metavar="NAME", help=f"of {', '.join(USUAL)}, huge")
    add("--case", action="append", default=[], metavar="CASE", help="a number, or a part of a name")
    add("--generated", type=int, default=USUAL_COUNT, metavar="N", help="so many generated files")
    add("--jobs", type=int, default=os.cpu_count(), metavar="N", help="so many at a time")
    add(
        "--seconds",
        type=float,
        metavar="N",
        help="a call that takes more of the processor hangs (10)",
    )
    add("--all", action="store_true", help="list sound files that are refused too")
    add("--json", metavar="FILE", help="write the results there")
    add("--folder", metavar="FOLDER", help="keep the large files there that are made")
    return parser.parse_args()


def main() -> int:
    """Runs the suite: status 1 if a tool reads something else, crashes, or hangs."""
    options = arguments()
    if options.list:
        list_tools()
        return 0
    sets = set(options.set or USUAL)
    tools = wanted(options.tool, options.command)
    for it in tools:
        it.seconds = options.seconds or it.seconds
    with tempfile.TemporaryDirectory(prefix="elf-conformance-") as room:
        suite = Suite(os.path.abspath(options.folder) if options.folder else room)
        cases = list(suite.cases(sets, options.case))
        takes_generated = any(GENERATED in it.sets for it in tools)
        is_wanted = GENERATED in sets and takes_generated and not options.case
        count = options.generated if is_wanted else 0
        results = try_all(suite, tools, cases, count, options.jobs)
        # A tool for which there was no file has no line.
        found = [results.of_tool(it) for it in tools if results.counts[it.name].total()]
    if not found:
        raise SystemExit("run.py: there is no such case")
    print(f"{len(cases)} cases and {count} generated files of suite {suite.index['version']}\n")
    print(table.text(found, options.all), end="")
    if options.json:
        whole = {"suite": suite.index["version"], "cases": len(cases), "generated": count}
        with open(options.json, "w", encoding="utf-8") as output:
            json.dump({**whole, "tools": found}, output, indent=1)
    return int(any(own["kind"] in LISTED[:3] for it in found for own in it["found"]))


if __name__ == "__main__":
    sys.exit(main())
