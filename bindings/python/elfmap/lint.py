"""elfmap-lint: finds the ELF-64 files of directories and archives that break a rule.

    elfmap-lint [OPTIONS] PATH...

Prints a line for each finding, and a summary. The status is 0 if nothing is found, 1 if
something is, 2 for a usage error, and 3 if a file can't be read, or if a file that is named
is no ELF file. The other files are checked all the same.

    elfmap-lint --link --rules RULES [--entry NAME] [OPTIONS] FILE...

Prints why the objects do not link, and where a link makes another program than ld.
"""

from __future__ import annotations

import argparse
import importlib
import os
import sys
import time
from collections.abc import Iterable, Iterator, Sequence
from itertools import chain
from typing import Any, Optional

from elfmap import __version__, _colors, _debug_links, _formats, _library, _preflight
from elfmap._commands import DONE, FOUND, UNREADABLE, USAGE, Parser, complain, failure, run_script
from elfmap._config import configured
from elfmap._findings import ALL_RULES, BadWord, Damaged, Finding, Globs, Report, Unread
from elfmap._inspect import Depth, Inspector
from elfmap._outputs import Output
from elfmap._packages import MOST_UNPACKED
from elfmap._sources import reason_of
from elfmap._suppressed import Baseline, Ignored, baseline_text
from elfmap._walk import Walk, chunks
from elfmap._words import LONGEST_NAME, MOST_LETTERS, one_line
from elfmap._workers import Pool, Work

PROGRAM = "elfmap-lint"
FORMATS = ("text", "jsonl", "sarif", "junit", "github")
_OF_ONE_DOCUMENT = ("sarif", "junit")
_OF_JSON = ("jsonl", "sarif")
# What a process is given at once: enough to do for a millisecond or more.
_MOST_FILES = 64
_MOST_BYTES = 16 << 20
_STANDARD_INPUT = b"-"
_STATUSES = (
    "Status: 0 clean, 1 findings, 2 usage, 3 something can't be read, or a PATH is no ELF file."
)
_TABLES = "symbols, relocations, groups, notes, dynamic arrays, hash tables"


def _parser() -> Parser:
    parser = Parser(
        prog=PROGRAM,
        description="Checks all ELF-64 files of files, directories, archives and packages.",
        epilog=_STATUSES,
    )
    parser.add_argument("--version", action="version", version=f"%(prog)s {__version__}")
    parser.add_argument(
        "--list-rules",
        action="store_true",
        help="print the rules that findings are of: number, name and sentence",
    )
    parser.add_argument(
        "--config",
        metavar="FILE",
        help="read options from FILE, not from .elfmap-lint.toml at or above the first PATH",
    )
    parser.add_argument("--no-config", action="store_true", help="read options from no file")
    _add_paths(parser)
    _add_packages(parser)
    _add_checks(parser)
    _preflight.add_options(parser)
    _add_suppressions(parser)
    _add_output(parser)
    return parser


def _add_paths(parser: Parser) -> None:
    """What is looked at, and what of it is skipped."""
    add = parser.add_argument
    add(
        "paths",
        metavar="PATH",
        nargs="*",
        help="a file, a directory, an archive, a package, or - for standard input",
    )
    add(
        "--files0-from",
        metavar="FILE",
        help="read more PATHs from FILE, each ended by a zero byte; - is standard input",
    )
    add(
        "--exclude",
        metavar="GLOB",
        action="append",
        default=[],
        help="skip files and directories of such names; with a / GLOB is of the whole path",
    )
    add(
        "--follow-thin",
        action="store_true",
        help="read the members of a thin archive also outside of its directory",
    )
    add(
        "--skip",
        action="store_true",
        help="skip a PATH that is empty or no ELF file too, as files of directories are skipped",
    )
    add(
        "--class32",
        choices=("warn", "skip", "fail"),
        default="warn",
        help="skip files of class 32 with a warning, without, or report them (default: warn)",
    )


def _add_packages(parser: Parser) -> None:
    """How far packages are read."""
    add = parser.add_argument
    add(
        "--unpack-limit",
        metavar="MIB",
        type=int,
        default=MOST_UNPACKED >> 20,
        help="decompress at most so many MiB of a file (default: %(default)s)",
    )
    add("--decompress", action="store_true", help="changes nothing: compressed files are read")


def _add_checks(parser: Parser) -> None:
    """By which rules it is checked."""
    add = parser.add_argument
    add("--tables", action="store_true", help=f"check the tables too: {_TABLES}")
    add(
        "--object",
        action="store_true",
        help="check what `elfmap rewrite` and `link` need of an object by itself",
    )
    depths = parser.add_mutually_exclusive_group()
    depths.add_argument(
        "--strict",
        action="store_true",
        help="report known deviations too, which are only counted otherwise",
    )
    depths.add_argument(
        "--debug-files",
        action="store_true",
        help="segments of files of debug information (eu-strip -f) may pass the end of the file",
    )


def _add_suppressions(parser: Parser) -> None:
    """Which findings are suppressed."""
    add = parser.add_argument
    add(
        "--ignore",
        metavar="RULE[:GLOB]",
        action="append",
        default=[],
        help=(
            "suppress this rule (33, SHARED_BYTE, link-3, * for any), or only where the path"
            " matches; or with :machine=GLOB, :section=GLOB, :producer=GLOB"
        ),
    )
    add("--baseline", metavar="FILE", help="suppress the findings that FILE lists")
    add(
        "--strip-components",
        metavar="N",
        type=int,
        default=0,
        help="compare paths with a baseline without their first N components",
    )
    add(
        "--write-baseline",
        metavar="FILE",
        help="write the findings to FILE, and suppress all of them",
    )


def _add_output(parser: Parser) -> None:
    """How the findings are printed, and by how many processes they are found."""
    add = parser.add_argument
    add("--format", choices=FORMATS, default="text", help="default: text")
    add(
        "-0",
        dest="zero",
        action="store_true",
        help="end each record with a zero byte, and print paths as they are",
    )
    add("-o", dest="output", metavar="FILE", help="write to FILE, completely or not at all")
    add(
        "--color",
        choices=_colors.CHOICES,
        default="auto",
        help="color the text (default: on a terminal, unless NO_COLOR is set)",
    )
    add("-q", "--quiet", action="store_true", help="print no report: the status says it")
    add(
        "-j",
        dest="jobs",
        metavar="N",
        type=int,
        default=0,
        help="use N processes (default: one for each processor)",
    )
    add("--fail-on-empty", action="store_true", help="end with status 1 if no ELF file was checked")


class Progress:
    """How many files were checked, on a terminal alone: by tqdm where it is installed."""

    def __init__(self, is_quiet: bool = False) -> None:
        self._is_shown = sys.stderr.isatty() and not is_quiet
        self._next = time.monotonic() + 0.3
        self._bar = _bar() if self._is_shown else None

    def tell(self, report: Report) -> None:
        if not self._is_shown or time.monotonic() < self._next:
            return
        self._next = time.monotonic() + 0.1
        findings = f"{len(report.findings)} findings"
        if self._bar is not None:
            self._bar.set_postfix_str(findings, refresh=False)
            self._bar.update(report.checked - self._bar.n)
        else:
            sys.stderr.write(f"\r{report.checked} files checked, {findings}\x1b[K")
            sys.stderr.flush()

    def end(self) -> None:
        if self._bar is not None:
            self._bar.close()
        elif self._is_shown:
            sys.stderr.write("\r\x1b[K")
            sys.stderr.flush()


def _bar() -> Any:
    try:
        tqdm = importlib.import_module("tqdm")
    except ImportError:
        return None
    return tqdm.tqdm(desc="files checked", unit="", leave=False, file=sys.stderr)


class Run:
    """One run of the program."""

    def __init__(self, options: argparse.Namespace) -> None:
        self._options = options
        self._excluded = Globs(options.exclude)
        self._ignored = Ignored(options.ignore)
        self._baseline = self._read_baseline()
        self._jobs = options.jobs or len(os.sched_getaffinity(0))
        self._progress = Progress(options.quiet)
        self.report = Report()
        self._check_words()
        self._preflight = _preflight.preflight(options)

    def _check_words(self) -> None:
        options = self._options
        if not options.paths and options.files0_from is None:
            raise BadWord("PATH is missing; see --help")
        if options.jobs < 0:
            raise BadWord("-j needs a positive number")
        if options.unpack_limit < 1:
            raise BadWord("--unpack-limit needs a positive number")
        if options.strict and options.debug_files:
            raise BadWord("--strict and --debug-files exclude each other")
        if options.zero and options.format in _OF_ONE_DOCUMENT:
            raise BadWord(f"-0 needs a format of records; {options.format} is one document")
        if options.files0_from == "-" and "-" in options.paths:
            raise BadWord("standard input can't be both a PATH and the list of them")
        self._check_written()

    def _check_written(self, listed: Iterable[bytes] = ()) -> None:
        """What is written is nothing that is read, but for a baseline that is written anew."""
        options = self._options
        if options.output is None and options.write_baseline is None:
            return
        read = (options.rules, options.files0_from, options.config)
        named = (*options.paths, *(it for it in read if it), *map(os.fsdecode, listed))
        places = {os.path.realpath(it) for it in named}
        if options.write_baseline:
            own = os.path.realpath(options.write_baseline)
            if own in places:
                raise BadWord("--write-baseline is a file that is read")
            places.add(own)
        if options.baseline:
            places.add(os.path.realpath(options.baseline))
        if options.output and os.path.realpath(options.output) in places:
            raise BadWord("-o is a file that is read, or that of a baseline")

    def _read_baseline(self) -> Optional[Baseline]:
        options = self._options
        if options.strip_components < 0:
            raise BadWord("--strip-components needs a number from 0 on")
        return (
            Baseline.read(options.baseline, options.strip_components) if options.baseline else None
        )

    def check(self) -> None:
        """Fills the report, in the order of paths. Raises BadWord where these can't be linked, or a
        listed one would be written."""
        _library.library()
        names = [os.fsencode(it) for it in self._options.paths]
        if self._preflight:
            every = [*names, *self._listed()]
            if not self.report.unreadable:
                self._add(self._preflight.report(every))
        else:
            self._check_names(names)
        self._progress.end()
        self.report.sort()
        self._drop_suppressed()

    def _check_names(self, names: list[bytes]) -> None:
        if _STANDARD_INPUT in names:
            self._add(self._tools().standard_input(_STANDARD_INPUT))
        named = (it for it in names if it != _STANDARD_INPUT)
        walk = Walk([*named, *self._listed()], self._excluded, self.report, self._options.skip)
        self._check_all(chunks(walk, _MOST_FILES, _MOST_BYTES))
        self._check_debug_files()

    def _check_debug_files(self) -> None:
        """Checks files again that other files of the run name as their debug files."""
        named = _debug_links.named_files(self.report)
        if named:
            depth = self._depth()._replace(are_named_debug_files=True, keeps_names=True)
            again = Inspector(depth).files(named)
            self._drop_ignored(again)
            _debug_links.replace(self.report, again)

    def _check_all(self, tasks: Iterator[list[bytes]]) -> None:
        """In this process where there is little to do, or else in several."""
        first = next(tasks, None)
        second = next(tasks, None)
        some = [it for it in (first, second) if it is not None]
        every = chain(some, tasks)
        if self._jobs == 1 or len(some) < 2:
            work = self._work()
            for paths in every:
                self._add(work(paths))
        else:
            Pool(self._work, self._jobs, self._add).run(every)

    def _tools(self) -> Inspector:
        return Inspector(self._depth())

    def _depth(self) -> Depth:
        it = self._options
        is_json = it.format in _OF_JSON
        return Depth(
            tables=it.tables,
            objects=it.object,
            fails_class_32=it.class32 == "fail",
            keeps_names=it.format == "junit",
            follows_thin=it.follow_thin,
            most_letters=LONGEST_NAME if is_json else MOST_LETTERS,
            # A baseline has them too.
            names_sections=is_json
            or bool(it.baseline or it.write_baseline)
            or self._ignored.needs_sections,
            skips_named=it.skip,
            is_strict=it.strict,
            debug_files=it.debug_files,
            most_unpacked=it.unpack_limit << 20,
        )

    def _work(self) -> Work:
        return self._tools().files

    def _drop_ignored(self, report: Report) -> None:
        kept = [it for it in report.findings if not self._ignored.match(it)]
        report.suppressed += len(report.findings) - len(kept)
        report.findings = kept

    def _add(self, report: Report) -> None:
        self._drop_ignored(report)
        self.report.add(report)
        self._progress.tell(self.report)

    def _listed(self) -> list[bytes]:
        """The PATHs of --files0-from."""
        path = self._options.files0_from
        if path is None:
            return []
        try:
            with open(0 if path == "-" else path, "rb", closefd=path != "-") as it:
                names = it.read().split(b"\0")
        except OSError as fault:
            self.report.unreadable.append(Unread(os.fsencode(path), reason_of(fault)))
            return []
        listed = names[:-1] if not names[-1] else names
        self._check_written(listed)
        return listed

    def _drop_suppressed(self) -> None:
        report = self.report
        options = self._options
        found = report.findings
        lost = report.unreadable
        if options.write_baseline:
            with Output(options.write_baseline) as it:
                it.write(baseline_text(found, lost, options.strip_components))
        report.findings = [it for it in found if not self._is_known(it)]
        report.unreadable = [it for it in lost if not self._is_accepted(it)]
        report.suppressed += len(found) - len(report.findings)
        report.suppressed += len(lost) - len(report.unreadable)

    def _is_accepted(self, lost: Unread) -> bool:
        """Whether a baseline has that this can't be read."""
        if self._options.write_baseline:
            return isinstance(lost, Damaged)
        return self._baseline is not None and self._baseline.accepts(lost)

    def _is_known(self, finding: Finding) -> bool:
        """Whether a baseline has a finding: the one that is written has all of them."""
        if self._options.write_baseline:
            return True
        return self._baseline is not None and self._baseline.match(finding)

    def tell(self) -> None:
        """Writes the report in its format."""
        for lost in self.report.unreadable:
            complain(PROGRAM, one_line(lost.path) + b": " + lost.reason.encode())
        if self.report.class_32 and self._options.class32 == "warn":
            complain(PROGRAM, _class_32_words(self.report.class_32).encode())
        if self._options.quiet and self._options.output is None:
            return
        with Output(self._options.output) as it:
            for part in self._parts():
                it.write(part)

    def _parts(self) -> Iterable[bytes]:
        """The report in its format, in pieces."""
        options = self._options
        is_plain = options.format != "text" or options.zero or options.output
        if not is_plain and _colors.are_wanted(options.color):
            return _colors.text(self.report)
        return _formats.FORMATS[options.format](self.report, b"\0" if options.zero else b"\n")

    def status(self) -> int:
        if self.report.unreadable:
            return UNREADABLE
        if self._options.fail_on_empty and not self.report.checked:
            complain(PROGRAM, b"no ELF file was checked")
            return FOUND
        # What does not link does not do so either if the refusal is suppressed.
        return FOUND if self.report.findings or self.report.links is False else DONE


def _class_32_words(count: int) -> str:
    lead = "1 file of class 32 was" if count == 1 else f"{count} files of class 32 were"
    return f"{lead} not checked; --class32=fail reports such files, --class32=skip is silent"


def _list_rules(options: argparse.Namespace) -> None:
    """Prints each rule that `--ignore` takes: its number, its name and its sentence."""
    end = "\0" if options.zero else "\n"
    with Output(options.output) as it:
        for rule in ALL_RULES:
            name, sentence, _ = rule.table[rule.number]
            it.write(f"{rule.key} {name}: {sentence}{end}".encode("utf-8"))


def main(words: Optional[Sequence[str]] = None) -> int:
    """Runs the program, and returns its status."""
    parser = _parser()
    options = parser.in_any_order(words, "paths")
    try:
        if not options.list_rules:
            parser.set_defaults(**configured(parser, options))
            options = parser.in_any_order(words, "paths")
        run = None if options.list_rules else Run(options)
        if not run:
            _list_rules(options)
            return DONE
        run.check()
        run.tell()
    except BadWord as fault:
        complain(PROGRAM, str(fault).encode("utf-8", "surrogateescape"))
        return USAGE
    except BrokenPipeError:
        raise
    except OSError as fault:
        complain(PROGRAM, failure(fault))
        return UNREADABLE
    return run.status()


def script() -> None:
    """The console script."""
    run_script(PROGRAM, main)


if __name__ == "__main__":
    script()
