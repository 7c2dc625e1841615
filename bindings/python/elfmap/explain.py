"""elfmap-explain: why elfmap refuses a file, in words.

    elfmap-explain FILE... < LINES     what elfmap printed of these files
    elfmap-explain LINE FILE...        one such line, as words
    elfmap-explain < FINDINGS          what elfmap-lint printed, as text or as jsonl
    elfmap-explain FILE...             what the rules of images, tables and objects say of them
    elfmap-explain RULE...             what a rule says, by its name or its number: 33, link-3

Lines are read from a pipe, a socket or a file; from a terminal or another device only if
`-` is among the FILEs, or if there is no FILE. Other lines are passed over. If no line is
a refusal or a finding, the FILEs are checked here, and the output begins with that.

The status is 0, 2 for a usage error, and 3 if a file can't be read. The other lines are
explained all the same.

The lines of the program are

    refused R A           rule R is broken at offset A of the one FILE
    refused I R A         of `show`: the table in section I breaks rule R at offset A
    file F refused R A    of `map` and `link`: so is the FILE at position F, from 0
    refused R F I E       of `map` and `link`: the files do not link by rule R; file, index
                          and entry count from 0

Nothing in a FILE has to be sound: what is not there is left unsaid.
"""

from __future__ import annotations

import json
import os
import re
import stat
import textwrap
from collections.abc import Iterable, Iterator, Sequence
from contextlib import ExitStack, suppress
from itertools import chain
from typing import Any, BinaryIO, NamedTuple, Optional

from elfmap import __version__
from elfmap._archives import Content, Contents, Member, is_archive, members, printed
from elfmap._checks import Checks
from elfmap._commands import DONE, USAGE, UNREADABLE, Parser, complain, is_open, run_script
from elfmap._deviations import DEVIATIONS
from elfmap._findings import Rule, rules_of
from elfmap._hints import hints
from elfmap._link_hints import link_hints, warning_advice
from elfmap._link_words import EXECUTABLE_TOO_LONG, MISMATCH, OF_ONE_FILE, Linked, link_words
from elfmap._packages import content_at
from elfmap._rules import LINK_RULES, RULES, WARNINGS
from elfmap._sources import Source, Unreadable, opened, reason_of, whole
from elfmap._words import (
    MOST_OWNERS,
    OBJECT_TOO_LONG,
    Limit,
    Words,
    found_at,
    one_line,
    original_path,
    printable,
)
from elfmap.constants import ET

PROGRAM = "elfmap-explain"
WIDTH = 130
_REFUSAL = re.compile(rb"(?:file (\d{1,20}) )?refused((?: \d{1,20}){2,4})$")
_FINDING = re.compile(
    rb"(?P<path>.*?): offset 0x(?P<offset>[0-9a-f]{1,16}): "
    rb"(?P<name>[A-Z_0-9]+) \((?P<kind>link |warning )?(?P<rule>\d{1,3})\): ",
    re.S,
)
_DEVIATION = re.compile(rb"\(known deviation ([a-z0-9-]+)\)")
_OTHER_RULE = re.compile(r"(link|warning)-([0-9]{1,3})")
_FIRST_WORD = re.compile(r"file|refused")
_WORD = re.compile(r"refused|\d+")
# So many files are held open.
_MOST_OPEN = 16
_LONGEST_RECORD = 1 << 20
_CHECKED = (
    "checked here by the rules of images and tables, and relocatable files by those of objects: "
)
_RELOCATABLE = ET.REL.value


class Finding(NamedTuple):
    """What elfmap-lint has found."""

    path: bytes
    offset: int
    rule: Rule
    name: str

    def words(self) -> str:
        place = f"{printable(self.path)}: offset {self.offset:#x}"
        return f"{place}: {self.name} ({self.rule.words})"


class Files:
    """The files that findings name, and the members of archives, a few of them held open."""

    def __init__(self) -> None:
        self._open: dict[bytes, tuple[ExitStack, Words, bytes]] = {}
        # The last archive, its members by their paths, and those that are in another archive.
        self._members: tuple[bytes, dict[bytes, Member], list[Member]] = b"", {}, []

    def __enter__(self) -> Files:
        return self

    def __exit__(self, *_: object) -> None:
        while self._open:
            self._drop()

    def words(self, path: bytes) -> tuple[Words, bytes]:
        """A file or a member in words, and the path of the file that has it."""
        if path not in self._open:
            while len(self._open) >= _MOST_OPEN:
                self._drop()
            with ExitStack() as stack:
                content = self._content(path, stack)
                words = Words(content.source)
                self._open[path] = stack.pop_all(), words, content.file
        return self._open[path][1:]

    def _drop(self) -> None:
        stack, _, _ = self._open.pop(next(iter(self._open)))
        stack.close()

    def _content(self, path: bytes, stack: ExitStack) -> Content:
        if os.path.lexists(path):
            source = stack.enter_context(opened(path))
            return content_at(path, path, source, stack) or Content(path, path, source)
        archive = _archive_of(path)
        member = self._member(path, archive, stack) if archive else None
        if member:
            return member
        raise Unreadable(
            "the archive has no such member" if archive else "no such file or directory"
        )

    def _member(self, path: bytes, archive: bytes, stack: ExitStack) -> Optional[Content]:
        """The first member of this path: an archive may have several."""
        source = stack.enter_context(opened(archive))
        if self._members[0] != archive:
            self._members = archive, *_members_of(source, archive)
        _, named, others = self._members
        if path in named:
            mine = [named[path]]
        else:
            # Of a member in another archive the path goes on.
            mine = [it for it in others if path.startswith(printed(archive, it)[:-1] + b"(")]
        contents = Contents()
        for it in mine:
            content = stack.enter_context(contents.opened(archive, source, it))
            if content.path == path:
                return content
        # It may be in a package, which is read to it.
        return content_at(path, archive, source, stack)


def _members_of(source: Source, path: bytes) -> tuple[dict[bytes, Member], list[Member]]:
    """The members of an archive by their paths, of which no two are the same; and those in other
    archives."""
    named: dict[bytes, Member] = {}
    others = []
    with suppress(Unreadable):
        for it in members(source, path) if is_archive(source) else ():
            if it.origin is None:
                named[printed(path, it)] = it
            else:
                others.append(it)
    return named, others


def _archive_of(path: bytes) -> Optional[bytes]:
    """The archive in the path of a member, `lib.a(member.o)`."""
    at = path.find(b"(")
    while path.endswith(b")") and at > 0:
        if os.path.isfile(path[:at]):
            return path[:at]
        at = path.find(b"(", at + 1)
    return None


class Explainer:
    """Explains lines of the program about given files, and findings about any. Of records, which
    end by a zero byte, the paths are as they are."""

    def __init__(self, named: Sequence[Linked], files: Files, of_records: bool = False) -> None:
        self._named = named
        self._of_records = of_records
        self._files = files
        self._filled = textwrap.TextWrapper(
            WIDTH, subsequent_indent="  ", break_long_words=False, break_on_hyphens=False
        )
        self.count = 0
        self.lost = False

    @property
    def paths(self) -> list[str]:
        return [it.path for it in self._named]

    def tell(self, lines: Iterable[bytes], out: BinaryIO, head: str = "") -> None:
        """Writes the words for each of the lines, and an empty line between them."""
        if head:
            out.write(_encoded(self._filled.fill(head) + "\n"))
        for line in lines:
            is_first = not self.count and not head
            found = self.explain(line)
            if found:
                out.write(_encoded(found if is_first else f"\n{found}"))
                out.flush()

    def explain(self, line: bytes) -> str:
        """The words for a line; none where it is no refusal and no finding."""
        refusal = _REFUSAL.match(line.strip())
        finding = None if refusal else finding_in(line, self._of_records)
        if refusal:
            lead = printable(line.strip())
            numbers = [int(it) for it in refusal[2].split()]
            found = self._refusal(int(refusal[1] or 0), numbers)
        elif finding:
            lead = finding.words()
            found = chain(self._finding(finding), _readings(line))
        else:
            return ""
        self.count += 1
        return "\n".join(self._filled.fill(it) for it in (lead, *found)) + "\n"

    def refusals(self) -> Iterator[bytes]:
        """Why the given files are refused, their tables, and what is no object, in the lines of the
        program."""
        checks = {it: Checks(tables=True, objects=it) for it in (False, True)}
        for position, file in enumerate(self._named):
            source = file.words.data
            assert isinstance(source, Source)
            try:
                faults = checks[file.words.number(16, 2) == _RELOCATABLE].faults(source)
            except Unreadable as fault:
                self.lost = True
                complain(PROGRAM, one_line(file.file) + f": {fault.reason}".encode())
                continue
            for it in faults:
                # A rule of the link is no reason against the file.
                if not it.is_of_link:
                    table = f"{it.table} " if it.table is not None else ""
                    yield f"file {position} refused {table}{it.rule} {it.at}".encode()

    def _refusal(self, position: int, numbers: list[int]) -> Iterator[str]:
        if len(numbers) == 4:
            yield from self._of_link(*numbers)
            return
        *tables, rule, at = numbers
        if position >= len(self._named):
            yield f"there is no file {position}"
            return
        file = self._named[position]
        table = tables[0] if tables else None
        yield from self._of_file(file.path, file.words, file.file, rule, at, table)

    def _finding(self, it: Finding) -> Iterator[str]:
        try:
            words, file = self._files.words(it.path)
            path = printable(it.path)
            if it.rule.is_warning:
                yield from _of_warning(Linked(path, words), it.rule, it.offset)
            elif it.rule.is_of_link:
                yield from _of_link_alone(Linked(path, words), it.rule.number, it.offset)
            else:
                yield from self._of_file(path, words, file, it.rule.number, it.offset, None)
        except Unreadable as fault:
            self.lost = True
            yield f"{printable(it.path)} can't be read: {fault.reason}"

    def _of_file(
        self, path: str, words: Words, file: bytes, rule: int, at: int, table: Optional[int]
    ) -> Iterator[str]:
        if rule not in RULES:
            yield from _of_no_rule(rule, OBJECT_TOO_LONG, "")
            return
        name, sentence, advice = RULES[rule]
        yield f"{name}: {sentence}"
        if table is not None:
            yield f"the table in {words.typed_words(table)}"
        places = [it.words for it in found_at(words, rule, at, table)]
        more = [f"{len(places) - MOST_OWNERS} more sections"] if len(places) > MOST_OWNERS else []
        yield from (f"{path}, offset {at} ({at:#x}): {it}" for it in places[:MOST_OWNERS] + more)
        yield from (f"likely cause: {it}" for it in hints(words, os.fsdecode(file), rule, at))
        yield from (f"what to do: {advice}", Rule(False, rule).place)

    def _of_link(self, rule: int, file: int, index: int, entry: int) -> Iterator[str]:
        if rule not in LINK_RULES:
            yield f"there is no rule {rule} of the link"
            return
        causes = link_hints(self._named, rule, file, index, entry)
        yield from _link_lines(rule, link_words(self._named, rule, file, index, entry), causes)


def _readings(line: bytes) -> Iterator[str]:
    """How elfmap-lint has read what a finding is about, where the file deviates in a known way."""
    names = {it.decode() for it in _DEVIATION.findall(line)}
    for it in DEVIATIONS:
        if it.name in names:
            yield f"elfmap-lint read a copy in which that is put right ({it.name}): {it.words}"


def _of_no_rule(rule: int, limit: Limit, kind: str) -> Iterator[str]:
    """Of a number that no rule of a kind has: 0 is that of what would be too long."""
    if rule:
        yield f"there is no rule {rule}{kind}"
    else:
        yield from (f"{limit.name}: {limit.sentence}", f"what to do: {limit.advice}")


def _of_link_alone(file: Linked, rule: int, at: int) -> Iterator[str]:
    """Of a rule of the link, where one of the files is known: of some rules it is the reason by
    itself."""
    if rule not in LINK_RULES:
        yield from _of_no_rule(rule, EXECUTABLE_TOO_LONG, " of the link")
        return
    index, entry = file.position_at(rule, at)
    if rule in OF_ONE_FILE:
        place = (
            f"{file.path}, offset {at} ({at:#x}): {file.own_words(rule, file.index_at(rule, at))}"
        )
    elif rule == MISMATCH:
        place = file.machine_words()
    else:
        place = link_words([file], rule, 0, index, entry)
    yield from _link_lines(rule, place, link_hints([file], rule, 0, index, entry))


def _of_warning(file: Linked, rule: Rule, at: int) -> Iterator[str]:
    """Of a warning before a link what is at its offset."""
    if rule.number not in WARNINGS:
        yield f"there is no warning {rule.number}"
        return
    name, sentence, advice = WARNINGS[rule.number]
    yield f"{name}: {sentence}"
    places = [it.words for it in found_at(file.words, 0, at)]
    yield from (f"{file.path}, offset {at} ({at:#x}): {it}" for it in places[:MOST_OWNERS])
    yield f"what to do: {warning_advice(file, rule.number, at) or advice}"
    yield rule.place


def _link_lines(rule: int, place: str, causes: Iterable[str]) -> Iterator[str]:
    name, sentence, advice = LINK_RULES[rule]
    yield from (f"{name}: {sentence}", place)
    yield from (f"likely cause: {it}" for it in causes)
    yield from (f"what to do: {advice}", Rule(True, rule).place)


def finding_in(line: bytes, of_records: bool) -> Optional[Finding]:
    """The finding of elfmap-lint in a line or a record of text, or of JSON."""
    found = _FINDING.match(line)
    if found:
        path = found["path"] if of_records else original_path(found["path"])
        kind = found["kind"] or b""
        rule = Rule(kind == b"link ", int(found["rule"]), kind == b"warning ")
        return Finding(path, int(found["offset"], 16), rule, found["name"].decode())
    if line.lstrip()[:1] != b"{":
        return None
    try:
        it = json.loads(line)
        name = printable(str(it["name"]).encode("utf-8", "replace"))
        return Finding(_path(it), _number(it["offset"]), _rule(it["rule"]), name)
    except (ValueError, KeyError, TypeError, AttributeError, RecursionError):
        return None


def _path(finding: Any) -> bytes:
    """The path of a finding in JSON, which has the bytes of one that is no UTF-8."""
    if "path_hex" in finding:
        return bytes.fromhex(finding["path_hex"])
    path: str = finding["path"]
    return path.encode("utf-8", "surrogateescape")


def _rule(value: object) -> Rule:
    found = _OTHER_RULE.fullmatch(value) if isinstance(value, str) else None
    if found:
        return Rule(found[1] == "link", int(found[2]), found[1] == "warning")
    return Rule(False, _number(value))


def _number(value: object) -> int:
    if isinstance(value, int) and not isinstance(value, bool) and 0 <= value < 2**64:
        return value
    raise ValueError("no offset and no rule")


def named_file(path: str, stack: ExitStack) -> Linked:
    """A FILE of the command line. One that is not regular, as a pipe, is read into memory."""
    try:
        if stat.S_ISREG(os.stat(path).st_mode):
            source = stack.enter_context(opened(os.fsencode(path)))
        else:
            source = _read_whole(path, stack)
    except (OSError, ValueError, Unreadable) as fault:
        reason = reason_of(fault) if isinstance(fault, OSError) else str(fault)
        raise Unreadable(f"{one_line(os.fsencode(path)).decode()}: {reason}") from None
    return Linked(path, Words(source))


def _read_whole(path: str, stack: ExitStack) -> Source:
    handle = os.open(path, os.O_RDONLY | os.O_CLOEXEC | os.O_NOCTTY)
    stack.callback(os.close, handle)
    source = whole(handle)
    stack.callback(os.close, source.handle)
    return source


def input_mode() -> int:
    """What standard input is; 0 where it is closed."""
    return os.fstat(0).st_mode if is_open(0) else 0


def is_sent(mode: int) -> bool:
    """Whether somebody sends lines: a pipe, a socket or a file has some, and a terminal or another
    device only if it is asked for them."""
    return stat.S_ISFIFO(mode) or stat.S_ISSOCK(mode) or stat.S_ISREG(mode)


def records(end: bytes) -> Iterator[bytes]:
    """What comes from standard input, cut where a record ends. No finding is longer than the
    most."""
    rest = b""
    while True:
        content = os.read(0, 1 << 16)
        *found, rest = (rest + content).split(end)
        yield from found
        if not content:
            yield rest
            return
        rest = rest if len(rest) <= _LONGEST_RECORD else b""


def _parser() -> Parser:
    parser = Parser(
        prog=PROGRAM,
        description=(
            "Explains in words why elfmap refuses a file. Lines come from standard input: what"
            " elfmap printed of FILE..., or findings of elfmap-lint (text or jsonl), which name"
            " their files. If no line is a refusal, each FILE is checked here."
        ),
        epilog="Status: 0 explained, 2 usage, 3 a file can't be read.",
    )
    parser.add_argument("--version", action="version", version=f"%(prog)s {__version__}")
    parser.add_argument(
        "-0",
        dest="zero",
        action="store_true",
        help="lines end with a zero byte, as elfmap-lint -0 prints them",
    )
    parser.add_argument(
        "words",
        metavar="[LINE] FILE",
        nargs="*",
        help=(
            "one line of elfmap, as words, and then the files; with - among files, lines of"
            " standard input are read also from a terminal; or rules, as 33, SHARED_BYTE or link-3"
        ),
    )
    return parser


def _line_of(words: list[str]) -> int:
    """How many of the words are a line of elfmap."""
    for count, word in enumerate(words):
        if not re.fullmatch(_WORD if count else _FIRST_WORD, word):
            return count
    return len(words)


def _no_line(line: bytes, paths: list[str]) -> int:
    """Says why words that begin as a line of elfmap are not explained."""
    wrong = b"`%s` is no line of elfmap" % line if paths else b"FILE is missing"
    complain(PROGRAM, wrong + b"; see --help")
    return USAGE


def main(words: Optional[Sequence[str]] = None) -> int:
    """Runs the program, and returns its status."""
    options = _parser().in_any_order(words, "words")
    rules = _rules_named(options.words)
    if rules:
        return _explain_rules(rules)
    count = _line_of(options.words)
    paths = options.words[count:]
    line = " ".join(options.words[:count]).encode()
    if count and not (paths and _REFUSAL.match(line)):
        return _no_line(line, paths)
    is_asked = not count and "-" in paths
    paths = [it for it in paths if it != "-"] if is_asked else paths
    # Where standard input is closed, the first FILE that is opened gets its number.
    mode = input_mode()
    is_read = not count and (is_asked or not paths or is_sent(mode))
    if is_read and not mode:
        complain(PROGRAM, b"standard input is closed")
        return UNREADABLE
    with ExitStack() as stack:
        try:
            named = [named_file(path, stack) for path in paths]
        except Unreadable as fault:
            complain(PROGRAM, fault.reason.encode("utf-8", "surrogateescape"))
            return UNREADABLE
        explainer = Explainer(named, stack.enter_context(Files()), options.zero)
        lines = records(b"\0" if options.zero else b"\n") if is_read else iter([line])
        return _explain_all(explainer, lines, "standard input refuses nothing; " if is_read else "")
    return UNREADABLE


def _rules_named(words: list[str]) -> list[Rule]:
    """The rules that all words name; none if one names none, or a file."""
    found = []
    for word in words:
        own = rules_of(word)
        if not own or os.path.lexists(word):
            return []
        found += own
    return found


def _explain_rules(rules: list[Rule]) -> int:
    filled = textwrap.TextWrapper(WIDTH, subsequent_indent="  ")
    texts = []
    for rule in rules:
        name, sentence, advice = rule.table[rule.number]
        lines = f"{name} ({rule.words}): {sentence}", f"what to do: {advice}", rule.place
        texts.append("".join(f"{filled.fill(it)}\n" for it in lines))
    with open(1, "wb", closefd=False) as out:
        out.write(_encoded("\n".join(texts)))
    return DONE


def _encoded(words: str) -> bytes:
    return words.encode("utf-8", "backslashreplace")


def _explain_all(explainer: Explainer, lines: Iterator[bytes], lead: str) -> int:
    """Explains the lines; where none of them is a refusal or a finding, the files are checked."""
    with open(1, "wb", closefd=False) as out:
        explainer.tell(lines, out)
        if not explainer.count and explainer.paths:
            explainer.tell(explainer.refusals(), out, lead + _CHECKED + " ".join(explainer.paths))
        if not explainer.count and not explainer.lost:
            out.write(b"no refusal\n")
    return UNREADABLE if explainer.lost else 0


def script() -> None:
    """The console script."""
    run_script(PROGRAM, main)


if __name__ == "__main__":
    script()
