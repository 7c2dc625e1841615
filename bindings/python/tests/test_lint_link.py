"""elfmap-lint --object: the rules of the link that an object breaks by itself, 3 to 7.

What is expected is what docs/RULES.md says of such an object, and what the reference
implementation of the repository says of each object that differs from one by a byte.
"""

import json
import struct
import sys
import tempfile
import unittest
from pathlib import Path
from typing import NamedTuple
from unittest import mock
from xml.etree import ElementTree

from elfmap import _checks, _declared, _link_words, _rules, _sources, build, explain

from tests.made import (
    CLASS_32,
    GOOD,
    Made,
    archive_member,
    setUpModule,
    symbols,
    text,
)  # noqa: F401
from tests.test_lint import Case

sys.path.insert(0, str(build.REPOSITORY / "tools" / "lib"))
from elfmap_tools import reference  # noqa: E402

WRITE = 1
ALLOC = 2
LINK_ORDER = 0x80
IN_GROUP = 0x200
TLS = 0x400
ABS = 0xFFF1
COMMON = 0xFFF2
NOBITS = 8
GROUP = 17
COMDAT = 1
STRINGS = (b".strtab", 3, b"\0f\0g\0", {})
CLEAN = b"0 findings in 0 of 1 ELF file\n"


class Broken(NamedTuple):
    """An object that breaks one rule, and what elfmap-lint says of it: where, of which section, and
    in words."""

    made: Made
    offset: int
    section: str
    words: str


def data(name=b".data", kind=1, content=bytes(8), flags=WRITE | ALLOC, **fields):
    return name, kind, content, dict(flags=flags, **fields)


def group(member, table=1, flags=COMDAT, order="<"):
    """A section group of one member, signed by symbol 1."""
    return (
        b".group",
        GROUP,
        struct.pack(f"{order}2I", flags, member),
        dict(link=table, info=1, entsize=4),
    )


def tls(order):
    # A section after those that are left out: its position in the object is 0.
    image = data(b".tdata", flags=WRITE | ALLOC | TLS)
    made = Made(symbols(2, (1, 0x10, 3), order=order), STRINGS, image, order=order)
    return Broken(made, made.at(3, "flags"), ".tdata", "section 3 .tdata: sh_flags, which is 0x403")


def link_order(order):
    made = Made(text(), data(b".ordered", flags=ALLOC | LINK_ORDER, link=1), order=order)
    return Broken(
        made, made.at(2, "flags"), ".ordered", "section 2 .ordered: sh_flags, which is 0x82"
    )


def empty_signature(order):
    table = symbols(2, (0, 3, 4), info=2, order=order)
    made = Made(table, STRINGS, group(4, order=order), data(flags=ALLOC | IN_GROUP), order=order)
    return Broken(
        made, made.at(3, "info"), ".group", "section 3 .group: signed by symbol 1 of section .data"
    )


def with_symbol(*symbol, order="<"):
    """An object with a symbol after another one, and where that symbol is."""
    made = Made(text(), symbols(3, (1, 0x12, 1), symbol, order=order), STRINGS, order=order)
    return made, made.starts[2] + 2 * 24


def bad_symbol(order):
    file = with_symbol(3, 0xA1, 1, order=order)
    return Broken(*file, ".symtab", "symbol 2 g: binding 10, type 1")


def bad_common(order):
    file = with_symbol(3, 0x11, COMMON, 12, order=order)
    return Broken(*file, ".symtab", "symbol 2 g: binding 1, st_value 12")


BROKEN = {"TLS": (3, tls), "LINK_ORDER": (4, link_order), "EMPTY_SIGNATURE": (5, empty_signature)}
BROKEN |= {"BAD_SYMBOL": (6, bad_symbol), "BAD_COMMON": (7, bad_common)}


def message_of(number, words):
    _, sentence, advice = _rules.LINK_RULES[number]
    return f"{words}; {sentence.partition(' because ')[2]}; {advice}"


def sentence_of(name):
    """What is said of the object that breaks a rule, without its path."""
    number, make = BROKEN[name]
    it = make("<")
    return f"offset {it.offset:#x}: {name} (link {number}): {message_of(number, it.words)}"


class ObjectCase(Case):
    def put_broken(self):
        """An object for each rule, `tls.o` for TLS, in the order of their paths."""
        names = sorted(BROKEN)
        self.put(**{f"{it.lower()}__o": bytes(BROKEN[it][1]("<").made.data) for it in names})
        return names


class RuleTest(ObjectCase):
    def test_each(self):
        for order in "<>":
            for name, (number, make) in BROKEN.items():
                it = make(order)
                self.put(bad__o=bytes(it.made.data))
                line = (
                    f"bad.o: offset {it.offset:#x}: {name} (link {number}):"
                    f" {message_of(number, it.words)}"
                )
                lines = [line.encode(), b"1 finding in 1 of 1 ELF file"]
                with self.subTest(rule=name, order=order):
                    self.assertSaid(["--object", "bad.o"], 1, lines)
                    self.assertSaid(["--tables", "--object", "bad.o"], 1, lines)
                    for words in ([], ["--tables"]):
                        self.assertSaid([*words, "bad.o"], 0, CLEAN.splitlines())

    def test_other_ways_to_break_one(self):
        self.put(bad__o=bytes(Made(data(b".tbss", NOBITS, b"", WRITE | ALLOC | TLS, size=8)).data))
        self.assertIn(": TLS (link 3): section 1 .tbss: ", self.told("--object", "bad.o")[0])
        for words, symbol in (
            ("BAD_SYMBOL (link 6): symbol 2 g: binding 1, type 6; ", (3, 0x16, 1)),
            ("BAD_SYMBOL (link 6): symbol 2 g: binding 3, type 0; ", (3, 0x30, ABS)),
            ("BAD_SYMBOL (link 6): symbol 2 (no name): binding 1, type 0; ", (0, 0x10, 0)),
            ("BAD_COMMON (link 7): symbol 2 g: binding 2, st_value 8; ", (3, 0x21, COMMON, 8)),
            ("BAD_COMMON (link 7): symbol 2 g: binding 1, st_value 0; ", (3, 0x11, COMMON)),
        ):
            made, at = with_symbol(*symbol)
            self.put(bad__o=bytes(made.data))
            self.assertIn(f"bad.o: offset {at:#x}: {words}", self.told("--object", "bad.o")[0])

    def test_the_first_rule_alone(self):
        table = symbols(2, (0, 0x10, 0))
        self.put(
            bad__o=bytes(
                Made(
                    table, STRINGS, data(flags=ALLOC | LINK_ORDER | TLS), data(flags=ALLOC | TLS)
                ).data
            )
        )
        lines = self.told("--object", "bad.o")
        self.assertEqual(
            (len(lines), ": TLS (link 3): section 3 .data: " in lines[0]), (2, True), lines
        )

    def test_what_breaks_none(self):
        groups = [
            group(4),
            data(flags=ALLOC | IN_GROUP),
            group(6),
            data(flags=ALLOC | TLS | IN_GROUP),
        ]
        for name, sections in {
            "no symbols": [text()],
            "an undefined name": [text(), symbols(3, (1, 0x10, 0)), STRINGS],
            "two definitions": [text(), symbols(3, (1, 0x10, 1), (1, 0x10, 1)), STRINGS],
            "weak names": [text(), symbols(3, (1, 0x20, 0), (3, 0x20, 1)), STRINGS],
            "a common": [text(), symbols(3, (1, 0x11, COMMON, 16)), STRINGS],
            "a local symbol without a name": [text(), symbols(3, (0, 3, 1), info=2), STRINGS],
            "what is not live": [data(flags=TLS | LINK_ORDER)],
            "what is discarded": [symbols(2, (1, 0x12, 4)), STRINGS, *groups],
            "no COMDAT group": [
                symbols(2, (0, 3, 4), info=2),
                STRINGS,
                group(4, flags=0),
                data(flags=ALLOC | IN_GROUP),
            ],
            "addresses without an end": [data(kind=NOBITS, content=b"", size=2**64 - 1)],
        }.items():
            self.put(good__o=bytes(Made(*sections).data))
            with self.subTest(object=name):
                self.assertEqual(self.lint("--tables", "--object", "good.o"), (0, CLEAN, b""))

    def test_what_is_no_object_links_with_none(self):
        made = tls("<").made
        self.put(run=made.with_bytes(16, b"\2"))
        lines = self.told("--object", "run")
        self.assertEqual((len(lines), ": NOT_RELOCATABLE (70): " in lines[0]), (2, True), lines)

    def test_names_of_rules_differ(self):
        names = [it[0] for it in _rules.RULES.values()] + [
            _rules.LINK_RULES[it][0] for it in _link_words.OF_ONE_FILE
        ]
        self.assertEqual(len(names), len(set(names)))


class SuppressedTest(ObjectCase):
    def test_ignored(self):
        self.put_broken()
        for name, (number, _) in BROKEN.items():
            path = f"{name.lower()}.o"
            summary = b"0 findings in 0 of 1 ELF file, 1 suppressed"
            names = (name, name.lower().replace("_", "-"), f"{name}:*.o")
            numbers = (f"link-{number}", f"LINK_{number}", f"link-{number}:{path}")
            for word in (*names, *numbers):
                self.assertSaid(["--object", "--ignore", word, path], 0, [summary])
            for word in (str(number), f"{name}:*.c", f"link-{number}:none"):
                self.assertEqual(self.lint("--object", "--ignore", word, path)[0], 1)

    def test_numbers_of_files_and_of_the_link(self):
        self.put(narrow__o=CLASS_32, link_order__o=bytes(link_order("<").made.data))
        for word, left in (("4", "LINK_ORDER (link 4)"), ("link-4", "WRONG_CLASS (4)")):
            lines = self.told("--object", "--class32=fail", "--ignore", word, ".")
            self.assertEqual((len(lines), left in lines[0]), (2, True), lines)

    def test_rules_of_which_no_finding_is(self):
        for word in (
            "link-17",
            "warning-11",
            "link-0",
            "link-",
            "link-03",
            "link",
            "link 3",
            "EXECUTABLE_TOO_LONG",
        ):
            self.assertEqual(self.lint("--object", "--ignore", word, ".")[0], 2, word)

    def test_a_baseline(self):
        names = self.put_broken()
        status, out, _ = self.lint("--object", "--write-baseline", "known.json", ".")
        self.assertEqual((status, out[:10]), (0, b"0 findings"))
        self.assertEqual(
            [it["rule"] for it in json.loads(Path("known.json").read_bytes())["findings"]], names
        )
        self.assertEqual(self.lint("--object", "--baseline", "known.json", ".")[0], 0)
        # The same objects, built again: each finding is at another place.
        image = data(b".tdata", flags=WRITE | ALLOC | TLS)
        code = text(content=bytes(99))
        self.put(tls__o=bytes(Made(symbols(2, (1, 0x10, 3), (3, 0x10, 3)), STRINGS, image).data))
        self.put(
            bad_symbol__o=bytes(Made(code, symbols(3, (1, 0x12, 1), (3, 0xA1, 1)), STRINGS).data)
        )
        self.assertEqual(self.lint("--object", "--baseline", "known.json", ".")[0], 0)


class FormatTest(ObjectCase):
    """Each finding has the name of its rule, by which it is no other one's."""

    def setUp(self):
        super().setUp()
        self.names = self.put_broken()
        self.put(
            narrow__o=CLASS_32,
            lib__a=b"!<arch>\n" + archive_member(b"tls.o", bytes(tls("<").made.data)),
        )

    def report(self, format):
        status, out, _ = self.lint("--object", "--class32=fail", "--format", format, ".")
        self.assertEqual(status, 1)
        return out

    def test_text(self):
        lines = self.report("text").decode().splitlines()
        for name in self.names:
            self.assertIn(f"./{name.lower()}.o: {sentence_of(name)}", lines)
        self.assertIn(f"./lib.a(tls.o): {sentence_of('TLS')}", lines)
        self.assertEqual(lines[-1], "7 findings in 7 of 7 ELF files")

    def test_jsonl(self):
        records = [json.loads(it) for it in self.report("jsonl").splitlines()]
        found = {it["path"]: it for it in records if "path" in it}
        for name, (number, make) in BROKEN.items():
            path = f"./{name.lower()}.o"
            it = make("<")
            fields = {
                "path": path,
                "offset": it.offset,
                "rule": f"link-{number}",
                "name": name,
                "sections": [it.section],
            }
            own = {"machine": "X86_64"}
            self.assertEqual(
                found[path], {**fields, "message": message_of(number, it.words), **own}
            )
        self.assertEqual(found["./narrow.o"]["rule"], 4)
        self.assertEqual(found["./lib.a(tls.o)"]["rule"], "link-3")

    def test_sarif(self):
        log = json.loads(self.report("sarif"))
        self.assert_sarif(log)
        run = log["runs"][0]
        rules = {it["id"]: it["shortDescription"]["text"] for it in run["tool"]["driver"]["rules"]}
        wanted = {"WRONG_CLASS": f"rule 4: {_rules.RULES[4][1]}"}
        for name, (number, _) in BROKEN.items():
            wanted[name] = f"link rule {number}: {_rules.LINK_RULES[number][1]}"
        self.assertEqual(rules, wanted)
        places = {}
        for it in run["results"]:
            physical = it["locations"][0]["physicalLocation"]
            offset = physical["region"]["byteOffset"]
            places[physical["artifactLocation"]["uri"]] = (it["ruleId"], offset)
        for name, (_, make) in BROKEN.items():
            self.assertEqual(places[f"./{name.lower()}.o"], (name, make("<").offset))
        # In the archive the member begins after its header.
        self.assertEqual(places["./lib.a"], ("TLS", 8 + 60 + tls("<").offset))

    def test_junit(self):
        cases = {it.get("name"): it for it in ElementTree.fromstring(self.report("junit"))[0]}
        for name in self.names:
            failure = cases[f"./{name.lower()}.o"][0]
            self.assertEqual(
                (failure.tag, failure.get("type"), failure.text),
                ("failure", name, sentence_of(name)),
            )

    def test_github(self):
        lines = self.report("github").decode().splitlines()
        for name, (number, _) in BROKEN.items():
            path = f"./{name.lower()}.o"
            self.assertIn(
                f"::error file={path},title={name} (link {number})::{path}: {sentence_of(name)}",
                lines,
            )


class ExplainedTest(ObjectCase):
    def explained(self, line):
        """What elfmap-explain says of a finding, in one line."""
        with explain.Files() as files:
            return " ".join(explain.Explainer([], files).explain(line).split())

    def test_findings(self):
        for order in "<>":
            for name, (number, make) in BROKEN.items():
                it = make(order)
                self.put(bad__o=bytes(it.made.data))
                for format in ("text", "jsonl"):
                    found = self.explained(
                        self.lint("--object", "--format", format, "bad.o")[1].splitlines()[0]
                    )
                    _, sentence, advice = _rules.LINK_RULES[number]
                    front = (
                        f"bad.o: offset {it.offset:#x}: {name} (link {number}) {name}:"
                        f" {sentence} bad.o, offset {it.offset} ({it.offset:#x}): {it.words}"
                    )
                    end = f" what to do: {advice} docs/RULES.md#link-{number}"
                    cause = found[len(front) : -len(end)]
                    self.assertEqual(found, f"{front}{cause}{end}")
                    has_cause = name in ("TLS", "EMPTY_SIGNATURE", "BAD_SYMBOL")
                    self.assertEqual(cause.startswith(" likely cause: "), has_cause, cause)
                    self.assertLessEqual(bool(cause), has_cause)

    def test_places_that_are_none(self):
        self.put(bad__o=bytes(tls("<").made.data), empty__o=b"")
        for path in ("bad.o", "empty.o"):
            for number in _link_words.OF_ONE_FILE:
                for at in (0, 1, 2**64 - 1):
                    found = self.explained(f"{path}: offset {at:#x}: X (link {number}): ".encode())
                    self.assertTrue(
                        "isn't there" in found and f"docs/RULES.md#link-{number}" in found, found
                    )

    def test_rules_that_are_none(self):
        self.put(good__o=GOOD)
        for number in (17, 99):
            found = self.explained(f"good.o: offset 0x0: X (link {number}): ".encode())
            self.assertIn(f"there is no rule {number} of the link", found)
        for rule in ('"link-99"', '"link-x"', '"LINK-3"', '"link-3333"', '"3"', "null"):
            line = f'{{"path": "good.o", "offset": 0, "rule": {rule}, "name": "X"}}'
            self.assertEqual("no rule" in self.explained(line.encode()), rule == '"link-99"')

    def test_rules_of_several_files(self):
        """Of a place that is not there too."""
        self.put(good__o=GOOD, empty__o=b"")
        for path in ("good.o", "empty.o"):
            for number in (1, 2, *range(8, 17)):
                for at in (0, 1, 2**64 - 1):
                    found = self.explained(f"{path}: offset {at:#x}: X (link {number}): ".encode())
                    self.assertIn(f"docs/RULES.md#link-{number}", found)


class Recorded(_sources.Source):
    """A file that tells where it was read into the memory of the checks."""

    def __init__(self, handle, size):
        super().__init__(handle, 0, size)
        self.places = []

    def read_into(self, room, at):
        self.places.append((at, at + len(room)))
        super().read_into(room, at)


class VerdictTest(unittest.TestCase):
    def faults(self, checks, content):
        """What the checks say of a file, and where they read it."""
        with tempfile.TemporaryFile(buffering=0) as file:
            file.write(content)
            source = Recorded(file.fileno(), len(content))
            return [(it.is_of_link, it.rule, it.at) for it in checks.faults(source)], source.places

    def expected(self, content):
        """What the reference implementation says of a file as an object, and of its link alone."""
        words = reference.mapped([content], "0", "1").split()
        if words[:1] == ["file"]:
            return [(False, int(words[3]), int(words[4]))]
        if words[:1] != ["refused"] or int(words[1]) not in range(3, 8):
            return []
        file = reference.File(content)
        (rule, _, position, _) = map(int, words[1:])
        if rule <= 5:
            return [
                (
                    True,
                    rule,
                    file.section(reference.kept(file)[position]).at(
                        "sh_info" if rule == 5 else "sh_flags"
                    ),
                )
            ]
        table = next(it for _, it in file.sections() if it.sh_type == reference.SYMTAB)
        return [(True, rule, table.sh_offset + 24 * (position + 1))]

    def test_says_what_the_reference_says(self):
        """Of each object that differs from one of these by a byte."""
        checks = _checks.Checks(False, True)
        seen = set()
        for order, (_, make) in zip("<><><", BROKEN.values()):
            content = make(order).made.data
            for at in range(64, len(content)):
                for value in (0, 0xEE):
                    before = content[at]
                    content[at] = value
                    found, _ = self.faults(checks, content)
                    self.assertEqual(found, self.expected(bytes(content)), (order, make, at, value))
                    content[at] = before
                    seen.update(rule for is_of_link, rule, _ in found if is_of_link)
        self.assertEqual(seen, set(range(3, 8)))

    def test_contents_are_not_read(self):
        """Of a file that is longer than what is read whole: nothing of a section that holds no
        table."""
        live = ALLOC | IN_GROUP
        for rule, sections in (
            (3, [data(flags=ALLOC | TLS)]),
            (5, [symbols(3, (0, 3, 5), info=2), STRINGS, group(5, table=2), data(flags=live)]),
            (6, [symbols(3, (1, 0x12, 1), (3, 0xA1, 1)), STRINGS]),
            (0, [symbols(3, (1, 0x12, 1), (3, 0x10, 0)), STRINGS]),
        ):
            for filling in (b"\0", b"\xee"):
                made = Made((b".filler", 1, filling * (1 << 18), {}), *sections)
                found, places = self.faults(_checks.Checks(False, True), made.data)
                self.assertEqual(found, self.expected(bytes(made.data)))
                self.assertEqual([it[:2] for it in found], [(True, rule)] if rule else [])
                self.assertEqual(
                    [it for it in places if it[0] < made.starts[2]], [(0, _sources.Room.FRONT)]
                )

    def test_there_is_no_memory(self):
        checks = _checks.Checks(False, True)
        call = "elfmap_link_verdict"
        with mock.patch.object(checks._library, call, return_value=_declared.NO_MEMORY):
            with self.assertRaises(_sources.Unreadable) as raised:
                self.faults(checks, GOOD)
        self.assertEqual(raised.exception.reason, "there is no memory for its tables")


if __name__ == "__main__":
    unittest.main()
