"""The screens of elfmap-view for 30 real and 67 broken files, at 80 and at 200 columns.

data/view/real/ has objects, programs and shared libraries that gcc, clang, ld and ld.lld of Debian
12 made of small programs. The broken files are the first one of each rule in cases/explain.txt, and
some real ones with changes. The screens are in data/view/screens-80.txt and screens-200.txt:
`python3 -m tests.test_view_screens --store` writes them again. Their numbers are those of the
reference implementation.
"""

import re
import subprocess
import sys
import tempfile
import unittest
from functools import cache
from pathlib import Path

from elfmap import build

from tests.made import ENVIRONMENT, setUpModule  # noqa: F401

sys.path.insert(0, str(build.REPOSITORY / "tools" / "lib"))
from elfmap_tools import reference, written_cases  # noqa: E402

DATA = Path(__file__).resolve().parent / "data" / "view"
WIDTHS = (80, 200)
SECTION_FIELDS = "sh_type sh_flags sh_addr sh_offset sh_size sh_link sh_info sh_addralign"
SECTION_FIELDS = [*SECTION_FIELDS.split(), "sh_entsize"]
SEGMENT_FIELDS = "p_type p_flags p_offset p_filesz p_vaddr p_memsz p_align".split()
# As the gABI calls them.
SECTION_TYPES = "NULL PROGBITS SYMTAB STRTAB RELA HASH DYNAMIC NOTE NOBITS REL SHLIB DYNSYM".split()
SECTION_TYPES = {
    **dict(enumerate(SECTION_TYPES)),
    **{14: "INIT_ARRAY", 15: "FINI_ARRAY", 16: "PREINIT_ARRAY", 17: "GROUP", 18: "SYMTAB_SHNDX"},
}
SEGMENT_TYPES = dict(enumerate("NULL LOAD DYNAMIC INTERP NOTE SHLIB PHDR TLS".split()))
SECTION_FLAGS = {1: "W", 2: "A", 4: "X", 16: "M", 32: "S", 64: "I", 128: "L", 512: "G", 1024: "T"}
SEGMENT_FLAGS = {4: "R", 2: "W", 1: "X"}
MOST_SECTIONS = 16
MOST_SEGMENTS = 8


def real_files():
    return {it.name: it.read_bytes() for it in sorted((DATA / "real").iterdir())}


def changed(content, *changes):
    """A file with fields of section headers changed: of each the section, the field and the
    value."""
    own = reference.File(content)
    data = bytearray(content)
    for index, field, value in changes:
        width = own.section(index).layout[field][1]
        at = own.section(index).at(field)
        data[at : at + width] = value.to_bytes(width, own.order)
    return bytes(data)


def broken_real_files(real):
    """Real files that are cut short, or have fields changed."""
    answer = real["debug-information.o"]
    own = reference.File(answer)
    # The content of section 3 begins at the last byte of that of section 1.
    last = own.section(1).sh_offset + own.section(1).sh_size - 1
    program = bytearray(real["s390x.o"])
    # The other byte order.
    program[5] = 1
    groups = real["comdat-groups.o"]
    names = reference.File(groups).section(5).sh_offset
    many = [(k, "sh_offset", 64) for k in range(1, 6)]
    return {
        "cut-in-the-code": real["static-pie"][:3000],
        "cut-in-the-header": real["thread-local.so"][:40],
        "many-parts-on-a-byte.o": changed(groups, *many),
        "several-faults.o": changed(
            groups, (2, "sh_addralign", 3), (3, "sh_name", 9999), (4, "sh_size", names + 1 << 20)
        ),
        "shared-byte.o": changed(answer, (3, "sh_offset", last)),
        "wrong-byte-order.o": bytes(program),
    }


@cache
def broken_files():
    """The first file of each rule, called by the rule, and changed real ones."""
    reader = written_cases.Reader("explain.txt")
    for line in (build.REPOSITORY / "cases/explain.txt").read_text().splitlines():
        reader.read(line)
    found = {}
    for content in map(bytes, reader.files.values()):
        fault = first_fault(content)
        if fault:
            found.setdefault(fault[0], content)
    named = {f"rule-{rule:02}": found[rule] for rule in sorted(found)}
    return {**named, **broken_real_files(real_files())}


@cache
def all_files():
    return {**real_files(), **broken_files()}


def first_fault(content):
    """The first rule that a file or one of its tables breaks, its offset, and the table."""
    broken = reference.verdict(content)
    if broken:
        return (*broken, None)
    return next(iter(broken_tables(content)), None)


def broken_tables(content):
    """Of each table that breaks a rule the first one, its offset, and the section."""
    own = reference.File(content)
    # A string table has no verdict of its own.
    kinds = ((k, own.section(k).sh_type) for k in range(own.section_count))
    tables = (index for index, kind in kinds if kind != reference.STRTAB)
    every = ((index, reference.table_verdict(own, index)) for index in tables)
    return [(*broken, index) for index, broken in every if broken]


def screens(width):
    """What the viewer prints of all files, by their names."""
    files = all_files()
    with tempfile.TemporaryDirectory(prefix="elfmap-test-") as folder:
        for name, content in files.items():
            Path(folder, name).write_bytes(content)
        words = [sys.executable, "-m", "elfmap.view", "--width", str(width), *files]
        ran = subprocess.run(words, cwd=folder, env=ENVIRONMENT, capture_output=True)
    assert (ran.returncode, ran.stderr) == (1, b""), ran
    return by_name(ran.stdout.decode())


def by_name(text):
    """The screens of a text, each of which begins with the name of its file after an empty line."""
    found = {}
    before = ""
    for line in text.splitlines():
        if line in all_files() and not before:
            lines = found.setdefault(line, [])
        lines.append(line)
        before = line
    return found


@cache
def stored(width):
    return by_name((DATA / f"screens-{width}.txt").read_text())


def store():
    setUpModule()
    for width in WIDTHS:
        lines = [line for screen in screens(width).values() for line in screen]
        (DATA / f"screens-{width}.txt").write_text("\n".join(lines) + "\n")


class ScreensTest(unittest.TestCase):
    maxDiff = None

    def test_how_many_there_are(self):
        self.assertEqual(len(real_files()), 30)
        rules = {first_fault(it)[0] for it in broken_files().values()}
        # Those of images but the first one, and 29 of tables.
        self.assertEqual(rules, {*range(2, 34), *range(41, 70)})
        self.assertGreater(len(broken_files()), 60)

    def test_they_are_as_they_were(self):
        for width in WIDTHS:
            found = screens(width)
            self.assertEqual([*found], [*all_files()])
            for name, lines in found.items():
                with self.subTest(width=width, name=name):
                    self.assertEqual(lines, stored(width)[name])

    def test_a_line_of_a_sound_file_is_as_wide_as_the_screen(self):
        for width in WIDTHS:
            for name in real_files():
                self.assertLessEqual(max(map(len, stored(width)[name])), width, name)


class Screen:
    """A stored screen of 200 columns, in which each value has a place, beside its file."""

    def __init__(self, name):
        self.lines = stored(200)[name]
        self.file = reference.File(all_files()[name])

    def fact(self, name):
        """The words after a name at the front of the screen."""
        front = f"  {name:<10}"
        return next((it[len(front) :] for it in self.lines if it.startswith(front)), None)

    def rows(self, title):
        """The rows of a table, in words, below its title and the names of columns."""
        starts = [k for k, it in enumerate(self.lines) if it.startswith(f"{title} (")]
        found = []
        for line in self.lines[starts[0] + 2 :] if starts else ():
            if not re.match(r"  +\d+  ", line):
                break
            found.append(line.split())
        return found


def plain(word):
    """A value without its mark."""
    return word.rstrip("!?")


def number(word):
    return int(plain(word).replace(",", ""), 0)


def letters(flags, names):
    return {letter for bit, letter in names.items() if flags & bit}


class NumbersTest(unittest.TestCase):
    """Each number of the stored screens is that of the reference implementation."""

    def of_each(self, check):
        """Checks each screen of a file that has a header of class 64."""
        for name, content in all_files().items():
            if len(content) >= 64 and content[:5] == b"\x7fELF\2":
                with self.subTest(name=name):
                    check(Screen(name))

    def test_verdicts(self):
        for name, content in all_files().items():
            with self.subTest(name=name):
                text = "\n".join(stored(200)[name])
                broken = reference.verdict(content)
                tables = [] if broken else broken_tables(content)
                (verdict,) = re.findall("^  verdict   (.*)", text, re.M)
                faults = re.findall(r"^  ! \w+ \((\d+)\) at (0x[0-9a-f]+): ", text, re.M)
                if broken:
                    self.assertRegex(verdict, rf"^refused: \w+ \({broken[0]}\)$")
                    self.assertEqual(faults[0], (str(broken[0]), hex(broken[1])))
                elif tables:
                    count = f"{len(tables)} table{'s break' if len(tables) > 1 else ' breaks'}"
                    self.assertIn(f"; {count} a rule", verdict)
                    first = {rule: at for rule, at, _ in reversed(tables)}
                    self.assertEqual(dict(faults), {str(k): hex(at) for k, at in first.items()})
                else:
                    self.assertEqual(verdict, "sound: it keeps all rules of files and tables")
                    self.assertEqual(faults, [])

    def test_facts(self):
        self.of_each(self.check_facts)

    def check_facts(self, it):
        header = it.file.header
        size = f"{it.file.len:,} bytes, "
        self.assertTrue(it.fact("size").startswith(size))
        order = f"{it.file.order}-endian"
        machine, own_order = plain(it.fact("machine")).split(", ")
        self.assertEqual((machine.split()[0], own_order), (str(header.e_machine), order))
        entry = it.fact("entry")
        if entry is None:
            self.assertEqual((header.e_entry, header.e_type), (0, 1))
        else:
            self.assertEqual(number(entry.split()[0]), header.e_entry)
        if not reference.verdict(it.file.bytes):
            counts = f"{it.file.section_count} section headers, "
            self.assertIn(counts + f"{it.file.segment_count} program headers", it.fact("size"))

    def test_sections(self):
        self.of_each(self.check_sections)

    def check_sections(self, it):
        rows = it.rows("SECTIONS")
        for row in rows:
            own = it.file.section(int(row[0]))
            words = dict(zip(SECTION_FIELDS, row[1:10]))
            kind = SECTION_TYPES.get(own.sh_type)
            self.assertEqual(plain(words.pop("sh_type")), kind or plain(row[1]))
            flags = plain(words.pop("sh_flags")).strip("-").partition("+")[0]
            known = letters(own.sh_flags, SECTION_FLAGS)
            self.assertEqual({*flags} & {*SECTION_FLAGS.values()}, known)
            for field, word in words.items():
                self.assertEqual(number(word), getattr(own, field), (row, field))
            if not reference.verdict(it.file.bytes) and own.sh_type:
                name = reference.name_of(it.file, own).decode() or f"section {row[0]}"
                self.assertEqual(" ".join(row[10:]), name)
        if not reference.verdict(it.file.bytes):
            count = it.file.section_count
            self.assertEqual(len(rows), count if count <= MOST_SECTIONS else MOST_SECTIONS)

    def test_segments(self):
        self.of_each(self.check_segments)

    def check_segments(self, it):
        rows = it.rows("SEGMENTS")
        for row in rows:
            own = it.file.segment(int(row[0]))
            words = dict(zip(SEGMENT_FIELDS, row[1:8]))
            kind = SEGMENT_TYPES.get(own.p_type)
            self.assertEqual(plain(words.pop("p_type")), kind or plain(row[1]))
            flags = plain(words.pop("p_flags")).strip("-").partition("+")[0]
            self.assertEqual({*flags}, letters(own.p_flags, SEGMENT_FLAGS))
            for field, word in words.items():
                self.assertEqual(number(word), getattr(own, field), (row, field))
        if not reference.verdict(it.file.bytes):
            self.assertEqual(len(rows), min(it.file.segment_count, MOST_SEGMENTS))

    def test_bytes_of_each_kind(self):
        """They add up to the file, and the gaps are those of the reference."""
        self.of_each(self.check_bytes_of_each_kind)

    def check_bytes_of_each_kind(self, it):
        if reference.verdict(it.file.bytes):
            return
        # They may be in two lines.
        start = next(k for k, line in enumerate(it.lines) if line.startswith("  H "))
        text = " ".join(map(str.strip, it.lines[start : it.lines.index("", start)]))
        kinds = dict(re.findall(r"(?:^|, )([HCDKSRo.]) [a-z ]+? ([0-9,]*[0-9])", text))
        sizes = {kind: number(word) for kind, word in kinds.items()}
        self.assertEqual(sum(sizes.values()), it.file.len)
        every = [(owner.split()[0], size) for _, size, owner in reference.parts(it.file)]
        gaps = sum(size for owner, size in every if owner == "gap")
        tables = sum(size for owner, size in every if owner not in ("gap", "content"))
        self.assertEqual((sizes.get(".", 0), sizes["H"]), (gaps, tables))

    def test_the_largest(self):
        self.of_each(self.check_the_largest)

    def check_the_largest(self, it):
        if reference.verdict(it.file.bytes) or broken_tables(it.file.bytes):
            return
        own = it.file
        sections = [own.section(k).sh_size for k in range(1, own.section_count)]
        kinds = [own.section(k).sh_type for k in range(own.section_count)]
        own_tables = [k for k, kind in enumerate(kinds) if kind == 2]
        tables = own_tables or [k for k, kind in enumerate(kinds) if kind == 11]
        every = [symbol for k in tables for symbol in reference.symbols(own, k)]
        symbols = [it.st_size for it in every if 0 < it.st_shndx < 0xFF00]
        for kind, sizes in (("section", sections), ("symbol", symbols)):
            largest = sorted((size for size in sizes if size), reverse=True)[:5]
            shown = [line.split() for line in it.lines]
            found = [number(row[0]) for row in shown if row[1:2] == [kind]]
            self.assertEqual(found, largest)

    def test_marks(self):
        """The field at which the first rule is broken has its mark."""
        self.of_each(self.check_marks)

    def check_marks(self, it):
        broken = reference.verdict(it.file.bytes)
        rows = {int(row[0]): row for row in it.rows("SECTIONS")}
        if not broken:
            if not broken_tables(it.file.bytes):
                self.assertNotIn("!", "".join(it.lines))
            return
        table = it.file.header.e_shoff
        index, within = divmod(broken[1] - table, 64)
        row = rows.get(index) if broken[1] >= table else None
        layout = it.file.section(0).layout
        fields = [name for name, (at, width) in layout.items() if at <= within < at + width]
        if row and fields[0] in SECTION_FIELDS:
            self.assertTrue(row[1 + SECTION_FIELDS.index(fields[0])].endswith("!"), row)
        elif row:
            self.assertTrue(row[-1].endswith("!"), row)


if __name__ == "__main__":
    if sys.argv[1:] == ["--store"]:
        store()
    else:
        unittest.main()
