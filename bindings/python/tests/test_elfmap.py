"""What the package says of many files is what the reference implementation of the repository
says of them; and what a caller sees beside that."""

import array
import doctest
import mmap
import os
import pickle
import struct
import subprocess
import sys
import tempfile
import unittest
from pathlib import Path

import elfmap
from elfmap import build

from tests.made import (
    BROKEN_SYMBOLS,
    GOOD,
    MANY_BROKEN,
    SHARING,
    Made,
    relocations,
    symbols,
    text,
)

PACKAGE = Path(__file__).resolve().parents[1]
sys.path.insert(0, str(build.REPOSITORY / "tools" / "lib"))
from elfmap_tools import dump as reference  # noqa: E402


def small_file():
    """A header, the names from 64 on, and from 88 on three section headers.

    They are of no section, of `.bss` without bytes in the file, and of `.shstrtab`.
    """
    names = b"\0.bss\0.shstrtab\0"
    data = bytearray(88 + 3 * 64)

    def put(at, part):
        data[at : at + len(part)] = part

    put(0, b"\x7fELF\2\1\1")
    put(16, [1, 0, 62, 0, 1])
    put(40, [88])
    put(52, [64])
    put(58, [64, 0, 3, 0, 2])
    put(64, names)
    for index, name, kind, size in (1, 1, 8, 200), (2, 6, 3, len(names)):
        put(88 + 64 * index, [name, 0, 0, 0, kind])
        put(88 + 64 * index + 24, [64, 0, 0, 0, 0, 0, 0, 0, size])
    return data


def shown(part):
    if part is None:
        return "-"
    return str(part) if isinstance(part, int) else f"={part.hex()}"


def line(word, *parts):
    return " ".join([word, *map(shown, parts)])


def told(content):
    try:
        file = elfmap.parse(content)
    except elfmap.Refused as refused:
        return [f"refused {refused.rule} {refused.offset} {refused.name}"]
    e_ident, *fields = file.header
    lines = [
        line("ok", *file.summary),
        line("header", *fields, e_ident),
        *(line("section", *it) for it in file.sections),
        *(line("segment", *it) for it in file.segments),
    ]
    return lines if len(content) > reference.LONG else lines + more_lines(file, content)


def more_lines(file, content):
    return [
        *map(part_line, file.parts),
        *(it for index in range(len(file.sections)) for it in entry_lines(file, index)),
        line("show", elfmap.show(content).encode()),
        rewrite_line(content),
    ]


def part_line(part):
    words = {"section headers": "sections", "program headers": "segments"}
    owner = part.owner if isinstance(part.owner, str) else f"content {part.owner}"
    return f"part {part.start} {part.len} {words.get(owner, owner)}"


def entry_lines(file, index):
    """The lines of a table's entries; none of a section that holds none."""
    for it in file.symbols(index):
        assert (it.binding, it.symbol_type) == divmod(it.st_info, 16)
        place = it.section, it.st_shndx, it.st_info, it.st_other
        yield line("symbol", index, it.st_value, it.st_size, *place, it.name)
    for it in file.relocations(index):
        yield line("relocation", index, *it)
    for it in file.dynamic(index):
        yield line("dynamic", index, *it)
    for it in file.notes(index):
        yield line("note", index, it.n_type, it.name, it.desc)


def rewrite_line(content):
    try:
        return line("rewrite", elfmap.rewrite(content))
    except elfmap.Refused as refused:
        return f"rewrite refused {refused.rule} {refused.offset}"
    except elfmap.TooLong:
        return "rewrite too long"


def comparable(lines, expected):
    """Lines without those of entries of tables that the reference refuses."""
    broken = {it.split()[1] for it in expected if it.startswith("broken ")}
    entries = "symbol", "relocation", "dynamic", "note"
    own = [it for it in lines if it.split()[0] not in entries or it.split()[1] not in broken]
    return own, [it for it in expected if not it.startswith("broken ")]


class ValidatedTest(unittest.TestCase):
    def test_says_what_the_reference_says(self):
        broken = set()
        for number, content in enumerate(reference.files()):
            with self.subTest(file=number, size=len(content)):
                lines, expected = comparable(told(content), reference.lines_of(content))
                if lines != expected:
                    other = [it for it in zip(lines, expected) if it[0] != it[1]][:1]
                    self.fail(f"the package and the reference: {str(other):.800}")
                if lines[0].startswith("refused"):
                    broken.add(int(lines[0].split()[1]))
        self.assertEqual(broken, set(range(2, 34)), "rule 1 wants a longer file")

    def test_a_symbol_without_its_index_word_is_left_out(self):
        # Of cases/tables.txt, in both byte orders: symbol 2 of 3 is in an index table that is not
        # there.
        files = [elfmap.parse(it) for it in reference.files() if len(it) == 476]
        broken = [it.symbols(1) for it in files if len([*it.symbols(1)]) < len(it.symbols(1))]
        self.assertEqual([len(it) for it in broken], [3, 3])
        for symbols in broken:
            self.assertEqual([it.name for it in symbols], [b"", b"ab"])
            self.assertEqual([it.name for it in symbols[1:]], [b"ab"])
            with self.assertRaises(IndexError):
                symbols[2]


class RefusedTest(unittest.TestCase):
    def test_a_longer_file_than_any(self):
        with mmap.mmap(-1, 2**30 + 1) as data:
            with self.assertRaises(elfmap.Refused) as raised:
                elfmap.check(data)
        refused = raised.exception
        self.assertEqual((refused.rule, refused.offset), (1, 2**30))
        self.assertEqual(refused.name, "TOO_LONG")

    def test_its_words(self):
        data = small_file()
        data[88 + 64 + 4] = 1
        with self.assertRaises(elfmap.Refused) as raised:
            elfmap.parse(data)
        refused = raised.exception
        sentence = (
            "the file is refused because a byte lies in two of these: the ELF header, "
            "the two tables, and the contents of sections (neither NULL nor NOBITS)"
        )
        self.assertEqual(refused.sentence, sentence)
        words = f"rule 33 (SHARED_BYTE) at offset 64: {sentence}"
        self.assertEqual(str(refused), words)
        self.assertEqual(str(pickle.loads(pickle.dumps(refused))), words)

    def test_each_rule_has_a_sentence(self):
        for rule in *range(1, 34), *range(40, 80):
            sentence = elfmap.Refused(rule, 0).sentence
            self.assertRegex(sentence, "^the (file|table) is refused because ")
        for rule in 0, 34, 80:
            self.assertEqual(elfmap.Refused(rule, 0).name, "UNKNOWN_RULE")
        for rule in range(1, 17):
            sentence = elfmap.NotLinked(rule, 0, 0, 0).sentence
            self.assertTrue(sentence.startswith("the link is refused because "))


class RefusedTablesTest(unittest.TestCase):
    def test_they_are_those_that_show_refuses(self):
        """Section, rule and offset, in the order of sections."""
        lines = [it.split() for it in elfmap.show(BROKEN_SYMBOLS).splitlines()]
        shown = [tuple(map(int, it[1:])) for it in lines if it[0] == "refused"]
        self.assertEqual(elfmap.refused_tables(BROKEN_SYMBOLS), shown)
        sections = elfmap.parse(BROKEN_SYMBOLS).sections
        # Symbol 1 is of a section that isn't there, by its st_shndx.
        own = next(k for k, it in enumerate(sections) if it.sh_type == elfmap.SHT.SYMTAB)
        self.assertEqual(shown[0], (own, 51, sections[own].sh_offset + 24 + 6))
        self.assertEqual([section for section, _, _ in shown], [own, own + 2, own + 3])
        self.assertEqual(elfmap.refused_tables(GOOD), [])
        self.assertRaises(elfmap.Refused, elfmap.refused_tables, SHARING)
        # A file that is refused has one line.
        self.assertEqual(elfmap.show(SHARING), "refused 33 114\n")

    def test_a_table_after_many_sections(self):
        at = MANY_BROKEN.starts[302] + 24 + 6
        self.assertEqual(elfmap.refused_tables(bytes(MANY_BROKEN.data)), [(302, 51, at)])


class LinkTest(unittest.TestCase):
    """What a program of the repository links is linked here too."""

    RULES = "4 pc 4 signed\n"

    def setUp(self):
        folder = build.REPOSITORY / "crates/example_link"
        self.start = (folder / "data/start.o").read_bytes()
        self.answer = (folder / "data/answer.o").read_bytes()
        self.executable = (folder / "stdout").read_bytes()

    def test_an_executable(self):
        files = bytearray(self.start), memoryview(self.answer)
        self.assertEqual(elfmap.link(files, self.RULES), self.executable)
        other = elfmap.link(files, self.RULES, base=0x10000, page=0x2000, entry=b"answer")
        self.assertEqual(elfmap.parse(other).segments[0].p_vaddr, 0x10000)

    def test_a_map(self):
        lines = elfmap.map([self.start, self.answer], self.RULES).splitlines()
        self.assertRegex(lines[0], "^output 0x400000 ")
        self.assertTrue(any(it.startswith("bytes ") for it in lines))

    def test_a_map_without_rules(self):
        """It has no bytes, and no relocation is refused; an empty text has no rule for any."""
        lines = elfmap.map([self.start, self.answer], self.RULES).splitlines(keepends=True)
        shown = [it for it in lines if not it.startswith("bytes ")]
        self.assertEqual(elfmap.map([self.start, self.answer]), "".join(shown))
        self.assertEqual(elfmap.map([self.start, self.answer], None), "".join(shown))
        with self.assertRaises(elfmap.NotLinked) as raised:
            elfmap.map([self.start, self.answer], "")
        self.assertEqual(raised.exception.name, "NO_RULE")

    def test_what_does_not_link(self):
        with self.assertRaises(elfmap.NotLinked) as raised:
            elfmap.link([self.start], self.RULES)
        refused = raised.exception
        self.assertEqual((refused.rule, refused.name), (9, "UNDEFINED_NAME"))
        self.assertEqual(refused.file, 0)
        self.assertEqual(str(pickle.loads(pickle.dumps(refused))), str(refused))

    def test_a_file_that_is_no_object(self):
        with self.assertRaises(elfmap.Refused) as raised:
            elfmap.link([self.start, self.executable], self.RULES)
        refused = raised.exception
        for it in refused, pickle.loads(pickle.dumps(refused)):
            self.assertEqual((it.file, it.rule, it.offset), (1, 70, 16))

    def test_bad_rules(self):
        with self.assertRaises(elfmap.BadRules) as raised:
            elfmap.map([self.start], "4 pc 4 signed\n4 pc 3 signed\n")
        self.assertEqual(raised.exception.line, 2)
        self.assertEqual(str(raised.exception), "line 2 of the rules is bad")


class Index:
    """What Python takes for an index, as the numbers of other packages."""

    def __init__(self, number):
        self.number = number

    def __index__(self):
        return self.number


class ArgumentsTest(unittest.TestCase):
    """What is no argument of a call is an error, or is not there. It is never taken for another
    one."""

    NAMES = b"f", b"\xc3\xa9", b"\xff"
    HASH = 2
    SYMBOLS = 3
    RULES = LinkTest.RULES
    # What a call does with a content, a number, and a name.
    OF_BYTES = {
        "parse": elfmap.parse,
        "check": elfmap.check,
        "show": elfmap.show,
        "rewrite": elfmap.rewrite,
        "link": lambda it: elfmap.link([it], ArgumentsTest.RULES),
        "map": lambda it: elfmap.map([it], ArgumentsTest.RULES),
        "File": elfmap.File,
        "refused_tables": elfmap.refused_tables,
    }
    OF_FILES = {"link": elfmap.link, "map": elfmap.map}
    OF_SECTIONS = {
        "symbols": elfmap.File.symbols,
        "relocations": elfmap.File.relocations,
        "dynamic": elfmap.File.dynamic,
        "notes": elfmap.File.notes,
        "find": lambda file, it: file.find(it, b"f"),
        "load": elfmap.File.load,
        "columns": elfmap.File.columns,
        "words": elfmap.File.words,
    }
    # What takes a path, and what takes nothing: tests/test_package.py has them.
    OTHERS = {"open", "close"}
    NO_NUMBERS = "1", b"1", 1.0, None
    NO_TEXTS = bytearray(b"f"), memoryview(b"f"), Path("f"), 5, [102], None

    @classmethod
    def setUpClass(cls):
        strings = b"\0" + b"\0".join(cls.NAMES) + b"\0"
        # Symbols 1 to 3 are a chain in the only bucket.
        table = (
            b".hash",
            5,
            struct.pack("<7I", 1, 4, 1, 0, 2, 3, 0),
            dict(link=cls.SYMBOLS, entsize=4),
        )
        rows = [(strings.index(b"\0" + it + b"\0") + 1, 0x10, 1) for it in cls.NAMES]
        cls.content = bytes(
            Made(text(), table, symbols(4, *rows), (b".strtab", 3, strings, {})).data
        )
        cls.file = elfmap.parse(cls.content)
        folder = build.REPOSITORY / "crates/example_link"
        cls.objects = [(folder / f"data/{it}.o").read_bytes() for it in ("start", "answer")]
        cls.executable = elfmap.parse((folder / "stdout").read_bytes())

    def raises(self, error, call, *words, **named):
        shown = [f"{it!r:.40}" for it in words]
        with self.subTest(call=call, words=shown, named=named), self.assertRaises(error):
            call(*words, **named)

    def test_each_call_is_here(self):
        every = {it: getattr(elfmap, it) for it in elfmap.__all__}
        of_module = {name for name, it in every.items() if not isinstance(it, (type, str))}
        public = {name: it for name, it in vars(elfmap.File).items() if name[0] != "_"}
        of_file = {name for name, it in public.items() if not isinstance(it, property)}
        self.assertEqual(of_module - self.OTHERS, self.OF_BYTES.keys() - {"File"})
        self.assertEqual(of_file - self.OTHERS, self.OF_SECTIONS.keys())

    def test_contents(self):
        for call in self.OF_BYTES.values():
            for it in (
                "/bin/true",
                Path("/bin/true"),
                5,
                True,
                1.5,
                None,
                [5],
                memoryview(self.content)[::2],
            ):
                self.raises(TypeError, call, it)
        with self.assertRaisesRegex(TypeError, "pass those of Path.read_bytes"):
            elfmap.parse(Path("/bin/true"))

    def test_files(self):
        """The bytes of one file are no files, nor is a path."""
        data = self.objects[0]
        with mmap.mmap(-1, 64) as mapped:
            for call in self.OF_FILES.values():
                for it in (
                    data,
                    bytearray(data),
                    memoryview(data),
                    array.array("B", data),
                    mapped,
                    b"",
                    "a.o",
                    Path("a.o"),
                    5,
                    None,
                ):
                    self.raises(TypeError, call, it, self.RULES)
        self.assertEqual(
            elfmap.link(iter(self.objects), self.RULES),
            elfmap.link(tuple(self.objects), self.RULES),
        )

    def test_numbers_of_sections_and_addresses(self):
        self.assertEqual(
            (
                [*map(len, map(self.file.symbols, (3, Index(3), True)))],
                self.file.find(Index(2), b"f"),
            ),
            ([4, 4, 0], 1),
        )
        self.assertEqual(self.executable.load(0x400000), 0xE8)
        for file, own in (self.file, (self.HASH, self.SYMBOLS)), (self.executable, (0x400000,)):
            for it in (
                -1,
                2**64,
                -(2**64),
                2**70,
                *(it + k * 2**64 for it in own for k in (-1, 1)),
            ):
                for name, call in self.OF_SECTIONS.items():
                    with self.subTest(call=name, number=it):
                        self.assertFalse(call(file, it))
        for call in self.OF_SECTIONS.values():
            for it in self.NO_NUMBERS:
                self.raises(TypeError, call, self.file, it)

    def test_indices(self):
        for records in (
            self.file.sections,
            self.file.symbols(self.SYMBOLS),
            self.executable.segments,
        ):
            count = len(records)
            self.assertEqual((records[-1], records[-count]), (records[count - 1], records[0]))
            for it in count, -count - 1, 2**64, 2**64 + 1, -(2**64) + 1:
                self.raises(IndexError, records.__getitem__, it)
            for it in self.NO_NUMBERS:
                self.raises(TypeError, records.__getitem__, it)

    def test_names(self):
        for k, name in enumerate(self.NAMES, 1):
            for it in (name, name.decode("utf-8", "surrogateescape")):
                self.assertEqual(self.file.find(self.HASH, it), k)
        self.assertIsNone(self.file.find(self.HASH, "g"))
        for it in self.NO_TEXTS:
            for section in self.HASH, 0:
                self.raises(TypeError, self.file.find, section, it)
            self.raises(TypeError, elfmap.link, self.objects, self.RULES, entry=it)
            self.raises(TypeError, elfmap.link, self.objects, it)
            if it is not None:
                self.raises(TypeError, elfmap.map, self.objects, it)
        linked = elfmap.link(self.objects, self.RULES, entry=b"answer")
        self.assertEqual(elfmap.link(self.objects, self.RULES.encode(), entry="answer"), linked)
        self.assertEqual(
            elfmap.map(self.objects, self.RULES.encode()), elfmap.map(self.objects, self.RULES)
        )

    def test_options(self):
        for call in self.OF_FILES.values():
            for option in "base", "page":
                for it in (
                    -1,
                    2**64,
                    2**64 + 0x400000,
                    2**64 + 0x1000,
                    -(2**64) + 0x400000,
                    2**80,
                ):
                    self.raises(OverflowError, call, self.objects, self.RULES, **{option: it})
                for it in self.NO_NUMBERS:
                    self.raises(TypeError, call, self.objects, self.RULES, **{option: it})
                # A number of 64 bits is passed on, and the link does not take it.
                self.raises(
                    elfmap.NotLinked, call, self.objects, self.RULES, **{option: 2**64 - 1}
                )
        self.assertEqual(
            elfmap.link(self.objects, self.RULES, base=Index(0x400000)),
            elfmap.link(self.objects, self.RULES),
        )


class BytesTest(unittest.TestCase):
    def test_any_bytes_in_one_piece(self):
        data = bytes(small_file())
        copy = bytearray(data)
        views = memoryview(data), memoryview(copy), memoryview(b"." + data)[1:]
        for it in data, copy, array.array("H", data), *views:
            self.assertEqual(elfmap.check(it), (len(data), 3, 0))

    def test_no_bytes(self):
        for it in b"", bytearray(), memoryview(b""), array.array("Q"):
            with self.assertRaises(elfmap.Refused) as raised:
                elfmap.check(it)
            self.assertEqual((raised.exception.rule, raised.exception.offset), (2, 0))

    def test_mapped_files(self):
        with tempfile.TemporaryFile() as it:
            it.write(small_file())
            it.flush()
            for access in mmap.ACCESS_READ, mmap.ACCESS_WRITE, mmap.ACCESS_COPY:
                with mmap.mmap(it.fileno(), 0, access=access) as data:
                    self.assertEqual(elfmap.parse(data).sections[2].name, b".shstrtab")

    def test_bytes_are_not_copied(self):
        data = small_file()
        file = elfmap.parse(data)
        content = file.sections[2].content
        data[64] = ord("x")
        self.assertEqual(content[0], ord("x"))
        with self.assertRaises(BufferError):
            data.append(0)
        del file, content
        data.append(0)

    def test_a_content_outlives_its_file(self):
        content = elfmap.parse(bytes(small_file())).sections[2].content
        self.assertEqual(content, b"\0.bss\0.shstrtab\0")
        self.assertTrue(content.readonly)


class RecordsTest(unittest.TestCase):
    def test_contents_and_parts(self):
        file = elfmap.parse(GOOD)
        header = (b"\x7fELF\2\1\1" + bytes(9), 1, 62, 1, 0, 0, 0x88, 0, 64, 0, 0, 64, 3, 2)
        self.assertEqual((file.header, file.summary), (header, (len(GOOD), 3, 0)))
        self.assertEqual(elfmap.check(GOOD), file.summary)
        _, code, names = file.sections
        self.assertEqual((code.name, bytes(code.content)), (b".text", b"\x90" * 0x33))
        self.assertEqual(bytes(names.content), b"\0.text\0.shstrtab\0")
        parts = [(0, 64, "header"), (0x40, 0x33, 1), (0x73, 17, 2), (0x84, 4, "gap")]
        self.assertEqual(file.parts, [*parts, (0x88, 3 * 64, "section headers")])

    def test_a_segment_is_longer_in_memory(self):
        header = (b"\x7fELF\2\1\1", 2, 62, 1, 0x1000, 64, 0, 0, 64, 56, 1, 0, 0, 0)
        loaded = (1, 5, 64, 0x1040, 0x1040, 60, 0x2000, 0x1000)
        data = struct.pack("<16sHHIQQQIHHHHHH", *header) + struct.pack("<IIQQQQQQ", *loaded)
        file = elfmap.parse(data + b"code" + bytes(100))
        (segment,) = file.segments
        self.assertEqual(segment[:-1], loaded)
        self.assertEqual(bytes(segment.content), data[64:] + b"code")
        addresses = (0x103F, 0x1040, 0x1078, 0x107B, 0x107C, 0x303F, 0x3040)
        found = [file.load(it) for it in addresses]
        self.assertEqual(found, [None, 1, ord("c"), ord("e"), 0, 0, None])
        parts = [(0, 64, "header"), (64, 56, "program headers"), (120, 104, "gap")]
        self.assertEqual(file.parts, parts)

    def test_tables_are_of_their_types(self):
        strings = (b".strtab", 3, b"\0f\0", {})
        note = (b".note", 7, struct.pack("<3I", 2, 0, 1) + b"f\0\0\0", {})
        entries = struct.pack("<6Q", 1, 1, 14, 0, 0, 0)
        dynamic = (b".dynamic", 6, entries, dict(link=3, entsize=16))
        rows = [text(), symbols(3, (1, 0x12, 1)), strings, relocations(2, 1), note, dynamic]
        file = elfmap.parse(bytes(Made(*rows).data))
        sections = range(len(file.sections) + 1)
        counts = {
            "symbols": {2: 2},
            "relocations": {4: 1},
            "dynamic": {6: 2},
            "notes": {5: 1},
        }
        for name, right in counts.items():
            found = {k: len(getattr(file, name)(k)) for k in sections}
            self.assertEqual({k: it for k, it in found.items() if it}, right, name)
        self.assertEqual([k for k in sections if file.columns(k)], [2, 4, 6])
        self.assertEqual([*file.dynamic(6)], [(1, 1, b"f"), (14, 0, b"")])
        symbol = file.symbols(2)[1]
        self.assertEqual((symbol.name, symbol.binding, symbol.symbol_type), (b"f", 1, 2))
        self.assertEqual(file.relocations(4)[0], (0, 0, 1, 2))

    def test_sections_are_a_sequence(self):
        sections = elfmap.parse(small_file()).sections
        self.assertEqual(len(sections), 3)
        self.assertEqual([it.name for it in sections], [b"", b".bss", b".shstrtab"])
        self.assertEqual([it.name for it in sections[1:]], [b".bss", b".shstrtab"])
        self.assertEqual(sections[-1], sections[2])
        for index in 3, -4, 2**70:
            with self.assertRaises(IndexError):
                sections[index]

    def test_sections_without_bytes_in_the_file(self):
        sections = elfmap.parse(small_file()).sections
        self.assertEqual([it.content for it in sections[:2]], [None, None])
        self.assertEqual(sections[1].sh_size, 200)

    def test_bytes_that_were_written_meanwhile(self):
        data = small_file()
        file = elfmap.parse(data)
        data[:] = b"\xff" * len(data)
        for section in file.sections:
            self.assertLessEqual(len(section.content), len(data))


class BuildTest(unittest.TestCase):
    """In other processes, each of which finds the library anew and prints its path."""

    PROGRAM = "from elfmap import _library; print(_library.library()._name)"

    def setUp(self):
        folder = tempfile.TemporaryDirectory(prefix="elfmap-test-")
        self.addCleanup(folder.cleanup)
        self.room = folder.name

    def said(self, *words, **environment):
        environment = {**os.environ, "PYTHONDONTWRITEBYTECODE": "1", **environment}
        command = [sys.executable, *words]
        said = subprocess.check_output(command, cwd=PACKAGE, env=environment, text=True)
        return said.rstrip("\n")

    def test_without_a_cache(self):
        places = {"XDG_CACHE_HOME": "/dev/null", "TMPDIR": self.room}
        path = self.said("-c", self.PROGRAM, **places)
        self.assertTrue(path.startswith(self.room))
        self.assertEqual(os.listdir(self.room), [])

    def test_once_into_the_cache(self):
        path = self.said("-c", self.PROGRAM, XDG_CACHE_HOME=self.room)
        self.assertTrue(path.startswith(f"{self.room}/elfmap/"))
        made = os.stat(path).st_mtime_ns
        self.assertEqual(self.said("-c", self.PROGRAM, XDG_CACHE_HOME=self.room), path)
        self.assertEqual(os.stat(path).st_mtime_ns, made)

    def test_another_library_has_another_place(self):
        places = []
        script = "from elfmap import build; print(build.cached())"
        for content in (b"one", b"another", b"one"):
            Path(self.room, "libelfmap.a").write_bytes(content)
            own = dict(ELFMAP_LIB_DIR=self.room, XDG_CACHE_HOME=self.room)
            places.append(self.said("-c", script, **own))
        self.assertEqual((places[0] == places[1], places[0] == places[2]), (False, True))

    def test_where_the_cache_is(self):
        """A name that is empty is none (XDG Base Directory Specification)."""
        script = "from elfmap import build; print(build.cached())"
        for name, cache in (("", f"{self.room}/.cache"), (f"{self.room}/own", f"{self.room}/own")):
            path = self.said("-c", script, HOME=self.room, XDG_CACHE_HOME=name)
            self.assertTrue(path.startswith(f"{cache}/elfmap/"), path)

    def test_with_its_version_in_its_name(self):
        """As packages have it."""
        self.said("-m", "elfmap.build", self.room)
        path = f"{self.room}/libelfmap.so.0"
        os.rename(f"{self.room}/libelfmap.so", path)
        self.assertEqual(self.said("-c", self.PROGRAM, ELFMAP_LIB_DIR=self.room), path)

    def test_into_a_folder(self):
        path = f"{self.room}/libelfmap.so"
        self.assertEqual(self.said("-m", "elfmap.build", self.room), path)
        self.assertEqual(self.said("-c", self.PROGRAM, ELFMAP_LIB_DIR=self.room), path)


def load_tests(loader, tests, pattern):
    tests.addTests(doctest.DocTestSuite(elfmap))
    readme = str(PACKAGE / "README.md")
    tests.addTests(doctest.DocFileSuite(readme, module_relative=False))
    return tests


if __name__ == "__main__":
    unittest.main()
