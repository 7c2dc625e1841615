"""elfmap-view on large tables and long files: what is read many entries at a time, and what stays
in the file until it is asked for. Numbers are those that the tests put into the files."""

import json
import resource
import struct
import subprocess
import tempfile
import unittest
from pathlib import Path

from elfmap import build
from elfmap._view_screen import Cell, Column, Screen, Table

from tests.made import ENVIRONMENT, NAMES, Made, relocations, setUpModule, text  # noqa: F401
from tests.test_view import PROGRAM, Case

# More than are read at once, and the last ones alone in their piece.
MANY = 2500
LONG = "x" * 250
WIDE = "名"
# A content of so many bytes stays in the file, which is then a long one.
LARGE = 5 << 20
PATTERN = bytes(range(256)) * (LARGE // 256)


def name_of(number):
    """The name of a symbol: some have none, some a long one, and some wide letters."""
    own = {5: "", 6: LONG, 7: WIDE, 8: "\x1b", 9: "a\\b"}
    return own.get(number, f"symbol_{number}")


def table_of(count, section=1, names=name_of):
    """A symbol table and its names."""
    strings = bytearray(b"\0")
    entries = bytearray(24)
    for number in range(count):
        name = names(number).encode()
        st_name = len(strings) if name else 0
        info = 0x13 if number == 5 else 0x10 | number % 3
        entries += struct.pack("<IBBHQQ", st_name, info, number % 4, section, 3 * number, number)
        strings += name + b"\0" if name else b""
    return bytes(entries), bytes(strings)


def many_symbols(*more, section=b".text", **words):
    entries, strings = table_of(MANY, **words)
    table = b".symtab", 2, entries, dict(link=3, info=1, entsize=24)
    return Made(text(section), table, (b".strtab", 3, strings, {}), *more)


class TablesTest(Case):
    def test_rows_at_once_and_one_by_one(self):
        columns = Column("a"), Column("number", 2, True), Column("b", 1), Column("name")
        words = [["x", "", "yy" * 9, ""], ["1,234", "5", "", "7"]]
        words += [["", "long" * 9, "z", WIDE * 8], ["n", "", LONG, "of wide letters"]]
        rows = [[Cell(it) for it in row] for row in zip(*words)]
        for width in (0, 20, 33, 50, 60, 80, 200):
            tables = [Table(Screen(width, False), columns) for _ in range(2)]
            for some in (rows[:1], rows[1:]):
                by_columns = [[it.words for it in column] for column in zip(*some)]
                found = "\n".join(tables[0].plain_lines(by_columns))
                self.assertEqual(found.splitlines(), [*tables[1].cell_lines(some)], width)

    def test_rows_with_and_without_cells(self):
        """A filter that takes all gives the same rows, each of which is made of cells."""
        # A wide letter takes two places, here in a column before the last one.
        made = many_symbols(relocations(2, *range(MANY)), section=f".{WIDE * 9}".encode())
        plain = many_symbols(
            relocations(2, *range(MANY)), names=lambda it: f"{LONG[it % 99:]}_{it}"
        )
        self.put(a__o=bytes(made.data), b__o=bytes(plain.data))
        for name in ("a.o", "b.o"):
            for width in ("0", "80", "200"):
                for table in ("--symbols", "--relocations"):
                    words = "--width", width, table, name
                    lines = self.view(*words)
                    self.assertEqual(lines, self.view("--name", "*", *words))
                    self.assertGreater(len(lines), MANY)

    def test_symbols(self):
        self.put(a__o=bytes(many_symbols().data))
        rows = [it.split() for it in self.block("SYMBOLS", "--symbols", "a.o")[1:]]
        self.assertEqual(len(rows), MANY + 1)
        for number, row in enumerate(rows[1:]):
            own = [str(number + 1), hex(3 * number), f"{number:,}"]
            self.assertEqual(row[:3], own)
        self.assertEqual(rows[1 + 6][-1], "x" * 200 + "…")
        self.assertEqual(
            [rows[1 + it][-1] for it in (5, 7, 8, 9)], [".text", WIDE, r"\x1b", r"a\\b"]
        )

    def test_symbols_as_json(self):
        """One by one, and in an object."""
        self.put(a__o=bytes(many_symbols().data))
        first, *lines = map(json.loads, self.view("--jsonl", "--symbols", "a.o"))
        self.assertNotIn("symbols", first)
        self.assertEqual({it.pop("record") for it in lines}, {"symbol"})
        self.assertEqual({it.pop("path") for it in lines}, {"a.o"})
        self.assertEqual(self.json("--symbols", "a.o")["symbols"], lines)
        self.assertEqual([it["index"] for it in lines], list(range(MANY + 1)))
        for number, it in enumerate(lines[1:]):
            name = name_of(number).replace("\\", r"\\").replace("\x1b", r"\x1b")
            self.assertEqual((it["name"], it["st_value"]), (name, 3 * number))
            self.assertEqual((it["st_size"], it["section"], it["st_shndx"]), (number, 1, 1))
            kinds = "NOTYPE", "OBJECT", "FUNC"
            kind = "SECTION" if number == 5 else kinds[number % 3]
            self.assertEqual((it["type"], it["binding"]), (kind, "GLOBAL"))
            seen = "DEFAULT", "INTERNAL", "HIDDEN", "PROTECTED"
            self.assertEqual((it["visibility"], it["place"]), (seen[number % 4], ".text"))
            self.assertIsNone(it["mark"])

    def test_relocations_as_json(self):
        entries = b"".join(struct.pack("<QQq", k, k % 9 << 32 | 2 + k % 2, -k) for k in range(MANY))
        table = b".rela.text", 4, entries, dict(link=2, info=1, entsize=24)
        self.put(a__o=bytes(many_symbols(table).data))
        found = self.json("--relocations", "a.o")["relocations"]
        for k, it in enumerate(found):
            wanted = (k, k, k % 9, 2 + k % 2, -k)
            own = [it[name] for name in ("index", "r_offset", "symbol", "r_type", "r_addend")]
            self.assertEqual(tuple(own), wanted)
            self.assertEqual(it["type"], ("R_X86_64_PC32", "R_X86_64_GOT32")[k % 2])
        self.assertEqual(len(found), MANY)

    def test_symbols_without_a_word(self):
        """Those whose section would be in an index table, which is not there, are left out."""
        entries, strings = table_of(MANY, names=lambda it: f"s{it}")
        data = bytearray(entries)
        for index in (1, 2, 1200, MANY):
            struct.pack_into("<H", data, 24 * index + 6, 0xFFFF)
        table = b".symtab", 2, bytes(data), dict(link=3, info=1, entsize=24)
        self.put(a__o=bytes(Made(text(), table, (b".strtab", 3, strings, {})).data))
        found = [it["index"] for it in self.json("--symbols", "a.o")["symbols"]]
        self.assertEqual(found, [it for it in range(MANY) if it not in (1, 2, 1200)])

    def test_words_past_the_end(self):
        """Of a group and a hash table that pass the end of the file those words are shown that lie
        in it, however many there are to be."""
        group = b".group", 17, struct.pack("<3I", 1, 1, 1), dict(link=3, info=1, entsize=4)
        table = b".symtab", 2, bytes(48), dict(link=4, info=1, entsize=24)
        hashed = b".hash", 5, struct.pack("<4I", 1, 1, 0, 0), dict(link=3, entsize=4)
        made = Made(text(), group, table, NAMES, hashed)
        data = bytearray(made.data)
        for index in (2, 5):
            struct.pack_into("<Q", data, made.at(index, "size"), 1 << 45)
        self.put(a__o=bytes(data))
        (found,) = self.json("a.o", status=1)["groups"]
        self.assertEqual((found["flags"], found["members"][:2]), (1, [1, 1]))
        self.assertLess(len(found["members"]), len(data) // 4)
        self.assertIn("  buckets   1?", self.block("HASH TABLE", "--hash", "a.o", status=1))

    def test_the_largest_symbols(self):
        """Of equal ones the first; those without a section are none."""
        sizes = [7, 9, 9, 1, 9, 3, 9, 2, 9]
        entries = bytearray(24)
        for number, size in enumerate(sizes):
            section = 0xFFF1 if number == 4 else 1
            entries += struct.pack("<IBBHQQ", 2 * number + 1, 0x10, 0, section, 0, size)
        names = b"\0" + b"".join(b"%c\0" % it for it in b"abcdefghi")
        table = b".symtab", 2, bytes(entries), dict(link=3, info=1, entsize=24)
        self.put(a__o=bytes(Made(text(), table, (b".strtab", 3, names, {})).data))
        rows = [it.split() for it in self.block("LARGEST", "a.o")]
        found = [(row[0], row[-1]) for row in rows if row[1] == "symbol"]
        self.assertEqual(found, [("9", "b"), ("9", "c"), ("9", "g"), ("9", "i"), ("7", "a")])


class LongFileTest(Case):
    def test_bytes_of_a_large_content(self):
        """They are those of the file, though they are not in memory."""
        made = Made(text(content=PATTERN), text(b".data", b"\x5a" * 16))
        self.put(a__o=bytes(made.data))
        start = made.starts[1]
        for at in (start, start + 4096, start + LARGE - 16):
            line = self.block("BYTES", "--hex", f"{at:#x}+16", "a.o")[0]
            codes = bytes(made.data[at : at + 16]).hex(" ")
            self.assertEqual(line[: 12 + len(codes)], f"  {at:08x}  {codes}")
        at = made.starts[2]
        self.assertIn("5a 5a", self.block("BYTES", "--hex", ".data", "a.o")[0])
        self.assertIn(f"  {at:08x}", self.block("BYTES", "--hex", ".data", "a.o")[0])
        words = self.block("STRINGS", "--strings", ".text", "--width", "0", "a.o")
        self.assertEqual(len(words), 1 + LARGE // 256)

    def test_names_in_a_large_content(self):
        """A symbol table may link to a section of any type: that breaks a rule, and the names are
        there."""
        entries, strings = table_of(4, names=lambda it: f"name_{it}")
        table = b".symtab", 2, entries, dict(link=3, info=1, entsize=24)
        names = b".names", 1, strings.ljust(LARGE, b"\0"), {}
        self.put(a__o=bytes(Made(text(), table, names).data))
        found = self.json("--symbols", "a.o")["symbols"]
        self.assertEqual([it["name"] for it in found[1:]], [f"name_{it}" for it in range(4)])
        self.assertEqual({it["mark"] for it in found}, {"depends"})

    def test_names_of_sections_in_a_large_content(self):
        """The same of the name table."""
        made = Made(text(), text(b".data", bytes(LARGE)))
        data = bytearray(made.data)
        # The names are in the middle of .data, which is the name table.
        middle = made.starts[2] + LARGE // 2
        data[middle : middle + 6] = b".text\0"
        struct.pack_into("<H", data, 62, 2)
        struct.pack_into("<I", data, made.at(1, "name"), LARGE // 2)
        self.put(a__o=bytes(data))
        sections = self.json("a.o", status=1)["sections"]
        self.assertEqual(
            (sections[1]["name"], sections[1]["marks"]["sh_name"]), (".text", "depends")
        )

    def test_a_table_in_a_large_content(self):
        """A symbol table that shares its bytes with a large content is read as it is."""
        entries, strings = table_of(4, names=lambda it: f"name_{it}")
        content = bytearray(PATTERN)
        content[1 << 20 : (1 << 20) + len(entries)] = entries
        table = b".symtab", 2, entries, dict(link=3, info=1, entsize=24)
        made = Made(text(content=bytes(content)), table, (b".strtab", 3, strings, {}))
        self.put(a__o=made.with_field(2, "offset", made.starts[1] + (1 << 20)))
        found = self.json("--symbols", "a.o", status=1)
        self.assertEqual([it["st_value"] for it in found["symbols"]], [0, 0, 3, 6, 9])
        self.assertEqual(found["verdict"]["faults"][0]["name"], "SHARED_BYTE")

    def test_gaps(self):
        """Zeros, and what is not zero to its last byte."""
        for last, words in ((0, "zeros"), (1, "not only zeros")):
            data = bytearray(Made(text()).data) + bytes(LARGE)
            data[-1] = last
            self.put(a__o=bytes(data))
            gap = self.json("a.o")["parts"][-1]
            self.assertEqual((gap["owner"], gap["holds"]), ("gap", words))

    def test_a_file_that_becomes_shorter(self):
        """It is unreadable, and no value of it is made up."""
        made = Made(text(content=PATTERN))
        Path("a.o").write_bytes(bytes(made.data))
        code = (
            "import os; from elfmap import _sources; from elfmap._view_memory import Memory\n"
            "with _sources.opened(b'a.o') as it:\n"
            "    os.truncate('a.o', 100)\n"
            "    try: Memory(it)\n"
            "    except _sources.Unreadable as fault: print(fault.reason)\n"
        )
        words = [PROGRAM[0], "-c", code]
        ran = subprocess.run(words, env=ENVIRONMENT, capture_output=True)
        told = b"it became shorter while it was read\n"
        self.assertEqual((ran.stdout, ran.stderr), (told, b""))


class OverlapsTest(Case):
    """Files of very many parts that overlap take time for each part, and not for each pair."""

    COUNT = 20_000
    # Processor seconds of a run: each takes one or two on a slow machine. If it took time for each
    # pair, it would take minutes.
    MOST_SECONDS = 8

    def overlapping(self, place):
        made = Made(*[text(b".s%d" % it, b"\1") for it in range(self.COUNT)])
        data = bytearray(made.data)
        for index in range(1, self.COUNT + 1):
            struct.pack_into("<QQ", data, made.at(index, "offset"), *place(index))
        return bytes(data)

    def test_they_are_shown_in_time(self):
        size = 8 * self.COUNT
        self.put(
            same__o=self.overlapping(lambda it: (64, size)),
            nested__o=self.overlapping(lambda it: (64 + it, size - 2 * it)),
            stairs__o=self.overlapping(lambda it: (64 + 4 * it, 4000)),
        )
        for name in ("same.o", "nested.o", "stairs.o"):
            for words in ([], ["--all"], ["--json", "--sizes"]):
                before = resource.getrusage(resource.RUSAGE_CHILDREN).ru_utime
                ended, out, err = self.ran(*words, name)
                taken = resource.getrusage(resource.RUSAGE_CHILDREN).ru_utime - before
                self.assertEqual((ended, err), (1, b""))
                self.assertLess(taken, self.MOST_SECONDS, (name, words))
                self.assertIn(b"SHARED_BYTE", out)

    def test_how_many_lines_they_take(self):
        """Each part of the same place has a line of its own, of which the first ones are drawn."""
        self.put(same__o=self.overlapping(lambda it: (64, 8 * self.COUNT)))
        lines = self.view("--width", "80", "same.o", status=1)
        # The names of sections are there too.
        told = f"  parts overlap: they are in {self.COUNT + 1} lines, of which 8 are drawn"
        self.assertIn(told, lines)
        self.assertEqual(sum(it.startswith("  |") for it in lines), 8)


class StartTest(unittest.TestCase):
    # What a screen of a sound file does not need, and takes long to import.
    NOT_NEEDED = (
        *("elfmap.picture", "elfmap.explain", "elfmap._checks", "elfmap._hints", "elfmap.build"),
        *(
            "json",
            "subprocess",
            "tempfile",
            "shutil",
            "pathlib",
            "pickle",
            "xml",
            "urllib",
            "hashlib",
        ),
    )

    def test_a_screen_imports_what_it_needs(self):
        code = "import sys; from elfmap import view; view.main(sys.argv[1:]); print(*sys.modules)"
        words = [PROGRAM[0], "-S", "-c", code, "/bin/true"]
        # The library is there, as in a release, and need not be built.
        with tempfile.TemporaryDirectory() as room:
            build.build(Path(room) / "libelfmap.so")
            env = {**ENVIRONMENT, "ELFMAP_LIB_DIR": room}
            ran = subprocess.run(words, env=env, capture_output=True, text=True)
        modules = set(ran.stdout.splitlines()[-1].split())
        self.assertIn("elfmap.view", modules)
        self.assertEqual(modules & {*self.NOT_NEEDED}, set())


if __name__ == "__main__":
    unittest.main()
