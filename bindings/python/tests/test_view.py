"""elfmap-view: what it shows of files that are made here by hand and of those of compilers, beside
readelf, and how it ends."""

import gzip
import json
import os
import re
import shutil
import signal
import struct
import subprocess
import sys
import unittest
from pathlib import Path
from unittest import mock

from elfmap import _view_pager, _view_schema, _view_screen

from tests.made import (
    BROKEN_SYMBOLS,
    CLASS_32,
    ENVIRONMENT,
    GNU,
    GOOD,
    NAMES,
    SHARING,
    FolderCase,
    Made,
    relocations,
    setUpModule,
    symbols,
    text,
)  # noqa: F401

PROGRAM = [sys.executable, "-m", "elfmap.view"]
TRUE = "/bin/true"
# Escape, a control character of one letter, a mark that turns the direction of a line, a byte that
# is no UTF-8, and what looks like an escape.
NAME = b"\x1b[31m\xc2\x9b1m\xe2\x80\xae\xff\\x1b"
# As in a path: the bytes of what is no letter that can be printed; and as in a name of a file.
PATH_ESCAPED = r"\x1b[31m\xc2\x9b1m\xe2\x80\xae\xff\\x1b"
NAME_ESCAPED = r"\x1b[31m\u009b1m\u202e\xff\\x1b"
RELOCATABLE = "ELF-64 relocatable file"
LEGEND = "  ! breaks a rule   ? depends on what breaks one, or is untested due to it"


def with_symbols(*more):
    """A file with code and the function f of four bytes in it."""
    entry = struct.pack("<IBBHQQ", 1, 0x12, 0, 1, 2, 4)
    table = b".symtab", 2, bytes(24) + entry, dict(link=3, info=1, entsize=24)
    code = b".text", 1, b"\x90" * 8, dict(flags=6)
    return Made(code, table, NAMES, *more)


class Case(FolderCase):
    def ran(self, *words, stdin=b"", streams="", **env):
        """The status, standard output and standard error."""
        own = {it: word for it, word in ENVIRONMENT.items() if it not in ("COLUMNS", "NO_COLOR")}
        shell = ["sh", "-c", f'"$@" {streams}', "sh"]
        script = [*shell, *PROGRAM, *words]
        ran = subprocess.run(script, input=stdin, capture_output=True, env={**own, **env})
        return ran.returncode, ran.stdout, ran.stderr

    def view(self, *words, status=0, **more):
        """The lines of standard output, of a run that ends so and says nothing else."""
        ended, out, err = self.ran(*words, **more)
        self.assertEqual((ended, err), (status, b""), out)
        return out.decode().splitlines()

    def block(self, title, *words, status=0):
        """The lines below a title, up to an empty line."""
        lines = self.view(*words, status=status)
        start = next(at for at, it in enumerate(lines) if it.startswith(title)) + 1
        end = lines.index("", start) if "" in lines[start:] else len(lines)
        return lines[start:end]

    def json(self, *words, status=0):
        return json.loads(self.view("--json", *words, status=status)[0])


class ScreenTest(Case):
    """Whole screens. The numbers are those of what is made here."""

    def section_rows(self, made):
        """The rows of its sections: of each what comes before its offset, and what after it."""
        rows = (
            ("0  NULL      -          0x0     ", 0, "     0     0     0      0      0"),
            ("1  PROGBITS  AX         0x0    ", made.starts[1], "     8     0     0      1      0"),
            ("2  SYMTAB    -          0x0    ", made.starts[2], "    48     3     1      1     24"),
            ("3  STRTAB    -          0x0    ", made.starts[3], "     3     0     0      1      0"),
            ("4  STRTAB    -          0x0    ", made.names, "    33     0     0      1      0"),
        )
        names = ("", "  .text", "  .symtab", "  .strtab", "  .shstrtab")
        return [f"  {it[0]}{it[1]:#x}{it[2]}{name}" for it, name in zip(rows, names)]

    def golden(self, made, width):
        """The summary of a file with code, a symbol table, names, and names of sections."""
        size = len(made.data)
        gaps = size - 64 - 8 - 48 - 3 - 33 - 5 * 64
        counts = f"H header and tables {64 + 5 * 64}, C code 8, S symbols and strings {48 + 3 + 33}"
        end = f"{size:#x}"
        return [
            "a.o",
            "  verdict   sound: it keeps all rules of files and tables",
            f"  kind      {RELOCATABLE}",
            "  machine   62 (EM_X86_64), little-endian",
            f"  size      {size:,} bytes, 5 section headers, 0 program headers",
            "",
            f"  |{self.bar(made, width - 4)}|",
            f"  0x0{' ' * (width - 4 - len(end) - 1)}{end}",
            f"  {counts}, . gap {gaps}",
            "",
            "SECTIONS (5)",
            "  #  type      flags  address  offset  size  link  info  align  entry  name",
            *self.section_rows(made),
            "",
            "LARGEST",
            "  bytes  of         what  name",
            f"     48  section  {4800 / size:.1f} %  .symtab",
            f"     33  section   {3300 / size:.1f} %  .shstrtab",
            f"      8  section   {800 / size:.1f} %  .text",
            f"      3  section   {300 / size:.1f} %  .strtab",
            "      4  symbol    .text  f",
        ]

    def bar(self, made, width):
        """A letter for each place: of what has most of its bytes, by counting all of them."""
        size = len(made.data)
        letters = ["."] * size
        places = [(0, 64, "H"), (made.starts[1], 8, "C"), (made.starts[2], 48, "S")]
        places += [(made.starts[3], 3, "S"), (made.names, 33, "S"), (made.table, 5 * 64, "H")]
        for start, length, letter in places:
            letters[start : start + length] = letter * length
        found = ""
        for k in range(width):
            # Each byte has as many units as there are places, and each place as many as bytes.
            units = [letters[it // width] for it in range(k * size, (k + 1) * size)]
            found += max(dict.fromkeys(units), key=units.count)
        return found

    def test_screens_at_80_and_200(self):
        made = with_symbols()
        self.put(a__o=bytes(made.data))
        for width in (80, 200):
            with self.subTest(width=width):
                self.assertEqual(self.view("--width", str(width), "a.o"), self.golden(made, width))

    def test_a_broken_screen(self):
        """Both sections that share a byte are marked, and drawn side by side."""
        self.put(a__o=SHARING)
        made = Made(text(), (b".data", 1, b"\1\2\3\4", {}))
        lines = self.view("--width", "80", "a.o", status=1)
        self.assertEqual(
            lines[:5],
            [
                "a.o",
                "  verdict   refused: SHARED_BYTE (33)",
                "  ! SHARED_BYTE (33) at 0x72: the content of .text [0x40, 0x73) and of .data",
                "    [0x72, 0x76) share byte 0x72; every byte of a file belongs to one of its",
                "    parts",
            ],
        )
        bars = [it for it in lines if it.startswith("  |")]
        self.assertEqual(len(bars), 2)
        size = len(SHARING)
        # .data begins at 0x72, in the second line alone.
        self.assertEqual(bars[1].index("o"), 3 + 0x72 * 76 // size)
        rows = self.block("SECTIONS", "--width", "80", "a.o", status=1)
        self.assertEqual(rows[2].split()[:6], ["1", "PROGBITS", "-", "0x0", "0x40!", "51!"])
        self.assertEqual(rows[3].split()[:6], ["2", "PROGBITS", "-", "0x0", "0x72!", "4!"])
        # The others are as they are.
        self.assertEqual(rows[4].split()[4:6], [f"{made.names:#x}", "23"])
        self.assertNotIn("!", rows[1] + rows[4])
        self.assertEqual(lines[-1], LEGEND)

    def test_narrow_screens(self):
        """No line of a sound file is longer, and no number is cut."""
        made = with_symbols(relocations(2, 1))
        self.put(a__o=bytes(made.data))
        for name in ("a.o", TRUE):
            for width in (60, 72, 80, 100, 200):
                lines = self.view("--width", str(width), "--all", "--sizes", name)
                self.assertEqual([it for it in lines if len(it) > width], [], width)
        row = self.block("SECTIONS", "--width", "60", "a.o")[3].split()
        self.assertEqual((row[0], row[-2:]), ("2", ["48", ".symtab"]))

    def test_a_mark_on_a_narrow_screen(self):
        """A column that has a value that breaks a rule is not left out."""
        self.put(a__o=Made(text()).with_field(1, "align", 3))
        for width, titles in (("60", ["align", "name"]), ("200", ["align", "entry", "name"])):
            rows = self.block("SECTIONS", "--width", width, "a.o", status=1)
            self.assertEqual(rows[0].split()[-len(titles) :], titles)
            self.assertIn("3!", rows[2].split())
        self.put(good__o=GOOD)
        self.assertNotIn("align", self.block("SECTIONS", "--width", "60", "good.o")[0])

    def test_the_width(self):
        """That of the option, or of COLUMNS; in a pipe there is no limit."""
        self.put(a__o=bytes(with_symbols().data))
        bars = {}
        for words, env in (((), {}), (("--width", "60"), {}), ((), {"COLUMNS": "100"})):
            lines = self.view(*words, "a.o", **env)
            bars[words, *env] = len(next(it for it in lines if it.startswith("  |")))
        self.assertEqual(list(bars.values()), [80, 60, 100])
        long = bytes(Made(text(b"." + b"x" * 150)).data)
        self.put(long__o=long)
        self.assertIn("." + "x" * 150, "\n".join(self.view("--sections", "long.o")))
        cut = "\n".join(self.view("--sections", "--width", "80", "long.o"))
        self.assertNotIn("x" * 80, cut)
        self.assertIn("x…", cut)
        for word in ("-1", "19", "x", "1" * 7):
            self.assertEqual(self.ran("--width", word, "a.o")[0], 2)

    def test_wide_letters(self):
        self.assertEqual(_view_screen.width_of("a漢e\u0301"), 4)
        self.assertEqual(_view_screen.cut("漢漢漢", 5), "漢漢…")
        self.assertEqual(_view_screen.cut("abc", 3), "abc")


class BrokenTest(Case):
    def test_several_faults(self):
        """A section past the end, one of a wrong alignment, and a name outside of its table."""
        made = Made(text(), text(b".a"), text(b".b"), text(b".c"))
        data = bytearray(made.with_field(1, "size", 0x10000))
        struct.pack_into("<Q", data, made.at(2, "align"), 3)
        struct.pack_into("<I", data, made.at(3, "name"), 999)
        self.put(a__o=bytes(data))
        found = self.json("a.o", status=1)["verdict"]
        rules = [(it["name"], it["offset"]) for it in found["faults"]]
        self.assertEqual(
            rules,
            [
                ("WRONG_SECTION_ALIGNMENT", made.at(2, "align")),
                ("CONTENT_PAST_END", made.at(1, "offset")),
                ("NAME_PAST_END", made.at(3, "name")),
            ],
        )
        self.assertEqual((found["sound"], found["refused"], found["complete"]), (False, True, True))
        sections = self.json("a.o", status=1)["sections"]
        self.assertEqual(
            sections[1]["marks"],
            {"sh_offset": "broken", "sh_size": "depends", "content": "depends"},
        )
        self.assertEqual(sections[2]["marks"]["sh_addralign"], "broken")
        self.assertEqual(sections[3]["marks"]["sh_name"], "broken")
        self.assertEqual(sections[4]["marks"], {})
        past = made.starts[1] + 0x10000 - len(data)
        self.assertEqual(sections[1]["past_end"], past)
        lines = self.view("a.o", status=1)
        place = f"[{made.starts[1]:#x}, {made.starts[1] + 0x10000:#x})"
        told = f"  .text {place} passes the end of the file, {len(data):#x}, by {past:,} bytes"
        self.assertIn(told, lines)
        self.assertIn("  > a part passes the end of the file", lines)

    def test_many_faults_of_a_rule(self):
        """The first one in full, of the others some places; and all with --all."""
        made = Made(*[text(b".t%d" % it) for it in range(9)])
        data = bytearray(made.data)
        for index in range(1, 8):
            struct.pack_into("<Q", data, made.at(index, "align"), 3)
        self.put(a__o=bytes(data))
        lines = self.view("a.o", status=1)
        self.assertEqual(sum("also at " in it for it in lines), 3)
        self.assertIn("    … 3 more of this rule: --all", lines)
        lines = self.view("--all", "a.o", status=1)
        self.assertEqual(sum("also at " in it for it in lines), 6)

    def test_a_file_that_is_cut_short(self):
        """Its segments are there, and its section headers are not."""
        content = Path(TRUE).read_bytes()
        self.put(cut=content[:1000])
        found = self.json("cut", status=1)
        (shoff,) = struct.unpack_from("<Q", content, 40)
        phnum = content[56]
        shnum = content[60]
        faults = found["verdict"]["faults"]
        self.assertEqual(
            (faults[0]["name"], faults[0]["offset"]), ("FIRST_SECTION_HEADER_PAST_END", 40)
        )
        self.assertEqual(found["header"]["e_shoff"], shoff)
        self.assertEqual(found["header"]["marks"], {"e_shoff": "broken"})
        self.assertEqual((found["sections"], found["sections_missing"]), ([], shnum))
        self.assertEqual(len(found["segments"]), phnum)
        for it in found["segments"]:
            start, size = struct.unpack_from("<Q16xQ", content, 64 + 56 * it["index"] + 8)
            self.assertEqual((it["p_offset"], it["p_filesz"]), (start, size))
            is_past = start + size > 1000 and size > 0
            self.assertEqual(it["past_end"], max(start + size - 1000, 0))
            self.assertEqual(it["marks"].get("p_offset"), "broken" if is_past else None)
        self.assertIn(
            f"  {shnum} section headers pass the end of the file", self.view("cut", status=1)
        )

    def test_a_broken_table(self):
        """The entry that breaks a rule is marked, and all others of its table; the file is not
        refused."""
        self.put(a__o=BROKEN_SYMBOLS)
        lines = self.view("--symbols", "a.o")
        self.assertEqual(
            lines[1], "  verdict   the file keeps all rules of files; 3 tables break a rule"
        )
        rows = [it.split() for it in lines if re.match(r"  [01]  ", it)]
        self.assertEqual([row[1] for row in rows], ["0x0?", "0x0!"])
        found = self.json("--symbols", "--relocations", "a.o")
        self.assertEqual([it["mark"] for it in found["symbols"]], ["depends", "broken"])
        self.assertEqual({it["mark"] for it in found["relocations"]}, {"depends"})
        self.assertEqual(found["verdict"]["faults"][0]["name"], "WRONG_SYMBOL_SECTION")
        self.assertEqual((found["verdict"]["sound"], found["verdict"]["refused"]), (False, False))

    def test_tables_that_depend_on_what_is_left_out(self):
        """Names of symbols whose string table passes the end are doubtful, and no table is said to
        break a rule for that."""
        made = with_symbols()
        self.put(a__o=made.with_field(3, "size", 0x10000))
        found = self.json("--symbols", "a.o", status=1)
        self.assertEqual([it["name"] for it in found["verdict"]["faults"]], ["CONTENT_PAST_END"])
        self.assertEqual({it["mark"] for it in found["symbols"]}, {"depends"})
        self.assertEqual(found["symbols"][1]["st_size"], 4)
        lines = self.view("--symbols", "a.o", status=1)
        told = "  it is not tested: it depends on a section that breaks a rule"
        self.assertIn(told, lines)

    def test_broken_names(self):
        """Without a sound name table all names are doubtful, and nothing else is."""
        made = Made(text(), text(b".a"))
        self.put(a__o=made.with_bytes(made.names, b"x"))
        found = self.json("a.o", status=1)
        self.assertEqual([it["name"] for it in found["verdict"]["faults"]], ["UNCLOSED_NAME_TABLE"])
        for it in found["sections"][1:3]:
            self.assertEqual(it["marks"], {"sh_name": "depends"})
        rows = self.block("SECTIONS", "a.o", status=1)
        self.assertEqual([it.split()[-1] for it in rows[2:4]], [".text?", ".a?"])

    def test_a_name_table_that_is_not_there(self):
        """All sections are there, without their names."""
        made = Made(text(), text(b".a"))
        self.put(a__o=made.with_bytes(62, b"\x63"))
        found = self.json("a.o", status=1)
        (fault,) = found["verdict"]["faults"]
        self.assertEqual((fault["name"], fault["offset"]), ("WRONG_NAME_TABLE_INDEX", 62))
        self.assertEqual(found["header"]["marks"], {"e_shstrndx": "broken"})
        self.assertEqual(found["sections_missing"], 0)
        sizes = [it["sh_size"] for it in found["sections"]]
        self.assertEqual(sizes[:3], [0, 0x33, 0x33])
        for it in found["sections"][1:]:
            self.assertEqual((it["name"], it["marks"]), ("", {"sh_name": "depends"}))

    def test_a_wrong_byte_order(self):
        """Nothing that is read in one order is without a mark."""
        self.put(a__o=Made(text()).with_bytes(5, b"\3"))
        found = self.json("a.o", status=1)
        self.assertFalse(found["verdict"]["complete"])
        self.assertEqual(found["header"]["marks"]["e_ident"], "broken")
        fields = {it for it in found["header"] if it.startswith("e_") and it != "e_ident"}
        self.assertLessEqual(fields, set(found["header"]["marks"]))
        for it in found["sections"]:
            fields = {name for name in it if name.startswith("sh_")}
            self.assertLessEqual(fields, set(it["marks"]))
        self.assertEqual({it["mark"] for it in found["parts"]}, {"depends"})

    def test_what_is_no_file_of_class_64(self):
        """Its first bytes are shown, and no field."""
        for content, rule in (
            (b"no ELF file" * 8, "WRONG_MAGIC (3)"),
            (CLASS_32, "WRONG_CLASS (4)"),
            (b"", "TOO_SHORT (2)"),
        ):
            self.put(a=content)
            lines = self.view("a", status=1)
            self.assertEqual(lines[1], f"  verdict   refused: {rule}")
            self.assertIn(f"  size      {len(content)} bytes", lines)
            first = content[:16].hex(" ")
            shown = [it for it in lines if it.startswith("  00000000")]
            self.assertEqual([it[12 : 12 + len(first)] for it in shown], [first] if content else [])
            self.assertNotIn("SECTIONS", "\n".join(lines))
            self.assertIsNone(self.json("a", status=1)["header"])

    def test_fields_changed(self):
        """Whatever a header says, it ends with a screen."""
        good = bytes(with_symbols(relocations(2, 1)).data)
        table = struct.unpack_from("<Q", good, 40)[0]
        for at in (*range(4, 64, 3), *range(table, len(good), 37)):
            for value in (0xFF, 0x80):
                data = bytearray(good)
                data[at] = value
                self.put(**{f"f{at}-{value}": bytes(data)})
        names = sorted(os.listdir())
        status, out, err = self.ran("--all", "--sizes", *names)
        self.assertEqual((status, err), (1, b""))
        self.assertEqual(out.count(b"  verdict   "), len(names))


class ReadelfTest(Case):
    """Each number is that of readelf."""

    def setUp(self):
        super().setUp()
        if not shutil.which("readelf") or not shutil.which("cc"):
            self.skipTest("readelf or cc is not installed")
        Path("a.c").write_text(
            "int limit = 4; static int calls; int work(int);\n"
            "int answer(int a) { calls++; return work(a + limit); }\n"
        )
        subprocess.run(["cc", "-c", "-O1", "a.c"], check=True)

    def readelf(self, *words):
        ran = subprocess.run(["readelf", "-W", *words], capture_output=True, check=True)
        return ran.stdout.decode().splitlines()

    def test_sections(self):
        row = re.compile(
            r"  \[ *(\d+)\] (\S*) +([A-Z_a-z0-9]+) +([0-9a-f]{16}) ([0-9a-f]+) ([0-9a-f]+)"
            r" ([0-9a-f]+) ([A-Za-z ]{3}) *(\d+) +(\d+) +(\d+)"
        )
        types = {"VERSYM": "GNU_versym", "VERNEED": "GNU_verneed"}
        for name in ("a.o", TRUE):
            found = [row.match(it) for it in self.readelf("-S", name)]
            rows = [it.groups() for it in found if it and it[1] != "0"]
            self.assertGreater(len(rows), 8)
            shown = [it.split() for it in self.block("SECTIONS", "--sections", name)[2:]]
            shown = shown[: len(rows)]
            for own, mine in zip(rows, shown):
                index, title, kind, address, offset, size, entry, flags, link, info, align = own
                address, offset, size, entry = (
                    int(it, 16) for it in (address, offset, size, entry)
                )
                expected = [index, types.get(kind, kind), flags.strip() or "-", f"{address:#x}"]
                expected += [f"{offset:#x}", f"{size:,}", link, info, align, str(entry), title]
                # readelf leaves out the prefix of types that it has of GNU.
                mine[1] = types.get(mine[1], mine[1])
                self.assertEqual(sorted(mine[2]), sorted(expected[2]))
                self.assertEqual([*mine[:2], *mine[3:]], [*expected[:2], *expected[3:]])

    def test_segments(self):
        row = re.compile(
            r"  ([A-Z_]+) +0x(\w+) 0x(\w+) 0x(\w+) 0x(\w+) 0x(\w+) ([RWE ]{3}) 0x(\w+)"
        )
        rows = [it.groups() for it in map(row.match, self.readelf("-l", TRUE)) if it]
        found = self.json(TRUE)["segments"]
        self.assertEqual(len(rows), len(found))
        shown = [it.split() for it in self.block("SEGMENTS", "--segments", TRUE)[1:]]
        for own, mine, line in zip(rows, found, shown):
            kind = own[0]
            flags = own[6].replace(" ", "").replace("E", "X")
            numbers = [int(it, 16) for it in (*own[1:6], own[7])]
            fields = ("p_offset", "p_vaddr", "p_paddr", "p_filesz", "p_memsz", "p_align")
            self.assertEqual((mine["type"], [mine[it] for it in fields]), (kind, numbers))
            offset, address, _, size, memory, align = numbers
            words = [kind, "".join(sorted(flags)), f"{offset:#x}", f"{size:,}"]
            words += [f"{address:#x}", f"{memory:,}", f"{align:#x}"]
            line[2] = "".join(sorted(line[2]))
            self.assertEqual(line[1:8], words)

    def test_sections_of_segments(self):
        Path("t.c").write_text(
            "__thread int own = 1, other; static int count;\n"
            "__attribute__((constructor)) static void begin(void) { count = own + other; }\n"
        )
        words = ["-shared", "-fPIC", "-nostdlib", "t.c", "-o", "t.so"]
        subprocess.run(["cc", *words], check=True)
        for name in ("t.so", TRUE):
            lines = self.readelf("-l", name)
            start = next(k for k, it in enumerate(lines) if "Segment Sections" in it) + 1
            found = self.json(name)
            names = [it["name"] for it in found["sections"]]
            rows = zip(lines[start:], found["segments"])
            for line, it in rows:
                own = [names[index] for index in it["sections"]]
                self.assertEqual(line.split()[1:], own, (name, line))

    def test_symbols(self):
        row = re.compile(r" +(\d+): ([0-9a-f]{16}) +(\w+) (\w+) +(\w+) +(\w+) +(\w+) ?(\S*)")
        places = {"UND": "undefined", "ABS": "absolute"}
        for name in ("a.o", TRUE):
            rows = [it.groups() for it in map(row.match, self.readelf("-s", name)) if it]
            self.assertGreater(len(rows), 7)
            found = self.json("--symbols", name)
            names = [it["name"] for it in found["sections"]]
            self.assertEqual(len(rows), len(found["symbols"]))
            for own, mine in zip(rows, found["symbols"]):
                index, value, size, kind, binding, seen, place, title = own
                self.assertEqual(mine["index"], int(index))
                self.assertEqual(
                    (mine["st_value"], mine["st_size"]), (int(value, 16), int(size, 0))
                )
                self.assertEqual((mine["type"], mine["binding"]), (kind, binding))
                self.assertEqual(mine["visibility"], seen)
                own_place = places.get(place) or names[int(place)]
                self.assertEqual(mine["place"], own_place)
                if kind != "SECTION":
                    self.assertEqual(mine["name"], title.partition("@")[0])

    def test_relocations(self):
        row = re.compile(r"([0-9a-f]{16})  ([0-9a-f]{16}) (R_\w+) +(?:[0-9a-f]{16} )?(.*)")
        for name in ("a.o", TRUE):
            rows = [it.groups() for it in map(row.match, self.readelf("-r", name)) if it]
            found = self.json("--relocations", name)["relocations"]
            self.assertEqual(len(rows), len(found))
            for (offset, info, kind, _), mine in zip(rows, found):
                self.assertEqual(mine["r_offset"], int(offset, 16))
                own = int(info, 16)
                self.assertEqual((mine["symbol"], mine["r_type"]), (own >> 32, own & 0xFFFFFFFF))
                self.assertTrue(mine["type"].startswith(kind[:17]), mine)
        lines = self.view("--relocations", "a.o")
        self.assertTrue(any(it.split()[-2:] == ["-0x4", "work"] for it in lines), lines)

    def test_header_and_dynamic_array(self):
        lines = "\n".join(self.readelf("-h", "-d", "-n", TRUE))
        found = self.json(TRUE)
        self.assertIn(
            f"Entry point address:               {found['header']['e_entry']:#x}\n", lines
        )
        self.assertIn(f"Build ID: {found['build_id']}", lines)
        for it in found["dynamic"]:
            self.assertRegex(lines, rf"0x{it['d_tag']:016x} \({it['tag']}\)")
            if it["tag"] == "NEEDED":
                self.assertIn(f"Shared library: [{it['string']}]", lines)
        count = len(re.findall(r"^ 0x[0-9a-f]{16} \(", lines, re.M))
        # Of readelf also the last one, of tag NULL.
        self.assertEqual(len(found["dynamic"]), count - 1)
        shown = [it.split() for it in self.block("DYNAMIC ARRAY", "--dynamic", TRUE)[1:]]
        self.assertEqual([it[1] for it in shown], [it["tag"] for it in found["dynamic"]])
        self.assertIn(f"  build id  {found['build_id']}", self.view(TRUE))

    def test_groups(self):
        if not shutil.which("g++"):
            self.skipTest("g++ is not installed")
        Path("g.cc").write_text(
            "template <class T> T twice(T x) { return x + x; }\n"
            "int f(int a) { return twice(a); }\n"
        )
        subprocess.run(["g++", "-c", "-O0", "g.cc"], check=True)
        (group,) = self.json("g.o")["groups"]
        lines = "\n".join(self.readelf("-g", "g.o"))
        head = re.search(r"COMDAT group section \[ *(\d+)\] `\.group' \[(\S+)\]", lines)
        members = [int(it) for it in re.findall(r"^   \[ *(\d+)\]", lines, re.M)]
        self.assertEqual((group["table"], group["signature"]), (int(head[1]), head[2]))
        self.assertEqual((group["flags"], group["members"]), (1, members))
        self.assertEqual(
            self.block("GROUPS", "--groups", "g.o")[1].split()[1:3], ["COMDAT", head[2]]
        )
        if shutil.which("c++filt"):
            lines = "\n".join(self.view("--symbols", "--demangle", "g.o"))
            self.assertIn("int twice<int>(int)", lines)
            for words in (["--symbols", "g.o"], ["g.o"]):
                self.assertNotIn("int twice<int>(int)", "\n".join(self.view(*words)))


def wrong(value, schema, place="$"):
    """What of a value does not fit a schema, by the words that the schemas here have."""
    types = {
        "object": dict,
        "array": list,
        "string": str,
        "integer": int,
        "boolean": bool,
        "null": type(None),
    }
    known = {"type", "enum", "anyOf", "minimum", "maximum", "pattern", "required", "properties"}
    known |= {"additionalProperties", "items", "maxItems", "$schema", "$id"}
    assert set(schema) <= known, schema
    if "anyOf" in schema:
        every = [list(wrong(value, it, place)) for it in schema["anyOf"]]
        yield from min(every, key=len)
    if "enum" in schema and value not in schema["enum"]:
        yield f"{place}: {value!r} is not in {schema['enum']}"
    if "type" in schema:
        names = schema["type"] if isinstance(schema["type"], list) else [schema["type"]]
        kinds = [types[it] for it in names]
        if not any(type(value) is it for it in kinds):
            yield f"{place}: {value!r} is no {names}"
            return
    if isinstance(value, int) and not isinstance(value, bool):
        if not schema.get("minimum", value) <= value <= schema.get("maximum", value):
            yield f"{place}: {value}"
    if isinstance(value, str) and not re.search(schema.get("pattern", ""), value):
        yield f"{place}: {value!r}"
    if isinstance(value, list):
        if len(value) > schema.get("maxItems", len(value)):
            yield f"{place}: {len(value)} items"
        for k, it in enumerate(value):
            yield from wrong(it, schema.get("items", {}), f"{place}[{k}]")
    if isinstance(value, dict):
        yield from (f"{place}: no {it}" for it in schema.get("required", ()) if it not in value)
        for key, it in value.items():
            own = schema.get("properties", {}).get(key, schema.get("additionalProperties", {}))
            if own is False:
                yield f"{place}: {key} is not in the schema"
            elif own is not True:
                yield from wrong(it, own, f"{place}.{key}")


class JsonTest(Case):
    def test_the_schema(self):
        (self_described,) = [json.loads("\n".join(self.view("--json-schema")))]
        self.assertEqual(self_described, json.loads(json.dumps(_view_schema.SCHEMA)))
        made = with_symbols(relocations(2, 1))
        self.put(good__o=bytes(made.data), bad__o=SHARING, tables__o=BROKEN_SYMBOLS, empty=b"")
        self.put(cut=Path(TRUE).read_bytes()[:1000], order=Made(text()).with_bytes(5, b"\3"))
        Path(os.fsdecode(NAME)).write_bytes(bytes(Made(text(NAME)).data))
        names = ["good.o", "bad.o", "tables.o", "empty", "cut", "order", os.fsdecode(NAME), TRUE]
        status, out, err = self.ran("--json", "--all", "--sizes", *names)
        self.assertEqual((status, err), (1, b""))
        found = [json.loads(it) for it in out.splitlines()]
        self.assertEqual(len(found), len(names))
        for name, it in zip(names, found):
            self.assertEqual(list(wrong(it, self_described)), [], name)
            self.assertEqual(it["schema"], "elfmap-view/1")
            self.assertEqual(it["size"], os.path.getsize(name))
            own = it["path_hex"] if name == os.fsdecode(NAME) else it.get("path_hex")
            self.assertEqual(own, NAME.hex() if name == os.fsdecode(NAME) else None)
        # The validator here refuses what does not fit.
        for key, value in (("size", -1), ("size", "1"), ("header", {}), ("more", 1)):
            self.assertNotEqual(list(wrong({**found[0], key: value}, self_described)), [])

    def test_lines(self):
        """A line for the file, and one for each entry of the tables that are asked for."""
        self.put(a__o=bytes(with_symbols(relocations(2, 1)).data))
        whole = self.json("--all", "a.o")
        first, *others = map(json.loads, self.view("--jsonl", "--all", "a.o"))
        self.assertEqual(first.pop("record"), "file")
        tables = {it: whole.pop(f"{it}s") for it in ("symbol", "relocation")}
        self.assertEqual(first, whole)
        for kind, entries in tables.items():
            own = [it for it in others if it["record"] == kind]
            self.assertEqual(own, [{"record": kind, "path": "a.o", **it} for it in entries])
        self.assertEqual(len(others), 2 + 1)
        self.assertEqual(len(self.view("--jsonl", "a.o")), 1)


class SizesTest(Case):
    def test_each_table_adds_up_to_the_file(self):
        made = with_symbols(relocations(2, 1))
        self.put(a__o=bytes(made.data), bad__o=SHARING, past__o=made.with_field(1, "size", 1 << 20))
        for name, status in (("a.o", 0), ("bad.o", 1), ("past.o", 1), (TRUE, 0)):
            found = self.json("--sizes", name, status=status)["sizes"]
            for table in ("sections", "segments", "symbols"):
                total = sum(it["file"] for it in found[table])
                self.assertEqual(total, os.path.getsize(name), (name, table))
            lines = self.view("--sizes", name, status=status)
            totals = [it.split()[0] for it in lines if it.endswith("  total")]
            self.assertEqual(set(totals), {f"{os.path.getsize(name):,}"})

    def test_symbols_and_what_is_between_them(self):
        """Four of the eight bytes of code are those of f."""
        self.put(a__o=bytes(with_symbols().data))
        sizes = self.json("--sizes", "a.o")["sizes"]
        found = {it["name"]: it["file"] for it in sizes["symbols"]}
        self.assertEqual((found["f"], found["[.text]"], found["[.symtab]"]), (4, 4, 48))
        found = {it["name"]: (it["file"], it["memory"]) for it in sizes["sections"]}
        self.assertEqual((found[".text"], found[".symtab"]), ((8, 8), (48, 0)))
        self.assertEqual(found["[section headers]"], (5 * 64, 0))

    def test_differences(self):
        one = with_symbols()
        longer = Made((b".text", 1, bytes(0x28), dict(flags=6)), text(b".new", b"12345"))
        self.put(a__o=bytes(one.data), b__o=bytes(longer.data))
        lines = self.view("--diff", "a.o", "b.o")
        start = lines.index("CHANGES BY SECTION")
        own = {it.split()[-1]: it.split()[0] for it in lines[start + 2 : lines.index("", start)]}
        self.assertEqual((own[".text"], own[".new"], own[".symtab"]), ("+32", "+5", "-48"))
        change = len(longer.data) - len(one.data)
        self.assertEqual(own["total"], f"{change:+,}")
        self.assertEqual(self.ran("--diff", "a.o")[0], 2)


class SearchTest(Case):
    def setUp(self):
        super().setUp()
        self.made = with_symbols()
        self.put(a__o=bytes(self.made.data))

    def test_an_offset(self):
        """The symbol f begins two bytes after the code, and has four."""
        start = self.made.starts[1]
        for at, words in ((2, "symbol f"), (5, "symbol f + 0x3"), (6, None), (1, None)):
            lines = self.view("--at", hex(start + at), "a.o")
            found = [it.strip() for it in lines if it.startswith("    symbol")]
            self.assertEqual(found, [words] if words else [])
            place = f"  offset {start + at:#x}: the content of section 1 .text"
            self.assertTrue(any(it.startswith(place) for it in lines), lines)

    def test_an_address(self):
        found = self.json(TRUE)
        entry = found["header"]["e_entry"]
        (own,) = [it for it in found["sections"] if it["name"] == ".text"]
        offset = entry - own["sh_addr"] + own["sh_offset"]
        within = f".text + {entry - own['sh_addr']:#x}"
        told = f"  address {entry:#x}: {within}, offset {offset:#x} of the file"
        self.assertIn(told, self.view("--at", hex(entry), TRUE))
        self.assertIn("  address 0x7fffffff: not loaded", self.view("--at", "0x7fffffff", TRUE))
        self.assertEqual(self.ran("--at", "x", TRUE)[0], 2)

    def test_a_name(self):
        """In files, and in those of directories and archives."""
        self.put(**{"d/b__o": bytes(self.made.data), "d/text": b"no ELF file"})
        words = "symbol f in .symtab: GLOBAL FUNC, .text 0x2, 4 bytes"
        self.assertEqual(
            sorted(self.view("--find", "f", ".")), [f"./a.o: {words}", f"./d/b.o: {words}"]
        )
        lines = self.view("--find", ".te*", "a.o")
        start = self.made.starts[1]
        self.assertEqual(lines, [f"a.o: section .text [{start:#x}, {start + 8:#x})"])
        self.put(lib__a=GNU)
        status, out, _ = self.ran("--find", ".text", "lib.a")
        self.assertEqual((status, out.count(b"lib.a(")), (1, 2))
        self.assertEqual(self.ran("--find", "f", "none")[0], 3)
        undefined = Made(text(), symbols(3, (1, 0x10, 0)), NAMES)
        self.put(u__o=bytes(undefined.data))
        self.assertEqual(
            self.view("--find", "f", "u.o"), ["u.o: symbol f in .symtab: GLOBAL NOTYPE, undefined"]
        )


class RowsTest(Case):
    def rows(self, *words):
        lines = self.view(*words)
        return [it.split()[-1] for it in lines if re.match(r" +\d+ ", it)]

    def test_filters(self):
        names = (b".strtab", 3, b"\0f\0g\0h\0", {})
        rows = (1, 0x10, 1, 8), (3, 0x10, 2, 4), (5, 0x10, 0)
        made = Made(text(), text(b".data"), symbols(4, *rows), names)
        self.put(a__o=bytes(made.data))
        table = "--symbols", "a.o"
        self.assertEqual(self.rows(*table)[1:], ["f", "g", "h"])
        self.assertEqual(self.rows("--undefined", *table)[1:], ["h"])
        self.assertEqual(self.rows("--defined", *table), ["f", "g"])
        self.assertEqual(self.rows("--name", "[gh]", *table), ["g", "h"])
        self.assertEqual(self.rows("--section", ".data", *table), ["g"])
        self.assertEqual(self.rows("--section", "1", *table), ["f"])
        self.assertEqual(self.rows("--sort", "address", "--defined", *table), ["g", "f"])
        own = self.rows("--sections", "--name", "*a*", "a.o")
        self.assertEqual(own, [".data", ".symtab", ".strtab", ".shstrtab"])
        self.assertEqual(self.rows("--sections", "--sort", "size", "a.o")[0], ".symtab")
        self.assertEqual(self.ran("--undefined", "--defined", *table)[0], 2)
        self.assertEqual(self.ran("--sort", "x", *table)[0], 2)

    def test_bytes(self):
        made = with_symbols()
        self.put(a__o=bytes(made.data))
        start = made.starts[3]
        line = f"  {start:08x}  00 66 00{' ' * 41}.f."
        for word in (".strtab", "3", f"{start:#x}+3", f"{start}+3"):
            found = self.block("BYTES", "--hex", word, "a.o")[0] if word != "3" else line
            self.assertEqual(found, line, word)
        self.assertEqual(len(self.block("BYTES", "--hex", "header", "a.o")), 4 + 1)
        lines = self.block("BYTES", "--hex", f"{len(made.data) - 1}+2", "a.o")
        self.assertIn(f"  the file ends at {len(made.data):#x}", lines)
        self.assertEqual(self.ran("--hex", "none", "a.o")[0], 2)
        self.assertEqual(self.block("STRINGS", "--strings", ".strtab", "a.o")[1:], ["  0x1  f"])
        self.assertEqual(self.ran("--strings", "none", "a.o")[0], 2)

    def test_hash_and_notes(self):
        note = struct.pack("<III", 4, 2, 3) + b"GNU\0" + b"\xab\xcd\0\0"
        table = struct.pack("<6I", 2, 2, 1, 0, 0, 0)
        hashed = b".hash", 5, table, dict(link=2, entsize=4)
        made = with_symbols((b".note", 7, note, dict(align=4)), hashed)
        self.put(a__o=bytes(made.data))
        row = self.block("NOTES", "--notes", "a.o")[1]
        self.assertEqual(row.split(), ["GNU", "build", "id", "2", "abcd"])
        self.assertIn("  build id  abcd", [it.rstrip("?") for it in self.view("a.o")])
        lines = self.block("HASH TABLE", "--hash", "a.o")
        for fact in ("buckets   2", "symbols   2", "used      1 of 2 buckets"):
            self.assertIn(fact, "\n".join(lines))


class EndTest(Case):
    def test_statuses(self):
        self.put(good__o=GOOD, bad__o=SHARING)
        for words, status in (
            (["good.o"], 0),
            (["bad.o"], 1),
            (["good.o", "bad.o"], 1),
            (["none"], 3),
            (["bad.o", "none", "good.o"], 3),
            (["."], 3),
            ([], 2),
            (["--none", "good.o"], 2),
            (["--json", "--jsonl", "good.o"], 2),
            (["-", "-"], 2),
        ):
            ended, out, err = self.ran(*words)
            self.assertEqual((ended, b"Traceback" in err), (status, False), words)
            for streams in ("2>&-", "2> /dev/full"):
                self.assertEqual(self.ran(*words, streams=streams), (status, out, b""), words)
        out = self.ran("bad.o", "none", "good.o")[1].decode().splitlines()
        self.assertEqual([it for it in out if it in ("bad.o", "good.o")], ["bad.o", "good.o"])

    def test_standard_output(self):
        self.put(good__o=GOOD)
        self.assertEqual(self.ran("good.o", streams=">&-")[0], 3)
        full = b"elfmap-view: no space left on device\n"
        self.assertEqual(self.ran("good.o", streams="> /dev/full")[::2], (3, full))
        reading, writing = os.pipe()
        os.close(reading)
        with open(writing, "wb") as out:
            ran = subprocess.run(
                [*PROGRAM, "good.o"], stdout=out, stderr=subprocess.PIPE, env=ENVIRONMENT
            )
        self.assertEqual((ran.returncode, ran.stderr), (128 + signal.SIGPIPE, b""))

    def test_standard_input(self):
        """A file, a pipe, and none."""
        self.put(good__o=GOOD)
        whole = self.view("good.o")[1:]
        self.assertEqual(self.view("-", stdin=GOOD), ["-", *whole])
        self.assertEqual(self.view("-", streams="< good.o"), ["-", *whole])
        closed = b"elfmap-view: -: standard input is closed\n"
        self.assertEqual(self.ran("-", streams="<&-"), (3, b"", closed))

    def test_archives_and_packages(self):
        self.put(lib__a=GNU, good__o__gz=gzip.compress(GOOD), text=b"!<arch>\n")
        lines = self.view("lib.a", status=1)
        heads = [it for it in lines if it.startswith("lib.a(")]
        self.assertEqual(heads[0], "lib.a(good.o)")
        self.assertEqual(len(heads), 2)
        self.assertEqual(self.view("lib.a(good.o)")[0], "lib.a(good.o)")
        self.assertIn(RELOCATABLE, "\n".join(self.view("good.o.gz")))
        status, _, err = self.ran("lib.a(none)")
        said = b"elfmap-view: lib.a(none): the archive has no such member\n"
        self.assertEqual((status, err), (3, said))
        said = b"elfmap-view: text: it has no ELF file\n"
        self.assertEqual(self.ran("text")[::2], (3, said))
        missing = b"elfmap-view: none: no such file or directory\n"
        self.assertEqual(self.ran("none", "text")[::2], (3, missing + said))

    def test_names_of_any_bytes(self):
        """On a terminal none of them is obeyed."""
        table = symbols(3, (1, 0x12, 1, 0))
        strings = b".strtab", 3, b"\0" + NAME + b"\0", {}
        made = Made(text(NAME), table, strings)
        path = os.fsdecode(NAME + b".o")
        Path(path).write_bytes(bytes(made.data))
        bad = os.fsdecode(NAME + b".bad")
        Path(bad).write_bytes(made.with_field(1, "size", 1 << 20))
        seen = b""
        for words in (
            [path],
            ["--all", "--demangle", path],
            ["--sizes", "--at", "0x40", "--hex", ".strtab", "--strings", ".strtab", path],
            ["--json", "--symbols", path],
            ["--find", "*", "."],
            ["--diff", path, bad],
            [bad],
            ["--all", bad],
            [os.fsdecode(NAME)],
            ["--hex", os.fsdecode(NAME), bad],
            ["--strings", os.fsdecode(NAME) + "x", bad],
        ):
            _, out, err = self.ran(*words)
            letters = (out + err).decode("utf-8", "surrogateescape")
            wrong = [it for it in letters if it != "\n" and not it.isprintable()]
            self.assertEqual((wrong, b"Traceback" in err), ([], False), words)
            seen += out + err
        for it in (PATH_ESCAPED, NAME_ESCAPED):
            self.assertIn(it.encode(), seen)

    def test_colours(self):
        """Of a pipe none; NO_COLOR forbids none that the option asks for."""
        self.put(a__o=SHARING)
        self.assertNotIn("\x1b", "\n".join(self.view("a.o", status=1)))
        for env in ({}, {"NO_COLOR": "1"}):
            out = "\n".join(self.view("--color", "always", "a.o", status=1, **env))
            self.assertIn("\x1b[1;31m0x72!\x1b[0m", out)
            plain = re.sub(r"\x1b\[[0-9;]*m", "", out).splitlines()
            self.assertEqual(plain, self.view("a.o", status=1))
        with mock.patch("os.isatty", return_value=True):
            from elfmap import _colors

            for value, wanted in (("1", False), ("", True)):
                with mock.patch.dict(os.environ, {"NO_COLOR": value, "TERM": "xterm"}):
                    self.assertEqual(_colors.are_wanted("auto"), wanted)

    def test_the_pager(self):
        """On a terminal that of the user, or less; none if that is empty or cat."""
        for own, wanted in (
            ({}, "less"),
            ({"PAGER": "more"}, "more"),
            ({"PAGER": "more", "ELFMAP_PAGER": "most"}, "most"),
            ({"PAGER": "more", "ELFMAP_PAGER": ""}, None),
            ({"PAGER": "cat"}, None),
            ({"TERM": "dumb"}, None),
        ):
            env = {"TERM": "xterm", "PATH": os.environ["PATH"], **own}
            with mock.patch.dict(os.environ, env, clear=True):
                with mock.patch("shutil.which", return_value="/usr/bin/less"):
                    with mock.patch("os.isatty", return_value=True):
                        self.assertEqual(_view_pager.pager_command(True), wanted, own)
                        self.assertIsNone(_view_pager.pager_command(False))
                    self.assertIsNone(_view_pager.pager_command(True))
        with _view_pager.Paged("cat > out") as out:
            out.write(b"some")
        self.assertEqual(Path("out").read_bytes(), b"some")
        # It ends before all is written.
        with _view_pager.Paged("true") as out:
            for _ in range(100):
                out.write(bytes(1 << 12))


if __name__ == "__main__":
    unittest.main()
