"""elfmap-symbols beside ld: what gdb, nm, addr2line, objdump and objcopy say of its files is what
they say of ld's link of the same objects, by a linker script with the same addresses."""

import os
import re
import shutil
import subprocess
import sys
import unittest
from pathlib import Path

import elfmap
from elfmap import build

from tests.made import ENVIRONMENT, FolderCase, setUpModule  # noqa: F401

PROGRAM = [sys.executable, "-m", "elfmap.symbols"]
RULES = build.REPOSITORY / "rules"
TOOLS = "addr2line", "as", "gcc", "gdb", "ld", "nm", "objcopy", "objdump", "readelf"
FLAGS = ["-g", "-O1", "-ffreestanding", "-fno-pic", "-fcf-protection=none", "-fcommon"]
FLAGS += ["-fno-asynchronous-unwind-tables", "-fno-stack-protector"]
BASE = 0x400000
PAGE = 0x1000
ONE = """
#define TWICE(x) ((x) + (x))
struct pair { char tag; long value; };
static struct pair own = {'a', 5};
static int calls;
int shared[3] __attribute__((nocommon));
char big_common[70] __attribute__((aligned(64)));
extern void never(void) __attribute__((weak));
static int __attribute__((noinline)) helper(int x) {
    static int local;
    local += x;
    return TWICE(local);
}
int work(int x) {
    struct pair *it = &own;
    calls += helper(x);
    it->value += calls;
    if (never) never();
    return it->value + shared[0];
}
"""
TWO = """
extern int shared[3];
int work(int x);
int limit = 40;
int __attribute__((weak)) spare(int x) { return x - 1; }
static int __attribute__((noinline)) helper(int x) { return spare(x) * 3; }
void start(void) {
    long status;
    shared[0] = 1;
    status = work(helper(limit)) & 127;
    asm volatile("syscall" : : "a"(60L), "D"(status) : "rcx", "r11", "memory");
}
"""
# The output sections of these two files in the order of a link map.
SCRIPT = """
SECTIONS {
  . = 0x400000;
  .text : { *(.text) }
  . = ALIGN(0x1000);
  .data : { *(.data) }
  . = ALIGN(0x1000);
  .bss : { *(.bss) }
  . = ALIGN(0x1000);
  COMMON : { *(COMMON) }
}
"""


def said(*words):
    """What a command prints, without a line that names the file."""
    ran = subprocess.run(words, capture_output=True, env=ENVIRONMENT, stdin=subprocess.DEVNULL)
    if ran.returncode or ran.stderr:
        raise AssertionError(f"{words}: {ran.returncode} {ran.stdout!r} {ran.stderr!r}")
    return ran.stdout.decode("utf-8", "surrogateescape")


def gdb(file, *commands):
    """What gdb prints for some commands, in one run."""
    words = [it for command in commands for it in ("-ex", f"echo {command}\\n", "-ex", command)]
    ran = subprocess.run(
        ["gdb", "-batch", "-nx", "-iex", "set debuginfod enabled off", *words, file],
        capture_output=True,
        env=ENVIRONMENT,
        stdin=subprocess.DEVNULL,
    )
    return ran.stdout.decode() + ran.stderr.decode()


@unittest.skipUnless(all(map(shutil.which, TOOLS)), f"one of {', '.join(TOOLS)} is not installed")
class Case(FolderCase):
    def compiled(self, flags=(), compiler="gcc", **sources):
        for name, source in sources.items():
            Path(f"{name}.c").write_text(source)
            said(compiler, *FLAGS, *flags, "-c", f"{name}.c", "-o", f"{name}.o")

    def symbols(self, *words, rules="x86-64", base=BASE, entry="start", wanted=(0, [])):
        """Runs the command, which ends with this status and these lines of standard error."""
        link = ["--base", hex(base), "--page", hex(PAGE), "--entry", entry]
        ran = subprocess.run(
            [*PROGRAM, *link, "--rules", str(RULES / f"{rules}.rules"), *words],
            capture_output=True,
            env=ENVIRONMENT,
        )
        lines = ran.stderr.decode("utf-8", "surrogateescape").splitlines()
        self.assertEqual((ran.returncode, lines), wanted)
        self.assertEqual(ran.stdout, b"")

    def by_ld(self, *objects, script=SCRIPT, ld="ld"):
        Path("script").write_text(script)
        words = ["-static", "--no-relax", "--build-id=none", "-z", "noexecstack"]
        words += ["--no-warn-rwx-segments"]
        said(ld, *words, "-e", "start", "-T", "script", "-o", "by-ld", *objects)

    def assert_same(self, *words, of=("ours", "by-ld")):
        """A command says the same of both files."""
        found = [said(*words, it).replace(it, "FILE") for it in of]
        self.assertEqual(*found)
        return found[0]

    def assert_whole(self, file="ours"):
        """elfmap accepts the file and all of its tables, and readelf has nothing to say on it."""
        data = Path(file).read_bytes()
        elfmap.check(data)
        self.assertEqual(elfmap.refused_tables(data), [])
        said("readelf", "-aW", file)

    def assert_same_lines(self, start, size):
        """addr2line says the same of each address."""
        addresses = [hex(it) for it in range(start, start + size)]
        found = [
            said("addr2line", "-a", "-f", "-i", "-e", it, *addresses) for it in ("ours", "by-ld")
        ]
        self.assertEqual(*found)
        return found[0]


class LikeLdTest(Case):
    """Two files of C with debug information, linked with the same addresses."""

    def setUp(self):
        super().setUp()
        self.compiled(one=ONE, two=TWO)
        self.symbols("-o", "ours", "--binary", "flat", "one.o", "two.o")
        self.by_ld("one.o", "two.o")
        rules = (RULES / "x86-64.rules").read_bytes()
        objects = [Path(it).read_bytes() for it in ("one.o", "two.o")]
        self.program = elfmap.link(objects, rules, base=BASE, page=PAGE, entry="start")

    def test_nm(self):
        """All symbols: with their sizes, types, bindings and addresses, also those of one name."""
        lines = [sorted(said("nm", "-S", it).splitlines()) for it in ("ours", "by-ld")]
        self.assertEqual(*lines)
        names = [it.split()[-1] for it in lines[0]]
        self.assertEqual(names.count("helper"), 2)
        # Nothing defines it, and the program has 0 for it.
        self.assertNotIn("never", names)

    def test_symbols_of_files(self):
        """The local symbols of an object follow the name of its source file, as in ld's file."""
        found = []
        for it in ("ours", "by-ld"):
            rows = [line.split()[1:] for line in said("readelf", "-sW", it).splitlines()]
            # The numbers of sections differ: ld has none for an empty one.
            found.append([it[:5] + it[6:] for it in rows if "LOCAL" in it])
        self.assertEqual(*found)
        names = [it[-1] for it in found[0][1:]]
        self.assertEqual((names[0], names[-2:]), ("one.c", ["two.c", "helper"]))

    def test_gdb(self):
        commands = [
            "info line work",
            "info line two.c:8",
            "info address shared",
            "info symbol work",
            "print &limit",
            "print &'one.c'::own",
            "print sizeof(struct pair)",
            "print limit",
            "print own",
            "break spare",
            "break one.c:10",
            "info scope work",
            "ptype /o struct pair",
            "list helper",
            "disassemble /s start",
            "info functions",
            "info variables",
        ]
        found = [gdb(it, *commands) for it in ("ours", "by-ld")]
        self.assertEqual(*found)
        self.assertIn("print limit\n$4 = 40\n", found[0])
        self.assertNotIn("No symbol", found[0])

    def test_addr2line(self):
        size = max(it.p_filesz for it in elfmap.parse(self.program).segments if it.p_flags & 1)
        found = self.assert_same_lines(BASE, size)
        self.assertIn("one.c:12", found)
        self.assertNotIn("??", found)

    def test_objdump(self):
        """The code, with names and lines of the source."""
        self.assert_same("objdump", "-d")
        found = self.assert_same("objdump", "-dl")
        self.assertIn("<helper>", found)
        for it in ("--dwarf=decodedline", "--dwarf=aranges", "--dwarf=frames"):
            found = self.assert_same("objdump", it)
        self.assert_same("objdump", "-s", "-j", ".text", "-j", ".data")

    def test_the_bytes_of_a_program(self):
        """The file is the program, but for the fields of its header on sections."""
        ours = bytearray(Path("ours").read_bytes())
        self.assertGreater(len(ours), len(self.program))
        ours[40:48] = self.program[40:48]
        ours[58:64] = self.program[58:64]
        self.assertEqual(bytes(ours[: len(self.program)]), self.program)
        self.assert_whole()

    def test_it_runs(self):
        Path("program").write_bytes(self.program)
        for it in ("program", "ours", "by-ld"):
            os.chmod(it, 0o755)
        ends = [subprocess.run([f"./{it}"]).returncode for it in ("program", "ours", "by-ld")]
        self.assertEqual(ends, [ends[2]] * 3)
        self.assertGreater(ends[0], 1)

    def test_a_debugger_runs_the_program(self):
        """gdb has the program, and takes the symbols from the other file."""
        Path("program").write_bytes(self.program)
        os.chmod("program", 0o755)
        words = "set startup-with-shell off", "symbol-file ours", "break spare", "run", "backtrace"
        found = gdb("program", *words)
        self.assertRegex(found, r"#0 +spare \(x=40\) at two\.c:5\n#1 .* in helper .*\n#2 .* start")

    def test_a_flat_image(self):
        said("objcopy", "-O", "binary", "by-ld", "theirs")
        said("objcopy", "-O", "binary", "ours", "of-ours")
        flat = Path("flat").read_bytes()
        self.assertEqual(flat, Path("theirs").read_bytes())
        self.assertEqual(flat, Path("of-ours").read_bytes())
        self.assertGreater(len(flat), PAGE)

    def test_without_debug(self):
        self.symbols("-o", "ours", "--strip-debug", "one.o", "two.o")
        said("strip", "--strip-debug", "-R", ".comment", "by-ld")
        self.assert_whole()
        self.assertNotIn(".debug", said("readelf", "-SW", "ours"))
        self.assertNotIn(".comment", said("readelf", "-SW", "ours"))
        lines = [sorted(said("nm", "-S", it).splitlines()) for it in ("ours", "by-ld")]
        self.assertEqual(*lines)

    def test_what_other_tools_make_of_it(self):
        """objcopy and strip take the file, and what they write is accepted."""
        said("objcopy", "--only-keep-debug", "ours", "debug")
        said("objcopy", "ours", "copy")
        said("strip", "-o", "stripped", "ours")
        for it in ("debug", "copy", "stripped"):
            elfmap.open(it)
        found = [gdb(it, "info line work", "print &limit") for it in ("ours", "debug", "copy")]
        self.assertEqual(found, [found[0]] * 3)
        self.assertIn("Line 14", found[0])


class DebugTest(Case):
    """Debug information of other versions, of groups, and compressed."""

    def assert_same_in_gdb(self, *commands):
        found = [gdb(it, *commands) for it in ("ours", "by-ld")]
        self.assertEqual(*found)
        return found[0]

    def test_versions_of_dwarf(self):
        commands = "info line work", "info scope work", "ptype struct pair", "break helper"
        for version in 2, 3, 4, 5:
            with self.subTest(version=version):
                self.compiled([f"-gdwarf-{version}"], one=ONE, two=TWO)
                self.symbols("-o", "ours", "one.o", "two.o")
                self.by_ld("one.o", "two.o")
                self.assertIn("Line 14", self.assert_same_in_gdb(*commands))
                self.assert_whole()
                self.assert_same_lines(BASE, 0x40)

    def test_dwarf_of_64_bits(self):
        """Offsets of 8 bytes. addr2line of binutils reads no names of files by them."""
        self.compiled(["-gdwarf-5", "-gdwarf64"], one=ONE, two=TWO)
        self.symbols("-o", "ours", "one.o", "two.o")
        self.by_ld("one.o", "two.o")
        commands = "info line work", "info scope work", "ptype struct pair", "break helper"
        self.assertIn("Line 14", self.assert_same_in_gdb(*commands))
        self.assert_same("objdump", "--dwarf=Ranges")
        self.assert_whole()

    def test_macros(self):
        """Those of a file are in groups, of which the first one of a name is kept."""
        Path("own.h").write_text(
            "#define HALF(x) ((x) / 2)\n#define EVEN(x) (HALF(x) * 2 == (x))\n"
        )
        head = '#include "own.h"\n'
        self.compiled(["-g3"], one=head + ONE, two=head + "#define LAST 3\n" + TWO)
        self.symbols("-o", "ours", "one.o", "two.o")
        self.by_ld("one.o", "two.o")
        discarded = elfmap.map([Path(it).read_bytes() for it in ("one.o", "two.o")])
        self.assertIn("\ndiscarded 1 ", discarded)
        commands = ["list work", "info macro EVEN", "info macro TWICE", "info macro LAST"]
        commands += ["list start", "info macro EVEN", "info macro HALF", "info macro LAST"]
        commands += ["macro expand EVEN(4)"]
        found = self.assert_same_in_gdb(*commands)
        self.assertIn("expands to: (((4) / 2) * 2 == (4))", found)
        self.assertIn("#define LAST 3", found)

    def test_types_in_groups(self):
        types = ["-fdebug-types-section"]
        both = "struct both { int a; struct both *next; } it_%s;\n"
        self.compiled(types, one=both % "one" + ONE, two=both % "two" + TWO)
        self.symbols("-o", "ours", "one.o", "two.o")
        self.by_ld("one.o", "two.o")
        found = self.assert_same_in_gdb("ptype it_one", "ptype it_two", "ptype struct pair")
        self.assertIn("struct both *next;", found)

    def test_functions_in_groups(self):
        """An inline function of two files is in the program once. The lines of the second file
        are those of the one that was kept; or, if that is another function, of nowhere."""
        inline = "inline __attribute__((noinline)) int half(int x) {\n    return %s;\n}\n"
        main = 'extern "C" void start() { half(3); %s for (;;); }\n'
        for second in ("x / 2", "x / 2 + x / 3"):
            with self.subTest(second=second):
                one = inline % "x / 2" + 'extern "C" int work(int x) { return half(x); }\n'
                two = inline % second + 'extern "C" int work(int x);\n' + main % "work(4);"
                self.compiled(["-xc++", "-fno-exceptions"], "g++", one=one, two=two)
                self.symbols("-o", "ours", "one.o", "two.o")
                self.by_ld(
                    "one.o",
                    "two.o",
                    script=SCRIPT.replace("*(.text) }", "one.o(.text) two.o(.text) }").replace(
                        "  . = ALIGN(0x1000);\n  .data",
                        "  . = ALIGN(0x1000);\n  ._Z4halfi : { *(.text._Z4halfi) }\n"
                        "  . = ALIGN(0x1000);\n  .data",
                    ),
                )
                lines = [
                    sorted(said("nm", "-S", "-C", it).splitlines()) for it in ("ours", "by-ld")
                ]
                self.assertEqual(*lines)
                found = self.assert_same_in_gdb("info line half", "break half", "info scope start")
                self.assertIn("Line 2 of ", found)
                address = next(it for it in lines[0] if it.endswith("half(int)"))[:16]
                self.assert_same_lines(int(address, 16), 8)
                self.assert_same_lines(BASE, 24)
                self.assert_same("objdump", "--dwarf=decodedline")
                self.assert_same("objdump", "--dwarf=Ranges")

    def test_ranges_and_lists_of_dwarf_4(self):
        """In a list of ranges the place of what is not there is 1: two zeros would end the list."""
        inline = "inline __attribute__((noinline)) int half(int x) {\n    return %s;\n}\n"
        one = inline % "x / 2" + 'extern "C" int work(int x) { return half(x); }\n'
        two = inline % "x / 2 + x" + "volatile int y;\n"
        two += 'extern "C" void start() { for (;;) y = half(y); }\n'
        flags = ["-xc++", "-fno-exceptions", "-gdwarf-4", "-ffunction-sections", "-O2"]
        self.compiled(flags, "g++", one=one, two=two)
        self.symbols("-o", "ours", "one.o", "two.o")
        found = said("objdump", "--dwarf=Ranges", "ours")
        self.assertRegex(found, r"0000000000000001 0000000000000001")
        self.assert_whole()

    def test_compressed(self):
        """The file is the one of objects whose sections are not compressed."""
        self.compiled(one=ONE, two=TWO)
        self.symbols("-o", "ours", "one.o", "two.o")
        for kind in ("zlib-gabi", "zlib-gnu"):
            for it in ("one", "two"):
                said("objcopy", f"--compress-debug-sections={kind}", f"{it}.o", f"{it}-{kind}.o")
            self.symbols("-o", kind, f"one-{kind}.o", f"two-{kind}.o")
            commands = "info line work", "info scope work", "ptype struct pair"
            self.assertEqual(gdb(kind, *commands), gdb("ours", *commands))
            self.assert_same("objdump", "-WliaR", of=("ours", kind))

    def test_sections_of_many_functions(self):
        """With a section for each function and variable."""
        self.compiled(["-ffunction-sections", "-fdata-sections"], one=ONE, two=TWO)
        self.symbols("-o", "ours", "one.o", "two.o")
        self.assert_whole()
        found = elfmap.map([Path(it).read_bytes() for it in ("one.o", "two.o")])
        names = {name: at for at, name in re.findall(r"^name 0x(\w+) \w+ (\w+)$", found, re.M)}
        for name in ("work", "start", "spare"):
            address = int(names[name], 16)
            self.assertIn(
                f"starts at address {address:#x} <{name}>", gdb("ours", f"info line {name}")
            )
            self.assertIn(f"{address:016x} <{name}>:", said("objdump", "-d", "ours"))

    def test_frames(self):
        """Tables of frames that are loaded are relocated as the rest of the program is."""
        self.compiled(["-fasynchronous-unwind-tables"], one=ONE, two=TWO)
        self.symbols("-o", "ours", "one.o", "two.o")
        found = said("objdump", "--dwarf=frames", "ours")
        found = {int(it, 16) for it in re.findall(r" FDE .* pc=(\w+)\.\.", found)}
        functions = said("nm", "ours").splitlines()
        code = {int(it.split()[0], 16) for it in functions if it[17:18] in "tTW" and it[:1] != " "}
        self.assertEqual(found, code)


BIG = {
    "powerpc64": (
        "ppc64",
        """
        .file "big.c"
        .section .text
        .globl start
        .type start, @function
start:
        li 0, 1
        nop
        .size start, .-start
local:  blr
        .data
        .globl pointer
        .type pointer, @object
        .size pointer, 8
pointer: .quad second
        .comm room, 12, 8
""",
        """
        .text
        .globl second
        .type second, @function
second: li 3, 7
        blr
        .size second, .-second
        .weak never
        .data
        .quad never, room
""",
    ),
    "s390x": (
        "s390x",
        """
        .file "big.c"
        .section .text
        .globl start
        .type start, @function
start:
        lghi %r2, 1
        nopr
        .size start, .-start
local:  br %r14
        .data
        .globl pointer
        .type pointer, @object
        .size pointer, 8
pointer: .quad second
        .comm room, 12, 8
""",
        """
        .text
        .globl second
        .type second, @function
second: lghi %r2, 7
        br %r14
        .size second, .-second
        .weak never
        .data
        .quad never, room
""",
    ),
}


class BigTest(Case):
    """Objects of machines that have the most significant byte first, by their assemblers."""

    def tool(self, machine, name):
        return f"{machine}-linux-gnu-{name}"

    def test_machines(self):
        for machine, (rules, *sources) in BIG.items():
            if not shutil.which(self.tool(machine, "as")):
                self.skipTest(f"there is no as for {machine}")
            with self.subTest(machine=machine):
                self.assert_like_ld(machine, rules, sources)

    def assert_like_ld(self, machine, rules, sources):
        """nm, addr2line and objdump for the machine say the same."""
        for name, source in zip(("one", "two"), sources):
            Path(f"{name}.s").write_text(source)
            said(self.tool(machine, "as"), "-g", f"{name}.s", "-o", f"{name}.o")
        self.symbols("-o", "ours", "--binary", "flat", "one.o", "two.o", rules=rules)
        self.by_ld("one.o", "two.o", ld=self.tool(machine, "ld"))
        self.assert_whole()
        self.assertEqual(elfmap.open("ours").header.e_ident[5], 2)
        nm = [sorted(said(self.tool(machine, "nm"), "-S", it).splitlines()) for it in FILES]
        self.assertEqual(*nm)
        self.assertTrue(any(it.endswith(" t local") for it in nm[0]), nm[0])
        dump = self.tool(machine, "objdump")
        self.assertIn("<second>:", self.assert_same(dump, "-dl"))
        self.assert_same(dump, "--dwarf=decodedline")
        for it in ("info", "aranges"):
            self.assertNotIn("??", said(dump, f"--dwarf={it}", "ours"))
        addresses = [hex(it) for it in range(BASE, BASE + 0x10, 4)]
        line = self.tool(machine, "addr2line"), "-f", "-e"
        self.assertEqual(*(said(*line, it, *addresses) for it in FILES))
        self.assertIn("two.s:5", said(*line, "ours", *addresses))
        said(self.tool(machine, "objcopy"), "-O", "binary", "by-ld", "theirs")
        self.assertEqual(Path("flat").read_bytes(), Path("theirs").read_bytes())


FILES = "ours", "by-ld"

if __name__ == "__main__":
    unittest.main()
