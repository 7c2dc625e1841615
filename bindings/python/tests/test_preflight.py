"""elfmap-lint --link: whether files link, and where ld makes another program.

Objects are made by gcc, g++ and as. What is expected is what ld makes of them, how its
program ends, what readelf reads, and the options of these compilers.
"""

import re
import shutil
import subprocess
import unittest
from pathlib import Path

import elfmap
from elfmap import _linker_names, build

from tests.made import GNU, Made, relocations, setUpModule, symbols, text  # noqa: F401
from tests.test_lint import TOO_LONG_OBJECT, Case

RULES = build.REPOSITORY / "rules"
X86_64 = str(RULES / "x86-64.rules")
FLAGS = "-c -O1 -ffreestanding -fno-pic -fno-pie -fcf-protection=none -fno-stack-protector".split()
NO_FRAMES = "-fno-asynchronous-unwind-tables"
EXIT = """
__attribute__((noreturn)) static void leave(long status) {
    asm volatile("syscall" : : "a"(60L), "D"(status) : "rcx", "r11", "memory");
    __builtin_unreachable();
}
"""
# Calls which(), once the relocations are applied by which ld has an indirect function called.
INDIRECT = (
    EXIT
    + """
typedef struct { unsigned long offset, info, addend; } Entry;
extern const Entry __rela_iplt_start[] __attribute__((weak));
extern const Entry __rela_iplt_end[] __attribute__((weak));
int which(void);
void _start(void) {
    for (const Entry *it = __rela_iplt_start; it < __rela_iplt_end; it++)
        *(unsigned long *) it->offset = ((unsigned long (*)(void)) it->addend)();
    leave(which());
}
"""
)
WHICH = """
static int real(void) { return 41; }
static int (*resolve(void))(void) { return real; }
int which(void) __attribute__((ifunc("resolve")));
"""
CONSTRUCTORS = (
    EXIT
    + """
typedef void (*Call)(void);
extern Call __init_array_start[] __attribute__((weak)), __init_array_end[] __attribute__((weak));
long sum;
void _start(void) {
    for (Call *it = __init_array_start; it < __init_array_end; it++)
        (*it)();
    leave(sum);
}
"""
)
# Each of them is a digit of the sum.
STEPS = """
__attribute__((used)) void add2(void) { sum = sum * 10 + 2; }
__attribute__((used)) void add3(void) { sum = sum * 10 + 3; }
"""
DESTRUCTOR = "extern long sum; __attribute__((destructor%s)) static void add(void) { %s; }"
CONSTRUCTOR = "extern long sum; __attribute__((constructor%s)) static void add(void) { %s; }"
# What a name is the address of.
VALUE = EXIT + "extern char %s[] __attribute__((weak));\nvoid _start(void) { leave(%s != 0); }\n"
CALLER = "extern long was; void put(long); void _start(void) { put((long) &was); put(2); }"
CALLEE = "long was; void put(long it) { was = it; }"
SUMMARY = "0 findings in 0 of %s; they link"
# The linkers of machines by their numbers in <elf.h>.
LINKERS = {
    8: "mips64-linux-gnuabi64-ld",
    21: "powerpc64-linux-gnu-ld",
    22: "s390x-linux-gnu-ld",
    43: "sparc64-linux-gnu-ld",
    50: "ia64-linux-gnu-ld",
    62: "ld",
    183: "aarch64-linux-gnu-ld",
    243: "riscv64-linux-gnu-ld",
    36902: "alpha-linux-gnu-ld",
}


class PreflightCase(Case):
    def made(self, name, source, *flags, compiler="gcc"):
        """An object of a source: its name."""
        end = {"g++": "cc", "as": "s"}.get(compiler, "c")
        Path(f"{name}.{end}").write_text(source)
        own = [] if compiler == "as" else [*FLAGS, NO_FRAMES]
        words = [compiler, *own, *flags, f"{name}.{end}", "-o", f"{name}.o"]
        subprocess.run(words, check=True)
        return f"{name}.o"

    def linked(self, *files, rules=X86_64, entry="_start", more=()):
        """The status and the lines of a preflight."""
        words = ["--link", "--rules", rules, "--entry", entry, *more, *files]
        status, out, said = self.lint(*words)
        self.assertEqual(said, b"")
        return status, out.decode("utf-8", "surrogateescape").splitlines()

    def assertClean(self, *files, **words):
        count = f"{len(files)} ELF file" + ("s" if len(files) > 1 else "")
        self.assertEqual(self.linked(*files, **words), (0, [SUMMARY % count]))

    def assertWarned(self, names, *files, **words):
        """These warnings alone are there, in order; the lines are returned."""
        status, lines = self.linked(*files, **words)
        found = [
            re.fullmatch(r"\S+: offset \w+: (\w+) \(warning \d+\): .*", it) for it in lines[:-1]
        ]
        self.assertEqual([it and it[1] for it in found], names, lines)
        self.assertEqual(status, 1)
        self.assertTrue(lines[-1].endswith("; they link"), lines)
        return lines[:-1]

    def refusal(self, name, *files, **words):
        """Of a link that is refused by this rule alone the line."""
        status, lines = self.linked(*files, **words)
        self.assertEqual((status, len(lines)), (1, 2), lines)
        self.assertIn(f": {name} (", lines[0])
        self.assertTrue(lines[1].endswith("; they do not link"), lines)
        return lines[0]

    def program(self, *files, rules=X86_64):
        """How the program of elfmap ends."""
        contents = [Path(it).read_bytes() for it in files]
        Path("own").write_bytes(elfmap.link(contents, Path(rules).read_text()))
        Path("own").chmod(0o755)
        return subprocess.run(["./own"]).returncode

    def program_of_ld(self, *files):
        """How that of ld ends."""
        subprocess.run(["ld", *files, "-o", "other"], check=True, stderr=subprocess.DEVNULL)
        return subprocess.run(["./other"]).returncode

    def assertAt(self, line, path, wanted):
        """The offset of a finding is that of the symbol, as readelf lists it."""
        offset = int(re.match(rf"{re.escape(path)}: offset 0x(\w+): ", line)[1], 16)
        listed = subprocess.run(
            ["readelf", "-SW", path], check=True, capture_output=True, text=True
        ).stdout
        (start,) = re.findall(r" \.symtab +SYMTAB +\w+ (\w+)", listed)
        shown = subprocess.run(
            ["readelf", "-sW", path], check=True, capture_output=True, text=True
        ).stdout
        (index,) = re.findall(rf"^ *(\d+): .* {wanted}$", shown, re.M)
        self.assertEqual(offset, int(start, 16) + 24 * int(index))


class IndirectFunctionTest(PreflightCase):
    def test_a_call(self):
        files = self.made("start", INDIRECT), self.made("which", WHICH)
        (line,) = self.assertWarned(["INDIRECT_FUNCTION"], *files)
        self.assertAt(line, "which.o", "which")
        self.assertRegex(
            line, r": symbol \d+ which, of type 10 \(GNU_IFUNC\), to which start.o refers; "
        )
        self.assertIn("; call the function itself, or call the resolver", line)
        self.assertEqual(self.program_of_ld(*files), 41)
        self.assertNotEqual(self.program(*files), 41)

    def test_what_nobody_calls(self):
        start = self.made("start", EXIT + "void _start(void) { leave(0); }")
        self.assertClean(start, self.made("which", WHICH))
        # The entry point is one.
        files = (self.made("which", WHICH.replace("which", "_start")),)
        (line,) = self.assertWarned(["INDIRECT_FUNCTION"], *files)
        self.assertIn("to which the entry point refers", line)
        without = self.lint("--link", "--rules", X86_64, *files)
        self.assertEqual(without, (0, (SUMMARY % "1 ELF file").encode() + b"\n", b""))

    def test_a_name_that_is_bound_to_another_definition(self):
        files = self.made("start", INDIRECT), self.made("which", WHICH)
        subprocess.run(["objcopy", "--weaken-symbol=which", "which.o"], check=True)
        self.assertWarned(["INDIRECT_FUNCTION"], *files)
        files = *files, self.made("strong", "int which(void) { return 40; }")
        self.assertClean(*files)
        self.assertEqual((self.program(*files), self.program_of_ld(*files)), (40, 40))

    def test_a_local_symbol(self):
        local = "static " + WHICH.split("int which", 1)[0].strip()
        source = (
            f'{EXIT}{local[7:]}\nstatic int which(void) __attribute__((ifunc("resolve")));\n'
            "void _start(void) { leave(which()); }\n"
        )
        (line,) = self.assertWarned(["INDIRECT_FUNCTION"], self.made("start", source))
        self.assertIn(" which, of type 10 (GNU_IFUNC), to which start.o refers; ", line)

    def test_a_type_of_another_system(self):
        """Type 10 is one of the system that EI_OSABI names: of HSA (64) it is a kernel for a
        processor of AMD."""
        files = self.made("start", INDIRECT), self.made("which", WHICH)
        content = bytearray(Path("which.o").read_bytes())
        for system, is_indirect in ((0, True), (3, True), (9, True), (64, False), (255, False)):
            content[7] = system
            Path("which.o").write_bytes(content)
            if is_indirect:
                self.assertWarned(["INDIRECT_FUNCTION"], *files)
            else:
                self.assertClean(*files)

    def test_a_field_that_nothing_changes(self):
        """It refers to nobody."""
        Path("none.rules").write_text(
            Path(X86_64)
            .read_text()
            .replace("4 pc 4 signed", "4 none 4 signed", 1)
            .replace("2 pc 4", "2 pc 4")
        )
        files = self.made("start", INDIRECT), self.made("which", WHICH)
        found = [
            it.split(" (warning")[0].split()[-1]
            for it in self.linked(*files, rules="none.rules")[1][:-1]
        ]
        self.assertNotIn("INDIRECT_FUNCTION", found)


class LinkerNameTest(PreflightCase):
    def test_constructors(self):
        files = (
            self.made("start", CONSTRUCTORS),
            self.made("first", CONSTRUCTOR % ("", "sum += 5")),
            self.made("second", CONSTRUCTOR % ("", "sum += 7")),
        )
        lines = self.assertWarned(["NAME_OF_LINKER"] * 2, *files)
        by_name = {re.search(r"symbol \d+ (\w+)", it)[1]: it for it in lines}
        self.assertEqual(set(by_name), {"__init_array_start", "__init_array_end"})
        for name, words in (
            ("__init_array_start", "as the beginning of .init_array"),
            ("__init_array_end", "as the end of .init_array"),
        ):
            self.assertAt(by_name[name], "start.o", name)
            self.assertIn(f" {name}, which ld defines {words}; ", by_name[name])
        self.assertIn(
            "a section .init_array of the same flags, in one more object before all",
            by_name["__init_array_start"],
        )
        self.assertIn("in one more object after all others", by_name["__init_array_end"])
        self.assertEqual((self.program(*files), self.program_of_ld(*files)), (0, 12))
        # What the advice says.
        label = '.globl %s\n.section .init_array,"aw"\n%s:\n'
        first = self.made("before", label % (("__init_array_start",) * 2), compiler="as")
        last = self.made("after", label % (("__init_array_end",) * 2), compiler="as")
        files = first, *files, last
        self.assertClean(*files)
        self.assertEqual(self.program(*files), 12)

    def test_arrays_without_a_constructor(self):
        files = (self.made("start", CONSTRUCTORS),)
        self.assertClean(*files)
        self.assertEqual((self.program(*files), self.program_of_ld(*files)), (0, 0))

    def test_constructors_by_their_numbers(self):
        label = '.globl %s\n.section .init_array,"aw"\n%s:\n'
        files = (
            self.made("before", label % (("__init_array_start",) * 2), compiler="as"),
            self.made("start", CONSTRUCTORS),
            self.made("plain", CONSTRUCTOR % ("", "sum += 5")),
            self.made("numbered", CONSTRUCTOR % ("(200)", "sum += 7")),
            self.made("after", label % (("__init_array_end",) * 2), compiler="as"),
        )
        (line,) = self.assertWarned(["ARRAY_NOT_SORTED"], *files)
        self.assertRegex(line, r"^numbered\.o: offset \w+: .*: section \d+ \.init_array\.00200; ")
        self.assertEqual((self.program(*files), self.program_of_ld(*files[1:-1])), (5, 12))
        # They are of another array, or of none that the program knows.
        other = CONSTRUCTOR.replace("constructor", "destructor") % ("(200)", "sum += 7")
        self.assertClean(*files[:3], self.made("other", other), files[-1])
        start = self.made("start", EXIT + "long sum; void _start(void) { leave(sum); }")
        self.assertClean(start, *files[2:-1])

    def test_destructors_by_their_numbers(self):
        """The same of .fini_array."""
        start = self.made("start", CONSTRUCTORS.replace("init_array", "fini_array"))
        plain = self.made("plain", DESTRUCTOR % ("", "sum = sum * 2 + 5"))
        numbered = self.made("numbered", DESTRUCTOR % ("(200)", "sum += 7"))
        lines = self.assertWarned(
            ["ARRAY_NOT_SORTED", *["NAME_OF_LINKER"] * 2], start, plain, numbered
        )
        self.assertRegex(lines[0], r"^numbered\.o: .* section \d+ \.fini_array\.00200; ")
        self.assertIn("give no constructor and no destructor a priority", lines[0])
        self.assertEqual(self.program_of_ld(start, plain, numbered), 19)
        # What the advice says.
        label = '.globl %s\n.section .fini_array,"aw"\n%s:\n'
        first = self.made("before", label % (("__fini_array_start",) * 2), compiler="as")
        last = self.made("after", label % (("__fini_array_end",) * 2), compiler="as")
        other = self.made("numbered", DESTRUCTOR % ("", "sum += 7"))
        files = first, start, other, plain, last
        self.assertClean(*files)
        self.assertEqual(self.program(*files), 19)

    def test_older_constructors(self):
        """ld puts .ctors into .init_array, and .dtors into .fini_array, the last entry of each
        first, and the highest number first."""
        code = ".text\nfirst: call add2\nret\nsecond: call add3\nret\n"
        for array, section in (("init_array", ".ctors"), ("fini_array", ".dtors")):
            start = self.made("start", CONSTRUCTORS.replace("init_array", array) + STEPS)
            source = f'.section {section},"aw"\n.quad first, second\n{code}'
            files = start, self.made("older", source, compiler="as")
            lines = self.assertWarned(["ARRAY_NOT_SORTED", *["NAME_OF_LINKER"] * 2], *files)
            self.assertRegex(lines[0], rf"^older\.o: .* section \d+ {section}; ")
            self.assertIn("compile without `-fno-use-init-array`", lines[0])
            self.assertEqual((self.program(*files), self.program_of_ld(*files)), (0, 32))
            source = (
                f'.section {section}.65000,"aw"\n.quad first\n'
                f'.section {section}.65100,"aw"\n.quad second\n{code}'
            )
            files = start, self.made("older", source, compiler="as")
            lines = self.assertWarned([*["ARRAY_NOT_SORTED"] * 2, *["NAME_OF_LINKER"] * 2], *files)
            self.assertIn(f" {section}.65000; ", lines[0])
            self.assertIn(f" {section}.65100; ", lines[1])
            self.assertEqual(self.program_of_ld(*files), 32)

    @unittest.skipUnless(shutil.which("clang"), "clang is not installed")
    def test_older_constructors_of_clang(self):
        """The option that the advice names."""
        label = '.globl %s\n.section .%s_array,"aw"\n%s:\n'
        for array, source in (("init", CONSTRUCTOR), ("fini", DESTRUCTOR)):
            first, last = (
                self.made(it, label % (name, array, name), compiler="as")
                for it in ("start", "end")
                for name in [f"__{array}_array_{it}"]
            )
            walk = self.made("walk", CONSTRUCTORS.replace("init_array", f"{array}_array"))
            own = source % ("", "sum += 7")
            flags = "-fno-addrsig", "-fno-use-init-array"
            older = self.made("older", own, *flags, compiler="clang")
            (line,) = self.assertWarned(["ARRAY_NOT_SORTED"], first, walk, older, last)
            self.assertIn("compile without `-fno-use-init-array`", line)
            self.assertEqual(self.program(first, walk, older, last), 0)
            self.assertEqual(self.program_of_ld(walk, older), 7)
            files = first, walk, self.made("older", own, "-fno-addrsig", compiler="clang"), last
            self.assertClean(*files)
            self.assertEqual(self.program(*files), 7)

    def test_labels_of_ones_own_in_an_array(self):
        """ld sorts that at number 1 before all others."""
        label = '.globl %s\n.section %s,"aw"\n%s:\n'
        walk = CONSTRUCTORS.replace("__init_array_start", "first")
        start = self.made("walk", walk.replace("__init_array_end", "last"))
        first = self.made("before", label % ("first", ".init_array.00001", "first"), compiler="as")
        last = self.made("after", label % ("last", ".init_array", "last"), compiler="as")
        numbered = self.made("numbered", CONSTRUCTOR % ("(200)", "sum += 7"))
        files = first, start, numbered, last
        lines = self.assertWarned(["ARRAY_NOT_SORTED"] * 2, *files)
        self.assertIn(" .init_array.00001; ", lines[0])
        self.assertEqual(self.program_of_ld(*files), 7)
        self.assertNotEqual(self.program(*files), 7)
        # Nobody refers to a label.
        quiet = self.made("walk", EXIT + "long sum; void _start(void) { leave(sum); }")
        self.assertClean(first, quiet, numbered, last)
        # A local one is one too.
        local = '.section .init_array.00001,"aw"\nfirst:\n.text\nmov $first, %eax\n'
        files = quiet, self.made("local", local, compiler="as"), numbered
        self.assertWarned(["ARRAY_NOT_SORTED"] * 2, *files)
        unused = local.replace("$first", "$1")
        self.assertClean(quiet, self.made("local", unused, compiler="as"), numbered)

    def test_sections_of_names(self):
        source = (
            EXIT
            + """
        extern int __start_x[] __attribute__((weak)), __stop_x[] __attribute__((weak));
        extern int __start_y[] __attribute__((weak));
        void _start(void) { leave(__stop_x - __start_x + (__start_y != 0)); }
        """
        )
        start = self.made("start", source)
        self.assertClean(start)
        files = start, self.made("x", '__attribute__((section("x"))) int three[3] = {1};')
        lines = self.assertWarned(["NAME_OF_LINKER"] * 2, *files)
        self.assertTrue(all("__start_y" not in it for it in lines))
        self.assertIn("as a label in a section x of the same flags", lines[0])
        self.assertEqual((self.program(*files), self.program_of_ld(*files)), (0, 3))
        label = '.globl %s\n.section x,"aw"\n%s:\n'
        first = self.made("before", label % (("__start_x",) * 2), compiler="as")
        last = self.made("after", label % (("__stop_x",) * 2), compiler="as")
        files = first, *files, last
        self.assertClean(*files)
        self.assertEqual(self.program(*files), 3)

    def test_addresses(self):
        """Each name for which ld has a value, and no other."""
        not_loaded = [it.decode() for it in _linker_names._NOT_LOADED]
        known = [*(it.decode() for it in _linker_names._ADDRESSES), *not_loaded]
        others = ["_DYNAMIC", "__gmon_start__", "__dso_handle", "main", "x_end"]
        others += [it.decode() for own in _linker_names._OF_MACHINES.values() for it in own]
        for name in known + others:
            files = (self.made("start", VALUE % (name, name)),)
            is_known = name in known
            self.assertEqual((name, self.program(*files)), (name, 0))
            self.assertEqual((name, self.program_of_ld(*files)), (name, int(is_known)))
            if is_known:
                (line,) = self.assertWarned(["NAME_OF_LINKER"], *files)
                self.assertIn(f"define {name} in one more object as an absolute symbol, with", line)
                self.assertEqual("value 0, for it has no address" in line, name in not_loaded)
            else:
                self.assertClean(*files)
        defined = self.made("end", ".globl _end\n_end = 0x402000\n", compiler="as")
        files = self.made("start", VALUE % ("_end", "_end")), defined
        self.assertClean(*files)
        self.assertEqual(self.program(*files), 1)

    def test_any_section(self):
        """Of a section that is no identifier of C the beginning and the size."""
        source = """
        .globl _start
        _start: mov $60, %%eax
        mov $%s, %%edi
        shr $%d, %%edi
        syscall
        .weak .startof..x, .sizeof..x, .sizeof..y
        .section .x, "aw"
        .quad 1, 2, 3
        """
        for name, shift, of_ld, words, own, advice in (
            (
                ".startof..x",
                20,
                4,
                "as the beginning of .x; ",
                '.globl .startof..x\n.section .x,"aw"\n.startof..x:\n',
                "as a label in a section .x of the same flags, in one more object before all",
            ),
            (
                ".sizeof..x",
                0,
                24,
                "as the size of .x; ",
                ".globl .sizeof..x\n.sizeof..x = 24\n",
                "as an absolute symbol, with the size that `elfmap map` shows",
            ),
        ):
            start = self.made("start", source % (name, shift), compiler="as")
            (line,) = self.assertWarned(["NAME_OF_LINKER"], start)
            self.assertIn(f" {name}, which ld defines {words}", line)
            self.assertIn(f"define {name} ", line)
            self.assertIn(advice, line)
            self.assertEqual((self.program(start), self.program_of_ld(start)), (0, of_ld))
            files = self.made("own", own, compiler="as"), start
            self.assertClean(*files)
            self.assertEqual(self.program(*files), of_ld)
        self.assertClean(self.made("start", source % (".sizeof..y", 0), compiler="as"))

    def test_relocations_of_indirect_functions(self):
        """Without such functions there are none."""
        strong = self.made("start", INDIRECT.replace("[] __attribute__((weak))", "[]"))
        which = self.made("which", "int which(void) { return 41; }")
        line = self.refusal("UNDEFINED_NAME", strong, which)
        self.assertRegex(
            line,
            "ld defines (__rela_iplt_start|__rela_iplt_end) as the (beginning|end) of the"
            r" relocations of indirect functions, and elfmap does not: define \1 in one more object"
            " as an absolute symbol, with the value 0, as its other end: there are none",
        )
        source = "".join(
            f".globl __rela_iplt_{it}\n__rela_iplt_{it} = 0\n" for it in ("start", "end")
        )
        files = strong, which, self.made("none", source, compiler="as")
        self.assertClean(*files)
        self.assertEqual((self.program(*files), self.program_of_ld(strong, which)), (41, 41))
        # Of WEAK names both are 0, and ld's are the same too.
        files = self.made("start", INDIRECT), which
        self.assertClean(*files)
        self.assertEqual((self.program(*files), self.program_of_ld(*files)), (41, 41))

    def assigned(self, *words):
        """The names that the script of an ld assigns."""
        script = subprocess.run([*words, "--verbose"], check=True, capture_output=True, text=True)
        without_comments = re.sub(r"/\*.*?\*/", "", script.stdout, flags=re.S)
        return {it.encode() for it in re.findall(r"([A-Za-z_][\w$]*) = ", without_comments)}

    def test_names_of_the_scripts(self):
        """What the scripts of ld assign for a machine, the package knows, and of addresses nothing
        else but that of the ELF header."""
        names = {it: self.assigned(ld) for it, ld in LINKERS.items() if shutil.which(ld)}
        self.assertIn(b"__preinit_array_start", names[62])
        self.assertEqual(self.assigned("ld", "-static"), names[62])
        every = {*_linker_names._ADDRESSES, *_linker_names._NOT_LOADED}
        every = every.union(*_linker_names._OF_MACHINES.values(), *names.values())
        every |= {b"__rel_iplt_start", b"__rel_iplt_end"}
        for machine, own in names.items():
            known = {it for it in every if _linker_names.linker_name(it, machine)}
            self.assertEqual(known, own | {b"__ehdr_start"}, machine)

    def test_default_versions(self):
        """ld takes foo@@V1 for foo and foo@V1; foo@V1 is no default version."""
        weak = self.made(
            "weak",
            EXIT
            + "int foo(void) __attribute__((weak)); void _start(void) { leave(foo ? foo() : 1); }",
        )
        version = 'int real(void) { return 42; } __asm__(".symver real, foo%sV1");'
        default = self.made("default", version % "@@")
        (line,) = self.assertWarned(["VERSIONED_NAME"], weak, default)
        self.assertAt(line, "weak.o", "foo")
        self.assertIn(" foo, which ld defines as foo@@V1; ", line)
        self.assertEqual((self.program(weak, default), self.program_of_ld(weak, default)), (1, 42))
        other = self.made("other", version % "@")
        self.assertClean(weak, other)
        self.assertEqual((self.program(weak, other), self.program_of_ld(weak, other)), (1, 1))
        # Of one version the same.
        source = ".globl _start\n_start: ret\n.weak own\n.symver own, foo@V%d\n.quad own\n"
        (line,) = self.assertWarned(
            ["VERSIONED_NAME"], self.made("first", source % 1, compiler="as"), default
        )
        self.assertIn(" foo@V1, which ld defines as foo@@V1; ", line)
        self.assertClean(self.made("second", source % 2, compiler="as"), default)
        # What the advice says.
        plain = self.made("plain", "int foo(void) { return 42; }")
        self.assertClean(weak, plain)
        self.assertEqual(self.program(weak, plain), 42)
        strong = self.made("strong", Path("weak.c").read_text().replace("weak", "noinline"))
        line = self.refusal("UNDEFINED_NAME", strong, default)
        self.assertIn("ld takes foo@@V1 of default.o for foo, and elfmap does not: compile", line)
        self.assertNotIn(".symver", self.refusal("UNDEFINED_NAME", strong, other))
        self.assertClean(strong, plain)

    def test_a_reference_of_no_field(self):
        """Nothing of the program depends on it: the section is of no segment."""
        source = (
            '.section .note,"",@progbits\n.weak _end\n.quad _end\n'
            ".text\n.globl _start\n_start: ret\n"
        )
        self.assertClean(self.made("start", source, compiler="as"))


class RuleTest(PreflightCase):
    def bytes_of(self, files, rules):
        """The relocated bytes of the first section of file 0, which is at 0x400000."""
        lines = elfmap.map([Path(it).read_bytes() for it in files], rules).splitlines()
        return next(bytes.fromhex(it.split()[3]) for it in lines if it.startswith("bytes 0 0 "))

    def bytes_of_ld(self, files):
        subprocess.run(["ld", "-Ttext=0x400000", *files, "-o", "linked"], check=True)
        subprocess.run(["objcopy", "-O", "binary", "-j", ".text", "linked", "text"], check=True)
        return Path("text").read_bytes()

    def test_none_for_a_call(self):
        files = self.made("start", CALLER), self.made("put", CALLEE)
        right = Path(X86_64).read_text()
        wrong = right.replace("\n4 pc 4 signed\n", "\n4 none 4 signed\n")
        Path("none.rules").write_text(wrong)
        (line,) = self.assertWarned(["FIELD_UNCHANGED"], *files, rules="none.rules")
        relocated = subprocess.run(
            ["readelf", "-rW", "start.o"], check=True, capture_output=True, text=True
        ).stdout
        # Before it is the address of a variable.
        first = re.search(r"0x(\w+) contains 3 entries:\n.*\n.*_32 .*\n0*(\w+) .*PLT32", relocated)
        self.assertTrue(line.startswith(f"start.o: offset {int(first[1], 16) + 24:#x}: "), line)
        self.assertRegex(line, rf"of symbol \d put, at 0x{first[2]} of section 1 \.text")
        self.assertIn(
            "of type 4 (R_X86_64_PLT32), and 1 more of this type; its rule is `4 none 4 signed`; ",
            line,
        )
        self.assertTrue(
            line.endswith("the rule file needs the line `4 pc 4 signed`, as in rules/x86-64.rules"),
            line,
        )
        self.assertClean(*files)
        ld = self.bytes_of_ld(files)
        self.assertTrue(ld.startswith(self.bytes_of(files, right)))
        unchanged = self.bytes_of(files, wrong)
        at = int(first[2], 16)
        # The call is one of the byte after it.
        self.assertEqual(unchanged[at : at + 4], bytes(4))
        self.assertNotEqual(ld[at : at + 4], bytes(4))

    def test_none_for_what_is_none(self):
        source = ".globl _start\n_start: ret\n.reloc _start, R_X86_64_NONE, _start\n"
        self.assertClean(self.made("start", source, compiler="as"))
        Path("none.rules").write_text("0 none 8 wrap\n")
        self.assertClean("start.o", rules="none.rules")

    def test_another_form_or_width(self):
        files = self.made("start", CALLER), self.made("put", CALLEE)
        for line in ("4 abs 4 wrap", "4 pc 2 wrap"):
            text = Path(X86_64).read_text().replace("\n4 pc 4 signed\n", f"\n{line}\n")
            Path("other.rules").write_text(text)
            (found,) = self.assertWarned(["FIELD_CHANGED_OTHERWISE"], *files, rules="other.rules")
            self.assertIn(f"; its rule is `{line}`; ", found)
            self.assertIn("needs the line `4 pc 4 signed`, as in rules/x86-64.rules", found)
        # What a field admits is for the user to say.
        text = (
            Path(X86_64).read_text().replace("\n4 pc 4 signed\n", "\n4 pc 4 wrap\n4 none 1 wrap\n")
        )
        Path("wrap.rules").write_text(text)
        self.assertClean(*files, rules="wrap.rules")

    def test_rules_of_another_machine(self):
        """Those of RISC-V for an object of x86-64, of which both have kinds 1 and 2."""
        source = ".globl _start\n_start: ret\n.quad _start\n.data\n.long _start - ., 0\n"
        start = self.made("start", source, compiler="as")
        of_riscv = str(RULES / "riscv64.rules")
        lines = self.assertWarned(["FIELD_CHANGED_OTHERWISE"] * 2, start, rules=of_riscv)
        self.assertIn("needs the line `1 abs 8 wrap`, as in rules/x86-64.rules", lines[0])
        self.assertIn("needs the line `2 pc 4 signed`, as in rules/x86-64.rules", lines[1])
        of_aarch64 = str(RULES / "aarch64.rules")
        line = self.refusal("NO_RULE", start, rules=of_aarch64)
        self.assertIn("needs the line `1 abs 8 wrap`, as in rules/x86-64.rules", line)

    def test_kind_0_of_any_machine(self):
        """It changes nothing, as each supplement has it: also of a machine that rules/ has no line
        for."""
        source = ".globl _start\n_start: ret\n.quad 0\n.reloc _start + 1, R_X86_64_NONE, _start\n"
        content = bytearray(Path(self.made("start", source, compiler="as")).read_bytes())
        for machine in (62, 224, 247):
            content[18:20] = machine.to_bytes(2, "little")
            Path("start.o").write_bytes(content)
            Path("own.rules").write_text("0 none 1 wrap\n")
            self.assertClean("start.o", rules="own.rules")
            Path("own.rules").write_text("0 abs 8 wrap\n")
            (line,) = self.assertWarned(["FIELD_CHANGED_OTHERWISE"], "start.o", rules="own.rules")
            self.assertRegex(line, "needs the line `0 none [18] wrap`")

    def test_kinds_that_are_not_applied(self):
        """No byte of a section that is not loaded is relocated."""
        Path("none.rules").write_text(
            "2 pc 4 signed\n4 pc 4 signed\n10 abs 4 unsigned\n1 none 8 wrap\n"
        )
        files = self.made("start", CALLER, "-g"), self.made("put", CALLEE, "-g")
        self.assertClean(*files, rules="none.rules")

    def test_relocations_of_a_group_that_is_dropped(self):
        """The relocations of .text are in a group of which only the first one is kept."""
        made = Made(
            text(),
            symbols(3, (1, 0x22, 1)),
            (b".strtab", 3, b"\0_start\0", {}),
            (b".group", 17, b"\1\0\0\0\5\0\0\0", dict(link=2, info=1, entsize=4)),
            (*relocations(2, 1)[:3], {**relocations(2, 1)[3], "flags": 0x200}),
        )
        content = bytes(made.with_field(1, "flags", 6))
        self.put(a__o=content, b__o=content)
        Path("none.rules").write_text("2 none 4 wrap\n")
        (line,) = self.assertWarned(["FIELD_UNCHANGED"], "b.o", "a.o", rules="none.rules")
        self.assertTrue(line.startswith("b.o: "), line)

    def test_a_link_that_a_relocation_refuses(self):
        """The warnings are there all the same."""
        files = self.made("start", INDIRECT), self.made("which", WHICH)
        few = "".join(Path(X86_64).read_text().splitlines(True)[:4])
        Path("few.rules").write_text(few)
        status, lines = self.linked(*files, rules="few.rules")
        self.assertEqual((status, len(lines)), (1, 3))
        self.assertIn("NO_RULE (link 12): start.o, section ", lines[0])
        self.assertIn("INDIRECT_FUNCTION (warning 1): ", lines[1])

    def test_where_a_link_begins(self):
        """The last byte of each address is 0xff: at 0x400000, and 0x1000 after it."""
        source = """
        .globl _start
        _start: .long _start + 0xffbfffff - %d
        .data
        value: .long value + 0xffbfefff - %d
        """
        for first, second, is_clean in ((0, 0, True), (-1, 0, False), (0, -1, False)):
            start = self.made("start", source % (first, second), compiler="as")
            if is_clean:
                self.assertClean(start)
            else:
                self.refusal("VALUE_OUT_OF_RANGE", start)

    def test_other_machines(self):
        """An object by hand, whose relocation of type 1 is one of .text."""
        for machine, order, path, words in (
            (183, "<", "aarch64", "rules/aarch64.rules, which is for this machine, has no line"),
            (247, "<", "bpf", "none of the twelve files of rules/ is for this machine"),
            (8, "<", "mips", "no rule can be for MIPS of this byte order"),
        ):
            made = Made(
                text(),
                symbols(3, (1, 0x12, 1), order=order),
                (b".strtab", 3, b"\0_start\0", {}),
                relocations(2, 1),
                order=order,
            )
            content = bytearray(made.with_field(1, "flags", 6))
            content[18:20] = machine.to_bytes(2, "little")
            self.put(a__o=bytes(content))
            Path("none.rules").write_text("2 none 4 wrap\n")
            (line,) = self.assertWarned(["FIELD_UNCHANGED"], "a.o", rules="none.rules")
            self.assertIn(words, line, path)


class SectionTest(PreflightCase):
    def test_an_executable_stack(self):
        """gcc writes the code that calls a nested function onto the stack."""
        nested = """
        __attribute__((noinline)) static int call(int (*f)(int)) { return f(2); }
        int use(int x) { int add(int y) { return x + y; } return call(add); }
        """
        start = self.made("start", EXIT + "int use(int x); void _start(void) { leave(use(39)); }")
        files = start, self.made("use", nested)
        (line,) = self.assertWarned(["EXECUTABLE_STACK"], *files)
        self.assertRegex(
            line, r"use\.o: offset .*: section \d+ \.note\.GNU-stack: sh_flags, which is 0x4; "
        )
        self.assertIn("take the address of no nested function", line)
        at = int(re.search(r"offset 0x(\w+)", line)[1], 16)
        self.assertEqual(int.from_bytes(Path("use.o").read_bytes()[at : at + 8], "little"), 4)
        self.program(*files)
        self.assertEqual(self.program_of_ld(*files), 41)
        for path, is_asked in (("other", True), ("own", False)):
            shown = subprocess.run(
                ["readelf", "-lW", path], check=True, capture_output=True, text=True
            ).stdout
            self.assertEqual(re.search(r" GNU_STACK .* RWE ", shown) is not None, is_asked, shown)
        plain = nested.replace("int (*f)(int)", "int x").replace("f(2)", "x + 2")
        plain = plain.replace("int add(int y) { return x + y; } return call(add)", "return call(x)")
        files = start, self.made("use", plain)
        self.assertClean(*files)
        self.assertEqual(self.program(*files), 41)

    def test_a_stack_that_is_executable_by_an_option(self):
        source = ".globl _start\n_start: ret\n"
        self.assertWarned(
            ["EXECUTABLE_STACK"], self.made("start", source, "--execstack", compiler="as")
        )
        for option in ("--noexecstack", "--no-pad-sections"):
            self.assertClean(self.made("start", source, option, compiler="as"))

    def test_sections_of_different_flags(self):
        source = (
            EXIT
            + """
        extern const int __start_x[], __stop_x[];
        void _start(void) {
            long sum = 0;
            for (const int *it = __start_x; it < __stop_x; it++) sum += *it;
            leave(sum);
        }
        """
        )
        start = self.made("start", source)
        label = '.globl %s\n.section x,"a"\n%s:\n'
        first = self.made("before", label % (("__start_x",) * 2), compiler="as")
        last = self.made("after", label % (("__stop_x",) * 2), compiler="as")
        value = '__attribute__((section("x"))) %s int %s = %d;'
        constant = self.made("constant", value % ("const", "a", 3))
        variable = self.made("variable", value % ("", "b", 4))
        files = first, start, constant, variable, last
        lines = self.assertWarned(["DIVIDED_SECTION"] * 2, *files)
        by_name = {re.search(r"symbol \d+ (\w+)", it)[1]: it for it in lines}
        for name, words in (("__start_x", "beginning"), ("__stop_x", "end")):
            self.assertAt(by_name[name], "start.o", name)
            self.assertRegex(by_name[name], rf"the {words} of x, which is 2 sections, of flags ")
        self.assertIn("give all sections of the name the same flags", lines[0])
        self.assertEqual((self.program(*files), self.program_of_ld(*files)), (3, 7))
        files = first, start, constant, self.made("variable", value % ("const", "b", 4)), last
        self.assertClean(*files)
        self.assertEqual(self.program(*files), 7)
        # Of names that nobody defines the first warning is enough.
        weak = source.replace("__stop_x[]", "__stop_x[] __attribute__((weak))")
        weak = weak.replace("__start_x[],", "__start_x[] __attribute__((weak)),")
        both = constant, self.made("variable", value % ("", "b", 4))
        self.assertWarned(["NAME_OF_LINKER"] * 2, self.made("weak", weak), *both)
        self.made("variable", value % ("const", "b", 4))
        # One without a byte divides nothing; nor does one that no field refers to.
        empty = self.made("empty", '.section x,"aw"\n', compiler="as")
        self.assertClean(*files, empty)
        # ld does not join what has no bits with what has.
        zeros = self.made("zeros", '.section x,"aw",@nobits\n.long 0\n', compiler="as")
        self.assertClean(*files, zeros)
        self.assertEqual(self.program_of_ld(*files, zeros), 7)
        quiet = self.made("start", EXIT + "void _start(void) { leave(0); }")
        self.assertClean(first, quiet, constant, self.made("variable", value % ("", "b", 4)), last)

    def test_a_gap_between_parts_of_a_function(self):
        """ld fills it with instructions that do nothing."""
        first = '.globl _start\n.section %s,"ax"\n_start: nop\n'
        empty = '.section %s,"ax"\n.balign 2\n'
        second = '.section %s,"ax"\n%s\nmov $60, %%eax\nmov $5, %%edi\nsyscall\n'
        for name in (".init", ".fini"):
            files = (
                self.made("first", first % name, compiler="as"),
                self.made("empty", empty % name, compiler="as"),
                self.made("second", second % (name, ".balign 16"), compiler="as"),
            )
            (line,) = self.assertWarned(["GAP_IN_CODE"], *files)
            self.assertRegex(
                line, rf"^second\.o: .* section \d+ {name}, after a gap of 0xf bytes; "
            )
            self.assertEqual(self.program_of_ld(*files), 5)
            self.assertNotEqual(self.program(*files), 5)
            at = int(re.search(r"offset 0x(\w+)", line)[1], 16)
            self.assertEqual(
                int.from_bytes(Path("second.o").read_bytes()[at : at + 8], "little"), 16
            )
            # What the advice says.
            for filled, alignment in (("", ""), (".skip 15, 0x90\n", ".balign 16")):
                files = (
                    self.made("first", first % name + filled, compiler="as"),
                    self.made("second", second % (name, alignment), compiler="as"),
                )
                self.assertClean(*files)
                self.assertEqual(self.program(*files), 5)
        # No part of any other function runs into another one.
        files = (
            self.made("first", first % ".text.x", compiler="as"),
            self.made("second", second % (".text.x", ".balign 16"), compiler="as"),
        )
        self.assertClean(*files)

    def test_a_gap_that_ld_fills_with_zeros_too(self):
        """As for RISC-V."""
        source = '.globl _start\n.section .init,"ax"\n.balign 16\n_start: nop\n'
        other = source.replace("_start", "other")
        files = self.made("a", source, compiler="as"), self.made("b", other, compiler="as")
        for machine, is_filled in ((62, True), (183, True), (243, False), (21, False)):
            for path in files:
                content = bytearray(Path(path).read_bytes())
                content[18:20] = machine.to_bytes(2, "little")
                Path(path).write_bytes(content)
            if is_filled:
                self.assertWarned(["GAP_IN_CODE"], *files)
            else:
                self.assertClean(*files)


class RefusalTest(PreflightCase):
    """Each refusal, and the option or command that avoids it."""

    def start(self):
        return self.made("start", EXIT + "void _start(void) { leave(0); }")

    def test_unique_symbols(self):
        source = "inline int next() { static int it; return it++; }\nint use() { return next(); }\n"
        start = self.start()
        flags = "-fno-exceptions"
        use = self.made("use", source, flags, compiler="g++")
        line = self.refusal("BAD_SYMBOL", start, use)
        self.assertAt(line, "use.o", "_ZZ4nextvE2it")
        self.assertIn("_ZZ4nextvE2it is GNU_UNIQUE, ", line)
        self.assertIn("compile with -fno-gnu-unique", line)
        self.assertClean(start, self.made("use", source, flags, "-fno-gnu-unique", compiler="g++"))

    def test_frames_of_a_group_that_is_dropped(self):
        source = (
            "void f(); inline int next(int it) { f(); return it + 1; }\n"
            "int use%d(int it) { return next(it); }\n"
        )
        started = (
            EXIT + 'void f(void) __asm__("_Z1fv"); void f(void) {}\nvoid _start(void) { leave(0); }'
        )
        start = self.made("start", started)

        def files(*flags):
            return [
                start,
                *(self.made(f"use{it}", source % it, *flags, compiler="g++") for it in (1, 2)),
            ]

        every = files("-O0", "-fno-exceptions", "-fasynchronous-unwind-tables")
        line = self.refusal("UNPLACED", *every)
        self.assertIn(
            ".eh_frame refers to a function of a group that an earlier file has already", line
        )
        self.assertIn("-fno-asynchronous-unwind-tables, and C++ with -fno-exceptions too", line)
        # With exceptions there are tables of frames all the same.
        self.refusal("UNPLACED", *files("-O0", "-fexceptions"))
        self.assertClean(*files("-O0", "-fno-exceptions"))
        # What the tables refer to is in no group.
        for own in ('"",@progbits', '"MS",@progbits,1'):
            frames = f".section .own,{own}\nnote: .quad 0\n"
            frames += '.section .eh_frame,"a"\n.quad note\n'
            line = self.refusal("UNPLACED", self.start(), self.made("note", frames, compiler="as"))
            self.assertNotIn("-fno-asynchronous-unwind-tables", line)

    def test_a_global_offset_table(self):
        source = (
            EXIT
            + "extern int far; int *where(void) { return &far; }\nvoid _start(void) { leave(0); }"
        )
        far = self.made("far", "int far;")
        options = (
            "compile with -fno-pic, without -fno-plt, and with -mcmodel=small, kernel or large"
        )
        files = self.made("start", source, "-fPIC"), far
        # The assembler refers to the table by its name.
        line = self.refusal("UNDEFINED_NAME", *files)
        self.assertIn("_GLOBAL_OFFSET_TABLE_: the code is compiled for a global offset table", line)
        self.assertIn(options, line)
        name = "_GLOBAL_OFFSET_TABLE_"
        table = self.made("table", f".globl {name}\n{name} = 0\n", compiler="as")
        large = self.made("large", source.replace("_start", "other"), "-fPIC", "-mcmodel=large")
        for it, kind in ((files[0], "REX_GOTPCRELX"), (large, "GOTPC64")):
            line = self.refusal("NO_RULE", it, far, table, entry="where")
            self.assertIn(f"R_X86_64_{kind} is by a global offset table, which elfmap", line)
            self.assertIn(options, line)
            self.assertNotIn("none", line.partition("; take the file")[0])
        for model in ("small", "kernel", "large"):
            self.assertClean(self.made("start", source, f"-mcmodel={model}"), far)

    def test_a_call_by_the_global_offset_table(self):
        """Also without -fpic."""
        start = self.made("start", "int get(void); int _start(void) { return get() + 1; }")
        get = self.made("get", "int get(void) { return 1; }")
        self.assertClean(start, get)
        for compiler, flags, name, words in (
            ("gcc", [], "UNDEFINED_NAME", "_GLOBAL_OFFSET_TABLE_: the code is compiled for a"),
            ("clang", ["-fno-addrsig"], "NO_RULE", "R_X86_64_GOTPCRELX is by a"),
        ):
            if shutil.which(compiler):
                source = Path("start.c").read_text()
                start = self.made("start", source, "-fno-plt", *flags, compiler=compiler)
                line = self.refusal(name, start, get)
                self.assertIn(f"{words} global offset table", line)
                self.assertIn("compile with -fno-pic, without -fno-plt", line)
                self.assertClean(self.made("start", source, *flags, compiler=compiler), get)

    @unittest.skipUnless(shutil.which("clang"), "clang is not installed")
    def test_a_global_offset_table_of_other_machines(self):
        """The option is one of their compilers too. After it no table is left; but what is in their
        instructions no rule describes."""
        source = "extern int far; int *where(void) { return &far; }"
        for machine, rules, kind in (
            ("aarch64", "aarch64", "R_AARCH64_ADR_GOT_PAGE"),
            ("riscv64", "riscv64", "R_RISCV_GOT_HI20"),
            ("s390x", "s390x", "R_390_GOTENT"),
        ):
            rules = str(RULES / f"{rules}.rules")
            target = f"--target={machine}-linux-gnu"

            def made(name, text, *flags):
                Path(f"{name}.c").write_text(text)
                own = "-O1", "-c", "-fno-addrsig", NO_FRAMES
                words = ["clang", target, *own, *flags, f"{name}.c"]
                subprocess.run(words, check=True)
                return f"{name}.o"

            far = made("far", "int far;")
            line = self.refusal(
                "NO_RULE", made("where", source, "-fPIC"), far, rules=rules, entry="where"
            )
            table = "a global offset table, which elfmap does not make: compile with -fno-pic, and"
            self.assertIn(f"{kind} is by {table} without -fno-plt; ", line)
            plain = made("where", source, "-fno-pic")
            line = self.refusal("NO_RULE", plain, far, rules=rules, entry="where")
            self.assertNotIn("global offset table", line)

    def test_variables_of_threads(self):
        start = self.start()
        line = self.refusal("TLS", start, self.made("own", "__thread int errno = 1;"))
        self.assertIn(".tdata: variables of threads are not linked, nor is `errno`", line)
        line = self.refusal(
            "BAD_SYMBOL",
            start,
            self.made("other", "extern __thread int errno; int get(void) { return errno; }"),
        )
        self.assertIn("errno: variables of threads are not linked", line)
        self.assertClean(start, self.made("plain", "int errno; int get(void) { return errno; }"))

    @unittest.skipUnless(Path("/usr/lib/klibc/lib/libc.a").exists(), "klibc is not installed")
    def test_a_library_without_variables_of_threads(self):
        """klibc, which the advice names: no symbol of it is one of a thread."""
        listed = subprocess.run(
            ["readelf", "-sW", "/usr/lib/klibc/lib/libc.a"],
            check=True,
            capture_output=True,
            text=True,
        ).stdout
        self.assertIn(" errno\n", listed)
        self.assertNotRegex(listed, r" TLS +(LOCAL|GLOBAL|WEAK) ")

    @unittest.skipUnless(Path("/usr/lib/klibc/lib/libc.a").exists(), "klibc is not installed")
    def test_errno(self):
        """That of the GNU C library is one of a thread; with klibc's the same code links."""
        source = "#include <errno.h>\nint get(void) { return errno; }"
        start = self.start()
        line = self.refusal("UNDEFINED_NAME", start, self.made("get", source))
        self.assertIn("__errno_location: `errno` is one of a thread: compile for a C library", line)
        subprocess.run(["ar", "x", "/usr/lib/klibc/lib/libc.a", "globals.o"], check=True)
        of_klibc = "-nostdinc", "-isystem", "/usr/lib/klibc/include"
        self.assertClean(start, self.made("get", source, *of_klibc), "globals.o")

    def test_code_for_lto(self):
        start = self.made("start", EXIT + "int get(void); void _start(void) { leave(get()); }")
        source = "int get(void) { return 3; }"
        status, lines = self.linked(
            start, self.made("get", source, "-flto", "-fno-fat-lto-objects")
        )
        self.assertEqual((status, lines[-1].endswith("; they do not link")), (1, True))
        self.assertIn("CODE_FOR_LTO (warning 5): symbol 2 __gnu_lto_slim; ", lines[0])
        self.assertIn("compile it without `-flto`, or with `-ffat-lto-objects`", lines[0])
        self.assertAt(lines[0], "get.o", "__gnu_lto_slim")
        self.assertIn("UNDEFINED_NAME (link 9): undefined name get, needed by start.o", lines[1])
        self.assertIn(
            "get.o has no code but that for LTO: compile it without -flto, or with"
            " -ffat-lto-objects",
            lines[1],
        )
        # Without a word: what is not called is not missed.
        self.assertWarned(["CODE_FOR_LTO"], self.start(), "get.o")
        self.made("start", EXIT + "int get(void); void _start(void) { leave(get()); }")
        for flags in (["-flto", "-ffat-lto-objects"], ["-flto", "-fno-lto"]):
            self.assertClean(start, self.made("get", source, *flags))
        self.assertClean(start, self.made("get", source))

    def test_patchable_functions(self):
        source = EXIT + "void _start(void) { leave(0); }"
        line = self.refusal(
            "LINK_ORDER", self.made("start", source, "-fpatchable-function-entry=2")
        )
        self.assertIn(
            "__patchable_function_entries is by -fpatchable-function-entry: compile without that"
            " option",
            line,
        )
        self.assertClean(self.made("start", source))
        self.assertClean(self.made("start", source, "-fpatchable-function-entry=0"))
        xray = '.globl _start\n_start: ret\n.section xray_instr_map,"ao",@progbits,.text\n.quad 1\n'
        line = self.refusal("LINK_ORDER", self.made("xray", xray, compiler="as"))
        self.assertIn("xray_instr_map is by -fxray-instrument: compile without that option", line)

    @unittest.skipUnless(shutil.which("clang"), "clang is not installed")
    def test_instrumented_functions_of_clang(self):
        source = EXIT + "void _start(void) { leave(0); }"
        options = "-fno-addrsig", "-fxray-instrument", "-fxray-instruction-threshold=1"
        line = self.refusal("LINK_ORDER", self.made("start", source, *options, compiler="clang"))
        self.assertRegex(line, r"xray_\w+ is by -fxray-instrument: compile without that option")
        self.assertClean(self.made("start", source, "-fno-addrsig", compiler="clang"))

    def test_names_of_sections(self):
        source = EXIT + "extern int %s[]; void _start(void) { leave((long) %s); }"
        for name, words in (
            (
                "__start_x",
                "as the beginning of x, and elfmap does not: define __start_x as a label in a"
                " section x",
            ),
            (
                "__stop_x",
                "as the end of x, and elfmap does not: define __stop_x as a label in a section x",
            ),
            (
                "_end",
                "as the end of the program, and elfmap does not: define _end in one more object",
            ),
        ):
            start = self.made("start", source % (name, name))
            line = self.refusal("UNDEFINED_NAME", start)
            self.assertIn(f"ld defines {name} {words}", line)
            # What the advice says.
            of_x = f'.globl {name}\n.section x,"aw"\n{name}:\n'
            own = of_x if "_x" in name else f".globl {name}\n{name} = 0x402000\n"
            files = start, self.made("end", own, compiler="as")
            self.assertClean(*files)
            self.assertEqual(self.program(*files), 0)

    def test_groups_without_a_name(self):
        """As the macros of <sys/sdt.h> of SystemTap write them."""
        probe = (
            '.globl _start\n_start: nop\n.section .note.stapsdt,"?","note"\n.balign 4\n'
            "1: .quad _start, _.stapsdt.base\n"
            '.section .stapsdt.base,"aG","progbits",.stapsdt.base,comdat\n'
            ".weak _.stapsdt.base\n.hidden _.stapsdt.base\n_.stapsdt.base: .space 1\n"
        )
        line = self.refusal("EMPTY_SIGNATURE", self.made("a b", probe, compiler="as"))
        self.assertIn("probes of SystemTap (<sys/sdt.h>) have such a group", line)
        command = re.search(r"strip it: (objcopy .* 'a b\.o'); ", line)[1]
        subprocess.run(command, shell=True, check=True)
        self.assertClean("a b.o")
        other = probe.replace("stapsdt.base", "other")
        line = self.refusal("EMPTY_SIGNATURE", self.made("other", other, compiler="as"))
        self.assertIn("give the group another name than .other", line)
        named = other.replace('"progbits",.other,', '"progbits",other,')
        self.assertClean(self.made("other", named, compiler="as"))

    def test_the_address_significance_table(self):
        made = Made(
            text(),
            symbols(3, (1, 0x12, 1)),
            (b".strtab", 3, b"\0_start\0", {}),
            (b".llvm_addrsig", 0x6FFF4C03, b"\1", dict(link=2)),
        )
        self.put(a__o=bytes(made.with_field(1, "flags", 6)))
        line = self.refusal("WRONG_KEPT_LINK", "a.o")
        self.assertIn(
            "compile with -fno-addrsig, or strip it: objcopy --remove-section=.llvm_addrsig a.o",
            line,
        )

    @unittest.skipUnless(shutil.which("clang"), "clang is not installed")
    def test_the_address_significance_table_of_clang(self):
        source = EXIT + "void _start(void) { leave(0); }"
        line = self.refusal(
            "WRONG_KEPT_LINK", self.made("start", source, "-faddrsig", compiler="clang")
        )
        command = re.search(r"strip it: (objcopy [^;]*\.o)", line)[1]
        self.assertClean(self.made("start", source, "-fno-addrsig", compiler="clang"))
        self.made("start", source, "-faddrsig", compiler="clang")
        subprocess.run(command.split(), check=True)
        self.assertClean("start.o")
        self.made("start", source, "-flto", compiler="clang")
        self.assertIn(
            "it is LLVM bitcode: compile without -flto", self.refusal("WRONG_MAGIC", "start.o")
        )
        self.assertClean(self.made("start", source, "-fno-addrsig", "-fno-lto", compiler="clang"))

    def test_calls_of_compilers(self):
        for source, flags, words in (
            (
                "int f(int it) { char a[64]; __builtin_memset(a, it, 64); return a[it]; }",
                "-fstack-protector-all",
                "compile it with -fno-stack-protector",
            ),
            (
                "int f(int *it) { return it[1]; }",
                "-fsanitize=undefined",
                "compile it without -fsanitize=undefined",
            ),
            (
                "int f(int *it) { return it[1]; }",
                "-fsanitize=address",
                "compile it without -fsanitize=address",
            ),
            (
                "int g(void); int f(void) { return g() + 1; } int g(void) { return 1; }",
                "-pg",
                "compile it without -pg",
            ),
            (
                "int f(int it) { return it + 1; }",
                "--coverage",
                "compile it without --coverage",
            ),
            (
                "int f(int *it) { return it[1]; }",
                "-fsanitize=thread",
                "compile it without -fsanitize=thread",
            ),
            (
                "int f(int it) { return it + 1; }",
                "-finstrument-functions",
                "compile it without -finstrument-functions",
            ),
            (
                "int f(int it) { return it + 1; }",
                "-fsanitize-coverage=trace-pc",
                "compile it without -fsanitize-coverage",
            ),
        ):
            line = self.refusal("UNDEFINED_NAME", self.start(), self.made("f", source, flags))
            self.assertIn(words, line)
            self.assertClean(self.start(), self.made("f", source))

    def test_counters_of_threads(self):
        """Of the variables of threads that gcc refers to by itself the option that does so."""
        source = "int f(int it) { return it + 1; }"
        made = self.made("f", source, "-fprofile-generate")
        line = self.refusal("BAD_SYMBOL", self.start(), made)
        self.assertIn("__gcov_indirect_call: the code counts its calls", line)
        self.assertIn("compile it without --coverage and -fprofile-generate", line)
        self.assertNotIn("thread_local", line)
        self.assertClean(self.start(), self.made("f", source))

    @unittest.skipUnless(shutil.which("clang"), "clang is not installed")
    def test_calls_of_clang(self):
        source = "int f(int (*it)(void)) { return it() + 1; }"
        for option in ("--coverage", "-fprofile-generate"):
            made = self.made("f", source, "-fno-addrsig", option, compiler="clang")
            line = self.refusal("UNDEFINED_NAME", self.start(), made)
            self.assertIn(f"the code counts its calls: compile it without {option}", line)
            made = self.made("f", source, "-fno-addrsig", compiler="clang")
            self.assertClean(self.start(), made)

    def test_calls_of_compilers_of_cpp(self):
        """Each with the option that the hint names, and without."""
        guarded = "int first(); int next() { static int it = first(); return it; }"
        cleaned = "struct A { ~A(); }; void f(); void g() { A it; f(); }"
        names = "_Z5firstv", "_Z1fv", "_ZN1AD1Ev"
        label = "".join(f".globl {it}\n{it}: ret\n" for it in names)
        start = self.made("start", ".globl _start\n_start: ret\n" + label, compiler="as")
        for source, flags, words, option in (
            (
                guarded,
                ("-fno-exceptions",),
                "compile with -fno-threadsafe-statics",
                "-fno-threadsafe-statics",
            ),
            (cleaned, (), "compile it with -fno-exceptions", "-fno-exceptions"),
        ):
            line = self.refusal(
                "UNDEFINED_NAME", start, self.made("f", source, *flags, compiler="g++")
            )
            self.assertIn(words, line)
            self.assertClean(start, self.made("f", source, *flags, option, compiler="g++"))

    def test_calls_of_memory_functions(self):
        """gcc calls them also in code for no library."""
        source = (
            "struct Big { char it[1 << 20]; }; void f(struct Big *a, struct Big *b) { *a = *b; }"
        )
        files = self.start(), self.made("f", source)
        line = self.refusal("UNDEFINED_NAME", *files)
        name = re.search(r"undefined name (\w+), ", line)[1]
        self.assertIn(f"{name}: compilers call it by themselves", line)
        own = self.made("own", f".globl {name}\n{name}: ret\n", compiler="as")
        self.assertClean(*files, own)

    def test_calls_of_a_profiler_and_of_checked_buffers(self):
        called = "int g(void); int f(void) { return g() + 1; } int g(void) { return 1; }"
        copied = (
            "#include <string.h>\n"
            "char room[9]; void f(char *it, size_t n) { memcpy(room, it, n); }"
        )
        memcpy = self.made("memcpy", ".globl memcpy\nmemcpy: ret\n", compiler="as")
        for source, flags, words, options in (
            (called, ("-pg", "-mfentry"), "__fentry__: the code is compiled for a profiler", ()),
            (
                copied,
                ("-O2", "-fhosted", "-D_FORTIFY_SOURCE=2"),
                "__memcpy_chk: the code checks its buffers: compile it with -U_FORTIFY_SOURCE",
                ("-O2", "-fhosted", "-D_FORTIFY_SOURCE=2", "-U_FORTIFY_SOURCE"),
            ),
        ):
            start = self.start()
            line = self.refusal("UNDEFINED_NAME", start, self.made("f", source, *flags), memcpy)
            self.assertIn(words, line)
            self.assertClean(start, self.made("f", source, *options), memcpy)

    def test_class_32(self):
        source = "int f(void) { return 1; }"
        line = self.refusal("WRONG_CLASS", self.start(), self.made("f", source, "-m32"))
        self.assertIn("it is a file of class 32, as -m32 makes it: compile it with -m64", line)
        self.assertClean(self.start(), self.made("f", source, "-m64"))

    def test_each_file_is_checked(self):
        """Not only the first one that is refused."""
        first = self.made("first", "__thread int a = 1;")
        second = self.made("second", "__thread int b = 1;")
        self.put(archive__a=GNU, text=b"no ELF file")
        status, lines = self.linked(self.start(), second, first)
        self.assertEqual(
            (status, [it.split(": ")[0] for it in lines[:-1]]), (1, ["first.o", "second.o"])
        )
        status, lines = self.linked(self.start(), second, "archive.a", "text")
        self.assertEqual(
            [it.split(": ")[0] for it in lines[:-1]], ["archive.a", "second.o", "text"]
        )
        self.assertIn("it is an archive: ", lines[0])
        self.assertEqual(lines[-1], "3 findings in 3 of 4 ELF files; they do not link")

    def test_what_only_a_file_by_itself_breaks(self):
        """A section of threads in a group that is dropped is linked, in files that link."""
        group = '.section .g,"awG%s",@progbits,g,comdat\n.byte 1\n'
        start = self.made("start", ".globl _start\n_start: ret\n" + group % "", compiler="as")
        other = self.made("other", group % "T", compiler="as")
        self.assertClean(start, other)
        missing = self.made("missing", ".globl none\n.quad none\n", compiler="as")
        line = self.refusal("UNDEFINED_NAME", start, other, missing)
        self.assertTrue(line.startswith("missing.o: "), line)

    def test_rules_of_all_files(self):
        start = self.start()
        for words, name, place in (
            (["--base", "1"], "BAD_OPTIONS", "by the options and all files together"),
            (["--page", "0"], "BAD_OPTIONS", "by the options and all files together"),
            (["--entry", "none"], "NO_ENTRY", "the entry point none; "),
            (
                ["--base", "0xfffffffffffff000"],
                "ADDRESS_OVERFLOW",
                "by the options and all files together",
            ),
            (["--base", "0x100000000"], "", ""),
        ):
            if name:
                self.assertIn(place, self.refusal(name, start, more=words))
            else:
                self.assertClean(start, more=words)
        other = Made(text(), symbols(3, (1, 0x12, 1)), (b".strtab", 3, b"\0f\0", {}))
        for at, value in ((18, b"\xb7\0"), (48, b"\1")):
            self.put(other__o=other.with_bytes(at, value))
            line = self.refusal("MISMATCH", start, "other.o")
            self.assertTrue(line.startswith(f"other.o: offset {at:#x}: "), line)
        files = start, self.made("twice", "void _start(void) {}")
        line = self.refusal("TWO_DEFINITIONS", *files)
        self.assertAt(line, "twice.o", "_start")
        self.assertIn("start.o has it at symbol", line)
        line = self.refusal(
            "EXECUTABLE_TOO_LONG", start, more=["--page", "0x80000000", "--base", "0"]
        )
        self.assertIn("(link 0): the executable would be longer than 2^30 bytes", line)

    def test_an_object_that_would_be_too_long(self):
        """How long its own canonical layout is does not matter for a link."""
        self.put(long__o=TOO_LONG_OBJECT)
        missing = self.made("missing", ".globl none\n.quad none\n", compiler="as")
        line = self.refusal("UNDEFINED_NAME", missing, "long.o")
        self.assertTrue(line.startswith("missing.o: "), line)

    def test_values_out_of_range(self):
        source = (
            EXIT + "int far; int *where(void) { return &far; }\nvoid _start(void) { leave(0); }"
        )
        start = self.made("start", source)
        line = self.refusal("VALUE_OUT_OF_RANGE", start, more=["--base", "0x100000000"])
        self.assertRegex(line, r"relocation \d+, of symbol \d+ far, at 0x\w+ of section 1 \.text")


if __name__ == "__main__":
    unittest.main()
