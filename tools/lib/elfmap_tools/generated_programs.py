"""`tools/test generated-programs`: programs for Linux on x86-64, made by chance of one to three
objects, are linked by `elfmap link` and run: each ends by a system call, with the status that its
steps come to. The same seed makes the same programs; what went wrong is put into the current
folder, as generated-program-SEED-K.

A step adds to a register a number, a word of memory, what a pointer leads to, or the value of a
name, or adds the register to a word; then it goes to the next step, in another section, or another
file. So the status depends on where words, commons, weak and absolute names and groups that are in
two files come to, and on each relocated field. What is written is the executable of the reference
implementation, byte for byte, and `elfmap check` accepts it. Objects that went through `rewrite`,
or have lost their unneeded symbols, give the same executable."""

import os
import random
from dataclasses import dataclass

from .chance_files import Chance
from .reference import answer
from .suite import Tally, Test, by_chance
from .tree import PROGRAM, RULES, Options, answer_of, ending, read_bytes, run, wanted, write
from .tries import count_tries
from .workshop import Workshop

ABOUT = "programs of chance objects, linked and run"
ASSEMBLER = "x86_64-linux-gnu-as"
# Bases and pages, each so many times as it is taken in twenty programs. One has the larger page,
# for which the file has megabytes of zeros.
PLACES = [
    *[("0x400000", "0x1000")] * 12,
    *[("0x10000000", "0x1000")] * 7,
    ("0x10000000", "0x200000"),
]
# Of each section its flags and its type.
SECTIONS = {
    ".bss": '"aw", @nobits',
    ".data": '"aw", @progbits',
    ".rodata": '"a", @progbits',
    ".text": '"ax", @progbits',
    ".text.f": '"ax", @progbits',
}
# The kinds of words, each as often as it is taken.
KINDS = "data data rodata bss common abs weak nowhere group local pointer".split()

# The lines of a file in assembly.
Lines = list[str]


@dataclass
class Word:
    """A word of memory: the file that alone may name it, if any; what it holds after the steps so
    far; and whether they may change it."""

    home: Lines | None
    number: int
    is_changed: bool = True


def field(code: str, kind: str, name: str, addend: int = -4) -> Lines:
    """Code that ends with four bytes, and their relocation."""
    return [code, f".reloc . - 4, R_X86_64_{kind}, {name}{addend:+}"]


class Program:
    """A program while it is made. Edi, which becomes the status, adds up the steps."""

    def __init__(self, chance: Chance) -> None:
        self.chance = chance
        self.status = 0
        self.files = [Lines() for _ in range(chance.randrange(1, 4))]
        # The names of words, of what has a value without a word, and of pointers to words.
        self.words = dict[str, Word]()
        self.values = dict[str, int]()
        self.pointers = dict[str, str]()
        for k in range(chance.randrange(2, 9)):
            self.add_word(f"word{k}")
        steps = ["main", *(f"step{k}" for k in range(1, chance.randrange(2, 9)))]
        for own, following in zip(steps, [*steps[1:], ""]):
            self.add_step(own, following)

    def put(
        self, file: Lines, section: str, name: str, content: str = "", binding: str = ""
    ) -> None:
        """Puts a name and its content into one of a few sections of this name."""
        chance = self.chance
        file.append(f".section {section}, {SECTIONS[section]}, unique, {chance.randrange(3)}")
        file.append(f".balign {chance.choice((1, 1, 2, 4, 8, 16, 64))}")
        file.append(f".skip {chance.randrange(9)}")
        file.append(f".{binding or chance.choice(('globl', 'globl', 'weak'))} {name}")
        file.append(f"{name}: {content}")

    def seen(self, file: Lines) -> list[str]:
        """The words that a file may name."""
        return [name for name, it in self.words.items() if it.home is None or it.home is file]

    def add_word(self, name: str) -> None:
        """Adds a word, or a name or a pointer in place of one."""
        chance = self.chance
        file = chance.choice(self.files)
        number = chance.randrange(2**32)
        kind = chance.choice(KINDS)
        if kind == "abs":
            self.values[name] = number // 2
            file += [f".globl {name}", f"{name} = {self.values[name]}"]
        elif kind == "nowhere":
            self.values[name] = 0
            for other in self.files:
                other.append(f".weak {name}")
        elif kind == "pointer":
            for target in chance.sample(self.seen(file), min(1, len(self.seen(file)))):
                self.pointers[name] = target
                self.put(file, ".data", name, f".quad {target}")
        else:
            home = file if kind == "local" else None
            own_number = 0 if kind in ("bss", "common") else number
            self.words[name] = Word(home, own_number, is_changed=kind != "rodata")
            self.define_word(name, kind, file, number)

    def define_word(self, name: str, kind: str, file: Lines, number: int) -> None:
        """Defines a word in a file, or in several, of which all but one have another number."""
        chance = self.chance
        if kind == "common":
            for other in chance.sample(self.files, chance.randrange(1, len(self.files) + 1)):
                other.append(f".comm {name}, {chance.choice((4, 8))}, {chance.choice((1, 4, 16))}")
        elif kind == "weak":
            strong = chance.choice(self.files[:2])
            for other in self.files[:2]:
                if other is strong:
                    self.put(other, ".data", name, f".long {number}", "globl")
                else:
                    self.put(other, ".data", name, f".long {number ^ 0x55}", "weak")
        elif kind == "group":
            # The first file's is kept.
            for other, own_number in zip(self.files, (number, number ^ 0x55)):
                other.append(f'.section .data.once, "awG", @progbits, {name}, comdat')
                other.append(f".balign {chance.choice((4, 8))}")
                other += [f".weak {name}", f"{name}: .long {own_number}"]
        elif kind == "local":
            self.put(file, ".data", name, f".long {number}", "local")
        else:
            self.put(file, f".{kind}", name, ".skip 4" if kind == "bss" else f".long {number}")

    def add_step(self, own: str, following: str) -> None:
        """Adds a step, and how it goes to the next one, or ends the program."""
        chance = self.chance
        file = chance.choice(self.files)
        self.put(file, chance.choice((".text", ".text", ".text.f")), own)
        if own == "main":
            file.append("xorl %edi, %edi")
        self.add_work(file)
        if following:
            # A jump, or a call that never returns.
            code = chance.choice((".byte 0xe9, 0, 0, 0, 0", ".byte 0xe8, 0, 0, 0, 0"))
            file += field(code, chance.choice(("PC32", "PLT32")), following)
        else:
            file += ["movl $60, %eax", "syscall"]

    def add_work(self, file: Lines) -> None:
        """What a step does, and how it changes the status, or a word."""
        chance = self.chance
        seen = self.seen(file)
        kind = chance.choice(("number", "read", "read", "absolute", "store", "pointer", "value"))
        if kind in ("read", "absolute", "store") and seen:
            name = chance.choice(seen)
            word = self.words[name]
            number = word.number
            if kind == "store" and word.is_changed:
                file += field("addl %edi, 0(%rip)", "PC32", name)
                word.number = (number + self.status) % 2**32
                return
            form = chance.choice(("32", "32S"))
            if kind == "absolute":
                file += field("addl 0, %edi", form, name, 0)
            else:
                file += field("addl 0(%rip), %edi", "PC32", name)
        elif kind == "pointer" and self.pointers:
            name, target = chance.choice(list(self.pointers.items()))
            file += [*field("movq 0(%rip), %rax", "PC32", name), "addl (%rax), %edi"]
            number = self.words[target].number
        elif kind == "value" and self.values:
            name = chance.choice(list(self.values))
            addend = chance.randrange(1000)
            file += field("addl $0x11111111, %edi", "32", name, addend)
            number = self.values[name] + addend
        else:
            number = chance.randrange(2**32)
            file.append(f"addl ${number}, %edi")
        self.status = (self.status + number) % 2**32


def wrong_program(seed: int, k: int, folder: str) -> str:
    """What is wrong with program K."""
    chance = random.Random(f"{seed} {k}")
    made = Program(chance)
    (base, page) = chance.choice(PLACES)
    files = {f"{k}.o": b"" for k in range(len(made.files))}
    for name, lines in zip(files, made.files):
        source = write(f"{folder}/{name}.s", "\n".join([*lines, ""]))
        wanted(ASSEMBLER, source, "-o", f"{folder}/{name}")
        files[name] = read_bytes(f"{folder}/{name}")
    words = ["link", "--base", base, "--page", page, "--entry", "main", "--rules", RULES]
    ended = run(PROGRAM, *words, *files, folder=folder)
    by_reference = answer([*words, *files], {**files, RULES: read_bytes(RULES)})
    if ended.returncode or answer_of(ended) != by_reference:
        return f"link {ending(ended)}, or the reference implementation links it otherwise"
    shop = Workshop(folder)
    for others in (shop.rewritten([*files]), shop.stripped([*files])):
        changed = shop.changes(words, [*files], others)
        if changed:
            return changed
    program = write(f"{folder}/program", ended.stdout)
    if run(PROGRAM, "check", program).returncode:
        return "what is linked is refused"
    os.chmod(program, 0o755)
    status = run(program, timeout=10).returncode
    right = made.status & 0xFF
    return "" if status == right else f"it ends with {status}, and not with {right}"


@Test(
    "generated-programs",
    ABOUT,
    f"{ASSEMBLER} objcopy",
    "elfmap",
    alone=True,
    family="linked",
    options=by_chance(100, "programs"),
)
def try_generated_programs(tally: Tally, options: Options) -> None:
    count_tries(tally, options, "generated-program", wrong_program)
