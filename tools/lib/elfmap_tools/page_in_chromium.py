"""The page in chromium: what a person sees of sound and refused files, with a mouse, by keys alone,
and by a reader of the screen. Files of 1 MB whose names have half a MB each, and files of which
very much is to be said, do not hold it up. Files come while others are read, and the window
changes. Each way in which a script could send something fails. The picture in the manual is of this
page."""

import base64
import json
import os
import re
import time
from collections.abc import Callable, Iterator
from functools import partial
from itertools import accumulate

import generated

from .browser import Browser
from .page_picture import PICTURE, PICTURE_SIZE, sum_of_page
from .reference import RELA, File, edited
from .sending import IN_WORKER, SENDING, listening
from .shapes import Shape
from .suite import Tally
from .tree import PROGRAM, TOP, read_bytes, read_text, said, wanted, write
from .web_page import page
from .written_cases import cases_of

SYMBOLS = 1_000_000
MOST_MILLISECONDS = 200
LOAD = 1
GNU_STACK = 0x6474E551
# So many characters of a name are shown, and so many of a file. Nothing holds the page up for so
# long: a worker does the work. And what is pressed is done after so many seconds.
MOST_CHARACTERS = 200
MOST_SHOWN = 300_000
LONGEST_TASK = 500
MOST_SECONDS = 3
WATCH = """window.longest = 0;
new PerformanceObserver((it) => it.getEntries().forEach(({ duration }) => {
    window.longest = Math.max(window.longest, duration);
})).observe({ type: "longtask" })"""
NAME = 500_000
# Files of long names, each with the tab that shows them, and what is said of its first rows.
LONG_FILES = {
    "symbols": (Shape(name=NAME, symbols=20_000), "Symbols 1 to 100 of 20,002"),
    "sections": (Shape(name=NAME, sections=7_600, long="both"), ""),
    "relocations": (
        Shape(name=NAME, symbols=16, relocations=5_000, long="both"),
        "Relocations 1 to 1 of 1",
    ),
}
# Names of about as many characters as are shown, of one byte, of two, of which the last is cut in
# two, and of no text.
NAMES = [
    b"n" * 199,
    b"n" * 200,
    b"n" * 201,
    "é".encode() * 200,
    "é".encode() * 201,
    b"n" + "é".encode() * 600,
    b"\xff" * 200,
    b"\xff" * 201,
    b"\xef\xbb\xbfn",
    b"\\x1b\x1b",
]
# Longer than what is shown at once of a name that somebody wants to see, with a character in two
# parts at the end of the first part, which is a byte order mark.
LONGEST_NAME = "n" + "é" * 524_287 + "\ufeff" + "é" * 75_000
SOUND = "Sound: this file keeps all 33 rules of an ELF-64 file."
ROWS = "[...document.querySelectorAll('#table tbody tr')]"
# What the tree for readers of the screen has: names by their roles.
READ = {
    "heading": ("Verdict", "Map of the file", "Tables", "Bytes"),
    "tablist": ("Kinds of tables",),
    "searchbox": ("Filter",),
    "columnheader": ("name",),
    "group": ("The parts of the file, to scale",),
}
PRESSED = ("button", "tab", "link", "textbox", "searchbox", "combobox")
# Shows the first bytes.
TO_FIRST_BYTES = (
    "document.querySelector('#offset').value = '0'; document.querySelector('#go').click()"
)
# A header of no sections and no segments; a file that begins with it, and is read for longer than
# the page waits before it draws again in a window of another size; and a file of which the page has
# the verdict at once, and the findings of tables much later.
HEADER_ALONE = generated.File().bytes()[:64]
HEADER_ALONE = HEADER_ALONE[:40] + bytes(8) + HEADER_ALONE[48:60] + bytes(4)
LARGE = 1 << 29
# A part of the map: what has it, its length and its offset.
PART = re.compile(r"(.*): ([\d,]+) bytes? from (0x[0-9a-f]+)")
# What the page says, as it says it.
WATCH_WORDS = """window.said = [];
window.watch ??= new MutationObserver(() => {
    window.said.push(document.querySelector('#said').textContent, document.title);
});
window.watch.observe(document.querySelector('#said'), { childList: true })"""


def stripped_program(room: str) -> bytes:
    """A program of code, constants and data, cut after its segments, with a header that names no
    section headers."""
    sections = "".join(f".section {it}\n.fill 2000\n" for it in ('.rodata,"a"', ".data"))
    code = ".text\n.globl _start\n_start: .fill 2000\n"
    source = write(f"{room}/program.s", sections + code)
    wanted("cc", "-nostdlib", "-static", source, "-o", f"{room}/program")
    file = File(read_bytes(f"{room}/program"))
    end = max(it.p_offset + it.p_filesz for it in map(file.segment, range(file.segment_count)))
    return edited(file.bytes, ("e_shoff", 0), ("e_shnum", 0), ("e_shstrndx", 0))[:end]


def parts_by_segments(content: bytes) -> list[tuple[str, int, int]]:
    """What the map has to show of a file without sections: header, program headers, what segments
    load, and gaps; lengths and offsets."""
    file = File(content)
    table = range(file.header.e_phoff, file.header.e_phoff + 56 * file.segment_count)
    owners = ["a gap: no record says whose these bytes are"] * len(content)
    for k in reversed(range(file.segment_count)):
        it = file.segment(k)
        flags = ""
        for letter, bit in zip("RWX", (4, 2, 1)):
            flags += letter if it.p_flags & bit else "-"
        if it.p_type == LOAD:
            owner = f"segment {k}, {flags}, in no section"
            owners[it.p_offset : it.p_offset + it.p_filesz] = [owner] * it.p_filesz
    owners[:64] = ["the ELF header"] * 64
    owners[table.start : table.stop] = ["the program header table"] * len(table)
    starts = [at for at in range(len(content)) if at == 0 or owners[at] != owners[at - 1]]
    return [(owners[at], end - at, at) for at, end in zip(starts, [*starts[1:], len(content)])]


def slow_to_check() -> bytes:
    """A sound file whose hash tables take long: each hashes the same long names."""
    made = generated.File()
    names = made.strings(b"\0" + b"n" * 4_000_000 + b"\0")
    symbols = made.symbols(b"".join(generated.symbol(1 + k) for k in range(60)), names)
    made.table(generated.HASH, generated.words([1, 61, 1, 0, *range(2, 61), 0]), symbols)
    return made.bytes()


def explained(kind: str) -> Iterator[tuple[str, bytes, str]]:
    """The cases of explain.txt of this kind of rule: the number of its rule, its file, and what the
    program prints."""
    for it in cases_of(f"{TOP}/cases/explain.txt"):
        if it.note.startswith(kind):
            rule = it.note.split(" ", 2)[1]
            name = it.needs[0].partition("=")[2]
            yield rule, bytes(it.files[name]), it.out.decode()


def escaped(name: str) -> str:
    """A name as the page shows it: what no one can see as escapes, and a backslash twice."""
    shown = name.replace("\\", "\\\\").replace("\x1b", "\\x1b")
    return shown.replace("ÿ", "\\xff").replace("\ufeff", "\\ufeff")


class InChromium(Browser):
    """The page in a browser, and what is tried there."""

    def __init__(self, tally: Tally, room: str) -> None:
        super().__init__(write(f"{room}/elfmap.html", page()))
        self.check = tally.check
        self.note = tally.note
        self.room = room

    def waits(self, expression: str, why: str) -> None:
        """An expression becomes true."""
        self.check(self.wait(expression), why)

    def opens(self, tab: str, words: str) -> None:
        """Chooses a tab, and waits until its table is there."""
        self.click(f"#tab-{tab}")
        is_open = f"document.querySelector('#table-words').textContent.startsWith('{words}')"
        self.waits(is_open, f"the tab {tab}: {self.text('#table-words')}")

    def show(self, path: str, is_dropped: bool = False) -> None:
        """Opens a file in the page, and waits until it is shown."""
        before = self.value("document.body.dataset.ready ?? '0'")
        self.drop(path) if is_dropped else self.choose("#chosen", path)
        self.waits(f"(document.body.dataset.ready ?? '0') !== '{before}'", f"{path} is not shown")

    def sound_file(self, path: str) -> None:
        """Opens a file that keeps all rules: its verdict, parts, sections, tables and bytes."""
        self.show(path)
        self.check(self.text("#verdict") == SOUND, f"{path}: {self.text('#verdict')}")
        lines = said(PROGRAM, "show", path).stdout.splitlines()
        parts = sum(it.startswith("part ") for it in lines)
        labels = self.value(
            "[...document.querySelectorAll('#map button')].map((it) => it.ariaLabel)"
        )
        runs = (re.match(r"([\d,]+) parts: ", it) for it in labels)
        drawn = sum(int(it[1].replace(",", "")) if it else 1 for it in runs)
        # Loadable segments may cut gaps.
        is_counted = f"{drawn:,} parts." in self.text("#map-words") and drawn >= parts
        words = self.text("#map-words")
        self.check(is_counted, f"{path} has {parts} parts, and {drawn} are drawn: {words}")
        sections = [it.split()[-1] for it in lines if it.startswith("section ")]
        rows = self.value(f"{ROWS}.map((it) => it.children[1].textContent)")
        self.check(
            rows == [{"-": "(no name)"}.get(it, it) for it in sections[:100]],
            f"{path} has the sections {sections}: {rows}",
        )
        self.check(
            self.text("#findings-words") == "No table breaks a rule of tables.",
            f"{path}: {self.text('#findings-words')}",
        )
        front = self.text("#bytes tbody tr td")
        self.check(front.startswith("7f 45 4c 46 02"), f"the bytes of {path}: {front}")

    def links(self) -> None:
        """A relocation leads to its symbol, a symbol to its section, a section to its bytes."""
        self.opens("relocations", "Relocations")
        name = self.text("#table tbody tr td:nth-child(4)").split(" ", 1)
        self.click("#table tbody tr td:nth-child(4) a")
        selected = "document.querySelector('#tab-symbols').ariaSelected === 'true'"
        self.waits(f"document.querySelector('tr.shown') && {selected}", "no symbol is shown")
        self.check(
            self.text("tr.shown td") == name[0],
            f"the relocation's symbol is {name}, and {self.text('tr.shown')} is shown",
        )
        row = self.value(f"{ROWS}.findIndex((it) => it.children[6].querySelector('a'))") + 1
        place = self.text(f"#table tbody tr:nth-child({row}) td:nth-child(7)").split()[0]
        self.click(f"#table tbody tr:nth-child({row}) td:nth-child(7) a")
        self.waits(
            f"document.querySelector('tr.shown td')?.textContent === '{place}'",
            f"section {place} is not shown",
        )
        self.click("tr.shown td a")
        self.waits(
            "document.querySelector('#bytes mark')", "the bytes of the section are not marked"
        )

    def filtered(self) -> None:
        """A filter leaves the rows that hold its text."""
        self.opens("symbols", "Symbols")
        self.filter("global")
        self.waits(
            "document.querySelector('#table-words').textContent.includes('found among')",
            "nothing is found",
        )
        bindings = self.value(f"{ROWS}.map((it) => it.children[5].textContent)")
        self.check(bindings and set(bindings) == {"GLOBAL"}, f"the filter finds {bindings}")

    def by_keys(self) -> None:
        """To the map, along it, into a part and out again, without a mouse."""
        self.value("document.querySelector('#chosen').focus()")
        self.press("TAB")
        self.check(
            self.value("document.activeElement.parentElement.id") == "map",
            "the tabulator does not lead to the map",
        )
        self.press("ARROW_RIGHT")
        label = self.value("document.activeElement.ariaLabel")
        words = self.text("#map-words")
        self.check(words == label, f"the arrow leads to {label}, and the text is {words}")
        self.press("ENTER")
        self.waits("document.querySelector('#map [aria-current=true]')", "the part is not chosen")
        scale = "document.querySelector('#map-scale').textContent"
        before = self.text("#map-scale")
        self.click("#zoom-in")
        self.waits(f"{scale} !== '{before}'", "there is no zoom")
        self.value("document.querySelector('#map button').focus()")
        self.press("ESCAPE")
        self.press("ESCAPE")
        self.click("#zoom-whole")
        self.waits(f"{scale} === '{before}'", "there is no way back")

    def typed(self) -> None:
        """What is typed into a field is in it, and does what it is for; and the tabulator leads out
        of it."""
        front = "document.querySelector('#bytes tbody th').textContent"
        rows: list[tuple[str, str, list[str], str]] = [
            (
                "offset",
                "0x40",
                ["ENTER"],
                f"{front} === '0x40' && document.querySelector('#bytes mark')",
            ),
            ("offset", "129", ["BACK_SPACE", "ARROW_LEFT", "ENTER"], f"{front} === '0xc'"),
            (
                "filter",
                "work",
                [],
                "document.querySelector('#table-words').textContent.includes('of 1 found among')",
            ),
        ]
        for field, text, keys, done in rows:
            self.value(f"const it = document.querySelector('#{field}'); it.value = ''; it.focus()")
            self.type(text)
            for key in keys:
                self.press(key)
            value = self.value(f"document.querySelector('#{field}').value")
            self.check(
                value == text[: len(text) - keys.count("BACK_SPACE")],
                f"{text} was typed into {field}, which has {value!r}",
            )
            self.waits(done, f"{text} was typed into {field}, and nothing is done")
            self.press("TAB")
            self.check(
                self.value("document.activeElement.id") != field,
                f"the tabulator does not lead out of {field}",
            )

    def for_readers(self) -> None:
        """What a screen reader says."""
        nodes = [
            it for it in self.call("Accessibility.getFullAXTree")["nodes"] if not it["ignored"]
        ]
        tree = [(it["role"]["value"], it.get("name", {}).get("value", "")) for it in nodes]
        missing = {(role, name) for role, names in READ.items() for name in names} - {*tree}
        self.check(not missing, f"the tree has no {missing}")
        nameless = [it for it in tree if it[0] in PRESSED and not it[1]]
        self.check(
            not nameless,
            f"the tree has {len(nameless)} things to press without a name: {nameless[:3]}",
        )

    def on_screens(self) -> None:
        """The colours of the map are seen, light and dark; and a screen of 360 points is wide
        enough."""
        for dark in (False, True):
            picture = base64.b64encode(self.screen(1200, 1000, dark)).decode()
            # How many points of each colour, as digits, the picture has.
            seen: dict[str, int] = self.value(
                f"{read_text('cases/sources/page_picture_colours.js')}\ncolours('{picture}')"
            )
            for colour in ("6b7689", "c0504d", "4f81bd"):
                self.check(
                    seen.get(colour, 0) > 100, f"the colour {colour} is not seen, dark: {dark}"
                )
            ground = max(seen, key=seen.__getitem__)
            self.check(
                (sum(bytes.fromhex(ground)) < 200) == dark, f"the ground is {ground}, dark: {dark}"
            )
        self.screen(360, 800)
        self.check(
            self.value("document.documentElement.scrollWidth") <= 360,
            "a screen of 360 points is too small",
        )
        self.screen(1200, 1000)

    def refused_files(self, path: str) -> None:
        """Of a file that breaks a rule the page says which, and marks the field."""
        content = read_bytes(path)
        size = content[:52] + b"\x3f" + content[53:]
        files = {
            "magic": b"\0" + content[1:],
            "empty": b"",
            "size": size,
            "picture": b"<svg xmlns='http://www.w3.org/2000/svg'/>" * 4,
        }
        for name, made in files.items():
            file = write(f"{self.room}/{name}", made)
            _, rule, at = said(PROGRAM, "check", file).stdout.split()
            self.show(file, is_dropped=True)
            verdict = self.text("#verdict")
            is_said = (
                verdict.startswith(f"Refused by rule {rule}, ") and f" at {int(at):#x}: " in verdict
            )
            self.check(is_said, f"{name}: {verdict}, and check says {rule} {at}")
            self.check(
                rule == {"magic": "3", "empty": "2", "picture": "3"}.get(name, rule),
                f"{name} breaks rule {rule}",
            )
            mark = self.value("document.querySelector('#bytes mark')?.textContent ?? ''")
            self.check(
                name != "size" or "e_ehsize" in self.text("#advice") + mark,
                f"{name}: {self.text('#advice')}",
            )
            # As digits and as letters.
            marks = self.value("document.querySelectorAll('#bytes mark').length")
            self.check(marks == (2 if made else 0), f"{name}: {marks} marks, and one field")

    def shared_byte(self) -> None:
        """A byte of two sections: both are named, and a link leads to it."""
        _, content, out = next(explained("image 33 "))
        at = out.split()[2]
        self.show(write(f"{self.room}/shared", content))
        words = self.text("#advice")
        for name in ("section 1 .text", "section 2 .data"):
            self.check(f"the content of {name} [0x" in words, f"a byte of two sections: {words}")
        self.check(
            "share this byte" in words and "(EM_X86_64)" in self.text("#facts"),
            f"{words} {self.text('#facts')}",
        )
        self.value(TO_FIRST_BYTES)
        self.waits(
            "document.querySelector('#bytes tbody th').textContent === '0x0'",
            "the first bytes are not shown",
        )
        self.click("#advice a")
        self.waits("document.querySelector('#bytes mark')", "the link leads to no byte")
        self.check(
            self.text("#bytes tbody th") == hex(int(at)),
            f"the link leads to {self.text('#bytes tbody th')}",
        )

    def broken_tables(self) -> None:
        """Each rule of tables that a file of the cases breaks is shown, with its name, its place
        and what to do."""
        for rule, content, out in explained("table "):
            self.show(write(f"{self.room}/table-{rule}", content))
            _, section, _, at = next(
                line.split() for line in out.splitlines() if line.startswith("refused ")
            )
            found = self.text("#findings li")
            is_shown = (
                f": rule {rule}, " in found
                and f" at {int(at):#x}, " in found
                and "What to do: " in found
            )
            self.check(
                is_shown and self.text("#verdict") == SOUND,
                f"rule {rule} of the table in section {section}: {found}",
            )
        self.click("#findings li a:nth-of-type(2)")
        self.waits("document.querySelector('#bytes mark')", "the finding leads to no byte")

    def without_sections(self) -> None:
        """A program without section headers: its segments are listed, what they load is no gap, and
        nothing is left of the file before."""
        self.sound_file("/bin/true")
        self.value("document.querySelector('#memory button').focus()")
        self.value("document.querySelector('#offset').value = '0x40'")
        words = self.text("#memory-words")
        self.check(words.startswith("segment "), f"of the bar by address is said {words}")
        content = stripped_program(self.room)
        self.show(write(f"{self.room}/stripped", content), is_dropped=True)
        verdict = self.text("#verdict")
        self.check(verdict == SOUND, f"a program without sections: {verdict}")
        left = [self.text("#memory-words")]
        for field in ("offset", "filter", "chosen"):
            left.append(self.value(f"document.querySelector('#{field}').value"))
        self.check(not any(left), f"of the file before is left: {left}")
        self.segments_alone(content)

    def segments_alone(self, content: bytes) -> None:
        """The segments of a program are listed, and the map has what they load."""
        is_selected = self.value("document.querySelector('#tab-segments').ariaSelected") == "true"
        words = self.text("#table-words")
        rows = self.value(f"{ROWS}.length")
        count = File(content).segment_count
        is_whole = words == f"Segments 1 to {count} of {count}" and rows == count
        self.check(is_selected and is_whole, f"{words}: {rows} rows")
        labels = "[...document.querySelectorAll('#map button')].map((it) => it.ariaLabel)"
        parts: list[tuple[str, int, int]] = []
        for it in map(PART.fullmatch, self.value(labels)):
            if it:
                parts.append((it[1], int(it[2].replace(",", "")), int(it[3], 16)))
        right = parts_by_segments(content)
        self.check(parts == right, f"the map shows {parts}, and not {right}")

    def resized(self, path: str) -> None:
        """The window is resized while a file is read: nothing is thrown, and at last the map is as
        wide as the window."""
        self.call("Emulation.clearDeviceMetricsOverride")
        self.driver.set_window_size(1200, 1000)
        self.show(path, is_dropped=True)
        large = write(f"{self.room}/large", HEADER_ALONE)
        os.truncate(large, LARGE)
        before = self.value("document.body.dataset.ready")
        self.drop(large)
        self.driver.set_window_size(700, 1000)
        self.waits("document.querySelector('#progress').value > 0", "the file is not read")
        self.driver.set_window_size(900, 1000)
        self.check(
            self.value("document.body.dataset.ready") == before,
            "the file was read before the window was resized",
        )
        self.waits(
            f"document.body.dataset.ready !== '{before}'",
            "a file is not shown after the window was resized",
        )
        self.check(
            self.text("#verdict") == SOUND, f"a header and {LARGE:,} bytes: {self.text('#verdict')}"
        )
        width = self.value("document.querySelector('#map').clientWidth")
        drawn = self.value("document.querySelector('#map button:last-child').offsetWidth")
        self.check(
            0.9 * width < drawn <= width,
            f"a part of all of the file is {drawn} points wide, and the map {width}",
        )
        self.silent("the window was resized while a file was read")

    def dropped_in_turn(self) -> None:
        """Files are dropped one after the other: the last one is shown, and nothing more is said of
        those before it."""
        slow = write(f"{self.room}/slow.o", slow_to_check())
        for path in ("/bin/true", write(f"{self.room}/nothing", b"")):
            self.value(WATCH_WORDS)
            self.drop(slow)
            # The verdict of slow.o is there, and the tables of slow.o are not yet checked.
            words = "/^Reading slow.o/.test(document.querySelector('#said').textContent)"
            self.waits(
                f"{words} && !document.querySelector('#main').hidden", "the first file is not shown"
            )
            self.value("window.said = []")
            self.drop(path)
            name = os.path.basename(path)
            is_titled = f"document.title === '{name} - elfmap'"
            is_done = "document.querySelector('#progress').hidden"
            self.waits(f"{is_titled} && {is_done}", f"{path} is not shown")
            # Each answer comes after those to earlier questions.
            self.value("ask('name', 0, 0)")
            said = self.value("window.said")
            last = self.text("#said")
            is_last = said[-2:] == [last, f"{name} - elfmap"] and last.startswith(f"{name}: ")
            is_silent = not any("slow.o" in it for it in said)
            self.check(is_last and is_silent, f"after {path} was dropped is said {said}")
            self.check(
                self.text("#facts").endswith("13 segments") == (name == "true"),
                f"{path} is shown as {self.text('#facts')}",
            )
            self.check(
                self.text("#bytes").startswith("0x07f 45") == (name == "true"),
                f"the bytes of {path}: {self.text('#bytes')[:80]}",
            )
            self.silent(f"{path} was dropped after another file")

    def of_picture(self) -> None:
        """The picture in the manual is of this page, with the object that gcc 12.2 makes of
        examples/answer.c on it."""
        if not said("gcc", "-dumpfullversion").stdout.startswith("12.2"):
            self.note("skipped: the picture of the page, here with another gcc than 12.2")
            return
        wanted("gcc", "-c", "-O1", "examples/answer.c", "-o", f"{self.room}/answer.o")
        self.show(f"{self.room}/answer.o")
        self.screen(*PICTURE_SIZE)
        is_own = sum_of_page(self).encode() in read_bytes(f"{TOP}/{PICTURE}")
        how = f"`tools/release page-picture answer.o {PICTURE}` takes it"
        self.check(is_own, f"{PICTURE} is of another page; {how}")

    def sends_nothing(self) -> None:
        """Each way in which a script could send something is tried, in the page and in a worker of
        it: nothing comes to a server."""
        asked: list[str] = []
        with listening(asked) as address:
            in_worker = IN_WORKER.format(script=SENDING["fetch"])
            for name, script in {**SENDING, "worker": in_worker}.items():
                self.value(f"{script.format(address=f'{address}/{name}')}; null")
            # What would be sent has come by then.
            time.sleep(1)
        self.check(not asked, f"the page sends {asked}")
        # The browser logs each.
        self.driver.get_log("browser")

    def silent(self, when: str) -> None:
        """The console has no messages of scripts, nor of what they threw."""
        messages = [entry["message"] for entry in self.driver.get_log("browser")]
        self.check(not messages, f"{when}: the console says {messages[:3]}")

    def folder(self) -> None:
        """A folder is no file."""
        os.mkdir(f"{self.room}/folder")
        self.drop(f"{self.room}/folder")
        self.waits(
            "/folder/.test(document.querySelector('#said').textContent)",
            f"of a folder is said: {self.text('#said')}",
        )

    def named(self) -> None:
        """A name of 200 characters is shown, and of a longer one the first 200, with a button that
        shows all."""
        names = [*NAMES, LONGEST_NAME.encode()]
        made = generated.File()
        places = accumulate((len(it) + 1 for it in names), initial=1)
        strings = made.strings(b"".join(it + b"\0" for it in [b"", *names]))
        made.symbols(b"".join(generated.symbol(at) for at, _ in zip(places, names)), strings)
        self.show(write(f"{self.room}/named.o", made.bytes()))
        self.opens("symbols", "Symbols")
        cell = "document.querySelector('#table tbody tr:nth-child({}) td:nth-child(2)')"
        for k, name in enumerate(names):
            own = cell.format(k + 2)
            right = name.decode() if name[0] != 0xFF else name.decode("latin1")
            shown = escaped(
                right if len(right) <= MOST_CHARACTERS else f"{right[:MOST_CHARACTERS]}…"
            )
            found = self.value(f"{own}.firstChild.textContent")
            self.check(found == shown, f"the name {k} is shown as {found[:300]}")
            has_button = self.value(f"!!{own}.querySelector('button')")
            self.check(
                has_button == (len(right) > MOST_CHARACTERS),
                f"the name {k} has a button: {has_button}",
            )
            whole = f"{own}.querySelector('.whole')?.textContent"
            if not has_button:
                continue
            # A very long name comes in two parts.
            for _ in range(2 if len(name) > 1 << 20 else 1):
                self.waits(f"{own}.querySelector('button:enabled')", f"the name {k} has no button")
                self.value(f"{own}.querySelector('button').click()")
            self.waits(f"!{own}.querySelector('button')", f"all of the name {k} is not shown")
            found = self.value(whole)
            self.check(found == escaped(right), f"the whole name {k} is {found[:300]}")
            is_kept = self.value(f"document.activeElement === {own}.querySelector('.whole')")
            self.check(is_kept, f"the focus leaves the name {k}")

    def of_sections(self) -> None:
        """A list of tables has 60 characters of a name, none of them cut in two. A search looks at
        4,000 characters of a section's name."""
        of_table = "n" * 59 + "\U0001f600" * 3
        of_section = "n" * 3000 + "sought" + "n" * 1000 + "beyond"
        made = generated.File()
        made.names = made.strings(f"\0{of_table}\0{of_section}\0".encode())
        section = made.section(generated.PROGBITS, b"content", name=len(of_table.encode()) + 2)
        table = made.symbols(generated.symbol(place=section), made.names)
        self.show(write(f"{self.room}/of-sections.o", edited(made.bytes(), ("sh_name", table, 1))))
        self.opens("symbols", "Symbols 1 to 2 of 2")
        listed = self.text("#which option")
        self.check(listed == f"{table} {of_table[:60]}…", f"the list of tables has {listed!r}")
        for text, words in (
            ("sought", "Symbols 1 to 1 of 1 found among 2"),
            ("beyond", "None of 2 holds this."),
        ):
            self.filter(text)
            self.waits(
                f"document.querySelector('#table-words').textContent === '{words}'",
                f"{text}: {self.text('#table-words')}",
            )

    def nameless(self) -> None:
        """A header of type NULL has no name, and takes that of no other section."""
        made = generated.File()
        made.names = made.strings(b"\0.text\0.data\0")
        for kind, name in (
            (generated.NULL, 1),
            (generated.PROGBITS, 1),
            (generated.PROGBITS, 7),
            (generated.NULL, 7),
        ):
            made.section(kind, b"content" if kind else b"", name=name)
        self.sound_file(write(f"{self.room}/nameless.o", made.bytes()))

    def far_segment(self) -> None:
        """A segment without bytes in the file may be at any offset: its links lead to the end of
        the file."""
        content = read_bytes("/bin/true")
        kinds = [it.p_type for it in File(content).segments()]
        own = kinds.index(GNU_STACK)
        place = (
            ("p_type", own, 1),
            ("p_offset", own, 1 << 63),
            ("p_vaddr", own, 1 << 20),
            ("p_memsz", own, 4096),
            ("p_align", own, 4096),
        )
        self.show(write(f"{self.room}/far-segment", edited(content, *place)))
        self.check(self.text("#verdict") == SOUND, f"a segment far away: {self.text('#verdict')}")
        self.opens("segments", "Segments")
        front = "document.querySelector('#bytes tbody th').textContent"
        for link in (
            f"#table tbody tr:nth-child({own + 1}) td:nth-child(4) a",
            "#memory button:last-child",
        ):
            self.value(TO_FIRST_BYTES)
            self.waits(f"{front} === '0x0'", "the first bytes are not shown")
            self.click(link)
            self.waits(
                f"{front} === '{len(content) - 1:#x}'", f"{link} leads to {self.value(front)}"
            )

    def another_file(self, path: str) -> None:
        """What comes of a file after another one was dropped is not drawn, and a filter ends with
        its file and its text."""
        rows = "document.querySelector('#table tbody')"
        for asked in (
            "open_table('sections', 0, 0)",
            "document.querySelector('#filter').value = 'text'; filter_rows()",
        ):
            # The chooser has this file already.
            self.show(path, is_dropped=True)
            other = "open_file(new File(['no ELF file'], 'other'))"
            self.value(f"{rows}.replaceChildren('kept'); {asked}; {other}")
            self.waits(
                "document.querySelector('#verdict').className === 'broken'",
                "the other file is not shown",
            )
            self.check(
                self.text("#table tbody") == "kept",
                f"after {asked} and another file the rows are {self.text('#table tbody')}",
            )
        self.show(path, is_dropped=True)
        self.filter("no such name")
        self.waits(
            "document.querySelector('#table-words').textContent.startsWith('None of')",
            "something is found",
        )
        self.sound_file("/bin/true")
        self.filter("text", "")
        # Each answer comes after those to earlier questions.
        self.value("(async () => { for (let k = 0; k < 4; k++) await ask('bytes', 0, 1); })()")
        self.check(
            "found" not in self.text("#table-words"),
            f"without a filter: {self.text('#table-words')}",
        )

    def filter(self, *texts: str) -> None:
        """Puts texts into the filter, one after another."""
        put = "it.value = {}; it.dispatchEvent(new Event('input'))"
        steps = [put.format(json.dumps(text)) for text in texts]
        self.value(f"const it = document.querySelector('#filter'); {'; '.join(steps)}")

    def long_names(self) -> None:
        """Files whose names have half a MB each do not hold the page up."""
        self.value(WATCH)
        for tab, (shape, words) in LONG_FILES.items():
            path = write(f"{self.room}/long-{tab}.o", shape.file())
            steps: list[Callable[[], None]] = [partial(self.show, path)]
            # The sections are shown first.
            if tab != "sections":
                steps.append(partial(self.opens, tab, words))
            steps.append(self.show_whole_name)
            # A part of the map is wide enough in one of the files.
            if tab == "relocations":
                steps.append(self.show_part_of_map)
            took = [self.seconds(it) for it in steps]
            wholes = "document.querySelectorAll('.whole').length"
            length = self.value(
                f"document.querySelector('main').textContent.length - {NAME} * {wholes}"
            )
            took.append(self.seconds(self.search_and_look))
            longest = self.value("window.longest")
            times = ", ".join(f"{it:.1f}" for it in took)
            more = f"tasks of {longest:.0f} ms, {length:,} characters"
            self.note(f"{tab} of one long name: {times} s, {more}")
            self.check(
                length < MOST_SHOWN, f"{length:,} characters are shown of {tab} of one long name"
            )
            self.check(longest < LONGEST_TASK, f"the page waits for {longest:.0f} ms")
            self.check(max(took) < MOST_SECONDS, f"what is pressed takes {max(took):.1f} s")
            self.waits(
                "/^None of/.test(document.querySelector('#table-words').textContent)",
                "the search does not end",
            )

    def seconds(self, step: Callable[[], None]) -> float:
        """How long a step takes."""
        begun = time.monotonic()
        step()
        return time.monotonic() - begun

    def show_whole_name(self) -> None:
        """The button beside a name that is cut shows all of it."""
        self.click("#table tbody button.more")
        self.waits(
            f"document.querySelector('#table .whole')?.textContent.length === {NAME}",
            "all of a long name is not shown",
        )

    def show_part_of_map(self) -> None:
        """The text of a part of the map, among several short ones, has a name that is cut, and a
        button that shows all of it."""
        buttons = "[...document.querySelectorAll('#map button')]"
        found = f"{buttons}.find((it) => it.ariaLabel.includes('{{}}'))"
        own = found.format("n" * MOST_CHARACTERS + "…: ")
        several = found.format(" parts: ")
        # On a narrow screen the part is in a bar with others.
        if not self.value(f"!!{own}"):
            self.value(f"{several}.click()")
        self.waits(own, "the map does not show the part by itself")
        self.value(f"{own}.click()")
        self.waits("document.querySelector('#map [aria-current=true]')", "the part is not chosen")
        words = self.text("#map-words")
        button = self.text("#map-name")
        self.check(
            len(words) < 2 * MOST_CHARACTERS and f"Show all {NAME:,} bytes" in button,
            f"the text of the part is {words[:1000]}",
        )
        self.click("#map-name button")
        shown = f"document.querySelector('#map-name .whole')?.textContent.length === {NAME}"
        self.waits(shown, "all of the name of the part is not shown")
        other = "document.querySelector('#map [aria-current=false]')"
        label = self.value(f"(it => {{ it.focus(); return it.ariaLabel; }})({other})")
        self.check(
            self.text("#map-words") == label,
            f"of another part is said {self.text('#map-words')[:1000]}",
        )
        self.check(
            self.value(shown), "the name of the chosen part is gone when another one is looked at"
        )
        self.check(
            not self.value("document.querySelector('[aria-live] .whole')"),
            "the whole name is read aloud",
        )

    def search_and_look(self) -> None:
        """While it searches in all names, the next bytes are shown."""
        self.filter("no such name")
        before = self.text("#bytes tbody th")
        self.value("document.querySelector('#bytes-on').click()")
        self.waits(
            f"document.querySelector('#bytes tbody th').textContent !== '{before}'",
            "the next bytes are not shown while it searches",
        )

    def much_to_say(self) -> None:
        """Of many broken tables, and of many parts that share a byte, the first are named."""
        file = Shape(name=NAME, symbols=16, sections=250, relocations=250, long="both").file()
        own = [k for k in range(File(file).section_count) if File(file).section(k).sh_type == RELA]
        self.show(write(f"{self.room}/broken.o", edited(file, *(("sh_link", k, 0) for k in own))))
        for count in (100, 200, 250):
            found = self.value("document.querySelectorAll('#findings li').length")
            self.check(found == count, f"{found} findings are drawn, and not {count}")
            has_more = not self.value("document.querySelector('#findings-on').hidden")
            self.check(
                has_more == (count < 250),
                f"after {count} findings there is a button for more: {has_more}",
            )
            self.click("#findings-on")
            self.waits(
                f"document.querySelectorAll('#findings li').length > {count} || {count} === 250",
                "no more findings are drawn",
            )
        sections = [
            k for k in range(File(file).section_count) if File(file).section(k).sh_size == 1
        ]
        at = File(file).section(sections[0]).sh_offset
        self.show(
            write(f"{self.room}/owners.o", edited(file, *(("sh_offset", k, at) for k in sections)))
        )
        advice = self.text("#advice")
        rest = f"and {len(sections) - 16} more sections share this byte"
        self.check(
            rest in advice and advice.count(f"{'n' * MOST_CHARACTERS}… [0x") == 16,
            f"of the owners of a byte is said {advice[:500]}",
        )

    def million(self) -> None:
        """An object of very many symbols is validated at once."""
        path = f"{self.room}/million.o"
        write(
            f"{self.room}/million.s",
            "".join(f".globl name_{k}\nname_{k}={k}\n" for k in range(SYMBOLS)),
        )
        wanted("cc", "-c", f"{self.room}/million.s", "-o", path)
        self.show(path)
        took = float(self.value("document.body.dataset.took"))
        size = f"{SYMBOLS:,} symbols, {os.path.getsize(path) / 2**20:.0f} MiB"
        self.note(f"an object of {size}, was validated in {took:.1f} ms")
        self.check(took < MOST_MILLISECONDS, f"that took {took} ms")
        self.opens("symbols", "Symbols 1 to 100 of 1,000,")
