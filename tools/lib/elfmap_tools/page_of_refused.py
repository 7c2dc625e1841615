"""The page in chromium with files that break a rule, with archives, and with sizes. What is drawn
is what the reference implementation has of the same file."""

from collections.abc import Callable

from .page_in_chromium import InChromium, explained
from .reference import NOBITS, NULL, File
from .tree import read_bytes, wanted, write

LABELS = "[...document.querySelectorAll('{} button')].map((it) => it.ariaLabel)"
ROWS = "[...document.querySelectorAll('#table tbody tr')]"
BROKEN = f"{ROWS}.filter((it) => it.querySelector('.broken'))"


def overlapping(page: InChromium) -> None:
    """Two sections that share a byte are in two lines, below the fault, and their rows are
    marked."""
    _, content, out = next(explained("image 33 "))
    at = int(out.split()[2])
    page.show(write(f"{page.room}/overlapping", content))
    below = page.value(LABELS.format("#map-lanes"))
    page.check(
        len(below) == 1 and below[0].startswith("section 2 .data: "), f"a second line: {below}"
    )
    title = page.value("document.querySelector('#map-fault span').title")
    page.check(hex(at) in title, f"the fault at {hex(at)}: {title}")
    marked = page.value(f"{BROKEN}.map((it) => it.children[1].textContent)")
    page.check(marked == [".text", ".data"], f"the rows of sections that share a byte: {marked}")


def cut_short(page: InChromium, path: str) -> None:
    """Of a file that is cut short the header is there, and what passes the end is said."""
    content = read_bytes(path)
    page.show(write(f"{page.room}/cut-short", content[: len(content) // 2]))
    words = page.text("#map-refused")
    page.check("the section header table [0x" in words, f"a file that is cut short: {words}")
    labels = page.value(LABELS.format("#map"))
    page.check(labels[0] == "the ELF header: 64 bytes from 0x0", f"its parts: {labels}")


def sizes(page: InChromium, path: str) -> None:
    """Each section has its size, and all of them add up to the file."""
    page.show(path)
    page.click("#tab-sizes")
    page.waits(
        "document.querySelector('#table-words').textContent.startsWith('Sizes ')",
        "the sizes are not shown",
    )
    cells = f"{ROWS}.map((it) => [...it.children].slice(1, 3).map((td) => td.textContent))"
    rows = {name: int(words.replace(",", "")) for name, words in page.value(cells)}
    file = File(read_bytes(path))
    page.check(sum(rows.values()) == file.len, f"{rows} of {file.len} bytes")
    largest = max(it.sh_size for _, it in file.sections() if it.sh_type not in (NULL, NOBITS))
    page.check(largest in rows.values(), f"a section of {largest} bytes: {rows}")


def members(page: InChromium, path: str) -> None:
    """Of an archive each member can be chosen."""
    _, content, _ = next(explained("image 33 "))
    broken = write(f"{page.room}/a_broken_object_of_a_long_name.o", content)
    wanted("ar", "rc", archive := f"{page.room}/library.a", path, broken)
    page.show(archive)
    names = page.value("[...document.querySelectorAll('#member option')].map((it) => it.text)")
    right = [path.rsplit("/", 1)[1], broken.rsplit("/", 1)[1]]
    page.check(names == right, f"the members of an archive: {names}")
    page.check(page.text("#verdict").startswith("Sound"), "the first member is not shown")
    page.value("const it = document.querySelector('#member'); it.value = '1'; it.onchange()")
    page.waits(
        "document.querySelector('#verdict').textContent.startsWith('Refused by rule 33')",
        "the second member is not shown",
    )
    page.show(path)
    page.check(page.value("document.querySelector('#members').hidden"), "a file has members")


def try_refused(page: InChromium, path: str) -> None:
    """All of these, with an object."""
    overlapping(page)
    of_object: tuple[Callable[[InChromium, str], None], ...] = (cut_short, sizes, members)
    for part in of_object:
        part(page, path)
