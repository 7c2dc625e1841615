"""`tools/release conformance`: packs the conformance suite into one archive,
elf-conformance-VERSION.tar.xz, which needs Python alone. The same sources make the same archive.
`tools/release conformance-numbers` gives new cases their numbers, and makes the answers of the
large files again, for which the reference implementation takes minutes."""

import json

from . import conformance_index as made
from .conformance_index import FOLDER, Entry
from .release_files import copied, packed, put, without_dead_links
from .tree import TOP, Options, files_below, read_text, side_by_side, write

# What of the folder is not in the archive: what the index is made of, and what may be built there.
NOT_PACKED = {"large.json", "numbers.txt", "reported.txt", "__pycache__", "target", "Cargo.lock"}


def version() -> str:
    """The version of the suite, which is not that of elfmap."""
    return read_text("conformance/VERSION").strip()


def entries() -> list[Entry]:
    """The entries of all cases: the large ones as they were made."""
    small = [made.of_case(it) for it in made.all_cases()]
    return [*small, *json.loads(read_text(made.LARGE))]


def put_suite(folder: str, own: list[Entry]) -> None:
    """Puts the suite into a folder."""
    for path in files_below(FOLDER):
        place = path[len(FOLDER) + 1 :]
        if not NOT_PACKED & {*place.split("/")}:
            copied(path, f"{folder}/{place}")
    for name in ("records", "image", "tables", "objects", "link", "show", "executable"):
        copied(f"{TOP}/reference/{name}.py", f"{folder}/reference/{name}.py")
    copied(f"{TOP}/docs/RULES.md", f"{folder}/RULES.md")
    for case in made.all_cases():
        for name, content in zip(made.file_names(case), case.files):
            put(f"{folder}/{name}", content)
    without_dead_links(folder)
    answers = made.generated_answers()
    put(f"{folder}/{made.ANSWERS}", answers)
    whole = made.index(version(), own, answers)
    text = json.dumps(whole, indent=0, separators=(",", ":"))
    put(f"{folder}/index.json", f"{text}\n")


def pack(folder: str) -> str:
    """Packs the suite into a folder: the path of the archive."""
    own = entries()
    wrong = list(made.changed(own))
    if wrong:
        raise SystemExit("release: " + "\n".join(wrong))
    archive = f"elf-conformance-{version()}.tar.xz"
    return packed(folder, archive, lambda it: put_suite(it, own))


def give_numbers(options: Options) -> int:
    """`tools/release conformance-numbers`: the answers of the large files, and numbers for new
    cases."""
    if options.large:
        names = made.large_names()
        huge = [it for it in names if made.is_huge(it)]
        # A huge file takes some GiB of memory, so these come one by one.
        large = side_by_side(made.of_large, [it for it in names if it not in huge], True)
        large += map(made.of_large, huge)
        lines = ",\n".join(json.dumps(it) for it in large)
        write(f"{TOP}/{made.LARGE}", f"[\n{lines}\n]\n")
    wrong = made.put_numbers(entries())
    print("\n".join(wrong) or f"{len(made.numbered())} cases have a number")
    return int(bool(wrong))
