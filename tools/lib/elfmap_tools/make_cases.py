"""`tools/test make-cases`: generates the files cases/generated-*.txt, or compares them with what it
generates, byte for byte. Generated files are sound ones, and files with a few fields changed; the
answers are the reference implementation's.

Cases are generated, and not kept as they were found: the gate makes them again, so they stay equal
to the reference implementation."""

import filecmp
import os
import random
from collections.abc import Callable, Iterable, Iterator

from .chance_files import Chance, a_file, an_object, an_object_file
from .changes import SPOKEN_OF, changed_field, fuzzed
from .reference import (
    Broken,
    File,
    answer,
    entries_of,
    laid,
    mapped,
    object_verdict,
    table_verdict,
    verdict,
)
from .suite import Tally, Test, number, word
from .tree import T, TOP, Options, write

# What cases/ was made by.
SEED = "elfmap"
COUNT = 60
HEAD = (
    "# Made by `tools/test make-cases --seed {seed} --count {count}`, with the answers of the "
    "reference implementation (reference/).\n"
    "# How a case is written the head of hand-written.txt says.\n"
)
RULES = (
    b"1 abs 8 wrap\n2 pc 4 signed\n3 none 1 wrap\n",
    b"1 abs 4 unsigned\n2 pc 4 signed\n3 abs 4 signed\n",
    b"2 pc 2 signed\n1 abs 1 wrap\n3 abs 2 wrap\n",
)
PLACES = (
    ("0x400000", "0x1000"),
    ("0", "1"),
    ("4096", "1"),
    ("0xfffffffffffff000", "0x1000"),
    ("0x1001", "0x1000"),
)
# A sound file and what one change made of it; and what finds the rules that a file breaks.
Pair = tuple[bytes, bytes]
Verdicts = Callable[[bytes], list[Broken | None]]
# Rules on segments, which an object has none of; and on notes, dynamic sections and hash tables,
# which it has as bytes, or not at all.
OF_SEGMENTS = [19, 21, *range(25, 30)]
NOT_OF_OBJECTS = range(59, 70)


class Text:
    """A file of cases while it is made."""

    def __init__(self, seed: str, count: int) -> None:
        self.seed = seed
        self.count = count
        self.lines = [HEAD.format(seed=seed, count=count)]
        self.files: dict[bytes, str] = {}

    def file(self, content: bytes, like: bytes | None = None) -> str:
        """The name of a file of these bytes; what differs from another file, of whose bytes they
        are a change, is written alone."""
        if content in self.files:
            return self.files[content]
        name = self.files[content] = f"f{len(self.files)}"
        head = f"file {name}"
        if like is not None:
            head += f" like {self.files[like]}"
        if like is None or len(like) != len(content):
            head += f" size {len(content)}"
        self.lines.append(head)
        base = (like or b"")[: len(content)].ljust(len(content), b"\0")
        for at in range(0, len(content), 32):
            own = content[at : at + 32]
            if own != base[at : at + 32]:
                self.lines.append(f"  {at:#x} {own.hex()}")
        return name

    def case(self, words: str, needs: dict[str, bytes], like: bytes | None = None) -> None:
        """A case with the answer of the reference implementation, if it has one; a file that is
        written may be a change of another."""
        found = answer(words.split(), needs)
        if found is None:
            return
        status, out, err = found
        if status == 0 and words.startswith(("rewrite ", "link ")):
            output = [f"= {self.file(out, like)}"]
        else:
            output = [f"> {line}" for line in out.decode("latin1").splitlines()]
        given = " ".join(f"{name}={self.file(content)}" for name, content in needs.items())
        self.lines.append(f"run {words}   with {given}")
        if status:
            self.lines.append(f"status {status}")
        self.lines += output
        self.lines += [f"! {line}" for line in err.decode("latin1").splitlines()]

    def chance(self, kind: str, k: int) -> Chance:
        """The source of chance of a case."""
        return random.Random(f"{self.seed} {kind} {k}")


def changed(chance: Chance, text: Text, sound: bytes) -> bytes:
    """A sound file or a changed one."""
    text.file(sound)
    content = fuzzed(sound, chance) if chance.randrange(3) else sound
    text.file(content, sound)
    return content


def of_tables(content: bytes) -> list[Broken | None]:
    """The verdict of the table in each section of a file that is accepted."""
    f = File(content)
    return [table_verdict(f, i) for i, _ in f.sections()] if verdict(content) is None else []


def that_breaks(chance: Chance, sound: bytes, rule: int, verdicts: Verdicts) -> bytes | None:
    """A sound file with one change, by which it breaks a rule; None where twelve tries find
    none."""
    for _ in range(12):
        found = changed_field(chance, sound, rule)
        if found is not None and rule in [broken[0] for broken in verdicts(found) if broken]:
            return found
    return None


def wrong_in_one_thing(
    text: Text, rules: list[int], made: Callable[[Chance, str], bytes], verdicts: Verdicts
) -> Iterator[Pair]:
    """For each rule and byte order a sound file, and what one change made of it, by which it breaks
    the rule."""
    for order in ("little", "big"):
        chance = text.chance(f"{made.__name__} {order}", min(rules))
        left = list(rules)
        while left:
            sound = made(chance, order)
            for rule in list(left):
                found = that_breaks(chance, sound, rule, verdicts)
                if found is not None:
                    left.remove(rule)
                    text.file(sound)
                    text.file(found, sound)
                    yield sound, found


def once(pairs: Iterable[Pair]) -> Iterator[Pair]:
    """Each file of these pairs once, with the first of its pair."""
    seen: set[bytes] = set()
    for first, second in pairs:
        for it in dict.fromkeys((first, second)):
            if it not in seen:
                yield it, first
        seen |= {first, second}


def series(text: Text, kind: str, made: Callable[[Chance], T]) -> Iterator[tuple[int, Chance, T]]:
    """So many times the chance by which a case is made, and what it is of; several cases are of one
    thing."""
    for k in range(text.count):
        chance = text.chance(kind, k)
        if k % 6 == 0:
            sound = made(chance)
        yield k, chance, sound


def verdict_of_image(content: bytes) -> list[Broken | None]:
    """The verdict of a file."""
    return [verdict(content)]


def verdict_of_object(content: bytes) -> list[Broken | None]:
    """The verdict of a file as an object."""
    return [object_verdict(content)]


def image_cases(text: Text) -> None:
    """The cases of generated-images.txt."""
    rules = [rule for rule in SPOKEN_OF if rule < 40]
    for _, wrong in wrong_in_one_thing(text, rules, a_file, verdict_of_image):
        for command in ("check", "check --seek", "show"):
            text.case(f"{command} f", {"f": wrong})
    rules = [rule for rule in SPOKEN_OF if 40 < rule < 70]
    for content, _ in once(wrong_in_one_thing(text, rules, a_file, of_tables)):
        text.case("show f", {"f": content})
    for k, chance, sound in series(text, "image", a_file):
        command = ("check", "check --seek", "show", "show")[k % 4]
        text.case(f"{command} f", {"f": changed(chance, text, sound)})


def object_cases(text: Text) -> None:
    """The cases of generated-objects.txt."""
    for sound, wrong in wrong_in_one_thing(text, OF_SEGMENTS, a_file, verdict_of_object):
        text.case("rewrite f", {"f": wrong}, sound)
    rules = [rule for rule in SPOKEN_OF if rule not in OF_SEGMENTS and rule not in NOT_OF_OBJECTS]
    for content, like in once(wrong_in_one_thing(text, rules, an_object_file, verdict_of_object)):
        text.case("rewrite f", {"f": content}, like)
    for _, chance, sound in series(text, "object", an_object_file):
        text.case("rewrite f", {"f": changed(chance, text, sound)}, sound)


def objects_to_link(chance: Chance) -> list[bytes]:
    """The files of one object to three, which may not link."""
    order = chance.choice(("little", "big"))
    return [laid(an_object(chance, order)) for _ in range(chance.randrange(1, 4))]


def objects_that_link(chance: Chance) -> list[bytes]:
    """The files of one object to three that link, mostly with some bytes and a name to begin at."""
    for _ in range(300):
        found = objects_to_link(chance)
        if not entries_of(found):
            continue
        if not mapped(found, *PLACES[0], RULES[0]).startswith(("refused ", "file ")):
            break
    return found


def files_to_link(
    text: Text, kind: str, made: Callable[[Chance], list[bytes]]
) -> Iterator[tuple[Chance, dict[str, bytes]]]:
    """So often several files, every third time all of them sound, with the chance by which the case
    goes on."""
    for _, chance, sound in series(text, kind, made):
        at = chance.randrange(3 * len(sound))
        files: dict[str, bytes] = {}
        for f, it in enumerate(sound):
            files[f"f{f}"] = changed(chance, text, it) if f == at else it
            text.file(files[f"f{f}"])
        yield chance, files


def link_cases(text: Text) -> None:
    """The cases of generated-links.txt."""
    for chance, files in files_to_link(text, "link", objects_to_link):
        base, page = chance.choice(PLACES[:2] * 3 + PLACES)
        rules = chance.choice((None, *RULES))
        words = f"map --base {base} --page {page}"
        needs = files
        if rules is not None:
            words += " --rules r"
            needs = {**files, "r": rules}
        text.case(f"{words} {' '.join(files)}", needs)


def executable_cases(text: Text) -> None:
    """The cases of generated-executables.txt."""
    for chance, files in files_to_link(text, "executable", objects_that_link):
        base, page = chance.choice(PLACES[:2] * 4 + PLACES)
        rules = chance.choice((RULES[0], *RULES))
        entry = chance.choice(entries_of([*files.values()]) * 4 + ["main", "x"])
        place = f"--base {base} --page {page} --entry {entry}"
        text.case(f"link {place} --rules r {' '.join(files)}", {**files, "r": rules})


GENERATED = {
    "generated-images.txt": image_cases,
    "generated-objects.txt": object_cases,
    "generated-links.txt": link_cases,
    "generated-executables.txt": executable_cases,
}

COUNTED = number("count", COUNT, "cases of each kind")
SEEDED = word("--seed", "the same seed makes the same cases", default=SEED)
INTO = word("--in", "write them there", dest="folder", metavar="FOLDER")


@Test(
    "make-cases",
    "the generated cases are what the generator makes, byte for byte",
    options=(INTO, COUNTED, SEEDED),
)
def try_make_cases(tally: Tally, options: Options) -> None:
    folder = options.folder or tally.folder
    os.makedirs(folder, exist_ok=True)
    for name, cases in GENERATED.items():
        text = Text(options.seed, options.count)
        cases(text)
        path = write(f"{folder}/{name}", "\n".join([*text.lines, ""]))
        is_same = options.folder or filecmp.cmp(path, f"{TOP}/cases/{name}", shallow=False)
        tally.check(is_same, f"cases/{name} is not what `tools/test make-cases --in cases` makes")
