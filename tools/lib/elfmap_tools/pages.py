"""`tools/test pages`: how long the sentences of the pages are, those of each page (MEDIAN), but for
what is generated or is all tables (TABLES), and all of them together (WORDS). Pages that tools
write are in docs/generated/, and begin with who makes them. Code, headings and the targets of links
are no prose.

No line has more than COLUMNS columns, but for rows of tables and code.

A fenced block whose first line names a file quotes it: the file has to have these lines. README.md
has its two commands in the first screen. A proof file of more than PROOF_LINES lines opens with a
comment, its idea."""

import glob
import re
import statistics
from collections import Counter

from .page_texts import CODE, all_pages, sentences
from .suite import TESTS, Tally, Test, families
from .tree import TOP, Options, read_text

MEDIAN = 18
LONG_SENTENCE = 30
WORDS = 30_000
COLUMNS = 140
README_LINES = 170
SCREEN = 30
PROOF_LINES = 30
COMMANDS = "    $ ./elfmap check ", "    $ rt ci"
# Pages that have comments of the crates.
OF_COMMENTS = {"docs/generated/DEFINITIONS.md", "docs/generated/LEMMAS.md"}
TABLES = {*OF_COMMENTS, "docs/GUARANTEES.md"}
# Words for which the pages have others: refuse, return or print, after, again, what others made.
# Code may have them, and comments of the crates.
UNUSUAL = re.compile(r"\b(?:reject\w*|told|tells?|behind|anew|strangers?)\b", re.I)
# How a page of docs/generated/ begins.
GENERATED = re.compile(
    r"# .*\n\n`((?:tools|bench)/\w+)[^`]*`.* the tables of this page\. "
    r"Do not edit them by hand[.:]"
)
# A number of a decision.
DECISION = re.compile(r"^- \((\d+)\) ", re.M)
QUOTES = re.compile(r"^```\w+ (\S+)\n(.*?)^```", re.M | re.S)


def try_first_screen(tally: Tally) -> None:
    """README.md is short, and has its commands in the first screen."""
    lines = read_text("README.md").splitlines()
    is_short = len(lines) <= README_LINES
    tally.check(is_short, f"README.md has {len(lines)} lines, more than {README_LINES}")
    first = lines[:SCREEN]
    shown = [it for it in COMMANDS if any(line.startswith(it) for line in first)]
    why = f"README.md has {shown} of {COMMANDS} in its first {SCREEN} lines"
    tally.check(len(shown) == len(COMMANDS), why)


def try_proofs(tally: Tally) -> None:
    """Long proof files open with their idea."""
    without_idea: list[str] = []
    for path in sorted(glob.glob("crates/*/proofs/**/*.antt", root_dir=TOP, recursive=True)):
        text = read_text(path)
        if text.count("\n") > PROOF_LINES and not text.startswith("-- "):
            without_idea.append(path)
    tally.same("proof files that do not open with their idea", without_idea, [])


def try_decisions(tally: Tally) -> None:
    """No two decisions have one number."""
    numbers = DECISION.findall(read_text("docs/DECISIONS.md"))
    twice = [it for it, count in Counter(numbers).items() if count > 1]
    tally.same("the numbers of decisions that two have", twice, [])


def try_words(tally: Tally, path: str, text: str) -> None:
    """A page has the usual words, and begins with who makes it, if a tool does."""
    prose = re.sub(r"`[^`]*`", "", CODE.sub("\n", text))
    unusual = [] if path in OF_COMMENTS else sorted(UNUSUAL.findall(prose))
    tally.check(not unusual, f"{path} has {unusual}, for which the pages have other words")
    made = GENERATED.match(text)
    why = f"{path}: its first line says {made and made[0]!r} of who makes it"
    tally.check(path.startswith("docs/generated/") == bool(made), why)


def try_columns(tally: Tally, path: str, text: str) -> None:
    """The lines of a page are not too long. A generated page has those that its tool writes."""
    lines = CODE.sub(lambda it: "\n" * it[0].count("\n"), text).splitlines()
    prose = ((number, it) for number, it in enumerate(lines, 1) if not it.startswith("|"))
    long = [number for number, it in prose if len(it) > COLUMNS]
    is_generated = path.startswith("docs/generated/")
    tally.check(is_generated or not long, f"{path}: more than {COLUMNS} columns in lines {long}")


def words_in(sentence: str) -> int:
    """How many words a sentence has. Code is one word: it is read as a name."""
    return len(re.sub(r"`[^`]*`", "code", sentence).split())


def try_sentences(tally: Tally, path: str, text: str) -> int:
    """The sentences of a page are short: how many words it has."""
    lengths = [(words_in(it), it) for it in sentences(text)]
    words = sum(count for count, _ in lengths)
    median = statistics.median([count for count, _ in lengths] or [0])
    long = [(count, it) for count, it in lengths if count > LONG_SENTENCE]
    longer = f"{len(long)} sentences of more than {LONG_SENTENCE} words"
    tally.note(f"{path}: {words} words, median {median:g}, {longer}")
    for count, it in long:
        tally.note(f"{path}: {count} words: {it}")
    why = f"{path}: the median sentence has {median:g} words, more than {MEDIAN}"
    tally.check(path in TABLES or median <= MEDIAN, why)
    return words


def try_names(tally: Tally, path: str, text: str) -> None:
    """The tests that a page names are there, and the lines that it quotes."""
    tests = {"setup", *families(TESTS), *(it.name for it in TESTS)}
    named = re.findall(r"\btools/test ([a-z][\w-]*)", text)
    unknown = [it for it in named if it not in tests]
    tally.check(not unknown, f"{path} names tests that are not there: {unknown}")
    for file, lines in QUOTES.findall(text):
        is_there = lines in read_text(file)
        tally.check(is_there, f"{path} quotes what is not in {file}:\n{lines}")


@Test("pages", "the sentences of the pages are short")
def try_pages(tally: Tally, options: Options) -> None:
    try_first_screen(tally)
    try_proofs(tally)
    try_decisions(tally)
    total = 0
    for path in all_pages():
        text = read_text(path)
        total += try_sentences(tally, path, text)
        try_words(tally, path, text)
        try_columns(tally, path, text)
        try_names(tally, path, text)
    tally.note(f"all pages: {total} words of at most {WORDS}")
    tally.check(total <= WORDS, f"the pages have {total} words, more than {WORDS}")
