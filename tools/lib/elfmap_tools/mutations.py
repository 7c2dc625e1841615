"""Mutation tests: the check has to refuse each bug of crates/CRATE/mutations.txt (CONTRIBUTING.md),
at the function that it is planted in.

Bugs are planted several at a time, each in a function of its own. If a check cannot decide, because
all that it has against a function is that it calls another one that is open too, or because proof
files name what the bug took away, the next check decides, and at last one of this bug alone. A
check reads only the functions that have a bug, and those that they call: that is why it takes less
than `rt ci` does for an edit in must-fail/, which costs a check of its crate. In the gate only
those with the line `gate: yes` are planted, over the libraries as `rt ci` has just left them. A
library that has none of them has failed: nothing shows there that the contracts refuse a wrong
body.

With --all, crates whose bugs an earlier run has refused are passed over, as long as no text has
changed (planted_bugs.py): that run takes hours."""

import glob
import os
import re
import shutil
import tempfile
from collections.abc import Iterable
from concurrent.futures import ThreadPoolExecutor, as_completed

from . import planted_bugs
from .building import FolderOf, built_below, checked, gate_folder
from .edits import Edit, bugs_in
from .rim_bugs import PARTS, bugs_of_part, lacking_commands, try_part
from .requirements import words_of
from .suite import Tally, Test, flag, word
from .tree import LIBRARIES_OF, PROCESSORS, TOP, Options, read_text, write

ABOUT = (
    "the check refuses each bug of mutations.txt with 'gate: yes', and tests refuse those of "
    "bindings/ and page/; of CRATE.., or with --all of every crate, each bug"
)
# What the checker prints if it could read the text and came to its end.
ENDED = re.compile(r"^only=", re.M)
CRATES = word(
    "crates",
    f"the crates, or of these folders, whose bugs are planted, all of them: {', '.join(PARTS)}",
    nargs="*",
    metavar="CRATE",
)
FIT = "plant none: only say whether each edit fits the text that it changes"
ALL = "plant all bugs, but for those of crates that docs/generated/PLANTED_BUGS.md has as they are"
FLAGS = (flag("all", ALL), flag("anew", "with --all, those too"), flag("fit", FIT))
ONLY = word("--only", "plant the bug of this name alone", metavar="NAME", default="")


def bugs_of(crate: str) -> list[Edit]:
    """The bugs of a crate."""
    return bugs_in(f"{TOP}/crates/{crate}/mutations.txt", crate)


def must_fail_of(crate: str) -> list[Edit]:
    """The edits of must-fail/ of a crate."""
    paths = sorted(glob.glob(f"{TOP}/crates/{crate}/must-fail/*.edit"))
    return [Edit(crate, os.path.basename(it), read_text(it), False) for it in paths]


# What the check has against a text: a message, which goes on in lines that begin with two spaces.
MESSAGE = re.compile(r"^(?:note: \S+:\d+:\d+: |\S+:\d+:\d+: error: ).*(?:\n  .*)*$", re.M)
# One that proof files name what the text no longer has, which says nothing of a contract.
LOST = re.compile(r"(?s)(\./)?proofs/.*(has no field|is not in scope|has no `|was not admitted)")


def proofs_of(bug: Edit) -> str:
    """The folder of the proofs of a bug's function."""
    path = bug.function.removeprefix(f"{bug.crate}::")
    return f"proofs/{path.replace('::', '/')}/"


def verdict(bug: Edit, said: str, others: Iterable[Edit]) -> str:
    """ "refused", or why not; nothing if other bugs that were planted too leave it open."""
    found = re.search(rf"^fn {re.escape(bug.function)}: (.+)$", said, re.M)
    if not found or not ENDED.search(said):
        return f"the check came to no verdict on {bug.function}: {said.strip()[-300:]}"
    line = found[1]
    if line == "proved":
        return "NOT REFUSED: its function is still proved"
    messages: list[str] = MESSAGE.findall(said)
    lost = [it for it in messages if LOST.match(it)]
    # A proof takes the functions that it calls by their contracts: what the check doesn't prove of
    # this one is due to its own text.
    is_own = "it calls" not in line or "did not prove" in line
    if proofs := [proofs_of(it) for it in others]:
        is_lost = any(not any(own in it for own in proofs) for it in lost)
        return "refused" if is_own and not is_lost else ""
    if lost and lost == messages:
        return "NOT REFUSED: proof files name what it took away, and no more"
    # What it calls and is open has to be a closure in it: no other function of the text has a bug.
    inside = f"::{bug.function.rsplit('::', 1)[1]}::"
    is_own = is_own or any(inside in name for name in re.findall("`([^`]+)`", line))
    return "refused" if is_own else "NOT REFUSED: another function than its own is open"


def pick(bugs: list[Edit]) -> list[Edit]:
    """As many of the bugs as are in different functions and take no text from one another."""
    taken: set[object] = set()
    picked: list[Edit] = []
    for bug in bugs:
        places: set[object] = {bug.function, *(pair[:3] for pair in bug.pairs)}
        if not taken & places:
            taken |= places
            picked.append(bug)
    return picked


def planted(picked: list[Edit], folder: str, folder_of: FolderOf) -> dict[Edit, str]:
    """How each of these bugs ended, planted together; nothing for one that is still open."""
    alone = len(picked) == 1
    whys: dict[Edit, str] = {}
    for bug in picked:
        made, whys[bug] = bug.texts(folder)
        for file, text in made.items():
            write(f"{folder}/{file}", text)
    # What another bug made of the text may be why one can't be planted: it waits for its turn.
    if not alone:
        whys = {bug: why for bug, why in whys.items() if not why}
    said = ""
    if not any(whys.values()):
        functions = [bug.function for bug in whys]
        said = checked(picked[0].crate, functions, folder, folder_of, "kept")
    # A text that the check can't read says nothing of the other bugs in it: each is planted alone.
    if not alone and not ENDED.search(said):
        return {}
    return {bug: why or verdict(bug, said, whys.keys() - {bug}) for bug, why in whys.items()}


def copy_parts(crate: str, folder: str) -> None:
    """Copies what is not changed of a crate, and what an earlier check kept, into a folder."""
    os.mkdir(f"{folder}/kept")
    for part, name in (("specs", "specs"), ("proofs", "proofs"), ("out/incremental", "kept")):
        if os.path.isdir(f"{crate}/{part}"):
            shutil.copytree(f"{crate}/{part}", f"{folder}/{name}", dirs_exist_ok=True)


def try_all(left: list[Edit], folder_of: FolderOf, is_shown: bool) -> list[tuple[Edit, str]]:
    """Tries the bugs of a crate, as many at a time as it can: how each ended. Where all bugs are
    planted, which takes an hour and more, it says so at once."""
    ends: list[tuple[Edit, str]] = []
    alone = False
    crate = f"{TOP}/crates/{left[0].crate}"
    with tempfile.TemporaryDirectory(prefix="mutations-") as folder:
        copy_parts(crate, folder)
        while left:
            shutil.rmtree(f"{folder}/src", ignore_errors=True)
            shutil.copytree(f"{crate}/src", f"{folder}/src")
            ended = planted(left[:1] if alone else pick(left), folder, folder_of)
            decided = [(bug, end) for bug, end in ended.items() if end]
            if is_shown:
                for bug, end in decided:
                    print(f"{bug.crate}: {bug.name}: {end}", flush=True)
            ends += decided
            alone = not any(ended.values())
            left = [bug for bug in left if not ended.get(bug)]
    return ends


def try_fit(tally: Tally, names: list[str]) -> None:
    """Each edit of these crates and parts fits the text that it changes."""
    for name in names:
        folder = name if name in PARTS else f"crates/{name}"
        for edit in must_fail_of(name) + bugs_of_any(name):
            _, why = edit.texts(f"{TOP}/{folder}")
            tally.check(not why, f"{name}: {edit.name}: {why}")


def bugs_of_any(name: str) -> list[Edit]:
    """The bugs of a crate, or of a part that is around the crates."""
    return bugs_of_part(name) if name in PARTS else bugs_of(name)


def chosen(names: Iterable[str], options: Options) -> list[list[Edit]]:
    """The bugs of these crates or parts that are planted, those of each together."""
    found: list[list[Edit]] = []
    for name in names:
        bugs = bugs_of_any(name)
        if not plants_all(options):
            bugs = [it for it in bugs if it.is_for_gate]
        bugs = [it for it in bugs if options.only in ("", it.name)]
        if bugs:
            found.append(bugs)
    return found


def plants_all(options: Options) -> bool:
    """Whether bugs are planted that the gate does not plant too."""
    return bool(options.all or options.crates or options.only)


def count_ends(tally: Tally, ends: list[tuple[Edit, str]]) -> None:
    """Counts how the bugs of a crate or a part ended."""
    ends.sort(key=lambda it: it[0].name)
    wrong = [f"{bug.crate}: {bug.name}: {end}" for bug, end in ends if end != "refused"]
    tally.count(len(ends), wrong)
    crate = ends[0][0].crate
    tally.note(f"{crate}: {len(ends) - len(wrong)} of {len(ends)} refused")


def note_refused(ends: list[tuple[Edit, str]]) -> None:
    """Notes a crate whose bugs were all planted and refused."""
    crate = ends[0][0].crate
    are_all = len(ends) == len(bugs_of(crate))
    if are_all and all(end == "refused" for _, end in ends):
        planted_bugs.note(crate, len(ends))


def without_known(tally: Tally, bugs: list[list[Edit]]) -> list[list[Edit]]:
    """The crates whose bugs no earlier run has refused as they are."""
    left = [it for it in bugs if not planted_bugs.is_known(it[0].crate, len(it))]
    known = [it for it in bugs if it not in left]
    if known:
        count = sum(map(len, known))
        tally.note(f"{count} bugs of {len(known)} crates are refused by {planted_bugs.PAGE}")
    return left


def try_bugs(tally: Tally, bugs: list[list[Edit]], options: Options) -> None:
    """The check refuses these bugs of crates."""
    folder_of: FolderOf = gate_folder
    if plants_all(options):
        folder_of, lacking = built_below([it[0].crate for it in bugs])
        if lacking:
            how = "`tools/dev prove CRATE` builds the libraries below a crate"
            tally.fail(f"not built: {' '.join(lacking)}; {how}")
            return
    # Some crates at a time, those with most bugs first, so that none of these is alone at the end.
    bugs.sort(key=len, reverse=True)
    with ThreadPoolExecutor(min(4, PROCESSORS)) as pool:
        is_shown = plants_all(options)
        tries = [pool.submit(try_all, it, folder_of, is_shown) for it in bugs]
        for tried in as_completed(tries):
            count_ends(tally, tried.result())
            if is_shown:
                note_refused(tried.result())


def try_parts(tally: Tally, bugs: list[list[Edit]]) -> None:
    """Tests refuse these bugs of the parts that are around the crates."""
    if lacking := lacking_commands(it[0].crate for it in bugs):
        tally.fail(words_of(lacking))
        return
    for own in bugs:
        ends, wrong = try_part(own[0].crate, own)
        count_ends(tally, ends)
        for it in wrong:
            tally.fail(f"{own[0].crate}: {it}")


@Test("mutations", ABOUT, alone=True, options=(*FLAGS, ONLY, CRATES))
def try_mutations(tally: Tally, options: Options) -> None:
    names = options.crates or [*sorted(LIBRARIES_OF), *PARTS]
    unknown = [it for it in names if it not in LIBRARIES_OF and it not in PARTS]
    if unknown:
        tally.fail(f"no crate of crates.txt, and no part with bugs: {' '.join(unknown)}")
        return
    if options.fit:
        try_fit(tally, names)
    else:
        of_crates = chosen((it for it in names if it not in PARTS), options)
        of_parts = chosen((it for it in names if it in PARTS), options)
        if options.only and not of_crates + of_parts:
            tally.fail(f"no bug of the name {options.only}")
        if options.all and not options.anew:
            of_crates = without_known(tally, of_crates)
        if of_crates:
            try_bugs(tally, of_crates, options)
        try_parts(tally, of_parts)
    if options.crates or options.only:
        return
    for name in (*LIBRARIES_OF, *PARTS):
        bugs = bugs_of_any(name) if name.startswith("elf_") or name in PARTS else []
        if bugs:
            is_in_gate = any(it.is_for_gate for it in bugs)
            tally.check(is_in_gate, f"{name}: it has no bug with 'gate: yes'")
