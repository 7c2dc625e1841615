"""`tools/test cases`: the program answers the cases of cases/*.txt."""

from collections.abc import Iterator
from dataclasses import replace

from .building import output_of
from .suite import Tally, Test, word
from .tree import PROGRAM, TOP, Options
from .written_cases import Case, every_case

ONLY = word(
    "--only",
    "run the cases alone whose words or files have this name in them",
    metavar="NAME",
    default="",
)
FROM = word(
    "--in", "another folder of cases", dest="folder", metavar="FOLDER", default=f"{TOP}/cases"
)


def ways_of(case: Case) -> Iterator[tuple[str, Case]]:
    """The program, and each other way to the answer of the case: `check` is a program of its own
    too; and a file that it accepts or refuses is read whole, and sought in."""
    yield PROGRAM, case
    if case.words[:1] != ["check"]:
        return
    others = [it for it in case.words[1:] if it != "--seek"]
    is_seeking = len(others) < len(case.words) - 1
    if case.status < 2:
        seek = [] if is_seeking else ["--seek"]
        yield PROGRAM, replace(case, words=["check", *seek, *others])
    # The program of its own has another help.
    if case.status < 2 or not is_seeking and "--help" not in others:
        yield output_of("elfmap_check"), replace(case, words=["check", *others])


@Test(
    "cases",
    "the program answers the cases of cases/*.txt",
    crates="elfmap elfmap_check",
    options=(FROM, ONLY),
)
def try_cases(tally: Tally, options: Options) -> None:
    for case in every_case(options.folder):
        if options.only not in str(case):
            continue
        for program, it in ways_of(case):
            status, out, err = it.found(program)
            # The text of an error is compared where the case has one.
            own = err if it.err or it.status < 2 else b""
            tally.same(str(it), (status, out, own), (it.status, it.out, it.err))
