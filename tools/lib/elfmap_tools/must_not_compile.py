"""`tools/test must-not-compile`: each function of cases/sources/outlives.rt.txt has an error of the
borrow checker."""

import re

from .compiled_docs import OUTLIVES, output_of
from .suite import Tally, Test
from .tree import Options


@Test(
    "must-not-compile",
    "what borrows from a file's bytes and outlives them is refused by the borrow checker",
)
def try_must_not_compile(tally: Tally, options: Options) -> None:
    output = output_of([], tally.folder)
    errors = r"^src/lib\.rt:(\d+):.*borrow-e0(?:505|515|597)"
    refused = [int(it) for it in re.findall(errors, output, re.M)]
    for it in re.finditer(r"^pub fn (\w+)(?:.*\n)*?^}", OUTLIVES, re.M):
        first = OUTLIVES.count("\n", 0, it.start()) + 1
        last = OUTLIVES.count("\n", 0, it.end()) + 1
        is_refused = any(first <= line <= last for line in refused)
        tally.check(is_refused, f"the borrow checker did not refuse {it[1]}: {output[-2000:]}")
