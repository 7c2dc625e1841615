"""`tools/test doc-examples`: each example in the docs of the libraries compiles: its names, types,
moves and borrows are right. Nothing is proved of it, since what an example leaves out, as a check
of a number, a proof would need."""

import re
from collections import Counter

from .compiled_docs import Example, examples_in, output_of
from .sources import sources_of
from .suite import Tally, Test
from .tree import LIBRARIES_OF, Options, is_program


def faults_in(output: str, examples: list[Example]) -> list[str]:
    """What the compiler says against examples, by the files that have them."""
    found: dict[str, list[str]] = {}
    errors = r"^(src/example_(\d+)\.rt)(:\d+:\d+: error.*)"
    for name, number, line in re.findall(errors, output, re.M):
        path = examples[int(number)].path
        found.setdefault(number, []).append(path + line.replace(name, path))
    return ["\n".join(it) for it in found.values()]


@Test("doc-examples", "each example in a doc comment compiles")
def try_doc_examples(tally: Tally, options: Options) -> None:
    examples: list[Example] = []
    for crate in LIBRARIES_OF:
        if not is_program(crate):
            for path in sources_of(crate):
                examples += examples_in(crate, path)
    output = output_of(examples, tally.folder)
    faults = faults_in(output, examples)
    if not faults and not re.search(r"^src/lib\.rt:\d+:.*borrow-e0", output, re.M):
        raise SystemExit(f"the compiler gives no verdict on the examples:\n{output}")
    tally.count(len(examples), faults)
    counts = Counter(it.crate for it in examples)
    tally.note(", ".join(f"{crate} {count}" for crate, count in counts.items()))
