"""`tools/test names`: each name of a definition is in one crate."""

import collections
import glob

from .sources import definitions
from .suite import Tally, Test
from .tree import TOP, Options


def places() -> dict[str, list[str]]:
    """The files of specs/ that define each name."""
    found = collections.defaultdict[str, list[str]](list)
    for path in sorted(glob.glob("crates/*/specs/**/*.antt", root_dir=TOP, recursive=True)):
        for name in definitions(path)[0]:
            found[name].append(path)
    return found


@Test("names", "each name of a definition is in one crate")
def try_names(tally: Tally, options: Options) -> None:
    found = places()
    for name, paths in sorted(found.items()):
        if len({it.split("/")[1] for it in paths}) > 1:
            tally.fail(f"{name}: {', '.join(paths)}")
    tally.check(found and not tally.failed, "a name is defined in more than one crate")
