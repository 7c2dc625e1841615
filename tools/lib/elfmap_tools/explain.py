"""`tools/test explain`: the tests of elfmap-explain of the Python package alone. `tools/test
bindings` runs them too."""

from .library import BOTH, PACKERS
from .package_tests import unittests
from .suite import Tally, Test
from .tree import Options


@Test(
    "explain",
    "a file that breaks each rule, and what elfmap-explain says of it",
    commands=PACKERS,
    crates=BOTH,
)
def try_explain(tally: Tally, options: Options) -> None:
    unittests(tally, "tests.test_explain")
