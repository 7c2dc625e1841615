"""`tools/test doc`: each public item has a doc comment, and is in the page of `tools/dev doc`
once."""

from .doc_page import made
from .requirements import JINJA2, MARKDOWN
from .suite import Tally, Test
from .tree import Options


@Test(
    "doc",
    "each public item has a doc comment, and is in the page of `tools/dev doc` once",
    commands=f"{JINJA2} {MARKDOWN}",
)
def try_doc(tally: Tally, options: Options) -> None:
    _, faults = made()
    tally.count(1, faults[:1])
