"""`tools/test page`: the page for a browser, in node (page_in_node.py) and in chromium, by Selenium
(page_in_chromium.py)."""

import contextlib

from .library import VERDICTS as CRATE
from .page_in_chromium import InChromium
from .page_in_node import in_node
from .page_of_refused import try_refused
from .requirements import SELENIUM
from .suite import Tally, Test, number
from .tree import Options, wanted, write

ABOUT = "the page for a browser, in node beside `elfmap show`, and in chromium"
TOOLS = f"node wasm-opt chromium chromedriver {SELENIUM} ar cc gcc"
SOURCE = """int limit = 3;
int work(int);
const char *name(void) { return "answer"; }
int answer(int x) { return x < limit ? work(x) : 42; }
"""


@Test(
    "page",
    ABOUT,
    TOOLS,
    f"elfmap {CRATE}",
    alone=True,
    options=(number("count", 3000, "so many changed files"),),
)
def try_page(tally: Tally, options: Options) -> None:
    room = tally.folder
    in_node(tally, room, options.count)
    wanted("cc", "-c", "-O1", write(f"{room}/object.c", SOURCE), "-o", file := f"{room}/object.o")
    with contextlib.closing(InChromium(tally, room)) as it:
        it.sound_file(file)
        for part in (it.links, it.filtered, it.by_keys, it.for_readers, it.on_screens, it.typed):
            part()
        it.sound_file("/bin/true")
        tally.check(
            not it.value("document.querySelector('#memory-section').hidden"),
            "an executable has no bar by address",
        )
        it.refused_files(file)
        for part in (
            it.shared_byte,
            it.broken_tables,
            it.folder,
            it.million,
            it.named,
            it.of_sections,
            it.nameless,
            it.far_segment,
        ):
            part()
        try_refused(it, file)
        it.another_file(file)
        for part in (it.long_names, it.much_to_say, it.without_sections):
            part()
        it.resized(file)
        it.dropped_in_turn()
        it.of_picture()
        it.silent("at the end")
        it.sends_nothing()
