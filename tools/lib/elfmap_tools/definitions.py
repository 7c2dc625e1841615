"""`tools/test definitions`: docs/generated/DEFINITIONS.md is what the comments of specs/ say, and
docs/generated/LEMMAS.md what the heads of lemma files say. It fails where a word is in no file of
specs/ or has no sentence, where a lemma file has no head, and where a page is not up to date."""

from . import lemmas_page
from .definitions_page import DEFINITIONS, ROW, known, whole
from .suite import Tally, Test
from .tree import Options, read_text

ABOUT = "the pages DEFINITIONS and LEMMAS are what the comments of specs/ and proofs/ say"


@Test("definitions", ABOUT)
def try_definitions(tally: Tally, options: Options) -> None:
    page = read_text(DEFINITIONS)
    for word, sentence in ROW.findall(page):
        found = known().get(word)
        tally.check(found, f"{word} is in no file of specs/")
        if found:
            why = f"{word} has no sentence: no comment in specs/, and none in its row"
            tally.check(sentence or found.comment, why)
    if not tally.failed:
        why = f"{DEFINITIONS} is not what `tools/release definitions` makes"
        tally.check(page == whole(page), why)
    try_lemmas(tally)


def try_lemmas(tally: Tally) -> None:
    """Each lemma file has an idea at its head, and the page has them all."""
    for place in lemmas_page.lemma_files():
        why = f"{lemmas_page.path_of(place)} begins with no comment"
        tally.check(lemmas_page.idea_of(place), why)
    is_current = read_text(lemmas_page.LEMMAS) == lemmas_page.whole()
    why = f"{lemmas_page.LEMMAS} is not what `tools/release lemmas` makes"
    tally.check(is_current, why)
