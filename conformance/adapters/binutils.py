"""readelf of GNU binutils."""

from elf_conformance import text_readelf
from elf_conformance.adapter import Parsed, Ran, line_with


class Readelf(Parsed):
    """readelf, with all that it shows of the tables of the suite."""

    name = "readelf"
    words = ("readelf", "-W", "-h", "-S", "-l", "-s", "-r", "-g", "-n", "-d", "{file}")
    version_words = ("readelf", "--version")
    package = "binutils"
    about = "shows files, and warns of what it can't show"
    parse = staticmethod(text_readelf.reading)

    def complaint(self, ran: Ran) -> str:
        """It marks what it can't show."""
        return super().complaint(ran) or line_with(ran.text, "<corrupt")


TOOLS = [Readelf()]
