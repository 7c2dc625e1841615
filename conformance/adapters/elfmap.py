"""elfmap. The program is that of the environment's ELFMAP, or of the PATH."""

import os

from elf_conformance import text_elfmap
from elf_conformance.adapter import Parsed, Ran, Reading, first_line


def version_of(words: str) -> str:
    """What is printed of the version, or ELFMAP_VERSION of the environment."""
    own = os.environ.get("ELFMAP_VERSION", "")
    return f"elfmap {own}".strip() if "error" in words else words


class Elfmap(Parsed):
    """elfmap show, which refuses a file by its first rule, and a table by a line of its own."""

    name = "elfmap"
    words = (os.environ.get("ELFMAP", "elfmap"), "show", "{file}")
    version_words = (os.environ.get("ELFMAP", "elfmap"), "--version")
    about = "checks and shows files, by the rules of this suite"
    checks = True

    def version(self) -> str:
        """The version; the program alone, without the script of a release, prints none."""
        return version_of(super().version())

    def complaint(self, ran: Ran) -> str:
        """A line that refuses the file or a table."""
        refused = [it for it in ran.text.splitlines() if it.startswith("refused ")]
        return first_line(refused[0] if refused else super().complaint(ran))

    def refusal(self, ran: Ran) -> Reading:
        """The rule and the offset, of the file or of its tables, and the rest of the lines."""
        words = ran.text.split()
        if len(words) == 3 and words[0] == "refused":
            return {"refused": {"rule": int(words[1]), "offset": int(words[2])}}
        return text_elfmap.reading(ran.text)

    def reading(self, ran: Ran, folder: str) -> Reading:
        """All that it prints."""
        return text_elfmap.reading(ran.text)


TOOLS = [Elfmap()]
