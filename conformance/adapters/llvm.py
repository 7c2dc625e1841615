"""llvm-readobj of LLVM, in the versions that Debian has."""

from elf_conformance import text_llvm
from elf_conformance.adapter import Parsed, Ran, first_line


class Readobj(Parsed):
    """llvm-readobj, with all that it shows."""

    package = "llvm"
    about = "shows files, and warns of what it can't show"
    parse = staticmethod(text_llvm.reading)

    def __init__(self, version: str) -> None:
        self.name = f"llvm-readobj {version}"
        self.words = (f"llvm-readobj-{version}", "--all", "--expand-relocs", "{file}")
        self.version_words = (f"llvm-readobj-{version}", "--version")

    def complaint(self, ran: Ran) -> str:
        """Warnings of `--all` on tables that are not there are none on the file."""
        lines = [it for it in ran.complaint.splitlines() if "string table was not found" not in it]
        own = ran._replace(err="\n".join(lines).encode("latin-1"))
        return first_line(super().complaint(own))


TOOLS = [Readobj("14"), Readobj("19")]
