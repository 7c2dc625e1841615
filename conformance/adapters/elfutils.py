"""The tools of elfutils."""

import re

from elf_conformance import text_elfutils
from elf_conformance.adapter import Adapter, Parsed, Ran, first_line, line_with


class EuReadelf(Parsed):
    """eu-readelf, with all that it shows of the tables of the suite."""

    name = "eu-readelf"
    words = ("eu-readelf", "-h", "-S", "-l", "-s", "-r", "-g", "-n", "-d", "{file}")
    version_words = ("eu-readelf", "--version")
    package = "elfutils"
    about = "shows files"
    parse = staticmethod(text_elfutils.reading)

    def complaint(self, ran: Ran) -> str:
        """It marks names that it can't show, also those of a file without a name table, in which
        there is no name."""
        has_names = not re.search(r"header string table index: +0$", ran.text, re.M)
        return super().complaint(ran) or (line_with(ran.text, "<corrupt>") if has_names else "")


class EuElflint(Adapter):
    """eu-elflint, which checks files by the standard, as strict as for files of GNU ld."""

    name = "eu-elflint"
    words = ("eu-elflint", "--gnu-ld", "{file}")
    version_words = ("eu-elflint", "--version")
    package = "elfutils"
    about = "checks files by the standard"
    checks = True

    def complaint(self, ran: Ran) -> str:
        """All but `No errors` is a complaint."""
        said = first_line(ran.text) or ran.complaint
        return "" if said == "No errors" else said or f"status {ran.status}"


TOOLS = [EuReadelf(), EuElflint()]
