"""Other tools: a debugger, a scanner, and two that Debian 12 has not."""

import importlib.util
import json
import sys

from elf_conformance.adapter import Adapter, Json, Ran, Reading, sources


class Gdb(Adapter):
    """gdb, which shows the sections of a file that are loaded."""

    name = "gdb"
    words = ("gdb", "-nx", "-batch", "-ex", "maintenance info sections", "{file}")
    version_words = ("gdb", "--version")
    package = "gdb"
    about = "debugs programs; here it shows sections"
    # It takes a third of a second for each file.
    sets = frozenset({"rules", "readings", "hostile"})
    memory = 4 << 30

    def complaint(self, ran: Ran) -> str:
        """It goes on without a file that it can't read. Machines that it is not built for are no
        fault of the file."""
        lines = [it for it in ran.complaint.splitlines() if "architecture" not in it]
        own = ran._replace(err="\n".join(lines).encode("latin-1"))
        return super().complaint(own)


class Scanelf(Adapter):
    """scanelf of pax-utils, which shows the needed libraries."""

    name = "scanelf"
    words = ("scanelf", "-q", "-F", "%n#f", "{file}")
    version_words = ("scanelf", "--version")
    package = "pax-utils"
    about = "scans programs and libraries; here it shows needed libraries"
    types = frozenset({2, 3})


class Lief(Json):
    """LIEF for Python, by a small program."""

    name = "LIEF"
    words = (sys.executable, f"{sources()}/lief_elf.py", "{file}")
    version_words = (sys.executable, f"{sources()}/lief_elf.py", "--version")
    package = "not in Debian 12: pip install lief"

    def is_there(self) -> bool:
        """Whether Python has it."""
        return importlib.util.find_spec("lief") is not None


class Rabin2(Adapter):
    """rabin2 of radare2, which prints sections as JSON."""

    name = "rabin2"
    words = ("rabin2", "-j", "-S", "{file}")
    version_words = ("rabin2", "-v")
    package = "not in Debian 12: radare2"

    def reading(self, ran: Ran, folder: str) -> Reading | None:
        """The names, sizes and offsets of sections."""
        rows = json.loads(ran.text).get("sections", [])
        found = [[it["name"], it["vaddr"], it["size"]] for it in rows]
        return {"named_sections": found}


TOOLS: list[Adapter] = [Gdb(), Scanelf(), Lief(), Rabin2()]
