"""pyelftools, for Python. Its own exceptions and those of the modules that it reads by are an error
of the file; an AttributeError, a TypeError and the like are one of its own."""

import importlib.util
import sys

from elf_conformance.adapter import Json, sources

DEBIAN = "/usr/lib/python3/dist-packages"


class Pyelftools(Json):
    """pyelftools, by a small program."""

    name = "pyelftools"
    words = (sys.executable, f"{sources()}/pyelftools.py", "{file}")
    version_words = (sys.executable, f"{sources()}/pyelftools.py", "--version")
    package = "python3-pyelftools"

    def is_there(self) -> bool:
        """Whether Python has it, or Debian's Python."""
        if importlib.util.find_spec("elftools"):
            return True
        sys.path.append(DEBIAN)
        return importlib.util.find_spec("elftools") is not None


TOOLS = [Pyelftools()]
