"""Tools that write a file again. What they write has to have the same names and contents."""

import os

from elf_conformance.adapter import Adapter, Ran, Reading
from elf_conformance.comparing import copied_of
from elf_conformance.reading import reading
from elf_conformance.running import contents


class Copier(Adapter):
    """A tool that copies a file."""

    about = "writes files again"

    def reading(self, ran: Ran, folder: str) -> Reading | None:
        """The names and sections of what it wrote, by the second implementation."""
        if not os.path.exists(f"{folder}/out"):
            return None
        return {"copied": copied_of(reading(contents(f"{folder}/out")))}


class Objcopy(Copier):
    """objcopy of binutils, with the targets that it is built for."""

    name = "objcopy"
    words = ("objcopy", "{file}", "{out}")
    version_words = ("objcopy", "--version")
    package = "binutils"
    # Debian builds it for the machine's own files.
    orders = frozenset({"little"})


class LlvmObjcopy(Copier):
    """llvm-objcopy of LLVM."""

    package = "llvm"

    def __init__(self, version: str) -> None:
        self.name = f"llvm-objcopy {version}"
        self.words = (f"llvm-objcopy-{version}", "{file}", "{out}")
        self.version_words = (f"llvm-objcopy-{version}", "--version")


class Patchelf(Adapter):
    """patchelf, which prints the needed libraries of a program or a library."""

    name = "patchelf"
    words = ("patchelf", "--print-needed", "{file}")
    version_words = ("patchelf", "--version")
    package = "patchelf"
    about = "changes programs and libraries; here it shows needed libraries"
    types = frozenset({2, 3})

    def reading(self, ran: Ran, folder: str) -> Reading | None:
        """The names of needed libraries."""
        return {"needed": ran.text.splitlines()}


TOOLS: list[Adapter] = [Objcopy(), LlvmObjcopy("14"), LlvmObjcopy("19"), Patchelf()]
