"""Loaders, which run a program: of Linux, of the GNU C library and of musl. They run the programs
of the suite alone, which end at once."""

import os
import platform
import shutil

from elf_conformance.adapter import Adapter, Problem, Ran, Reading

LOADED = "42"


class Loader(Adapter):
    """A loader, by the command that is in front of the program."""

    about = "loads programs"
    sets = frozenset({"loading"})

    def __init__(self, name: str, package: str, *before: str) -> None:
        self.name = name
        self.package = package
        self.before = before
        self.words = before
        self.version_words = before[:1]

    def is_there(self) -> bool:
        """Whether the loader and a processor for the programs are here."""
        is_machine = platform.machine() == "x86_64" and platform.system() == "Linux"
        return is_machine and all(map(os.path.exists, self.before[:1]))

    def version(self) -> str:
        """The version of the system, or of the library."""
        if not self.before:
            return f"{platform.system()} {platform.release()}"
        # That of musl prints it if it is called without words.
        own = ("--version",) if "ld-linux" in self.before[0] else ()
        self.version_words = (*self.before, *own)
        return super().version()

    def call(self, problem: Problem, folder: str) -> Ran:
        """Runs the program, which is copied so that it can be run."""
        shutil.copy(problem.paths[0], f"{folder}/program")
        os.chmod(f"{folder}/program", 0o755)
        self.words = (*self.before, f"{folder}/program")
        try:
            ran = super().call(problem, folder)
        except OSError as error:
            return Ran(126, b"", str(error.strerror).encode(), 0, 0)
        # The status of the program is what it read, and no error.
        if ran.status < 0 or ran.status != int(LOADED) and ran.complaint:
            why = ran.complaint or f"signal {-ran.status}"
            return ran._replace(status=126, err=why.encode("latin-1"))
        return ran._replace(status=0, out=str(ran.status).encode(), err=b"")

    def reading(self, ran: Ran, folder: str) -> Reading | None:
        """The status of the program."""
        return {"loading": {"status": int(ran.text)}}


TOOLS: list[Adapter] = [
    Loader("Linux", ""),
    Loader("glibc ld.so", "libc6", "/lib64/ld-linux-x86-64.so.2"),
    Loader("musl ld.so", "musl", "/lib/ld-musl-x86_64.so.1"),
]
