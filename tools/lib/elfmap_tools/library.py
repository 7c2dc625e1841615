"""The library for C.

`tools/release library`: the library in one archive, libelfmap.a. It has the calls without memory
(the crate elf_c), the engines (elf_c_engines), whose calls for memory get the names of
include/elfmap.h, and that memory over malloc (bindings/c/memory.c). A program takes of it what it
calls: without an engine neither the engines nor malloc. A release has the same as a shared library,
libelfmap.so.0, which exports the calls of include/elfmap.h and nothing else."""

import os
import shutil
import tempfile

from .building import built, output_of
from .header import calls
from .tree import TOP, is_newer, wanted, write

VERDICTS = "elf_c"
ENGINES = "elf_c_engines"
# As words: the crates of the library, and the commands that pack it.
BOTH = f"{VERDICTS} {ENGINES}"
PACKERS = "cc ar objcopy"
FOLDER = f"{TOP}/crates/{VERDICTS}/out"
LIBRARY = f"{FOLDER}/libelfmap.a"
SHARED = "libelfmap.so.0"
# The calls for memory, as include/elfmap.h has them without their beginning.
FUNCTIONS = ("alloc", "dealloc", "realloc")
RENAMED = [word for it in FUNCTIONS for word in ("--redefine-sym", f"rattle_{it}=elfmap_{it}")]
SOURCES = f"{TOP}/bindings/c"
WARNINGS = ["-std=c99", "-pedantic", "-Wall", "-Wextra", "-Werror", f"-I{TOP}/include"]
# The script that `ar` runs.
SCRIPT = f"""create libelfmap.a
addlib {VERDICTS}.a
addlib {ENGINES}.a
addmod memory.o
save
end
"""
# How the shared library is linked: without start files, as it needs none of them.
LINKING = [
    "-nostartfiles",
    f"-Wl,-soname,{SHARED}",
    "-Wl,-z,defs",
    "-Wl,-z,relro",
    "-Wl,-z,now",
    "-Wl,--build-id=none",
    "-Wl,--as-needed",
]


def pack(folder: str) -> str:
    """Packs the libraries that are built: the path of the archive in this folder."""
    with tempfile.TemporaryDirectory() as room:
        for crate in (VERDICTS, ENGINES):
            source = output_of(crate)
            if not os.path.isfile(source):
                raise SystemExit(
                    f"library: there is no {source}: tools/dev prove {crate} builds it"
                )
            wanted("objcopy", *RENAMED, source, f"{room}/{crate}.a")
        words = ["-std=c99", "-O2", "-fPIC", f"-I{TOP}/include", "-c", f"{SOURCES}/memory.c"]
        wanted("cc", *words, "-o", f"{room}/memory.o")
        write(f"{room}/script", SCRIPT)
        wanted("sh", "-c", "ar -M < script", folder=room)
        return str(shutil.move(f"{room}/libelfmap.a", f"{folder}/libelfmap.a"))


def shared(archive: str, folder: str) -> str:
    """Makes the shared library of the archive: its path in this folder. It needs malloc and copies
    of the C library alone. A program may define the functions of memory itself, as with the
    archive."""
    path = f"{folder}/{SHARED}"
    exported = " ".join(f"{it};" for it in calls())
    with tempfile.TemporaryDirectory() as room:
        script = write(f"{room}/script", f"ELFMAP_0 {{ global: {exported} local: *; }};\n")
        whole = ["-Wl,--whole-archive", archive, "-Wl,--no-whole-archive"]
        words = ["-shared", "-s", *LINKING, f"-Wl,--version-script={script}"]
        wanted("cc", *words, "-o", path, *whole)
    os.chmod(path, 0o644)
    return path


def packed() -> str:
    """The archive in the folder of the library, packed again where a part of it is newer."""
    parts = [*map(built, (VERDICTS, ENGINES)), f"{SOURCES}/memory.c"]
    return LIBRARY if is_newer(LIBRARY, parts) else pack(FOLDER)
