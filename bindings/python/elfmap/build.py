"""Builds the shared library: python3 -m elfmap.build [FOLDER]

Writes libelfmap.so into FOLDER, or without one into the cache, and prints its path.
It is made by cc of the static library, libelfmap.a, of the folder that ELFMAP_LIB_DIR
names, else of a release that has this package, else of the one where the repository
makes it.
"""

import hashlib
import os
import subprocess
import sys
import tempfile
from pathlib import Path
from typing import Optional

from elfmap._library import NAME

ARCHIVE = "libelfmap.a"
PACKAGE = Path(__file__).resolve().parent
REPOSITORY = PACKAGE.parents[2]


def named_folder() -> Optional[Path]:
    """The folder of the library that ELFMAP_LIB_DIR names."""
    named = os.environ.get("ELFMAP_LIB_DIR")
    return Path(named).absolute() if named else None


def archive() -> Path:
    """The static library."""
    folders = [REPOSITORY / "lib", REPOSITORY / "crates/elf_c/out"]
    folders = [named_folder() or folder for folder in folders]
    for path in (folder / ARCHIVE for folder in folders):
        if path.is_file():
            return path
    raise FileNotFoundError(f"{ARCHIVE} is not in {' or '.join(map(str, folders))}")


def cached() -> Optional[Path]:
    """The path in the cache of what is built from the static library.

    Another static library has another path. Without a home there is no cache: None.
    """
    key = hashlib.sha256(archive().read_bytes()).hexdigest()[:16]
    try:
        cache = Path(os.environ.get("XDG_CACHE_HOME") or Path.home() / ".cache")
    except RuntimeError:
        return None
    return cache / "elfmap" / key / NAME


def is_writable(folder: Path) -> bool:
    """Whether the folder can be written in; it is made if it isn't there."""
    try:
        folder.mkdir(parents=True, exist_ok=True)
    except OSError:
        return False
    return os.access(folder, os.W_OK)


def build(path: Path) -> Path:
    """Builds the shared library at this path, in one step for those who look on."""
    path.parent.mkdir(parents=True, exist_ok=True)
    with tempfile.TemporaryDirectory(dir=path.parent) as room:
        made = Path(room) / NAME
        whole = ["-Wl,--whole-archive", str(archive()), "-Wl,--no-whole-archive"]
        command = ["cc", "-shared", "-o", str(made), *whole]
        ran = subprocess.run(command, capture_output=True, text=True)
        if ran.returncode:
            raise OSError(f"cc can't build {path}:\n{ran.stderr}")
        os.replace(made, path)
    return path


def main(words: list[str]) -> None:
    if len(words) > 1 or words[:1] in (["-h"], ["--help"]):
        sys.exit(__doc__)
    path = Path(words[0]) / NAME if words else cached()
    if not path:
        sys.exit("elfmap.build: there is no home for a cache: name a folder")
    print(build(path))


if __name__ == "__main__":
    try:
        main(sys.argv[1:])
    except OSError as fault:
        sys.exit(f"elfmap.build: {fault}")
