"""How the kit's checker reads a crate of this repository over built libraries; and `tools/dev
prove`, which proves the libraries below a crate and builds it."""

import fcntl
import functools
import hashlib
import os
from collections.abc import Callable, Iterable
from concurrent.futures import Future, ThreadPoolExecutor
from pathlib import Path

from .tree import (
    LIBRARIES_OF,
    PROCESSORS,
    STATIC_LIBRARIES,
    TOP,
    below,
    deps,
    is_newer,
    is_program,
    read_bytes,
    said,
    texts_of,
)

# Where `tools/dev prove` puts the libraries that it proved, each beside a sum of what it was made
# from.
RLIBS = f"{TOP}/crates/elfmap/out/rlibs"
FolderOf = Callable[[str], str]


@functools.cache
def kit() -> str:
    """The folder of the kit, which is that of the page that `rt doc` names."""
    return os.path.dirname(said("rt", "doc").stdout.strip())


@functools.cache
def version() -> str:
    """The version of the kit."""
    return said("rt", "version").stdout


@functools.cache
def sum_of(crate: str) -> str:
    """A sum of all that a library is built from: the kit, its texts, and those of the libraries
    below it."""
    found = hashlib.sha256(f"{version()} {LIBRARIES_OF[crate]}".encode())
    for path in texts_of(crate):
        found.update(f"{path[len(TOP):]} {os.path.getsize(path)} ".encode() + read_bytes(path))
    for dep in deps(crate):
        found.update(sum_of(dep).encode())
    return found.hexdigest()


def is_built_by_prove(crate: str) -> bool:
    """Whether `tools/dev prove` built the library of these texts."""
    made = f"{RLIBS}/{crate}.sum"
    return os.path.isfile(made) and read_bytes(made).decode() == sum_of(crate)


def gate_folder(crate: str) -> str:
    """Where `rt ci` puts the library of a crate."""
    return f"{TOP}/crates/{crate}/out/rlib"


def built_below(crates: Iterable[str]) -> tuple[FolderOf, list[str]]:
    """The folder of each library below these crates, all built by `tools/dev prove` or all by `rt
    ci`: a mixture does not fit together. Where neither has them all, also those that `tools/dev
    prove` lacks."""
    names = list(dict.fromkeys(it for crate in crates for it in below(crate)))
    lacking = [it for it in names if not is_built_by_prove(it)]
    if lacking and all(is_newer(f"{gate_folder(it)}/{it}.rlib", texts_of(it)) for it in names):
        return gate_folder, []
    return lambda name: RLIBS, lacking


def words(crate: str, folder_of: FolderOf) -> list[str]:
    """The arguments with which `rattle check` and `rattle build` read a crate. `folder_of` returns
    the folder of a library below it."""
    rlibs = {name: folder_of(name) for name in below(crate)}
    found = ["--crate-name", crate, "src/main.rt" if is_program(crate) else "src/lib.rt"]
    for name in ["std", *LIBRARIES_OF[crate]]:
        found += ["--extern", f"{name}={rlibs.get(name, f'{kit()}/rlibs')}/{name}.rlib"]
    for folder in dict.fromkeys([f"{kit()}/rlibs", *rlibs.values()]):
        found += ["-L", f"dependency={folder}"]
    found += ["--antt-project", f"{kit()}/rattle/logic/antt-project.json"]
    if crate in STATIC_LIBRARIES:
        found += ["--crate-type", "staticlib"]
    return [*found, "--logic-built", f"{kit()}/logic_built", "--links", f"{crate}="]


def checked(
    crate: str, functions: Iterable[str], folder: str, folder_of: FolderOf, kept: str
) -> str:
    """What the checker says of a crate's text in a folder, or of these functions and those that
    they call; it keeps its work in `kept`."""
    only = [word for it in functions for word in ("--only", it.removeprefix(f"{crate}::"))]
    command = [f"{kit()}/bin/rattle", "check", *words(crate, folder_of), "--incremental", kept]
    return said(*command, *only, folder=folder).stdout


def link_words(output: str, source: str) -> list[str]:
    """The command that makes a program of what `rattle build` wrote."""
    target = ["--target", "x86_64-unknown-linux-gnu", "--toolchain", f"{kit()}/toolchain"]
    libraries = [f"{kit()}/c/libos_c.a", f"{kit()}/c/liblibc_c.a"]
    return [f"{kit()}/bin/rattle-link", *target, "-o", output, source, *libraries]


def is_current(crate: str, path: str) -> bool:
    """Whether what was built of a crate is at least as new as its texts and those of all crates
    below it."""
    return is_newer(path, (it for own in [*below(crate), crate] for it in texts_of(own)))


# ---- tools/dev prove

MOST_JOBS = 8
# A library has a job for each processor where less than this part of all texts can be proved beside
# it.
LITTLE_BESIDE = 0.18
# A chain of libraries, each of which needs the one before, is long from this part of the longest
# one's texts on.
LONG_CHAIN = 0.85


def run(command: list[str], crate: str) -> None:
    """Runs a command in the crate's folder, and prints what it said at its end and in one piece."""
    ended = said(*command, folder=f"{TOP}/crates/{crate}")
    print(ended.stdout, end="", flush=True)
    if ended.returncode:
        raise SystemExit(f"prove: {crate} was not built")


@functools.cache
def size_of(crate: str) -> int:
    """The length of its texts, which roughly gives the time of a check of it."""
    return sum(map(os.path.getsize, texts_of(crate)))


class Build:
    """A build of what a crate needs, and of the crate, if it is a program or a library for C."""

    def __init__(self, target: str) -> None:
        self.target = target
        self.crates = below(target)
        self.chains_below: dict[str, int] = {}
        for it in self.crates:
            longest = max((self.chains_below[dep] for dep in deps(it)), default=0)
            self.chains_below[it] = size_of(it) + longest
        self.rlibs: dict[str, Future[None]] = {}

    def chain_above(self, crate: str) -> int:
        """The texts of the longest chain of libraries that begins with this one."""
        above = (self.chain_above(it) for it in self.crates if crate in deps(it))
        return size_of(crate) + max(above, default=0)

    def beside(self, crate: str) -> list[str]:
        """The libraries that can be proved beside this one: neither needs the other."""
        others = (it for it in self.crates if it != crate)
        return [it for it in others if it not in below(crate) and crate not in below(it)]

    def jobs_of(self, crate: str) -> int:
        """A library beside which little can be proved has a job for each processor, one on a long
        chain half as many, any other one has one: each job costs processor time too."""
        most = min(MOST_JOBS, PROCESSORS)
        beside = sum(map(size_of, self.beside(crate)))
        if beside < LITTLE_BESIDE * sum(map(size_of, self.crates)):
            return most
        chain = self.chains_below[crate] + self.chain_above(crate) - size_of(crate)
        is_long = chain >= LONG_CHAIN * max(self.chains_below.values())
        return max(1, most // 2) if is_long else 1

    def library(self, crate: str) -> None:
        """Builds a library when those below it are built; one that was built from the same texts is
        kept."""
        for dep in deps(crate):
            self.rlibs[dep].result()
        if is_built_by_prove(crate):
            return
        made = Path(RLIBS, f"{crate}.sum")
        made.unlink(missing_ok=True)
        command = [f"{kit()}/bin/rattle", "build", *words(crate, lambda _: RLIBS), "--statements"]
        run([*command, "--jobs", str(self.jobs_of(crate)), "-o", f"{RLIBS}/{crate}.rlib"], crate)
        made.write_text(sum_of(crate), encoding="ascii")

    def output(self, folder_of: FolderOf) -> None:
        """Builds the program, or the library for C."""
        crate = self.target
        out = f"{TOP}/crates/{self.target}/out"
        os.makedirs(out, exist_ok=True)
        command = [f"{kit()}/bin/rattle", "build", *words(crate, folder_of)]
        command += ["--toolchain", f"{kit()}/toolchain"]
        if is_program(crate):
            jobs = str(min(MOST_JOBS, PROCESSORS))
            run([*command, "--jobs", jobs, "-o", f"{out}/{crate}.o"], crate)
            run(link_words(f"{out}/{crate}", f"{out}/{crate}.o"), crate)
        elif crate in STATIC_LIBRARIES:
            run([*command, "-o", f"{out}/lib{crate}.a"], crate)

    def all(self) -> None:
        """Builds what lacks: the libraries, and the output over them."""
        os.makedirs(RLIBS, exist_ok=True)
        folder_of, lacking = built_below([self.target])
        # Over the libraries that are built, by the gate or by an earlier call.
        if not lacking:
            self.output(folder_of)
            return
        # One run at a time: another one waits here, and then finds the libraries built.
        with open(f"{RLIBS}/lock", "w", encoding="ascii") as lock:
            fcntl.flock(lock, fcntl.LOCK_EX)
            self.libraries()
            self.output(lambda _: RLIBS)

    def libraries(self) -> None:
        """Builds the libraries, side by side as far as they can be."""
        with ThreadPoolExecutor(max(1, len(self.crates))) as pool:
            # In the order of `below`, so that those that a crate waits for are in `rlibs`.
            for crate in self.crates:
                self.rlibs[crate] = pool.submit(self.library, crate)
            for it in self.rlibs.values():
                it.result()


def output_of(crate: str) -> str:
    """The path of the program or the library for C that is built of a crate."""
    name = f"lib{crate}.a" if crate in STATIC_LIBRARIES else crate
    return f"{TOP}/crates/{crate}/out/{name}"


def built(crate: str) -> str:
    """The program or the library for C of a crate, built if it is older than a text."""
    path = output_of(crate)
    if not is_current(crate, path):
        Build(crate).all()
    return path
