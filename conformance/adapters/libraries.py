"""Libraries that read ELF files, each by a small program that prints what it reads as JSON. A
program is compiled when it is first needed, if a compiler and the library are here."""

from elf_conformance.adapter import Compiled

REGISTRY = "/usr/share/cargo/registry"
CC = ("cc", "-O1", "{source}", "-o", "{program}")
# Cargo reads the folder of its crates from where it runs, and writes there.
CARGO = (
    'cd "$(mktemp -d)" && cp -r {source} own && cp {source}/../common.rs . && cd own && '
    "cargo build --release --offline -j1 && rm target/release/*.d && "
    "cp target/release/reads-by-* {program}"
)


class Libelf(Compiled):
    """libelf of elfutils."""

    name = "libelf"
    source = "libelf.c"
    compiler = (*CC, "-lelf")
    needs = "/usr/include/gelf.h"
    version_words = ("dpkg-query", "-W", "libelf1")
    package = "libelf-dev"


class Libbfd(Compiled):
    """libbfd of binutils, with the targets that it is built for."""

    name = "libbfd"
    source = "libbfd.c"
    compiler = (*CC, "-lbfd")
    needs = "/usr/include/bfd.h"
    version_words = ("dpkg-query", "-W", "libbinutils")
    package = "binutils-dev"
    # Debian builds it for the machine's own files.
    orders = frozenset({"little"})


class Libelfin(Compiled):
    """libelfin, for C++."""

    name = "libelfin"
    source = "libelfin.cc"
    compiler = ("c++", "-O1", "-I/usr/include/libelfin", *CC[2:], "-lelf++")
    needs = "/usr/include/libelfin/elf/elf++.hh"
    version_words = ("dpkg-query", "-W", "libelfin-dev")
    package = "libelfin-dev"


class GoElf(Compiled):
    """debug/elf of Go's standard library."""

    name = "Go debug/elf"
    source = "debug_elf.go"
    compiler = ("go", "build", "-o", "{program}", "{source}")
    needs = "/usr/bin/go"
    version_words = ("go", "version")
    package = "golang-go"
    # Go asks for more addresses than it uses.
    memory = 0


class Crate(Compiled):
    """A crate of Rust, as Debian has it."""

    compiler = ("sh", "-c", CARGO)


class Object(Crate):
    """The crate `object`."""

    name = "crate object"
    source = "object"
    needs = f"{REGISTRY}/object-0.30.0"
    version_words = ("dpkg-query", "-W", "librust-object-dev")
    package = "librust-object-dev"


class Goblin(Crate):
    """The crate `goblin`."""

    name = "crate goblin"
    source = "goblin"
    is_by_array = True
    needs = f"{REGISTRY}/goblin-0.2.1"
    version_words = ("dpkg-query", "-W", "librust-goblin-dev")
    package = "librust-goblin-dev, librust-scroll-derive-dev"


TOOLS = [Libelf(), Libbfd(), Libelfin(), GoElf(), Object(), Goblin()]
