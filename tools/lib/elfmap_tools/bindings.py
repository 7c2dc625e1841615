"""`tools/test bindings`: the crate in bindings/rust by `cargo test`, and the package in
bindings/python by unittest, over the library of `tools/release library`. Nothing is fetched, and
nothing is written but in a temporary folder."""

import os
import re

from .library import BOTH, FOLDER, PACKERS
from .package_tests import count_run, skipped_tests, unittests
from .requirements import (
    ELF_H,
    GUILE_JSON,
    JSONSCHEMA,
    JUNITPARSER,
    KLIBC,
    MACHINES,
    MIPS_LIBC,
    QT_SVG,
    SANITIZERS,
    SPARC_LIBC,
    U_BOOT,
    YAML,
)
from .suite import Tally, Test
from .tree import TOP, Options, said

# What makes files that deviate from the rules in a known way, and some such files.
LINKERS = [f"{MACHINES[it]}-ld" for it in ("alpha", "mips64", "riscv64", "s390x", "sparc64")]
MADE = [GUILE_JSON, MIPS_LIBC, QT_SVG, SANITIZERS, SPARC_LIBC, U_BOOT]
PRODUCERS = " ".join([*LINKERS, "cc", "eu-strip", "strip", *MADE])
READERS = f"{ELF_H} {JSONSCHEMA} {JUNITPARSER} {YAML}"
# What makes packages.
ARCHIVERS = "bzip2 compress cpio dh dpkg-deb gzip lz4 lzip lzop rpmbuild tar xz zstd"
# What makes objects that do not link, or not to what ld makes of them.
COMPILERS = f"as clang g++ gcc ld readelf {KLIBC}"
# What links the programs of which elfmap-symbols writes the symbols, and what reads these.
BIG = [f"{MACHINES[it]}-{tool}" for it in ("ppc64", "s390x") for tool in ("as", "ld")]
DEBUGGERS = " ".join([*BIG, "addr2line gdb nm objcopy objdump"])
MAKERS = f"{PRODUCERS} {ARCHIVERS} {COMPILERS}"
BINDERS = f"{PACKERS} cargo fish git mypy pre-commit {READERS} {MAKERS} {DEBUGGERS}"


def other_features(tally: Tally, env: dict[str, str]) -> None:
    """The crate for Rust has no warning, and passes its own tests, where it may not use std, or no
    memory."""
    own = env | {"RUSTFLAGS": "-D warnings"}
    for features in ("", "alloc"):
        words = ["cargo", "test", "--frozen", "--lib"]
        words += ["--no-default-features", "--features", features]
        ran = said(*words, folder=f"{TOP}/bindings/rust", env=own)
        why = f"bindings/rust with the features {features!r}: {ran.stdout[-2000:]}"
        tally.check(ran.returncode == 0, why)


@Test(
    "bindings",
    "the bindings for Rust and Python",
    commands=BINDERS,
    crates=BOTH,
)
def try_bindings(tally: Tally, options: Options) -> None:
    skipped_tests(tally)
    unittests(tally)
    folders = {"CARGO_HOME": f"{tally.folder}/cargo", "CARGO_TARGET_DIR": f"{tally.folder}/target"}
    env = os.environ | folders | {"ELFMAP_LIB_DIR": FOLDER, "CARGO_INCREMENTAL": "0"}
    words = ["cargo", "test", "--frozen", "--no-fail-fast"]
    ran = said(*words, folder=f"{TOP}/bindings/rust", env=env)
    found = re.findall(r"^test result: .* (\d+) passed; (\d+) failed;", ran.stdout, re.M)
    count_run(tally, ran, sum(int(it) for it, _ in found), sum(int(it) for _, it in found))
    other_features(tally, env)
