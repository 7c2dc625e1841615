"""The commands that tests and bench/peers start, and the Debian packages that have them.
`tools/test setup` installs the packages of the commands of tests that are missing."""

import glob
import os
import re
import shutil
import subprocess
import sys
from collections.abc import Iterable

from .tree import run

ELF_H = "/usr/include/elf.h"
KLIBC = "/usr/lib/klibc/lib/libc.a"
MIPS_LIBC = "/usr/mips64el-linux-gnuabi64/lib/libdl.so.2"
U_BOOT = "/usr/lib/u-boot/qemu_arm64/uboot.elf"
# Where packages lie that are not installed: tests read the files in them.
FETCHED = "/var/cache/elfmap-tests"
GUILE_JSON = f"{FETCHED}/guile-json_*.deb"
QT_SVG = f"{FETCHED}/libqt6svg6_*.deb"
SPARC_LIBC = f"{FETCHED}/libc6-sparc64-cross_*.deb"
# What Debian's python3 imports.
IMPORTED = "/usr/lib/python3/dist-packages/{}/__init__.py"
COVERAGE = IMPORTED.format("coverage")
JINJA2 = IMPORTED.format("jinja2")
JSONSCHEMA = IMPORTED.format("jsonschema")
JUNITPARSER = IMPORTED.format("junitparser")
MARKDOWN = IMPORTED.format("markdown")
SELENIUM = IMPORTED.format("selenium")
SETUPTOOLS = IMPORTED.format("setuptools")
WHEEL = IMPORTED.format("wheel")
YAML = IMPORTED.format("yaml")
# Debian's clang brings its checks of addresses and of undefined behavior only as a recommended
# package.
SANITIZERS = "/usr/lib/llvm-*/lib/clang/*/lib/linux/libclang_rt.asan-x86_64.a"
# The commands of each package, by their first words, or a file that has to be there; but for those
# that have the name of their package.
COMMANDS = {
    "binaryen": "wasm-opt",
    "binutils": "addr2line ar as ld ld.bfd ld.gold nm objcopy objdump readelf strip",
    "binutils-x86-64-linux-gnu": "x86_64-linux-gnu-as",
    "cargo-web": "cargo",
    "chromium-driver": "chromedriver",
    "debhelper": "dh",
    "dpkg": "dpkg-deb",
    "elfutils": "eu-elflint eu-readelf eu-strip",
    "g++": "c++ g++",
    "gcc": "cc gcc",
    "guile-json": GUILE_JSON,
    "libclang-rt-14-dev": SANITIZERS,
    "libc6-dev": ELF_H,
    "libc6-mips64el-cross": MIPS_LIBC,
    "libc6-sparc64-cross": SPARC_LIBC,
    "libklibc-dev": KLIBC,
    "libqt6svg6": QT_SVG,
    "lld": "ld.lld",
    "lld-14": "ld.lld-14",
    "lld-19": "ld.lld-19",
    "llvm": "llvm-objcopy llvm-readelf llvm-readobj",
    "llvm-19": "llvm-mc-19",
    "ncompress": "compress",
    "nodejs": "node",
    "python3-coverage": COVERAGE,
    "python3-jinja2": JINJA2,
    "python3-jsonschema": JSONSCHEMA,
    "python3-junitparser": JUNITPARSER,
    "python3-markdown": MARKDOWN,
    "python3-selenium": SELENIUM,
    "python3-setuptools": SETUPTOOLS,
    "python3-wheel": WHEEL,
    "python3-yaml": YAML,
    "rpm": "rpmbuild",
    "rustc-web": "rustc",
    "u-boot-qemu": U_BOOT,
    "util-linux": "prlimit unshare",
    "xz-utils": "xz",
}
PACKAGES = {
    command: package for package, commands in COMMANDS.items() for command in commands.split()
}
# The machines of rules/, by the names of qemu's program and of the tools; one that qemu has no
# program for; and those that LLVM alone has, by its names of the machine and for its linker.
RUN_BY_QEMU = {it: f"{it}-linux-gnu" for it in ("aarch64", "alpha", "riscv64", "s390x", "sparc64")}
RUN_BY_QEMU |= {"mips64": "mips64-linux-gnuabi64", "ppc64": "powerpc64-linux-gnu"}
MACHINES = RUN_BY_QEMU | {"ia64": "ia64-linux-gnu"}
BY_LLVM = {
    "amdgpu": ("amdgcn-amd-amdhsa", "elf64_amdgpu"),
    "loongarch64": ("loongarch64", "elf64loongarch"),
}
PACKAGES |= {
    f"{target}-{tool}": f"binutils-{target}"
    for target in MACHINES.values()
    for tool in ("as", "ld")
}
PACKAGES |= {f"qemu-{qemu}": "qemu-user" for qemu in RUN_BY_QEMU}
# A cargo whose rustc compiles the tests of bindings/rust too; Debian has an older one beside it.
LEAST = {"cargo": (1, 85)}
# One package that can't be had keeps none of the others away.
INSTALL = """get() { apt-get install -y --no-install-recommends "$@"; }
apt-get update
get "$@" || for it; do get "$it"; done"""
# A package that is there whole takes the place of an older one.
FETCH = f"""apt-get update
mkdir -p {FETCHED} && room=$(mktemp -d) && cd "$room" || exit
for it
do apt-get -o APT::Sandbox::User=root download "$it" &&
    rm -f {FETCHED}/"$it"_*.deb && mv ./"$it"_*.deb {FETCHED}/
done
rm -r "$room\""""


def is_there(command: str) -> bool:
    """Whether a command, or a file, is on this machine, and not too old."""
    if command.startswith("/"):
        return bool(glob.glob(command))
    if not shutil.which(command) or command not in LEAST:
        return shutil.which(command) is not None
    version = re.search(rb"(\d+)\.(\d+)", run(command, "--version").stdout)
    return version is not None and (int(version[1]), int(version[2])) >= LEAST[command]


def missing(commands: Iterable[str]) -> list[str]:
    """Those of the commands that are not on this machine."""
    return [it for it in commands if not is_there(it)]


def lacks(command: str) -> str:
    """What to say of a missing command: its package."""
    return f"there is no {command} (package {PACKAGES.get(command, command)})"


def words_of(lacking: Iterable[str]) -> str:
    """What to say of the missing commands of a test: the package of each, and how to get it."""
    return f"{', '.join(map(lacks, lacking))}; `tools/test setup` gets it"


def by_apt(script: str, packages: Iterable[str]) -> None:
    """Runs a script as root with the names of packages, if there are any."""
    names = sorted(set(packages))
    if not names:
        return
    print(f"setup: gets {' '.join(names)}", flush=True)
    as_root = ["sudo"] if os.geteuid() != 0 else []
    command = ["env", "DEBIAN_FRONTEND=noninteractive", "sh", "-c", script, "sh", *names]
    subprocess.run(
        [*as_root, *command], stdin=subprocess.DEVNULL, stdout=subprocess.DEVNULL, check=False
    )


def setup(commands: Iterable[str]) -> bool:
    """Installs the packages of the commands that are missing, and fetches those of files that only
    lie in a package: whether all are there then."""
    lacking = missing(commands)
    fetched = [it for it in lacking if it.startswith(f"{FETCHED}/")]
    by_apt(INSTALL, (PACKAGES.get(it, it) for it in lacking if it not in fetched))
    by_apt(FETCH, (PACKAGES[it] for it in fetched))
    left = missing(lacking)
    if left:
        print(f"setup: still {', '.join(map(lacks, left))}", file=sys.stderr)
    return not left
