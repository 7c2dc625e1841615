"""`tools/release packages`: all that people install, made of what is built: the archive of
`tools/release pack`, packages of Debian, the Python package as a wheel with the library in it, the
Rust crate with the static library, and their SHA256SUMS. docs/MANUAL.md lists what each has. The
same build makes the same bytes: every file has the time of the commit."""

import email.utils
import glob
import gzip
import os
import re
import shutil
import tempfile
import zipfile
from collections.abc import Callable
from typing import NamedTuple

from . import man
from .library import SHARED
from .release_files import (
    COMMAND,
    COMMANDS,
    PKG_CONFIG,
    PLAIN_MODE,
    archived,
    copied,
    epoch,
    put,
    put_release,
    runner,
    version_of,
    without_dead_links,
)
from .tree import PROGRAM, Options, files_below, read_bytes, said, wanted, write

TRIPLET = "x86_64-linux-gnu"
LIBRARIES = f"usr/lib/{TRIPLET}"
PYTHON = "usr/lib/python3/dist-packages"
MAINTAINER = "the authors of elfmap <elfmap@localhost>"
# Python compiles the modules of a package once, when it is installed.
COMPILED = {
    "postinst": """#!/bin/sh
set -e
if [ "$1" = configure ]; then py3compile -p python3-elfmap; fi
""",
    "prerm": """#!/bin/sh
set -e
py3clean -p python3-elfmap
""",
}
# The files of a release that the manual has.
OF_MANUAL = """
README.md CHANGELOG.md docs doc elfmap.html examples rules
bindings/python/README.md bindings/python/examples
""".split()
# What fills a package: of its folder, a release, and the version.
Fill = Callable[[str, str, str], None]


def glibc_of(path: str) -> str:
    """The least GNU C library that a program or a library needs, by the versions of its symbols;
    2.5 is the first that a wheel can name."""
    versions = [(2, 5)]
    for major, minor in re.findall(r"GLIBC_(\d+)\.(\d+)", said("readelf", "-VW", path).stdout):
        versions.append((int(major), int(minor)))
    return "{}.{}".format(*max(versions))


def put_help(root: str, tree: str, name: str) -> None:
    """Puts the manual page and the completions of a command into a package."""
    page = read_bytes(f"{tree}/share/man/man1/{name}.1")
    put(f"{root}/usr/share/man/man1/{name}.1.gz", gzip.compress(page, mtime=0))
    for place, text in man.completions(name).items():
        put(f"{root}/usr/share/{place}", text)


def put_changelog(root: str, name: str, version: str) -> None:
    """Puts the list of changes into a package, in the form that Debian asks for."""
    head = f"{name} ({version}) unstable; urgency=medium"
    changes = "  * CHANGELOG.md of elfmap-doc has what changed."
    end = f" -- {MAINTAINER}  {email.utils.formatdate(epoch())}"
    text = f"{head}\n\n{changes}\n\n{end}\n"
    path = f"{root}/usr/share/doc/{name}/changelog.gz"
    put(path, gzip.compress(text.encode(), mtime=0))


def put_elfmap(root: str, tree: str, version: str) -> None:
    """The program without its symbols, as Debian wants it, and files of rules."""
    program = f"{root}/usr/lib/elfmap/elfmap"
    copied(f"{tree}/elfmap", program)
    wanted("objcopy", "--strip-all", program)
    copied(f"{tree}/rules", f"{root}/usr/share/elfmap/rules")
    put(f"{root}/usr/bin/elfmap", runner(version, "lib/elfmap/elfmap"))
    put_help(root, tree, "elfmap")


def put_doc(root: str, tree: str, version: str) -> None:
    """The manual, with examples."""
    own = f"{root}/usr/share/doc/elfmap"
    for it in OF_MANUAL:
        if os.path.exists(f"{tree}/{it}"):
            copied(f"{tree}/{it}", f"{own}/{it}")
    without_dead_links(own)


def put_shared(root: str, tree: str, version: str) -> None:
    """The shared library."""
    copied(f"{tree}/lib/{SHARED}", f"{root}/{LIBRARIES}/{SHARED}")
    put(f"{root}/DEBIAN/shlibs", f"libelfmap 0 libelfmap0 (>= {version})\n")
    put(f"{root}/DEBIAN/triggers", "activate-noawait ldconfig\n")


def put_dev(root: str, tree: str, version: str) -> None:
    """The static library and the header, with examples."""
    copied(f"{tree}/lib/libelfmap.a", f"{root}/{LIBRARIES}/libelfmap.a")
    copied(f"{tree}/include/elfmap.h", f"{root}/usr/include/elfmap.h")
    os.symlink(SHARED, f"{root}/{LIBRARIES}/libelfmap.so")
    put(
        f"{root}/{LIBRARIES}/pkgconfig/elfmap.pc",
        PKG_CONFIG(PREFIX="/usr", LIBDIR=f"lib/{TRIPLET}", VERSION=version),
    )
    for it in ("sections.c", "symbols.c"):
        copied(f"{tree}/bindings/c/{it}", f"{root}/usr/share/doc/libelfmap-dev/examples/{it}")


def put_python(root: str, tree: str, version: str) -> None:
    """What the wheel has, with the library of its own package."""
    with tempfile.TemporaryDirectory(prefix="elfmap-wheel-") as room, zipfile.ZipFile(
        wheel(tree, room)
    ) as packed:
        packed.extractall(f"{root}/{PYTHON}")
    os.remove(f"{root}/{PYTHON}/elfmap-{version}.dist-info/RECORD")
    os.remove(f"{root}/{PYTHON}/elfmap/libelfmap.so")
    os.symlink(f"../../../{TRIPLET}/{SHARED}", f"{root}/{PYTHON}/elfmap/libelfmap.so")
    for name, module, function in COMMANDS:
        put(
            f"{root}/usr/bin/{name}",
            COMMAND.format(python="/usr/bin/python3", path="", module=module, function=function),
        )
        put_help(root, tree, name)
    for name, text in COMPILED.items():
        put(f"{root}/DEBIAN/{name}", text)


class Package(NamedTuple):
    """A package: what it needs, what it is, and what fills it."""

    needs: str
    about: str
    fill: Fill


PACKAGES = {
    "elfmap": Package(
        "libc6 (>= {glibc})", "checks, shows, rewrites and links ELF-64 files", put_elfmap
    ),
    "elfmap-doc": Package("", "manual of elfmap", put_doc),
    "libelfmap0": Package(
        "libc6 (>= {library_glibc})",
        "ELF-64 files: verdict, records, tables, rewriting and linking",
        put_shared,
    ),
    "libelfmap-dev": Package(
        "libelfmap0 (= {version})", "header and static library of libelfmap0", put_dev
    ),
    "python3-elfmap": Package(
        "python3 (>= 3.9), libelfmap0 (= {version})",
        "elfmap for Python, and elfmap-lint for whole trees",
        put_python,
    ),
}


# `apt install` installs these too: the commands beside the program, and what they decompress with.
RECOMMENDED = {"elfmap": "python3-elfmap", "python3-elfmap": "zstd"}
# What few files are compressed by.
SUGGESTED = {"python3-elfmap": "lz4, lzip, lzop"}


def settle(root: str) -> None:
    """Gives a folder and each file below it plain permissions and the time of the commit."""
    wanted("chmod", "-R", PLAIN_MODE, root)
    wanted("find", root, "-exec", "touch", "-hd", f"@{epoch()}", "{}", "+")


def control(name: str, machine: str, numbers: dict[str, str], size: int) -> str:
    """The file `control` of a package, whose files have so many KiB."""
    package = PACKAGES[name]
    level = "for processors of level x86-64-v2 or above."
    if machine == "all":
        level = "for readers."
    lines = {
        "Package": name,
        "Version": numbers["version"],
        "Architecture": machine,
        "Maintainer": MAINTAINER,
        "Installed-Size": str(size),
    }
    if package.needs:
        lines["Depends"] = package.needs.format(**numbers)
    if name in RECOMMENDED:
        lines["Recommends"] = RECOMMENDED[name]
    if name in SUGGESTED:
        lines["Suggests"] = SUGGESTED[name]
    lines |= {"Section": "devel", "Priority": "optional"}
    lines["Description"] = f"{package.about}\n This is {level}"
    if name == "libelfmap0":
        lines["Multi-Arch"] = "same"
    return "".join(f"{key}: {value}\n" for key, value in lines.items())


def deb(name: str, tree: str, folder: str, version: str) -> None:
    """Makes a package of Debian of a release, in a folder."""
    machine = "all" if name.endswith("-doc") else "amd64"
    numbers = {
        "version": version,
        "glibc": glibc_of(PROGRAM),
        "library_glibc": glibc_of(f"{tree}/lib/{SHARED}"),
    }
    with tempfile.TemporaryDirectory(prefix=f"{name}-") as room:
        root = f"{room}/root"
        PACKAGES[name].fill(root, tree, version)
        put_changelog(root, name, version)
        size = sum(map(os.path.getsize, files_below(root))) // 1024 + 1
        put(f"{root}/DEBIAN/control", control(name, machine, numbers, size))
        settle(root)
        path = f"{folder}/{name}_{version}_{machine}.deb"
        wanted("dpkg-deb", "--root-owner-group", "-Zxz", "--build", root, path)


# setuptools can't see that the package has a library: it would mark the package as one for every
# machine.
BINARY_WHEEL = """
import setuptools
from wheel.bdist_wheel import bdist_wheel
setuptools.Distribution.has_ext_modules = lambda self: True
bdist_wheel.get_tag = lambda self: ("py3", "none", self.plat_name)
setuptools.setup()
"""


def wheel(tree: str, folder: str) -> str:
    """The package with the library in it, for every Linux for x86-64 that has the C library that it
    needs: its path."""
    library = f"{tree}/lib/{SHARED}"
    platform = f"manylinux_{glibc_of(library).replace('.', '_')}_x86_64"
    with tempfile.TemporaryDirectory(prefix="elfmap-wheel-") as room:
        own = f"{room}/package"
        shutil.copytree(f"{tree}/bindings/python", own)
        copied(library, f"{own}/elfmap/libelfmap.so")
        without_dead_links(own)
        settle(own)
        build = ["/usr/bin/python3", "-c", BINARY_WHEEL, "bdist_wheel", "--dist-dir", folder]
        wanted(*build, "--plat-name", platform, folder=own)
    return glob.glob(f"{folder}/*.whl")[0]


def crate(tree: str, folder: str, version: str) -> None:
    """The crate with the static library in it; its links to other folders of a release are
    words."""
    with tempfile.TemporaryDirectory(prefix="elfmap-crate-") as room:
        own = f"{room}/elfmap-{version}"
        shutil.copytree(f"{tree}/bindings/rust", own)
        copied(f"{tree}/lib/libelfmap.a", f"{own}/lib/libelfmap.a")
        without_dead_links(own)
        archived(own, f"{folder}/elfmap-{version}.crate")


def make_packages(options: Options) -> None:
    """Makes all packages in a folder, and prints their names."""
    folder = options.folder
    version = version_of()
    os.makedirs(folder, exist_ok=True)
    # What others make of it has this time, and its files these permissions.
    os.environ["SOURCE_DATE_EPOCH"] = str(epoch())
    os.umask(0o022)
    with tempfile.TemporaryDirectory(prefix="elfmap-packages-") as room:
        made = f"{room}/made"
        tree = f"{room}/elfmap-{version}-x86_64-linux"
        os.mkdir(made)
        put_release(tree, version)
        for name in PACKAGES:
            deb(name, tree, made, version)
        wheel(tree, made)
        crate(tree, made, version)
        archived(tree, f"{made}/{os.path.basename(tree)}.tar.gz")
        names = sorted(os.listdir(made))
        write(f"{made}/SHA256SUMS", wanted("sha256sum", *names, folder=made))
        for it in [*names, "SHA256SUMS"]:
            print(shutil.move(f"{made}/{it}", f"{folder}/{it}"))
