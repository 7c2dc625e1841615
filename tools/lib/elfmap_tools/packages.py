"""`tools/test packages`: makes the packages of `tools/release packages` twice, with the same bytes,
and installs and tries each in a root of Debian 12 that has neither the kit nor anything of the
repository. All parts of the repository have the version of VERSION.

The root is made by debootstrap, once, and kept in the cache; each run has a copy. Without root's
rights, debootstrap or a mirror the tests in it are skipped by their names."""

import glob
import os
import re
import shutil
import sys
import tempfile
import zlib

from .header import calls
from .library import BOTH
from .package_files import LIBRARIES
from .release_files import MAKERS, version_of
from .requirements import SETUPTOOLS, WHEEL, setup
from .suite import Tally, Test, steps_of
from .tree import TOP, Options, Texts, files_below, read_bytes, read_text, said, wanted

SUITE = "bookworm"
INSTALLERS = f"{MAKERS} readelf nm git dpkg-deb lintian unshare {SETUPTOOLS} {WHEEL}"
INCLUDED = "python3,python3-venv,gcc,libc6-dev,pkg-config,man-db,fish,zsh,cargo"
CACHE = os.environ.get("XDG_CACHE_HOME") or os.path.expanduser("~/.cache")
# Of other packages it is another root.
ROOT = f"{CACHE}/elfmap-tools/{SUITE}-{zlib.crc32(INCLUDED.encode()):08x}"
AS_ROOT = {
    "PATH": "/usr/sbin:/usr/bin:/sbin:/bin",
    "LC_ALL": "C.UTF-8",
    "HOME": "/root",
    "DEBIAN_FRONTEND": "noninteractive",
}
# The places of the version.
VERSIONS = {
    "bindings/python/pyproject.toml": r'^version = "(.*)"',
    "bindings/python/elfmap/__init__.py": r'^__version__ = "(.*)"',
    "bindings/rust/Cargo.toml": r'^version = "(.*)"',
    "bindings/rust/Cargo.lock": r'name = "elfmap"\nversion = "(.*)"',
    "bindings/rust/README.md": r"elfmap-([\d.]+)\.crate",
    "bindings/python/README.md": r"elfmap-([\d.]+)-py3",
}
# Terminals too, for zsh.
MOUNTED = """mount -t proc proc "$1/proc" &&
mount --bind /dev/pts "$1/dev/pts" &&
exec chroot "$1" sh -c "$2"
"""


NOBODY_CAN_FILL_IN = re.compile(r": (no-copyright-file|bogus-mail-host[a-z-]*)\b")


def make_root() -> str:
    """Makes the root where there is none: why that can't be done."""
    if os.path.isdir(ROOT):
        return ""
    if os.geteuid() != 0:
        return "only root can make one"
    if not setup(["debootstrap"]):
        return "there is no debootstrap"
    os.makedirs(os.path.dirname(ROOT), exist_ok=True)
    with tempfile.TemporaryDirectory(dir=os.path.dirname(ROOT)) as room:
        words = ["debootstrap", "--variant=minbase", f"--include={INCLUDED}", SUITE]
        made = said("timeout", "900", *words, f"{room}/root")
        if made.returncode:
            return f"debootstrap fails: {made.stdout.strip().splitlines()[-1:]}"
        os.rename(f"{room}/root", ROOT)
    return ""


def inside(root: str, script: str) -> Texts:
    """Runs a script in a root, with processes and mounts of its own."""
    own = ["unshare", "--mount", "--pid", "--fork"]
    return said(*own, "sh", "-c", MOUNTED, "sh", root, script, env=AS_ROOT)


def lintian_errors(folder: str) -> list[str]:
    """What lintian calls an error in the packages of Debian, but for what nobody can fill in: there
    is no licence and no address yet."""
    packages = sorted(glob.glob(f"{folder}/*.deb"))
    errors = re.findall(r"^E: .*$", said("lintian", "--allow-root", *packages).stdout, re.M)
    return [it for it in errors if not NOBODY_CAN_FILL_IN.search(it)]


def compare_debian(tally: Tally, folder: str, version: str) -> None:
    """The package of the program recommends that of the commands beside it, and lintian has nothing
    against the packages."""
    program = f"{folder}/elfmap_{version}_amd64.deb"
    recommended = said("dpkg-deb", "-f", program, "Recommends").stdout
    what = "what the package of the program recommends"
    tally.same(what, recommended, "python3-elfmap\n")
    tally.same("the errors of lintian", lintian_errors(folder), [])


def contents(folder: str) -> dict[str, bytes]:
    """The files below a folder, by their names."""
    return {os.path.basename(it): read_bytes(it) for it in files_below(folder)}


def compare_versions(tally: Tally, version: str) -> None:
    """All parts of the repository have this version."""
    for path, pattern in VERSIONS.items():
        found = re.findall(pattern, read_text(path), re.M)[:1]
        tally.same(f"the version in {path}", found, [version])
    own = said("./elfmap", "--version").stdout
    tally.same("./elfmap --version", own, f"elfmap {version}\n")


def make(folder: str, mask: str, zone: str) -> None:
    """Makes the packages in a folder, with this mask of permissions and in this zone of time."""
    script = f'umask {mask} && TZ={zone} exec "$@"'
    command = [sys.executable, f"{TOP}/tools/release", "packages", folder]
    wanted("sh", "-c", script, "sh", *command, folder=os.path.dirname(folder))


def compare_sums(tally: Tally, folder: str, version: str) -> None:
    """SHA256SUMS has the sums of all packages, and each has the version in its name."""
    summed = said("sha256sum", "-c", "--quiet", "SHA256SUMS", folder=folder)
    names = contents(folder).keys() - {"SHA256SUMS"}
    listed = set(read_text(f"{folder}/SHA256SUMS").split()[1::2])
    is_whole = summed.returncode == 0 and names == listed
    tally.check(is_whole, f"SHA256SUMS, beside {names}: {summed.stdout}")
    named = re.compile(rf"[-_]{re.escape(version)}[-_.]")
    have_version = all(map(named.search, names))
    tally.check(have_version, f"not all have the version {version}: {names}")


def compare_exports(tally: Tally, folder: str, version: str) -> None:
    """The shared library exports what include/elfmap.h declares."""
    own = f"{tally.folder}/own"
    said("dpkg-deb", "-x", f"{folder}/libelfmap0_{version}_amd64.deb", own)
    shared = f"{own}/{LIBRARIES}/libelfmap.so.0"
    lines = said("nm", "-D", "--defined-only", shared).stdout.splitlines()
    exported = [name.partition("@")[0] for _, kind, name in map(str.split, lines) if kind != "A"]
    tally.same("what the shared library exports", sorted(exported), sorted(calls()))


def copy_root(root: str) -> str:
    """Makes a copy of the root: why that can't be done."""
    if why := make_root():
        return why
    if said("cp", "-a", ROOT, root).returncode:
        return f"{ROOT} is not copied"
    return "this machine lets nobody mount" if inside(root, "true").returncode else ""


@Test(
    "packages",
    "what people install is the same twice, and works in a clean root",
    commands=INSTALLERS,
    crates=f"elfmap {BOTH}",
)
def try_packages(tally: Tally, options: Options) -> None:
    version = version_of()
    first = f"{tally.folder}/first"
    second = f"{tally.folder}/second"
    compare_versions(tally, version)
    make(first, "022", "UTC")
    make(second, "077", "Asia/Tokyo")
    is_same = contents(first) == contents(second)
    tally.check(is_same, "the packages have other bytes the second time")
    compare_sums(tally, first, version)
    compare_debian(tally, first, version)
    compare_exports(tally, first, version)
    steps = steps_of("packages.steps", V=version)
    root = f"{tally.folder}/root"
    if why := copy_root(root):
        titles = ", ".join(title for title, *_ in steps)
        tally.note(f"skipped: without a clean root ({why}): {titles}")
        return
    shutil.copytree(first, f"{root}/packages")
    tally.try_steps(steps, lambda script: inside(root, script).stdout)
