"""The Python of the repository, for the tests that read all of it: `types` and `format`."""

import glob

from .tree import PACKAGE, TOP

PROGRAMS = [f"{TOP}/tools/{it}" for it in ("dev", "test", "release")]
# The script of the template of an application, which stands alone.
TAKE = f"{TOP}/examples/application/take-elfmap"
BENCHMARKS = [f"{TOP}/bench/{it}" for it in ("growth", "library", "lint", "peers", "slow")]
# The conformance suite, in its folder.
CONFORMANCE = ["run.py", "elf_conformance/*.py", "cases/*.py", "adapters/*.py"]
SETTINGS = f"{TOP}/tools/pyproject.toml"


def own_files() -> list[str]:
    """The modules and programs of the tools, the benchmarks, the conformance suite and the
    reference implementation."""
    modules = [f"{TOP}/tools/lib/elfmap_tools/*.py", f"{TOP}/bench/*.py", f"{TOP}/reference/*.py"]
    modules += [f"{TOP}/conformance/{it}" for it in CONFORMANCE]
    return [*PROGRAMS, *BENCHMARKS, TAKE, *files_like(*modules)]


def package_files() -> list[str]:
    """The package for Python, and its tests, but for what is generated."""
    patterns = [f"{PACKAGE}/{it}/*.py" for it in ("elfmap", "tests")]
    return [it for it in files_like(*patterns) if not it.endswith("/_rules.py")]


def files_like(*patterns: str) -> list[str]:
    """The files that fit these patterns, in order."""
    return sorted(path for it in patterns for path in glob.glob(it))
