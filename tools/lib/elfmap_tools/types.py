"""`tools/test types`: mypy, with its strict rules, over the tools, the benchmarks and the package
for Python."""

from .python_sources import BENCHMARKS, CONFORMANCE, PROGRAMS, SETTINGS, TAKE, files_like
from .suite import Tally, Test
from .tree import PACKAGE, TOP, Options, said


CONFORMANCE_FILES = [f"{TOP}/conformance/{it}" for it in CONFORMANCE]


@Test(
    "types",
    "mypy --strict over tools/, bench/, conformance/ and the Python package",
    commands="mypy",
)
def try_types(tally: Tally, options: Options) -> None:
    own = [f"{TOP}/tools/lib/elfmap_tools", *PROGRAMS, f"{TOP}/bench/generated.py"]
    own += [*BENCHMARKS, TAKE]
    checked = {
        f"{TOP}/tools": ["--config-file", SETTINGS, *own],
        f"{TOP}/conformance": ["--config-file", SETTINGS, *files_like(*CONFORMANCE_FILES)],
        # The package runs by Python 3.9 too.
        PACKAGE: ["--strict", "--python-version", "3.9", "elfmap"],
    }
    for folder, words in checked.items():
        ran = said("mypy", "--cache-dir", f"{TOP}/crates/elfmap/out/mypy", *words, folder=folder)
        tally.check(ran.returncode == 0, ran.stdout)
