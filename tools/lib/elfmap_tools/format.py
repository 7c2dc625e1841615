"""`tools/test format`: the layout of all Python. black decides it. What black leaves open is
decided here: no line is longer than black's, an `import` names one module, a module is named by one
`from` .. `import`, and an assignment has one idea: `a, b = c, d` is two lines, if two lines do the
same. `rt ci` decides the layout of Rattle. It breaks no line of a proof or of a contract: how long
these may be is decided here."""

import ast
import re
from collections.abc import Iterator

from .python_sources import SETTINGS, own_files, package_files
from .suite import Tally, Test, flag
from .tree import LIBRARIES_OF, TOP, Options, read_text, said, texts_of

# How long the lines of Rattle are. `rt fmt` puts an attribute into one line, however long it is.
COLUMNS_OF_RATTLE = 140
ATTRIBUTE = "#["


def columns() -> int:
    """How long lines are, by black's settings."""
    (found,) = re.findall(r"^line-length = (\d+)$", read_text(SETTINGS), re.M)
    return int(found)


def imports(tree: ast.Module) -> Iterator[tuple[int, str]]:
    """The lines of a module that import otherwise, each with what is wrong."""
    named = set[tuple[int, str | None]]()
    for it in ast.walk(tree):
        if isinstance(it, ast.Import) and len(it.names) > 1:
            yield it.lineno, "one import names one module"
    for it in tree.body:
        if isinstance(it, ast.ImportFrom):
            module = it.level, it.module
            if module in named:
                yield it.lineno, f"this module is named above: {it.module}"
            named.add(module)


def names_in(node: ast.AST) -> set[str]:
    """The names that are in a part of a module."""
    return {it.id for it in ast.walk(node) if isinstance(it, ast.Name)}


def paired(tree: ast.Module) -> Iterator[tuple[int, str]]:
    """The assignments of several values to as many names, of which no value needs a name."""
    for it in ast.walk(tree):
        if not isinstance(it, ast.Assign) or not isinstance(it.value, ast.Tuple):
            continue
        target = it.targets[0]
        if not isinstance(target, ast.Tuple) or len(target.elts) != len(it.value.elts):
            continue
        if not names_in(target) & names_in(it.value):
            yield it.lineno, "one assignment a line"


def long_lines(text: str, most: int) -> Iterator[tuple[int, str]]:
    """The lines of more columns than so many."""
    for number, line in enumerate(text.splitlines(), 1):
        if len(line) > most:
            yield number, f"{len(line)} columns, more than {most}"


def left_open(path: str) -> Iterator[str]:
    """What is wrong with a file by the rules that black does not have."""
    text = read_text(path)
    tree = ast.parse(text)
    for line, what in [*long_lines(text, columns()), *imports(tree), *paired(tree)]:
        yield f"{path[len(TOP) + 1:]}:{line}: {what}"


def long_in_crate(crate: str) -> Iterator[str]:
    """The lines of a crate that are too long."""
    for path in texts_of(crate):
        if path.endswith((".rt", ".antt")):
            text = read_text(path)
            lines = text.splitlines()
            for number, what in long_lines(text, COLUMNS_OF_RATTLE):
                if not lines[number - 1].lstrip().startswith(ATTRIBUTE):
                    yield f"{path[len(TOP) + 1:]}:{number}: {what}"


def by_black(files: list[str], *words: str) -> bool:
    """Whether black finds nothing to do, or did it."""
    return said("black", "--config", SETTINGS, "--quiet", *words, *files).returncode == 0


@Test(
    "format",
    "black over tools/, bench/, reference/ and the Python package with its tests, and the "
    "lines of the crates",
    commands="black",
    options=(flag("write", "format it"),),
)
def try_format(tally: Tally, options: Options) -> None:
    files = [*own_files(), *package_files()]
    is_laid_out = by_black(files, *([] if options.write else ["--check"]))
    tally.check(is_laid_out, "the Python is not formatted: `tools/test format --write` does it")
    for path in files:
        wrong = list(left_open(path))
        tally.check(not wrong, "\n".join(wrong))
    for crate in LIBRARIES_OF:
        long = list(long_in_crate(crate))
        tally.check(not long, "\n".join(long))
