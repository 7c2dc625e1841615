"""Tries by chance: each has a folder of its own, and a seed and its number make it. What went wrong
is put into the current folder, as NAME-SEED-K."""

import shutil
import tempfile
from collections.abc import Callable
from functools import partial

from .suite import Tally
from .tree import Options, side_by_side

# What is wrong with a try, by its seed, its number and its folder; nothing where it is right.
WrongIn = Callable[[int, int, str], str]


def tried_in_folder(name: str, wrong_in: WrongIn, seed: int, k: int) -> str:
    """What is wrong with try K of a seed, which has a folder of its own; if something is, the
    folder is kept here, as NAME-SEED-K."""
    with tempfile.TemporaryDirectory(prefix=f"{name}-{seed}-{k}.") as folder:
        wrong = wrong_in(seed, k, folder)
        if wrong:
            shutil.copytree(folder, f"{name}-{seed}-{k}", dirs_exist_ok=True)
        return f"{name}-{seed}-{k}: {wrong}" if wrong else ""


def count_tries(tally: Tally, options: Options, name: str, wrong_in: WrongIn) -> None:
    """Counts so many tries of a seed, side by side."""
    tries = partial(tried_in_folder, name, wrong_in, options.seed)
    tally.count(options.count, filter(None, side_by_side(tries, range(options.count), True)))
