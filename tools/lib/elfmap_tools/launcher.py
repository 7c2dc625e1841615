"""`tools/test launcher`: what ./elfmap builds and runs for which words."""

import glob
import os
import shutil

from .suite import Tally, Test, steps_of
from .tree import TOP, Options, said, write


@Test("launcher", "what ./elfmap builds and runs for which words")
def try_launcher(tally: Tally, options: Options) -> None:
    os.makedirs(f"{tally.folder}/crates/elf_field/src")
    write(f"{tally.folder}/crates/elf_field/src/lib.rt", "\n")
    shutil.copy(f"{TOP}/elfmap", tally.folder)
    steps = steps_of("launcher.steps")
    tally.try_steps(steps, lambda it: said("sh", "-c", it, folder=tally.folder).stdout)
    # It looks at the times of these folders alone.
    inner = [it for it in glob.glob(f"{TOP}/crates/elf*/src/*") if os.path.isdir(it)]
    tally.check(not inner, f"./elfmap does not see changes in {inner}")
