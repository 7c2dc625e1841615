"""`tools/test slow-files`: a search for lawful files that take time or memory. It climbs from
shapes by chance, one number of the shape at a time, to those for which a command takes the most
instructions for each byte in and out, or the most memory. Each step up is grown to 1 MB, and run.
Files of the climb have up to 64 KiB, and a processor's counter counts the instructions (`perf`), or
valgrind where there is none."""

import os
import random
import time
from dataclasses import replace

from .bounds import MB, Standing, begin, cost_of, instructions_of, tried
from .families import STANDINGS
from .instructions import COMMANDS
from .shapes import KINDS, LONG, SHARINGS, Shape
from .suite import Tally, Test, number
from .tree import PROCESSORS, Options, side_by_side, write

# How long files are while it climbs, and when they are grown; and after so many steps in vain a
# climb ends.
SMALL = 1 << 16
PATIENCE = 25
CLIMBED = [it for it in COMMANDS if it != "check of a pipe"]
# A step up is one by so much.
LEAST_STEP = 1.03
LEAST_ONE = ("name", "symbols")
NUMBERS = ("name", "symbols", "sections", "groups", "hashes", "relocations", "align")
CHOICES = {"sharing": SHARINGS, "long": LONG, "kind": tuple(KINDS), "is_falling": (False, True)}


def by_chance(chance: random.Random) -> Shape:
    """A shape to begin with: half of its numbers are none, or one where there has to be one."""
    shape = Shape()
    for name in (it for it in NUMBERS if it != "align"):
        number = chance.randrange(2) << chance.randrange(12)
        shape = replace(shape, **{name: max(int(name in LEAST_ONE), number)})
    return replace(shape, **{it: chance.choice(own) for it, own in CHOICES.items()})


def changed(shape: Shape, chance: random.Random) -> Shape:
    """A shape with one number or choice changed."""
    name = chance.choice([*NUMBERS, *CHOICES])
    if name in CHOICES:
        return replace(shape, **{name: chance.choice(CHOICES[name])})
    number: int = getattr(shape, name)
    if name == "align":
        return replace(shape, align=chance.randrange(25))
    others = [number * 2, number * 8, number // 2, number // 8] if number else [1, 16, 256]
    return replace(shape, **{name: max(int(name in LEAST_ONE), chance.choice(others))})


def fitted(shape: Shape, most: int) -> Shape:
    """The shape with its numbers halved until its file has at most so many bytes, and then doubled
    in turns as long as it has."""
    names = [it for it in NUMBERS if it != "align"]
    while shape.size() > most:
        shape = replace(
            shape, **{it: (getattr(shape, it) + (it in LEAST_ONE)) // 2 for it in names}
        )
    while names:
        for name in names[:]:
            larger = replace(shape, **{name: 2 * getattr(shape, name)})
            if larger == shape or larger.size() > most:
                names.remove(name)
            else:
                shape = larger
    return shape


class Climb:
    """One climb after another, until the time is over: what breaks a bound, and of each command the
    dearest shape."""

    def __init__(self, seed: int, folder: str) -> None:
        self.chance = random.Random(seed)
        self.folder = folder
        self.wrong: list[str] = []
        self.tried = 0
        self.dearest: dict[str, tuple[float, Shape]] = {}

    def height(self, shape: Shape, command: str, by_memory: bool) -> float:
        """How dear a file of this shape is for a command: by bytes of memory, or instructions, for
        each byte in and out."""
        path = write(f"{self.folder}/small", fitted(shape, SMALL).file())
        cost = cost_of(self.folder, command, path)
        if not cost.is_well():
            return 0
        much = cost.memory if by_memory else instructions_of(self.folder, command, path)
        return much / cost.moved

    def large(self, shape: Shape, command: str) -> None:
        """Tries the command on a file of up to 1 MB of this shape."""
        shape = fitted(shape, MB)
        file = shape.file()
        cost, why = tried(self.folder, command, file, standing_of(command))
        self.tried += 1
        # One that it refuses, as an object whose layout would be too long, says nothing; nor does
        # one for which it has too little memory, if it is known to take much.
        known = (1, 3) if standing_of(command).mebibytes else (1,)
        if why and cost.status not in known:
            self.wrong.append(f"{command} of {len(file):,} bytes: {why}: {shape}")

    def climb(self, end: float) -> None:
        """Climbs once, from a shape by chance, for one command."""
        command = self.chance.choice(CLIMBED)
        by_memory = self.chance.randrange(4) == 0
        top = by_chance(self.chance)
        height = 0.0
        misses = 0
        while misses < PATIENCE and time.monotonic() < end:
            shape = changed(top, self.chance) if height else by_chance(self.chance)
            found = self.height(shape, command, by_memory)
            misses += 1
            if found > LEAST_STEP * height:
                top = shape
                height = found
                misses = 0
                self.large(shape, command)
        if not by_memory and height > self.dearest.get(command, (0.0, top))[0]:
            self.dearest[command] = height, top


def standing_of(command: str) -> Standing:
    """The largest bound at which a command stands."""
    own = [it for (_, name), it in STANDINGS.items() if name == command]
    seconds = max((it.seconds for it in own), default=0)
    return Standing(seconds, max((it.mebibytes for it in own), default=0))


def climbed(task: tuple[int, float, str]) -> Climb:
    """Climbs until a time, by a seed and in a folder of its own."""
    seed, end, folder = task
    os.makedirs(folder)
    begin(folder)
    made = Climb(seed, folder)
    while time.monotonic() < end:
        made.climb(end)
    return made


@Test(
    "slow-files",
    "a search for lawful files that take time or memory",
    "cc prlimit valgrind",
    "elfmap",
    alone=True,
    options=(number("minutes", 1, "so many minutes"), number("seed", 1, "where it begins")),
)
def try_slow_files(tally: Tally, options: Options) -> None:
    end = time.monotonic() + 60 * options.minutes
    first = options.seed * PROCESSORS
    tasks = [(first + k, end, f"{tally.folder}/{k}") for k in range(PROCESSORS)]
    found = side_by_side(climbed, tasks, by_processes=True)
    tally.count(sum(it.tried for it in found), [why for it in found for why in it.wrong])
    for command in CLIMBED:
        heights = [it.dearest[command] for it in found if command in it.dearest]
        if heights:
            height, shape = max(heights, key=lambda it: it[0])
            tally.note(f"{command}: {height:,.0f} instructions a byte at most, {shape}")
