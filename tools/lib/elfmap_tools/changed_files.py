"""`tools/test changed-files`: the beginnings of an object of 608 bytes, and the files that differ
from it in one byte, each byte to each other value, beside the reference implementation.

The program `tests_calls` makes the calls of the library on all of them: `check` and `verdict` say
what the reference implementation says; a file that is accepted is written back unchanged; it is an
object, or breaks the rule of objects that the reference says; and `rewrite` of it is the
reference's. (What `elfmap` says of such files by the rules is in cases/image_rules.txt.)"""

import subprocess
from collections.abc import Iterator
from typing import IO

from .building import output_of
from .by_hand import files_by_hand
from .reference import check, object_file, rewritten, text, verdict
from .suite import Tally, Test, flag
from .tree import PROCESSORS, Options, side_by_side, write

ABOUT = "each one-byte change of an object, beside the reference implementation"
ALL_CHANGED = flag("all", "of two more objects too: 390,000 files")
# What is said of a file.
Said = tuple[object, ...]


def variants(file: bytes) -> Iterator[bytes]:
    """The files that `tests_calls changes` tries, in its order."""
    yield from (file[:length] for length in range(len(file)))
    for at, own in enumerate(file):
        yield from (
            file[:at] + bytes([byte]) + file[at + 1 :] for byte in range(256) if byte != own
        )


def next_line(output: IO[bytes]) -> str:
    """The next line of an output."""
    return output.readline().decode().strip()


def answer_of_next(output: IO[bytes]) -> Said:
    """What is said of the next file: the lines of `check` and `verdict`; of an image that it is
    written back unchanged, that it is an object or the rule that it breaks, and whether `rewrite`
    is done, and what it writes."""
    line = next_line(output)
    broken = next_line(output)
    if broken != "none":
        return line, broken
    is_unchanged, kind = next_line(output).split(" ", 1)
    is_done, length = next_line(output).split(" ", 1)
    return line, broken, is_unchanged, kind, is_done, output.read(int(length))


def answer_of_reference(content: bytes) -> Said:
    """What the reference says of it."""
    line = check(content)
    broken = verdict(content)
    answer = rewritten(content)
    if broken or answer is None:
        return line, "%d %d" % (broken or (0, 0))
    refusal, written = answer
    words = "object" if refusal in ("", "too long\n") else refusal.strip().removeprefix("refused ")
    return line, "none", "true", words, "false" if refusal else "true", written


def tried(part: tuple[bytes, str, int]) -> tuple[int, list[str]]:
    """How many of the files that differ from one were tried, and what was wrong; each process tries
    its share."""
    file, path, share = part
    wrong: list[str] = []
    count = 0
    words = [output_of("tests_calls"), "changes", path]
    with subprocess.Popen(words, stdin=subprocess.DEVNULL, stdout=subprocess.PIPE) as calls:
        assert calls.stdout
        for number, content in enumerate(variants(file)):
            answer = answer_of_next(calls.stdout)
            if number % PROCESSORS != share:
                continue
            count += 1
            right = answer_of_reference(content)
            if answer != right:
                why = f"file {number} of {len(file)} bytes: {answer}, and not {right}"
                wrong.append(why[:300])
        if calls.stdout.read() or calls.wait() != 0:
            wrong.append(f"the calls ended with status {calls.wait()}, or there were more of them")
    return count, wrong


@Test(
    "changed-files",
    ABOUT,
    crates="tests_calls",
    alone=True,
    family="fuzz",
    options=(ALL_CHANGED,),
)
def try_changed_files(tally: Tally, options: Options) -> None:
    files = [files_by_hand()["call_0"]]
    if options.all:
        files += [object_file([text(align=16)], order=order) for order in ("little", "big")]
    parts: list[tuple[bytes, str, int]] = []
    for number, file in enumerate(files):
        path = write(f"{tally.folder}/{number}", file)
        parts += [(file, path, share) for share in range(PROCESSORS)]
    for count, wrong in side_by_side(tried, parts, True):
        tally.count(count, wrong)
