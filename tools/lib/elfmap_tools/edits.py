"""Planted bugs: the edits of a file mutations.txt, and what each makes of a text."""

import os
import re
from collections import Counter

from .tree import read_text


class Edit:
    """A bug of mutations.txt, in a function of a crate, or for a test that fails with it; or an
    edit of must-fail/, which names neither."""

    def __init__(self, crate: str, name: str, text: str, is_bug: bool) -> None:
        words = re.findall(r"^(.*?): ?(.*)", text, re.M)
        said = dict(words)
        own: dict[str, str] = {}
        self.crate = crate
        self.name = name
        self.is_bug = is_bug
        self.is_for_gate = said.get("gate") == "yes"
        self.function = f"{crate}::{said['function']}" if "function" in said else ""
        self.test = said.get("test", "")
        # Of each line `new:` the file and the old text that were named last, and the text that the
        # old one comes after.
        self.pairs: list[tuple[str, str, str, str]] = []
        for key, text in words:
            own[key] = text
            if key == "new":
                self.pairs.append((own["file"], own.pop("after", ""), own["old"], text))

    def texts(self, folder: str) -> tuple[dict[str, str], str]:
        """What it makes of the crate's texts in this folder, by file; or why it can't be
        planted."""
        made: dict[str, str] = {}
        for file, after, old, new in self.pairs:
            if file not in made:
                if not os.path.isfile(f"{folder}/{file}"):
                    return {}, f"there is no file {file}"
                made[file] = read_text(f"{folder}/{file}")
            text = made[file]
            if after and text.count(after) != 1:
                return {}, f"an 'after:' text {times_in(file, text, after)}"
            front, found, rest = text.partition(after) if after else ("", "", text)
            if not after and rest.count(old) != 1 or old not in rest:
                return {}, f"an 'old:' text {times_in(file, rest, old)}"
            made[file] = front + found + rest.replace(old, new, 1)
        if not self.pairs or self.is_bug and not (self.function or self.test):
            return {}, "it has no line 'function:' or 'test:', or no pair"
        return made, ""


def times_in(file: str, text: str, wanted: str) -> str:
    """How often a text is in a file that has to have it once."""
    return f"stands {text.count(wanted)} times in {file}, and not once"


def bugs_in(path: str, owner: str) -> list[Edit]:
    """The bugs of a file mutations.txt, which is that of a crate or of another folder."""
    if not os.path.isfile(path):
        return []
    _, *parts = re.split(r"^\[(.*)\]\n", read_text(path), flags=re.M)
    twice = [name for name, count in Counter(parts[::2]).items() if count > 1]
    if twice:
        raise SystemExit(f"{path}: {twice} are in it twice")
    return [Edit(owner, name, text, True) for name, text in zip(parts[::2], parts[1::2])]
