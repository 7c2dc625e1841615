"""What `elfmap show` prints, as a reading."""

from typing import Any

Reading = dict[str, Any]
PLACES = {"undef": 0, "abs": 0xFFF1, "common": 0xFFF2}


def name(word: str) -> str:
    """A name, which is written as it is, as `-` if it is empty, and as `#` and hexadecimal digits
    if it has bytes that are not printable."""
    if word == "-":
        return ""
    if word.startswith("#"):
        return bytes.fromhex(word[1:]).decode("latin-1")
    return word


class Lines:
    """The lines of an output, while they are read."""

    def __init__(self) -> None:
        self.made: Reading = {"sections": [], "segments": [], "parts": []}

    def table(self, kind: str, index: str) -> list[Reading]:
        """The rows of a table."""
        found: list[Reading] = self.made.setdefault(kind, {}).setdefault(index, [])
        return found

    def file(self, order: str, type: str, machine: str, entry: str, flags: str) -> None:
        """The line of the header."""
        numbers = {"type": int(type), "machine": int(machine)}
        more = {"entry": int(entry, 0), "flags": int(flags, 0)}
        self.made["header"] = {"order": order, **numbers, **more}

    def part(self, offset: str, size: str, owner: str, *_: str) -> None:
        """A part."""
        made: Reading = {"offset": int(offset, 0), "size": int(size, 0), "owner": owner}
        self.made["parts"].append(made)

    def section(self, _: str, *words: str) -> None:
        """A section header."""
        names = "type flags addr offset size link info addralign entsize".split()
        numbers: Reading = {it: int(word, 0) for it, word in zip(names, words)}
        self.made["sections"].append({"name": name(words[9]), **numbers})

    def segment(self, _: str, *words: str) -> None:
        """A program header."""
        names = "type flags offset vaddr paddr filesz memsz align".split()
        self.made["segments"].append({it: int(word, 0) for it, word in zip(names, words)})

    def symbol(self, index: str, _: str, *words: str) -> None:
        """A symbol."""
        binding, type, other, place, value, size, own = words
        made: Reading = {"binding": int(binding), "type": int(type), "other": int(other)}
        if place != "reserved":
            made["section"] = PLACES[place] if place in PLACES else int(place)
        made |= {"value": int(value, 0), "size": int(size, 0), "name": name(own)}
        self.table("symbols", index).append(made)

    def reloc(self, index: str, _: str, *words: str) -> None:
        """A relocation."""
        offset, symbol, type, addend = words
        made: Reading = {"offset": int(offset, 0), "symbol": int(symbol), "type": int(type)}
        made |= {} if addend == "-" else {"addend": int(addend)}
        self.table("relocations", index).append(made)

    def group(self, index: str, flags: str, signature: str, *members: str) -> None:
        """A group."""
        made: Reading = {"flags": int(flags), "signature": name(signature)}
        own = {**made, "members": [int(it) for it in members]}
        self.made.setdefault("groups", {})[index] = own

    def note(self, index: str, type: str, own: str, desc: str) -> None:
        """A note."""
        made: Reading = {"type": int(type), "name": name(own)}
        made["desc"] = "" if desc == "-" else desc
        self.table("notes", index).append(made)

    def dynamic(self, index: str, tag: str, value: str, *string: str) -> None:
        """An entry of a dynamic array."""
        made: Reading = {"tag": int(tag) % 2**64, "value": int(value, 0)}
        made |= {"string": name(string[0])} if string else {}
        self.table("dynamic", index).append(made)

    def hash(self, index: str, buckets: str, chains: str) -> None:
        """A hash table, of which the counts are printed."""
        own = {"nbucket": int(buckets), "nchain": int(chains)}
        self.made.setdefault("hash", {})[index] = own

    def refused(self, index: str, rule: str, offset: str) -> None:
        """A table that breaks a rule."""
        own = {"rule": int(rule), "offset": int(offset)}
        self.made.setdefault("refused_tables", {})[index] = own


def reading(text: str) -> Reading:
    """All that it prints."""
    lines = Lines()
    for line in text.splitlines():
        kind, *words = line.split(" ")
        getattr(lines, kind)(*words)
    return lines.made
