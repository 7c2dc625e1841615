"""Prints what LIEF reads of a file, as JSON in the form of the index."""

import json
import sys

import lief

if sys.argv[1] == "--version":
    print("LIEF", lief.__version__)
    sys.exit()
file = lief.parse(sys.argv[1])
if file is None:
    sys.exit("LIEF reads no file")
sections = [
    {"name": it.name, "type": int(it.type), "addr": it.virtual_address, "offset": it.file_offset}
    | {"size": it.size, "link": it.link, "info": it.information, "addralign": it.alignment}
    for it in file.sections
]
segments = [
    {"type": int(it.type), "offset": it.file_offset, "vaddr": it.virtual_address}
    | {"filesz": it.physical_size, "memsz": it.virtual_size, "align": it.alignment}
    for it in file.segments
]
print(json.dumps({"sections": sections, "segments": segments}))
