"""What tools/dev, tools/test and tools/release are made of: a module for each test, named after it,
and one for each part that several of them share, over `tree`, `building` and `suite`."""

import os
import sys

# This file is tools/lib/elfmap_tools/__init__.py.
HERE = os.path.dirname(os.path.realpath(__file__))
TOP = os.path.dirname(os.path.dirname(os.path.dirname(HERE)))
sys.dont_write_bytecode = True
# Modules of the repository; and those that Debian has for python3, which another python3 finds
# there too.
sys.path[:0] = [f"{TOP}/{it}" for it in ("reference", "bench", "bindings/python")]
sys.path.append("/usr/lib/python3/dist-packages")
