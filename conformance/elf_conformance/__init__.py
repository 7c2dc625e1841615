"""The parts of the ELF conformance suite: files by their fields, readings, runs of tools, tables.
All of it needs the standard library of Python alone."""
