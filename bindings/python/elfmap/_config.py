"""The configuration of elfmap-lint: `.elfmap-lint.toml` in a directory at or above the first PATH.

Each option that has a long name is a key, without the `--`, but those of a link: `tables = true`,
`class32 = "skip"`, `ignore = ["SHARED_BYTE:*.o"]`. `zero`, `output` and `jobs` are `-0`, `-o` and
`-j`. What the command line says comes first; what it lists is added.
"""

from __future__ import annotations

import argparse
import importlib
import os
from collections.abc import Iterator
from typing import Any, Optional

from elfmap._findings import BadWord
from elfmap._sources import reason_of
from elfmap._words import printable

NAME = ".elfmap-lint.toml"
# These are of the command line alone, and so are those of a link.
_NOT_CONFIGURED = ("help", "version", "list_rules", "config", "no_config", "decompress", "paths")
_OF_A_LINK = ("link", "rules", "entry", "base", "page")
# The value is a file, whose path is from the directory of the configuration. All but the first are
# written, or list what is read: a configuration that is found in a tree may be anyone's.
_FILES = ("baseline", "write_baseline", "output", "files0_from")


def configured(parser: argparse.ArgumentParser, options: argparse.Namespace) -> dict[str, Any]:
    """The values that the configuration of this command line has, by their names in the options.
    Raises BadWord where they are wrong."""
    path = _path(options)
    if path is None:
        return {}
    shown = printable(os.fsencode(path))
    toml = _toml()
    try:
        with open(path, "rb") as it:
            values = toml.load(it)
    except OSError as fault:
        raise BadWord(f"{shown}: {reason_of(fault)}") from None
    except (ValueError, RecursionError) as fault:
        raise BadWord(f"{shown} is no TOML: {fault}") from None
    keys = keys_of(parser)
    found = {}
    for key, value in values.items():
        if key not in keys:
            raise BadWord(f"{shown}: there is no option {key!r}")
        if options.config is None and keys[key].dest in _FILES[1:]:
            raise BadWord(f"{shown}: {key} is only read with --config")
        found[keys[key].dest] = _value(keys[key], value, f"{shown}: {key}", path)
    return found


def keys_of(parser: argparse.ArgumentParser) -> dict[str, argparse.Action]:
    """The options that a configuration may have, by their keys."""
    found = {}
    for it in parser._actions:
        if it.dest not in (*_NOT_CONFIGURED, *_OF_A_LINK):
            long = [name[2:] for name in it.option_strings if name.startswith("--")]
            found[long[0] if long else it.dest] = it
    return found


def _path(options: argparse.Namespace) -> Optional[str]:
    """The configuration that is named, or the nearest one; none if there is none or none is
    wanted."""
    if options.config is not None or options.no_config:
        named: Optional[str] = options.config
        return named
    paths = [it for it in options.paths if it != "-"]
    return next((it for it in _places(paths[0] if paths else ".") if os.path.isfile(it)), None)


def _places(path: str) -> Iterator[str]:
    """Where a configuration may be: in the directory, and in all above it; in no file."""
    folder = os.path.abspath(path)
    while True:
        yield os.path.join(folder, NAME)
        above = os.path.dirname(folder)
        if above == folder:
            return
        folder = above


def _toml() -> Any:
    for name in ("tomllib", "tomli"):
        try:
            return importlib.import_module(name)
        except ImportError:
            pass
    raise BadWord("a configuration needs Python 3.11, or the module tomli; --no-config reads none")


def _value(action: argparse.Action, value: object, place: str, path: str) -> object:
    """The value of an option. One of a file is made a path from the working directory."""
    if isinstance(action, argparse._StoreTrueAction):
        if not isinstance(value, bool):
            raise BadWord(f"{place} is true or false")
    elif isinstance(action, argparse._AppendAction):
        if not isinstance(value, list) or not all(isinstance(it, str) for it in value):
            raise BadWord(f"{place} is a list of strings")
    elif action.type is int:
        if not isinstance(value, int) or isinstance(value, bool):
            raise BadWord(f"{place} is a number")
    elif not isinstance(value, str):
        raise BadWord(f"{place} is a string")
    elif action.choices and value not in action.choices:
        raise BadWord(f"{place} is one of {', '.join(map(str, action.choices))}")
    elif "\0" in value:
        raise BadWord(f"{place} has a zero byte")
    elif action.dest in _FILES and value != "-":
        return os.path.join(os.path.dirname(path), value)
    return value
