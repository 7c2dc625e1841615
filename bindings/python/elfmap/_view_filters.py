"""Which rows of a table are shown, and in which order."""

from __future__ import annotations

import fnmatch
from typing import NamedTuple, Optional

from elfmap._view_image import Extent, Symbol, View
from elfmap._words import printable
from elfmap.constants import SHN

SORTS = ("size", "address", "name")


class Filters(NamedTuple):
    """A pattern of names, a pattern of section names or an index, which symbols, and the order."""

    name: Optional[str] = None
    section: Optional[str] = None
    undefined: bool = False
    defined: bool = False
    sort: Optional[str] = None

    @property
    def takes_all_symbols(self) -> bool:
        """Whether all symbols are shown, in their order."""
        return self == Filters()

    def takes_name(self, name: str) -> bool:
        return self.name is None or fnmatch.fnmatchcase(name, self.name)

    def _has_section(self, view: View, index: int) -> bool:
        if self.section is None or self.section == str(index):
            return True
        return fnmatch.fnmatchcase(view.section_name(index), self.section)

    def takes_section(self, view: View, index: int) -> bool:
        own = printable(view.sections[index].name)
        return self.takes_name(own) and self._has_section(view, index)

    def takes_table(self, view: View, index: int) -> bool:
        """Whether the entries of a table are shown."""
        return self._has_section(view, index)

    def takes_part(self, it: Extent) -> bool:
        name = self.section is None or fnmatch.fnmatchcase(it.name, self.section)
        own = self.section is not None and self.section == str(it.section)
        return (name or own) and self.takes_name(it.name)

    def takes_symbol(self, view: View, symbol: Symbol) -> bool:
        """A section chosen by the user may be that of the table, or of the symbol."""
        it = symbol.it
        is_undefined = it.st_shndx == SHN.UNDEF
        if self.undefined and not is_undefined or self.defined and is_undefined:
            return False
        if self.section is not None and not self._has_section(view, symbol.table):
            if not view.is_in_section(it) or not self._has_section(view, it.section):
                return False
        return self.takes_name(view.symbol_name(it))
