use core::fmt;
use core::iter::FusedIterator;

use crate::constants::{
    SHT_DYNAMIC, SHT_DYNSYM, SHT_HASH, SHT_NOTE, SHT_REL, SHT_RELA, SHT_SYMTAB,
};
use crate::entries::{Entries, Entry, Place};
use crate::raw::{self, Dynamic, Relocation, Table};
use crate::File;

/// A symbol of a symbol table.
#[derive(Clone, Copy, PartialEq, Eq, Hash)]
#[non_exhaustive]
pub struct Symbol<'a> {
    /// The name, without its closing zero.
    pub name: &'a [u8],
    /// An address, an offset in a section, or the alignment of a common symbol.
    pub st_value: u64,
    /// Its size in bytes, 0 where that is unknown.
    pub st_size: u64,
    /// The index of the section where it is defined, also where `st_shndx` can't hold it; else what
    /// `st_shndx` holds. If an index table should have it, and has no word for the symbol, which
    /// breaks a rule, it is 0.
    pub section: u32,
    /// The section index as the entry has it: 0 is undefined, from `0xff00` on they are reserved.
    pub st_shndx: u16,
    /// Binding and type.
    pub st_info: u8,
    /// The visibility.
    pub st_other: u8,
}

impl Symbol<'_> {
    /// 0 is local, 1 global, 2 weak.
    pub fn binding(&self) -> u8 {
        self.st_info >> 4
    }

    /// 0 has no type, 1 is data, 2 a function, 3 a section, 4 a file.
    pub fn symbol_type(&self) -> u8 {
        self.st_info & 15
    }
}

impl fmt::Debug for Symbol<'_> {
    fn fmt(&self, f: &mut fmt::Formatter<'_>) -> fmt::Result {
        f.debug_struct("Symbol")
            .field("name", &format_args!("\"{}\"", self.name.escape_ascii()))
            .field("st_value", &self.st_value)
            .field("st_size", &self.st_size)
            .field("section", &self.section)
            .field("st_info", &self.st_info)
            .finish_non_exhaustive()
    }
}

/// A note of a note section.
#[derive(Clone, Copy, Debug, PartialEq, Eq, Hash)]
#[non_exhaustive]
pub struct Note<'a> {
    /// Whose note it is, without its closing zero.
    pub name: &'a [u8],
    /// The descriptor, whose meaning is the owner's.
    pub desc: &'a [u8],
    /// The type, which is the owner's too.
    pub n_type: u32,
}

/// The entries of tables. A file that keeps the rules of images may have a table that breaks rules of
/// its own (40 to 69). Of such a table the entries that lie in the file are returned.
impl<'a> File<'a> {
    /// The symbols of the symbol table in section `index`, symbol 0 among them; `None` where the
    /// section holds none.
    pub fn symbols(&self, index: usize) -> Option<Entries<'a, Symbol<'a>>> {
        self.entries(index, &[SHT_SYMTAB, SHT_DYNSYM])
    }

    /// Symbol `entry` of the symbol table in section `index`; `None` where there is none. Each call
    /// goes over the section headers: for many symbols use [`File::symbols`].
    pub fn symbol(&self, index: usize, entry: usize) -> Option<Symbol<'a>> {
        self.symbols(index)?.nth(entry)
    }

    /// The relocations of the relocation section `index`; `None` where it is none.
    pub fn relocations(&self, index: usize) -> Option<Entries<'a, Relocation>> {
        self.entries(index, &[SHT_RELA, SHT_REL])
    }

    /// Relocation `entry` of the relocation section `index`; `None` where there is none.
    pub fn relocation(&self, index: usize, entry: usize) -> Option<Relocation> {
        self.relocations(index)?.nth(entry)
    }

    /// The entries of the dynamic array in section `index` before the first of tag `DT_NULL`, each
    /// with the string at the offset that it holds, which says something for some tags alone, as 1
    /// (`DT_NEEDED`); `None` where the section holds none.
    pub fn dynamic(&self, index: usize) -> Option<Entries<'a, (Dynamic, &'a [u8])>> {
        self.entries(index, &[SHT_DYNAMIC])
    }

    /// The notes of the note section `index`; `None` where it is none.
    pub fn notes(&self, index: usize) -> Option<impl FusedIterator<Item = Note<'a>>> {
        let file = *self;
        let table = self.table(index, &[SHT_NOTE])?;
        let note_at = move |offset| raw::note_at(&table, file.bytes(), offset);
        let notes = core::iter::successors(note_at(0), move |last| note_at(last.next));
        Some(notes.map(move |it| file.note(it)).fuse())
    }

    /// The index of the first symbol of this name on its chain of the hash table in section `index`,
    /// in the symbol table that this one links to; `None` where there is none, or no hash table.
    pub fn find(&self, index: usize, name: &[u8]) -> Option<usize> {
        let table = self.table(index, &[SHT_HASH])?;
        raw::find(&table, self.bytes(), name).map(|symbol| symbol as usize)
    }

    /// The table in a section of one of these types.
    fn table(&self, index: usize, types: &[u32]) -> Option<Table> {
        let table = raw::table(self.numbers(), self.bytes(), index as u64)?;
        types.contains(&table.sh_type).then_some(table)
    }

    /// The entries of the table in a section of one of these types. They lie in the bytes, so that
    /// their number fits.
    fn entries<T: Entry<'a>>(&self, index: usize, types: &[u32]) -> Option<Entries<'a, T>> {
        let table = self.table(index, types)?;
        let count = table.entries as usize;
        Some(Entries::new(Place { file: *self, table }, count))
    }

    fn note(&self, entry: raw::Note) -> Note<'a> {
        Note {
            name: self.at(entry.name),
            desc: self.at(entry.desc),
            n_type: entry.n_type,
        }
    }
}

impl<'a> Entry<'a> for Symbol<'a> {
    fn read(from: &Place<'a>, index: usize) -> Self {
        let Place { file, table } = from;
        let found = raw::symbol(table, file.bytes(), index as u64);
        let entry = found.unwrap_or_else(|| without_its_word(from, index));
        Symbol {
            name: file.at(entry.name),
            st_value: entry.st_value,
            st_size: entry.st_size,
            section: entry.section,
            st_shndx: entry.st_shndx,
            st_info: entry.st_info,
            st_other: entry.st_other,
        }
    }
}

/// A symbol whose section is a word of an index table that has no such word. Its own table has some
/// word in that place, which says nothing.
fn without_its_word(from: &Place<'_>, index: usize) -> raw::Symbol {
    let table = Table {
        linked: from.table.content,
        ..from.table
    };
    let entry = raw::symbol(&table, from.file.bytes(), index as u64);
    raw::Symbol {
        section: 0,
        ..entry.unwrap_or_default()
    }
}

impl<'a> Entry<'a> for Relocation {
    fn read(from: &Place<'a>, index: usize) -> Self {
        let entry = raw::relocation(&from.table, from.file.bytes(), index as u64);
        entry.expect("the entry is below their number")
    }
}

impl<'a> Entry<'a> for (Dynamic, &'a [u8]) {
    fn read(from: &Place<'a>, index: usize) -> Self {
        let Place { file, table } = from;
        let entry = raw::dynamic(table, file.bytes(), index as u64);
        let entry = entry.expect("the entry is below their number");
        let string = raw::string(table, file.bytes(), entry.d_un).unwrap_or_default();
        (entry, file.at(string))
    }
}
