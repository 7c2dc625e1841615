#[cfg(feature = "alloc")]
use alloc::vec::Vec;
use core::fmt;

use crate::constants::{PT_NULL, SHT_NOBITS, SHT_NULL};
use crate::entries::{Entries, Entry, Place};
use crate::raw::{self, Extent, Fault, Header, ProgramHeader, SectionHeader, Table, SHORT_ROOM};
use crate::refusal::Refusal;

/// How many extents the first buffer has, on the stack: enough for a file with 61 sections.
const SMALL_ROOM: usize = 64;

/// An ELF-64 file that breaks no rule. It borrows its bytes, and so does what it returns.
///
/// A section can't outlive the bytes:
///
/// ```compile_fail,E0597
/// let name = {
///     let bytes = std::fs::read("/proc/self/exe").unwrap();
///     let file = elfmap::File::parse(&bytes).unwrap();
///     file.section(1).unwrap().name()
/// };
/// assert!(!name.is_empty());
/// ```
///
/// But it can outlive the `File`:
///
/// ```no_run
/// let bytes = std::fs::read("/proc/self/exe").unwrap();
/// let name = {
///     let file = elfmap::File::parse(&bytes).unwrap();
///     file.section(1).unwrap().name()
/// };
/// assert!(!name.is_empty());
/// ```
#[derive(Clone, Copy)]
pub struct File<'a> {
    bytes: &'a [u8],
    numbers: raw::File,
    header: Header,
}

/// What `elfmap check` says of a file that keeps all rules.
#[derive(Clone, Copy, Debug, PartialEq, Eq, Hash)]
#[non_exhaustive]
pub struct Summary {
    /// How many bytes the file has.
    pub len: usize,
    /// How many section headers, also where `e_shnum` can't hold it.
    pub sections: usize,
    /// How many program headers, also where `e_phnum` can't hold it.
    pub segments: usize,
}

/// Says whether the bytes are an ELF-64 file that keeps all rules, and what it counts.
///
/// # Errors
///
/// The first rule that they break, and the lowest offset at which they do.
///
/// # Examples
///
/// ```
/// match elfmap::check(&std::fs::read("/proc/self/exe")?) {
///     Ok(summary) => println!("ok: {} sections", summary.sections),
///     Err(refusal) => println!("refused: {refusal}"),
/// }
/// # Ok::<(), std::io::Error>(())
/// ```
pub fn check(bytes: &[u8]) -> Result<Summary, Refusal> {
    File::parse(bytes).map(|file| file.summary())
}

impl<'a> File<'a> {
    /// Validates the bytes by all rules, in n log n steps. If a file has more than 61 sections, it
    /// takes memory for the time of the call, 16 bytes for each. Without the feature `alloc` it takes
    /// none, and for such a file the steps may be the square of the number of sections.
    ///
    /// # Errors
    ///
    /// The first rule that they break, and the lowest offset at which they do.
    pub fn parse(bytes: &'a [u8]) -> Result<Self, Refusal> {
        validate(bytes).map_err(|Fault { rule, at }| Refusal { rule, offset: at })?;
        let numbers = raw::file(bytes).expect("the rules were kept");
        let header = raw::header(bytes).expect("the rules were kept");
        Ok(File {
            bytes,
            numbers,
            header,
        })
    }

    /// The bytes of the whole file.
    pub fn bytes(&self) -> &'a [u8] {
        self.bytes
    }

    /// How many bytes, sections and segments it has.
    pub fn summary(&self) -> Summary {
        Summary {
            len: self.bytes.len(),
            // The tables lie in the bytes, so that the counts fit.
            sections: self.numbers.sections as usize,
            segments: self.numbers.segments as usize,
        }
    }

    /// The ELF header.
    pub fn header(&self) -> &Header {
        &self.header
    }

    /// The section of this index, `None` where there is none.
    pub fn section(&self, index: usize) -> Option<Section<'a>> {
        let header = raw::section(&self.numbers, self.bytes, index as u64)?;
        let name = raw::name(&self.numbers, self.bytes, index as u64)?;
        let has_content = !matches!(header.sh_type, SHT_NULL | SHT_NOBITS);
        let content = Extent {
            start: header.sh_offset,
            len: header.sh_size,
        };
        Some(Section {
            header,
            name: self.at(name),
            content: has_content.then(|| self.at(content)),
        })
    }

    /// The segment of this index, `None` where there is none.
    pub fn segment(&self, index: usize) -> Option<Segment<'a>> {
        let header = raw::segment(&self.numbers, self.bytes, index as u64)?;
        let content = Extent {
            start: header.p_offset,
            len: header.p_filesz,
        };
        Some(Segment {
            header,
            content: (header.p_type != PT_NULL).then(|| self.at(content)),
        })
    }

    /// All sections, in the order of their headers; the first one is of type `SHT_NULL`.
    pub fn sections(&self) -> Entries<'a, Section<'a>> {
        Entries::new(self.place(), self.summary().sections)
    }

    /// All segments, in the order of their headers.
    pub fn segments(&self) -> Entries<'a, Segment<'a>> {
        Entries::new(self.place(), self.summary().segments)
    }

    /// What the records of the file are read from.
    fn place(&self) -> Place<'a> {
        Place {
            file: *self,
            table: Table::default(),
        }
    }

    /// What each byte of the file belongs to: the parts in ascending order, none of them empty, each
    /// byte in just one. It takes memory for three parts for each section; `None` where there is too
    /// little. It needs the feature `alloc`.
    #[cfg(feature = "alloc")]
    pub fn parts(&self) -> Option<Vec<Part>> {
        let mut buffer: Vec<raw::Part> = Vec::new();
        let wanted = raw::parts(self.bytes, &mut buffer).err()?.at as usize;
        buffer.try_reserve_exact(wanted).ok()?;
        buffer.resize(wanted, raw::Part::default());
        let count = raw::parts(self.bytes, &mut buffer).ok()?;
        Some(buffer[..count as usize].iter().map(Part::of).collect())
    }

    /// The byte that the first loadable segment with this address gives it; `None` where none has it.
    pub fn load(&self, address: u64) -> Option<u8> {
        raw::load(&self.numbers, self.bytes, address)
    }

    pub(crate) fn numbers(&self) -> &raw::File {
        &self.numbers
    }

    /// These bytes of the file. An empty extent may begin after its end.
    pub(crate) fn at(&self, Extent { start, len }: Extent) -> &'a [u8] {
        if len == 0 {
            &[]
        } else {
            &self.bytes[start as usize..][..len as usize]
        }
    }
}

impl fmt::Debug for File<'_> {
    fn fmt(&self, f: &mut fmt::Formatter<'_>) -> fmt::Result {
        let Summary {
            len,
            sections,
            segments,
        } = self.summary();
        f.debug_struct("File")
            .field("len", &len)
            .field("sections", &sections)
            .field("segments", &segments)
            .finish_non_exhaustive()
    }
}

/// The verdict, with as large a buffer as the file needs.
fn validate(bytes: &[u8]) -> Result<(), Fault> {
    match raw::verdict_in(bytes, &mut [Extent::default(); SMALL_ROOM]) {
        Err(Fault {
            rule: SHORT_ROOM,
            at,
        }) => validate_many(bytes, at as usize),
        verdict => verdict,
    }
}

/// The verdict on a file that needs a buffer of so many extents. Without it the answer is the same, if
/// later.
fn validate_many(bytes: &[u8], wanted: usize) -> Result<(), Fault> {
    #[cfg(feature = "alloc")]
    {
        let mut buffer = Vec::new();
        if buffer.try_reserve_exact(wanted).is_ok() {
            buffer.resize(wanted, Extent::default());
            return raw::verdict_in(bytes, &mut buffer);
        }
    }
    let _ = wanted;
    raw::verdict(bytes)
}

/// Whose bytes a part has.
#[derive(Clone, Copy, Debug, PartialEq, Eq, Hash)]
#[non_exhaustive]
pub enum Owner {
    /// The ELF header.
    Header,
    /// The section header table.
    SectionHeaders,
    /// The program header table.
    ProgramHeaders,
    /// The content of the section of this index.
    Content(usize),
    /// Nobody's: it is between two others, or at the end.
    Gap,
}

/// Bytes of a file that belong together.
#[derive(Clone, Copy, Debug, PartialEq, Eq, Hash)]
#[non_exhaustive]
pub struct Part {
    /// Where they begin.
    pub start: usize,
    /// How many there are.
    pub len: usize,
    /// Whose they are.
    pub owner: Owner,
}

#[cfg(feature = "alloc")]
impl Part {
    fn of(it: &raw::Part) -> Part {
        Part {
            start: it.start as usize,
            len: it.len as usize,
            owner: match it.owner {
                raw::HEADER => Owner::Header,
                raw::SECTION_HEADERS => Owner::SectionHeaders,
                raw::PROGRAM_HEADERS => Owner::ProgramHeaders,
                raw::GAP => Owner::Gap,
                owner => Owner::Content((owner - raw::CONTENTS) as usize),
            },
        }
    }
}

/// A section of a file.
#[derive(Clone, Copy, PartialEq, Eq)]
pub struct Section<'a> {
    header: SectionHeader,
    name: &'a [u8],
    content: Option<&'a [u8]>,
}

impl<'a> Entry<'a> for Section<'a> {
    fn read(from: &Place<'a>, index: usize) -> Self {
        from.file.section(index).expect("the rules were kept")
    }
}

impl<'a> Section<'a> {
    /// Its section header.
    pub fn header(&self) -> &SectionHeader {
        &self.header
    }

    /// Its name, without the closing zero; empty where it has none.
    pub fn name(&self) -> &'a [u8] {
        self.name
    }

    /// Its bytes in the file; `None` for `SHT_NOBITS` and `SHT_NULL`, which have none.
    pub fn content(&self) -> Option<&'a [u8]> {
        self.content
    }
}

impl fmt::Debug for Section<'_> {
    fn fmt(&self, f: &mut fmt::Formatter<'_>) -> fmt::Result {
        f.debug_struct("Section")
            .field("name", &format_args!("\"{}\"", self.name.escape_ascii()))
            .field("header", &self.header)
            .finish_non_exhaustive()
    }
}

/// A segment of a file.
#[derive(Clone, Copy, PartialEq, Eq)]
pub struct Segment<'a> {
    header: ProgramHeader,
    content: Option<&'a [u8]>,
}

impl<'a> Entry<'a> for Segment<'a> {
    fn read(from: &Place<'a>, index: usize) -> Self {
        from.file.segment(index).expect("the rules were kept")
    }
}

impl<'a> Segment<'a> {
    /// Its program header.
    pub fn header(&self) -> &ProgramHeader {
        &self.header
    }

    /// Its bytes in the file; `None` for `PT_NULL`, which has none.
    pub fn content(&self) -> Option<&'a [u8]> {
        self.content
    }
}

impl fmt::Debug for Segment<'_> {
    fn fmt(&self, f: &mut fmt::Formatter<'_>) -> fmt::Result {
        f.debug_struct("Segment")
            .field("header", &self.header)
            .finish_non_exhaustive()
    }
}
