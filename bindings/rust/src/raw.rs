//! The calls of `include/elfmap.h`, with nothing unsafe left.
//!
//! What each `unsafe` block relies on: a slice is a pointer that isn't null and is aligned, to as
//! many items as its length says, of `isize::MAX` bytes at most; a `&mut` overlaps nothing else;
//! and nobody writes what is borrowed as `&`. That is all that the header asks of a caller, and any
//! bytes and any [`File`] will do.

mod declared;
#[cfg(feature = "alloc")]
pub(crate) mod engines;

pub use declared::*;

/// The verdict without a buffer, which may take the square of the number of sections.
pub(crate) fn verdict(bytes: &[u8]) -> Result<(), Fault> {
    let mut fault = Fault::default();
    // SAFETY: a slice, and what only this call sees.
    let kept = unsafe { elfmap_verdict(bytes.as_ptr(), bytes.len(), &mut fault) };
    if kept {
        Ok(())
    } else {
        Err(fault)
    }
}

/// The verdict with a buffer. If it is too small: [`SHORT_ROOM`], and how many extents are needed.
pub(crate) fn verdict_in(bytes: &[u8], buffer: &mut [Extent]) -> Result<(), Fault> {
    let (at, count) = (buffer.as_mut_ptr(), buffer.len());
    let mut fault = Fault::default();
    // SAFETY: two slices, of which the buffer is borrowed as `&mut`, and what only this call sees.
    let kept = unsafe { elfmap_verdict_in(bytes.as_ptr(), bytes.len(), at, count, &mut fault) };
    if kept {
        Ok(())
    } else {
        Err(fault)
    }
}

pub(crate) fn file(bytes: &[u8]) -> Option<File> {
    let mut file = File::default();
    // SAFETY: a slice, and what only this call sees.
    let is_there = unsafe { elfmap_file(bytes.as_ptr(), bytes.len(), &mut file) };
    is_there.then_some(file)
}

pub(crate) fn header(bytes: &[u8]) -> Option<Header> {
    let mut header = Header::default();
    // SAFETY: a slice, and what only this call sees.
    let is_there = unsafe { elfmap_header(bytes.as_ptr(), bytes.len(), &mut header) };
    is_there.then_some(header)
}

/// A call that puts what it finds in a file into the last struct; false where there is nothing.
type Finder<Of, Found> = unsafe extern "C" fn(&Of, *const u8, usize, u64, &mut Found) -> bool;

fn found<Of, Found: Default>(
    call: Finder<Of, Found>,
    of: &Of,
    bytes: &[u8],
    place: u64,
) -> Option<Found> {
    let mut found = Found::default();
    // SAFETY: a slice, what is borrowed as `&`, and what only this call sees.
    let is_there = unsafe { call(of, bytes.as_ptr(), bytes.len(), place, &mut found) };
    is_there.then_some(found)
}

pub(crate) fn section(file: &File, bytes: &[u8], index: u64) -> Option<SectionHeader> {
    found(elfmap_section, file, bytes, index)
}

pub(crate) fn segment(file: &File, bytes: &[u8], index: u64) -> Option<ProgramHeader> {
    found(elfmap_segment, file, bytes, index)
}

pub(crate) fn name(file: &File, bytes: &[u8], index: u64) -> Option<Extent> {
    found(elfmap_name, file, bytes, index)
}

pub(crate) fn load(file: &File, bytes: &[u8], address: u64) -> Option<u8> {
    found(elfmap_load, file, bytes, address)
}

/// How many parts the buffer then has. If it is too small: [`SHORT_ROOM`], and how many are needed.
#[cfg(feature = "alloc")]
pub(crate) fn parts(bytes: &[u8], buffer: &mut [Part]) -> Result<u64, Fault> {
    let (at, count) = (buffer.as_mut_ptr(), buffer.len());
    let (mut parts, mut fault) = (0, Fault::default());
    // SAFETY: two slices, of which the buffer is borrowed as `&mut`, and what only this call sees.
    let kept = unsafe {
        elfmap_parts(
            bytes.as_ptr(),
            bytes.len(),
            at,
            count,
            &mut parts,
            &mut fault,
        )
    };
    if kept {
        Ok(parts)
    } else {
        Err(fault)
    }
}

pub(crate) fn table(file: &File, bytes: &[u8], index: u64) -> Option<Table> {
    found(elfmap_table, file, bytes, index)
}

pub(crate) fn symbol(table: &Table, bytes: &[u8], index: u64) -> Option<Symbol> {
    found(elfmap_symbol, table, bytes, index)
}

pub(crate) fn relocation(table: &Table, bytes: &[u8], index: u64) -> Option<Relocation> {
    found(elfmap_relocation, table, bytes, index)
}

pub(crate) fn dynamic(table: &Table, bytes: &[u8], index: u64) -> Option<Dynamic> {
    found(elfmap_dynamic, table, bytes, index)
}

pub(crate) fn string(table: &Table, bytes: &[u8], offset: u64) -> Option<Extent> {
    found(elfmap_string, table, bytes, offset)
}

pub(crate) fn note_at(table: &Table, bytes: &[u8], offset: u64) -> Option<Note> {
    found(elfmap_note_at, table, bytes, offset)
}

pub(crate) fn find(table: &Table, bytes: &[u8], name: &[u8]) -> Option<u32> {
    let (at, len) = (bytes.as_ptr(), bytes.len());
    let mut symbol = 0;
    // SAFETY: two slices, what is borrowed as `&`, and what only this call sees.
    let is_there = unsafe { elfmap_find(table, at, len, name.as_ptr(), name.len(), &mut symbol) };
    is_there.then_some(symbol)
}

#[cfg(test)]
mod tests {
    use super::*;

    /// If an allocation fails, the verdict is found without a buffer, and has to be the same.
    #[test]
    fn both_verdicts_are_the_same() {
        let header = include_bytes!("../../../crates/elfmap/data/header.elf");
        assert!(verdict(header).is_ok());
        for (index, value) in (0..header.len()).flat_map(|it| [(it, 0), (it, 1), (it, 0xff)]) {
            let mut bytes = *header;
            bytes[index] = value;
            let pair = |verdict: Result<(), Fault>| verdict.map_err(|it| (it.rule, it.at));
            let mut buffer = [Extent::default(); 3];
            assert_eq!(pair(verdict(&bytes)), pair(verdict_in(&bytes, &mut buffer)));
        }
    }
}
