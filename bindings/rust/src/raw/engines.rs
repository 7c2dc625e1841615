//! The calls of the engines, which take memory. What an `unsafe` block relies on is in the module
//! above.

use alloc::vec::Vec;

use super::{
    elfmap_link, elfmap_map, elfmap_rewrite, elfmap_show, elfmap_table_verdicts, Bytes, Fault,
    Options, Outcome, NO_MEMORY,
};

pub(crate) fn show(bytes: &[u8], buffer: &mut [u8]) -> (u32, Outcome) {
    let (at, size) = (buffer.as_mut_ptr(), buffer.len());
    let mut outcome = Outcome::default();
    // SAFETY: two slices, of which the buffer is borrowed as `&mut`, and what only this call sees.
    let status = unsafe { elfmap_show(bytes.as_ptr(), bytes.len(), at, size, &mut outcome) };
    (status, outcome)
}

pub(crate) fn table_verdicts(bytes: &[u8], buffer: &mut [Fault]) -> (u32, Outcome) {
    let (at, count) = (buffer.as_mut_ptr(), buffer.len());
    let mut outcome = Outcome::default();
    // SAFETY: two slices, of which the buffer is borrowed as `&mut`, and what only this call sees.
    let status =
        unsafe { elfmap_table_verdicts(bytes.as_ptr(), bytes.len(), 0, at, count, &mut outcome) };
    (status, outcome)
}

pub(crate) fn rewrite(bytes: &[u8], buffer: &mut [u8]) -> (u32, Outcome) {
    let (at, size) = (buffer.as_mut_ptr(), buffer.len());
    let mut outcome = Outcome::default();
    // SAFETY: two slices, of which the buffer is borrowed as `&mut`, and what only this call sees.
    let status = unsafe { elfmap_rewrite(bytes.as_ptr(), bytes.len(), at, size, &mut outcome) };
    (status, outcome)
}

/// Where the bytes of each file of a link are; None if there is no memory to say it.
fn bytes_of(files: &[&[u8]]) -> Option<Vec<Bytes>> {
    let mut found = Vec::new();
    found.try_reserve_exact(files.len()).ok()?;
    found.extend(files.iter().map(|file| Bytes {
        bytes: file.as_ptr(),
        len: file.len(),
    }));
    Some(found)
}

/// The answer of an engine that is not called, because there is no memory.
fn no_memory() -> (u32, Outcome) {
    (NO_MEMORY, Outcome::default())
}

/// What a link takes: files, options, and the text of the relocation rules.
#[derive(Clone, Copy)]
pub(crate) struct Inputs<'a> {
    pub files: &'a [&'a [u8]],
    pub options: Options,
    pub rules: &'a [u8],
}

pub(crate) fn map(inputs: &Inputs<'_>, buffer: &mut [u8]) -> (u32, Outcome) {
    let Inputs {
        files,
        options,
        rules,
    } = inputs;
    let files = match bytes_of(files) {
        Some(files) => files,
        None => return no_memory(),
    };
    let mut outcome = Outcome::default();
    // SAFETY: three slices, one of them of slices that live as long as `inputs`, of which the buffer is borrowed as `&mut`, what is borrowed as `&`, and
    // what only this call sees.
    let status = unsafe {
        elfmap_map(
            files.as_ptr(),
            files.len(),
            options,
            rules.as_ptr(),
            rules.len(),
            buffer.as_mut_ptr(),
            buffer.len(),
            &mut outcome,
        )
    };
    (status, outcome)
}

pub(crate) fn link(inputs: &Inputs<'_>, entry: &[u8], buffer: &mut [u8]) -> (u32, Outcome) {
    let Inputs {
        files,
        options,
        rules,
    } = inputs;
    let files = match bytes_of(files) {
        Some(files) => files,
        None => return no_memory(),
    };
    let mut outcome = Outcome::default();
    // SAFETY: four slices, one of them of slices that live as long as `inputs`, of which the buffer is borrowed as `&mut`, what is borrowed as `&`, and
    // what only this call sees.
    let status = unsafe {
        elfmap_link(
            files.as_ptr(),
            files.len(),
            options,
            entry.as_ptr(),
            entry.len(),
            rules.as_ptr(),
            rules.len(),
            buffer.as_mut_ptr(),
            buffer.len(),
            &mut outcome,
        )
    };
    (status, outcome)
}
