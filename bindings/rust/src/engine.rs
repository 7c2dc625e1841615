use alloc::vec::Vec;
use core::fmt;

use crate::raw::engines::{self, Inputs};
use crate::raw::{self, Fault, Outcome};
use crate::raw::{BAD_RULES, DONE, NOT_LINKED, REFUSED, SMALL_ROOM, TOO_LONG};
use crate::refusal::{LinkRefusal, Refusal};
use crate::{Error, File};

/// Why an engine writes nothing.
#[derive(Clone, Copy, Debug, PartialEq, Eq, Hash)]
#[non_exhaustive]
pub enum Failure {
    /// This file, the first such one, breaks a rule of images, or one of objects, from 40 on.
    Refused {
        /// Which file, from 0.
        file: usize,
        /// The first rule that it breaks, and the lowest offset.
        refusal: Refusal,
    },
    /// The objects don't link.
    NotLinked(LinkRefusal),
    /// What would be written is longer than 2^30 bytes, or has too many segments.
    TooLong,
    /// This line of the relocation rules, from 1, is bad, and none before it.
    BadRules {
        /// The line.
        line: usize,
    },
    /// There is too little memory.
    OutOfMemory,
}

impl fmt::Display for Failure {
    fn fmt(&self, f: &mut fmt::Formatter<'_>) -> fmt::Result {
        match self {
            Failure::Refused { file, .. } => write!(f, "file {file} breaks a rule"),
            Failure::NotLinked(_) => f.write_str("the objects do not link"),
            Failure::TooLong => f.write_str("what would be written is too long"),
            Failure::BadRules { line } => write!(f, "line {line} of the rules is bad"),
            Failure::OutOfMemory => f.write_str("there is too little memory"),
        }
    }
}

impl Error for Failure {
    /// Which rule the file breaks, or the link, and where.
    fn source(&self) -> Option<&(dyn Error + 'static)> {
        match self {
            Failure::Refused { refusal, .. } => Some(refusal),
            Failure::NotLinked(refusal) => Some(refusal),
            _ => None,
        }
    }
}

/// Where a link places sections, and where the program begins.
///
/// ```
/// let options = elfmap::Options::default();
/// assert_eq!((options.base, options.page, options.entry), (0x400000, 0x1000, &b"_start"[..]));
/// ```
#[derive(Clone, Copy, Debug, PartialEq, Eq, Hash)]
pub struct Options<'a> {
    /// The address that placement begins at: a multiple of `page`.
    pub base: u64,
    /// What each output section begins at a multiple of: a power of two.
    pub page: u64,
    /// The name of the symbol that the program begins at.
    pub entry: &'a [u8],
}

impl Default for Options<'_> {
    fn default() -> Self {
        Options {
            base: 0x40_0000,
            page: 0x1000,
            entry: b"_start",
        }
    }
}

/// The lines of `elfmap show` on a file, also on one that is refused. It takes memory for the
/// records, the tables and the lines.
///
/// # Errors
///
/// [`Failure::OutOfMemory`] alone.
pub fn show(bytes: &[u8]) -> Result<Vec<u8>, Failure> {
    match said(|buffer| engines::show(bytes, buffer)) {
        Ok(text) | Err((REFUSED, _, text)) => Ok(text),
        Err((status, outcome, _)) => Err(failure(status, outcome)),
    }
}

/// The tables that break a rule: of each its section, the first rule broken (40 to 69), and the lowest
/// offset, in the order of the sections. It takes no memory for the entries of tables, but for those of
/// one group or hash table at a time. Names of more than 64 bytes of symbols in hash tables take memory
/// too: a few bytes for each place where one begins.
///
/// # Errors
///
/// [`Failure::Refused`], with file 0, where the file itself breaks a rule, or
/// [`Failure::OutOfMemory`].
pub fn refused_tables(bytes: &[u8]) -> Result<Vec<(usize, Refusal)>, Failure> {
    let file = File::parse(bytes).map_err(|refusal| Failure::Refused { file: 0, refusal })?;
    let mut verdicts = Vec::new();
    let count = file.summary().sections;
    let is_there = verdicts.try_reserve_exact(count);
    is_there.map_err(|_| Failure::OutOfMemory)?;
    verdicts.resize(count, Fault::default());
    let (status, outcome) = engines::table_verdicts(bytes, &mut verdicts);
    if status != DONE {
        return Err(failure(status, outcome));
    }
    let refused = verdicts.iter().filter(|it| it.rule != 0).count();
    let mut tables = Vec::new();
    let is_there = tables.try_reserve_exact(refused);
    is_there.map_err(|_| Failure::OutOfMemory)?;
    for (section, Fault { rule, at }) in verdicts.into_iter().enumerate() {
        if rule != 0 {
            tables.push((section, Refusal { rule, offset: at }));
        }
    }
    Ok(tables)
}

/// The object that a relocatable file denotes, as a file in canonical layout.
///
/// # Errors
///
/// [`Failure::Refused`], with file 0, [`Failure::TooLong`] or [`Failure::OutOfMemory`].
///
/// # Examples
///
/// ```
/// use std::error::Error;
///
/// let failure = elfmap::rewrite(b"no ELF file").unwrap_err();
/// assert_eq!(failure.to_string(), "file 0 breaks a rule");
/// assert_eq!(
///     failure.source().unwrap().to_string(),
///     "rule 2 (TOO_SHORT) at offset 11: \
///      the file is refused because it is shorter than an ELF header, 64 bytes",
/// );
/// ```
pub fn rewrite(bytes: &[u8]) -> Result<Vec<u8>, Failure> {
    said(|buffer| engines::rewrite(bytes, buffer))
        .map_err(|(status, outcome, _)| failure(status, outcome))
}

/// The executable of these objects, by the relocation rules of a text as `docs/RULE_FILES.md` has it.
/// The bytes of the files are not copied.
///
/// # Errors
///
/// The first [`Failure`] of bad rules, refused files, and the link's rules; or out of memory.
pub fn link(files: &[&[u8]], options: &Options<'_>, rules: &str) -> Result<Vec<u8>, Failure> {
    let inputs = inputs(files, options, rules);
    said(|buffer| engines::link(&inputs, options.entry, buffer))
        .map_err(|(status, outcome, _)| failure(status, outcome))
}

/// The lines of `elfmap map` on these objects: where their sections and names are in the link, and
/// the relocated bytes by these rules. `options.entry` is not looked at.
///
/// # Errors
///
/// Those of [`link`].
pub fn map(files: &[&[u8]], options: &Options<'_>, rules: &str) -> Result<Vec<u8>, Failure> {
    let inputs = inputs(files, options, rules);
    said(|buffer| engines::map(&inputs, buffer))
        .map_err(|(status, outcome, _)| failure(status, outcome))
}

/// The output of an engine, by two calls: the first returns its length, the second the output. Another
/// status than [`DONE`] comes with its own output.
fn said(engine: impl Fn(&mut [u8]) -> (u32, Outcome)) -> Result<Vec<u8>, (u32, Outcome, Vec<u8>)> {
    let mut buffer = Vec::new();
    let (mut status, mut outcome) = engine(&mut buffer);
    if status == SMALL_ROOM {
        let wanted = outcome.length as usize;
        if buffer.try_reserve_exact(wanted).is_err() {
            return Err((u32::MAX, outcome, buffer));
        }
        buffer.resize(wanted, 0);
        (status, outcome) = engine(&mut buffer);
    }
    if status == DONE {
        Ok(buffer)
    } else {
        Err((status, outcome, buffer))
    }
}

/// What a status means, with the numbers of its outcome.
fn failure(status: u32, outcome: Outcome) -> Failure {
    let Outcome {
        at,
        file,
        index,
        rule,
        ..
    } = outcome;
    let file = file as usize;
    match status {
        REFUSED => Failure::Refused {
            file,
            refusal: Refusal { rule, offset: at },
        },
        NOT_LINKED => Failure::NotLinked(LinkRefusal {
            rule,
            file,
            index,
            entry: at,
        }),
        TOO_LONG => Failure::TooLong,
        BAD_RULES => Failure::BadRules { line: at as usize },
        _ => Failure::OutOfMemory,
    }
}

fn inputs<'a>(files: &'a [&'a [u8]], options: &Options<'_>, rules: &'a str) -> Inputs<'a> {
    Inputs {
        files,
        options: raw::Options {
            base: options.base,
            page: options.page,
            uses_rules: 1,
        },
        rules: rules.as_bytes(),
    }
}
