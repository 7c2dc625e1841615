use core::fmt;

use crate::rules::{LINK_TABLE, TABLE};
use crate::Error;

/// The name and the sentence of a rule; a library that is newer than the table may have more.
fn row(table: &[(u16, &'static str, &'static str)], rule: u16) -> (&'static str, &'static str) {
    match table.binary_search_by_key(&rule, |&(number, ..)| number) {
        Ok(index) => (table[index].1, table[index].2),
        Err(_) => ("UNKNOWN_RULE", "it is refused by a rule without a sentence"),
    }
}

/// Why a file is refused: the first rule that it breaks, and the lowest offset at which it does.
///
/// ```
/// let refusal = elfmap::File::parse(b"\x7fELF").unwrap_err();
/// assert_eq!(refusal.rule, elfmap::rules::TOO_SHORT);
/// assert_eq!(
///     refusal.to_string(),
///     "rule 2 (TOO_SHORT) at offset 4: \
///      the file is refused because it is shorter than an ELF header, 64 bytes",
/// );
/// ```
#[derive(Clone, Copy, Debug, PartialEq, Eq, Hash)]
#[non_exhaustive]
pub struct Refusal {
    /// The number of the rule; [`rules`](crate::rules) has their names.
    pub rule: u16,
    /// The lowest offset at which it is broken, in bytes from the beginning of the file.
    pub offset: u64,
}

impl Refusal {
    /// The name of the rule, as `SHARED_BYTE`.
    pub fn name(&self) -> &'static str {
        row(&TABLE, self.rule).0
    }

    /// What the rule refuses, as `docs/RULES.md` says it.
    pub fn sentence(&self) -> &'static str {
        row(&TABLE, self.rule).1
    }
}

impl fmt::Display for Refusal {
    fn fmt(&self, f: &mut fmt::Formatter<'_>) -> fmt::Result {
        let Refusal { rule, offset } = self;
        write!(
            f,
            "rule {rule} ({}) at offset {offset}: {}",
            self.name(),
            self.sentence()
        )
    }
}

impl Error for Refusal {}

/// Why objects don't link: the first of the link's rules that is broken, and where.
#[derive(Clone, Copy, Debug, PartialEq, Eq, Hash)]
#[non_exhaustive]
pub struct LinkRefusal {
    /// The number of the rule; [`rules::link`](crate::rules::link) has their names.
    pub rule: u16,
    /// Which file, from 0.
    pub file: usize,
    /// Which section or symbol of it; `docs/RULES.md` says for each rule what is counted.
    pub index: u64,
    /// Which entry of that.
    pub entry: u64,
}

impl LinkRefusal {
    /// The name of the rule, as `BAD_OPTIONS`.
    pub fn name(&self) -> &'static str {
        row(&LINK_TABLE, self.rule).0
    }

    /// What the rule refuses, as `docs/RULES.md` says it.
    pub fn sentence(&self) -> &'static str {
        row(&LINK_TABLE, self.rule).1
    }
}

impl fmt::Display for LinkRefusal {
    fn fmt(&self, f: &mut fmt::Formatter<'_>) -> fmt::Result {
        let LinkRefusal {
            rule,
            file,
            index,
            entry,
        } = self;
        write!(
            f,
            "rule {rule} ({}) at entry {entry} of {index} in file {file}: {}",
            self.name(),
            self.sentence()
        )
    }
}

impl Error for LinkRefusal {}
