//! Whether an ELF-64 file breaks a rule, which one and where; and the records and tables of a file
//! that breaks none.
//!
//! The crate calls the library for C of elfmap, whose results are proved for all bytes. A file that
//! breaks none of the [rules] is parsed, and what it returns borrows from its bytes. For any other
//! file the [`Refusal`] has the first rule that it breaks.
//!
//! ```
//! let bytes = std::fs::read("/proc/self/exe")?;
//! let file = elfmap::File::parse(&bytes)?;
//! for section in file.sections() {
//!     println!("{} {}", section.name().escape_ascii(), section.header().sh_size);
//! }
//! # Ok::<(), Box<dyn std::error::Error>>(())
//! ```
//!
//! `rewrite` and `link` write new files. Fields have the names of the gABI (System V ABI, generic
//! part, chapters 4 and 5), and [constants] has its numbers for tables and records.
//!
//! Without its feature `std` the crate needs Rust 1.81, which has `core::error`. Without `alloc` too it
//! has what allocates nothing: no `File::parts`, and none of the engines `show`, `refused_tables`,
//! `rewrite`, `map` and `link`. The engines take memory by `malloc` besides.

#![no_std]
#![deny(missing_docs, unsafe_code, clippy::undocumented_unsafe_blocks)]

#[cfg(feature = "alloc")]
extern crate alloc;
#[cfg(feature = "std")]
extern crate std;

pub mod constants;
#[cfg(feature = "alloc")]
mod engine;
mod entries;
mod file;
#[allow(unsafe_code)]
mod raw;
mod refusal;
pub mod rules;
mod table;

#[cfg(not(feature = "std"))]
use core::error::Error;
#[cfg(feature = "std")]
use std::error::Error;

#[cfg(feature = "alloc")]
pub use engine::{link, map, refused_tables, rewrite, show, Failure, Options};
pub use entries::Entries;
pub use file::{check, File, Owner, Part, Section, Segment, Summary};
pub use raw::{Dynamic, Header, ProgramHeader, Relocation, SectionHeader};
pub use refusal::{LinkRefusal, Refusal};
pub use table::{Note, Symbol};

#[cfg(doctest)]
#[doc = include_str!("../README.md")]
struct Readme;
