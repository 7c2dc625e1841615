use core::fmt;
use core::iter::FusedIterator;
use core::marker::PhantomData;
use core::ops::Range;

use crate::raw::Table;
use crate::File;

/// What is read from a file and, where it is an entry of a table, from that table.
pub trait Entry<'a> {
    /// The one of this index, which is there.
    #[doc(hidden)]
    fn read(from: &Place<'a>, index: usize) -> Self;
}

/// A file, and one of its tables; an empty table for what is in none.
#[derive(Clone, Copy)]
pub struct Place<'a> {
    pub(crate) file: File<'a>,
    pub(crate) table: Table,
}

/// Entries of a file in their order, each of which is read when it is asked for. To pass any number
/// of them takes no longer than to pass one.
///
/// ```
/// let bytes = std::fs::read("/proc/self/exe")?;
/// let sections = elfmap::File::parse(&bytes)?.sections();
/// let last = sections.clone().last().unwrap();
/// assert_eq!(sections.clone().nth(sections.len() - 1), Some(last));
/// # Ok::<(), Box<dyn std::error::Error>>(())
/// ```
pub struct Entries<'a, T> {
    from: Place<'a>,
    left: Range<usize>,
    entry: PhantomData<T>,
}

impl<'a, T: Entry<'a>> Entries<'a, T> {
    pub(crate) fn new(from: Place<'a>, count: usize) -> Self {
        Entries {
            from,
            left: 0..count,
            entry: PhantomData,
        }
    }
}

impl<'a, T: Entry<'a>> Iterator for Entries<'a, T> {
    type Item = T;

    fn next(&mut self) -> Option<T> {
        self.left.next().map(|index| T::read(&self.from, index))
    }

    fn nth(&mut self, n: usize) -> Option<T> {
        self.left.nth(n).map(|index| T::read(&self.from, index))
    }

    fn size_hint(&self) -> (usize, Option<usize>) {
        self.left.size_hint()
    }

    fn count(self) -> usize {
        self.left.len()
    }

    fn last(mut self) -> Option<T> {
        self.next_back()
    }
}

impl<'a, T: Entry<'a>> DoubleEndedIterator for Entries<'a, T> {
    fn next_back(&mut self) -> Option<T> {
        let index = self.left.next_back()?;
        Some(T::read(&self.from, index))
    }

    fn nth_back(&mut self, n: usize) -> Option<T> {
        let index = self.left.nth_back(n)?;
        Some(T::read(&self.from, index))
    }
}

impl<'a, T: Entry<'a>> ExactSizeIterator for Entries<'a, T> {}

impl<'a, T: Entry<'a>> FusedIterator for Entries<'a, T> {}

impl<T> Clone for Entries<'_, T> {
    fn clone(&self) -> Self {
        Entries {
            left: self.left.clone(),
            ..*self
        }
    }
}

impl<T> fmt::Debug for Entries<'_, T> {
    fn fmt(&self, f: &mut fmt::Formatter<'_>) -> fmt::Result {
        f.debug_struct("Entries")
            .field("left", &self.left)
            .finish_non_exhaustive()
    }
}
