//! The quads of a page, one at a time.

use crate::errors::Error;
use crate::page::Finished;
use crate::terms::Quad;

/// The quads of a page, each once and in order of first appearance. An item is an error only where there is no memory for it.
pub struct Quads {
    page: Finished,
    next: usize,
    count: usize,
}

impl Quads {
    pub(crate) fn of(mut page: Finished) -> Quads {
        let count = page.quad_count();
        Quads { page, next: 0, count }
    }

    /// How many blank nodes the graph has.
    pub fn nodes(&mut self) -> u64 {
        self.page.nodes()
    }
}

impl Iterator for Quads {
    type Item = Result<Quad, Error>;

    fn next(&mut self) -> Option<Self::Item> {
        let lent = self.page.quad(self.next).transpose()?;
        self.next += 1;
        Some(lent.and_then(|quad| quad.to_owned_quad()))
    }

    fn size_hint(&self) -> (usize, Option<usize>) {
        let left = self.count - self.next;
        (left, Some(left))
    }
}

impl ExactSizeIterator for Quads {}
