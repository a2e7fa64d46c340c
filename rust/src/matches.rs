//! All parts of a text that a search finds, one after the other.

use crate::expression::Expression;
use crate::refusal::Refusal;
use std::iter::FusedIterator;
use std::ops::Range;

/// The parts of a text that [`Expression::find_iter`] gives.
#[derive(Clone, Debug)]
pub struct Matches<'e, 't> {
    expression: &'e Expression,
    text: &'t [u8],
    next: Option<Range<usize>>,
}

impl<'e, 't> Matches<'e, 't> {
    pub(crate) fn new(expression: &'e Expression, text: &'t [u8]) -> Result<Matches<'e, 't>, Refusal> {
        Ok(Matches { expression, text, next: expression.find(text)? })
    }

    /// The first part that starts at this place or later: whether a part is in the language does not depend on what stands
    /// before it. The text is no longer than one that was searched before, so nothing is refused.
    fn found_from(&self, place: usize) -> Option<Range<usize>> {
        let found = self.expression.find(self.text.get(place..)?).expect("a text that was searched before");
        found.map(|part| place + part.start..place + part.end)
    }

    /// The part after one that ends here: an empty one is not taken directly at that end.
    fn after(&self, end: usize) -> Option<Range<usize>> {
        self.found_from(end).and_then(|part| if part == (end..end) { self.found_from(end + 1) } else { Some(part) })
    }
}

impl Iterator for Matches<'_, '_> {
    type Item = Range<usize>;

    fn next(&mut self) -> Option<Range<usize>> {
        let part = self.next.take()?;
        self.next = self.after(part.end);
        Some(part)
    }
}

impl FusedIterator for Matches<'_, '_> {}
