//! A text that comes byte by byte.

use crate::expression::Expression;
use crate::refusal::Refusal;
use crate::slices::{self, Told};

/// The marks of an expression on a text that comes byte by byte: [`Expression::marks`].
///
/// They borrow their expression and are changed by its steps alone, so no step can be refused, and there is no limit to the length
/// of the text. To try two continuations of a text, clone them.
///
/// ```
/// use foamlattice::Expression;
///
/// let date = Expression::new("[0-9]{2,2}-[0-9]{2,2}")?;
/// let mut marks = date.marks();
/// marks.steps(b"02-2");
/// assert!(!marks.is_full_match() && !marks.nothing_left());
/// marks.step(b'9');
/// assert!(marks.is_full_match());
/// marks.step(b'.');
/// assert!(marks.nothing_left());
/// # Ok::<(), foamlattice::Refusal>(())
/// ```
#[derive(Clone, Debug, PartialEq, Eq)]
pub struct Marks<'e> {
    expression: &'e Expression,
    words: Vec<u64>,
    told: Told,
}

/// What the library never refuses: a good list, enough words, and marks as it left them.
fn told(answer: Result<Told, Refusal>) -> Told {
    answer.expect("marks of their own expression are not refused")
}

impl<'e> Marks<'e> {
    pub(crate) fn new(expression: &'e Expression) -> Marks<'e> {
        let mut words = vec![0; expression.pieces()];
        let told = told(slices::start(expression.records(), expression.classes(), &mut words));
        Marks { expression, words, told }
    }

    /// Takes one more byte of the text.
    pub fn step(&mut self, byte: u8) {
        let (records, classes) = (self.expression.records(), self.expression.classes());
        self.told = told(slices::step(records, classes, &mut self.words, byte));
    }

    /// Takes these bytes of the text, one after the other.
    pub fn steps(&mut self, bytes: &[u8]) {
        let (records, classes) = (self.expression.records(), self.expression.classes());
        self.told = told(slices::steps(records, classes, &mut self.words, bytes));
    }

    /// Whether the bytes so far, as a whole text, are in the language.
    pub fn is_full_match(&self) -> bool {
        self.told.accepting
    }

    /// Whether no text that begins with the bytes so far is in the language: the rest need not be read.
    pub fn nothing_left(&self) -> bool {
        self.told.nothing_left
    }

    /// One word for each piece: state i of piece k is bit i of word k.
    pub fn words(&self) -> &[u64] {
        &self.words
    }
}
