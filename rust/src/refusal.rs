//! Why a call is refused: the reason, by its name, its number and in words, and the place of the fault.

use std::error::Error;
use std::fmt;

/// Why a call was refused. `docs/REFERENCE.md`, section 3, says of each exactly when it is given.
#[derive(Clone, Copy, Debug, PartialEq, Eq, Hash)]
#[non_exhaustive]
pub enum Reason {
    /// 1: the expression has no bytes.
    EmptyExpression,
    /// 2: the expression has more than 1,024 bytes.
    ExpressionTooLong,
    /// 3: another sign, or the end, stands where a character, a class or a group has to begin.
    OperandDue,
    /// 4: a group is not closed.
    GroupOpen,
    /// 5: a `)` with no group to close.
    NoGroup,
    /// 6: more than 32 groups, one inside the other.
    TooDeep,
    /// 7: a `\` at the end, or before a byte that is no sign.
    Escape,
    /// 8: the tree has more than 128 pieces.
    TooManyPieces,
    /// 9: the buffer is too short.
    BufferShort,
    /// 10: the list of records is not a good one.
    List,
    /// 11: the text has more than 65,536 bytes.
    TextTooLong,
    /// 12: fewer words are lent than the list has pieces.
    WordsShort,
    /// 13: the words are no marks of the list.
    Marks,
    /// 14: a class that is not of the form, or a `]` outside a class.
    Class,
    /// 15: the buffer for the classes is too short.
    ClassesShort,
    /// 16: a count that is not of the form, or a `}` outside a count.
    Count,
    /// 17: the tree has more than 2,047 nodes.
    TooManyNodes,
    /// 28: the table of steps has fewer than 257 entries.
    TableShort,
    /// A number that this crate has no name for: the library is newer than the crate.
    Other(u8),
}

/// The reasons with their numbers and their words.
const REASONS: [(Reason, u8, &str); 18] = [
    (Reason::EmptyExpression, 1, "the expression is empty"),
    (Reason::ExpressionTooLong, 2, "the expression has more than 1,024 bytes"),
    (Reason::OperandDue, 3, "a character, a class or a group has to begin here"),
    (Reason::GroupOpen, 4, "this group is not closed"),
    (Reason::NoGroup, 5, "no group is open for this ) to close"),
    (Reason::TooDeep, 6, "more than 32 groups stand one inside the other"),
    (Reason::Escape, 7, "a \\ has to stand before a sign"),
    (Reason::TooManyPieces, 8, "too large: the tree has more than 128 pieces"),
    (Reason::BufferShort, 9, "the buffer is too short"),
    (Reason::List, 10, "the list of records is not a good one"),
    (Reason::TextTooLong, 11, "the text has more than 65,536 bytes"),
    (Reason::WordsShort, 12, "fewer words are lent than the list has pieces"),
    (Reason::Marks, 13, "the words are no marks of this list"),
    (Reason::Class, 14, "this is no class of the form [a-z] or [^a-z]"),
    (Reason::ClassesShort, 15, "the buffer for the classes is too short"),
    (Reason::Count, 16, "this is no count of the form {2,4}"),
    (Reason::TooManyNodes, 17, "too large: the tree has more than 2,047 nodes"),
    (Reason::TableShort, 28, "the table has fewer than 257 entries"),
];

impl Reason {
    /// The reason with this number, as an answer in C or a line of `pick` has it.
    pub fn from_number(number: u8) -> Reason {
        REASONS.iter().find(|row| row.1 == number).map_or(Reason::Other(number), |row| row.0)
    }

    /// Its number, the one that `docs/REFERENCE.md`, the C header and `pick` have.
    pub fn number(self) -> u8 {
        match self {
            Reason::Other(number) => number,
            _ => self.row().map_or(0, |row| row.1),
        }
    }

    /// The reason in words.
    pub fn words(self) -> &'static str {
        self.row().map_or("no such refusal", |row| row.2)
    }

    fn row(self) -> Option<&'static (Reason, u8, &'static str)> {
        REASONS.iter().find(|row| row.0 == self)
    }
}

/// A call that was refused: the reason, and the place of the fault. Nothing that was lent to the call has changed.
///
/// It is an [`Error`], so that `?` hands it on, and prints itself in words:
///
/// ```
/// use foamlattice::{Expression, Reason};
///
/// let refusal = Expression::new("02-2(8|9").unwrap_err();
/// assert_eq!(refusal.reason(), Reason::GroupOpen);
/// assert_eq!(refusal.place(), 4);
/// assert_eq!(refusal.to_string(), "refused 4 at 4: this group is not closed");
/// ```
#[derive(Clone, Copy, Debug, PartialEq, Eq, Hash)]
pub struct Refusal {
    reason: Reason,
    place: usize,
}

impl Refusal {
    pub(crate) fn new(number: u8, place: usize) -> Refusal {
        Refusal { reason: Reason::from_number(number), place }
    }

    /// Why.
    pub fn reason(&self) -> Reason {
        self.reason
    }

    /// The number of the reason.
    pub fn number(&self) -> u8 {
        self.reason.number()
    }

    /// The byte of the expression where the fault is, counted from 0; its length, where something is missing at the end. A
    /// refusal that is about no byte has 0.
    pub fn place(&self) -> usize {
        self.place
    }
}

impl fmt::Display for Refusal {
    fn fmt(&self, f: &mut fmt::Formatter<'_>) -> fmt::Result {
        write!(f, "refused {} at {}: {}", self.number(), self.place, self.reason.words())
    }
}

impl Error for Refusal {}
