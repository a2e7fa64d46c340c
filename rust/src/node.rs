//! What the records of an expression hold: the nodes of its tree, and the sets of its classes.

use crate::expression::Expression;
use crate::slices::{CLASS_SIZE, RECORD_SIZE};

/// A node of an expression's tree, as its record has it.
#[derive(Clone, Copy, Debug, PartialEq, Eq, Hash)]
pub struct Node {
    /// What it is, with the numbers of its children.
    pub kind: Kind,
    /// The number of its piece.
    pub piece: usize,
    /// The byte of the expression that made it, counted from 0.
    pub place: usize,
}

/// The kinds of nodes. A child is given by its number in the order of [`Expression::nodes`].
#[derive(Clone, Copy, Debug, PartialEq, Eq, Hash)]
pub enum Kind {
    /// This byte.
    Character(u8),
    /// A text of the left child, then one of the right child.
    Catenation {
        /// The left child.
        left: usize,
        /// The right child.
        right: usize,
    },
    /// A text of one of the two children.
    Union {
        /// The left child.
        left: usize,
        /// The right child.
        right: usize,
    },
    /// Any number of texts of the child in a row.
    Star {
        /// The child.
        operand: usize,
    },
    /// One byte of the class of this number: [`Expression::class`].
    Class(usize),
    /// The empty text.
    Empty,
}

impl Kind {
    /// The node's children, from left to right.
    pub fn children(self) -> impl DoubleEndedIterator<Item = usize> {
        let (left, right) = match self {
            Kind::Catenation { left, right } | Kind::Union { left, right } => (Some(left), Some(right)),
            Kind::Star { operand } => (Some(operand), None),
            Kind::Character(_) | Kind::Class(_) | Kind::Empty => (None, None),
        };
        left.into_iter().chain(right)
    }
}

/// The number in two bytes of a record.
fn number(record: &[u8], at: usize) -> usize {
    usize::from(u16::from_le_bytes([record[at], record[at + 1]]))
}

/// The node of a record of a good list.
fn node(record: &[u8]) -> Node {
    let (left, right) = (number(record, 2), number(record, 4));
    let kind = match record[0] {
        1 => Kind::Character(record[1]),
        2 => Kind::Catenation { left, right },
        3 => Kind::Union { left, right },
        4 => Kind::Star { operand: left },
        5 => Kind::Class(left),
        _ => Kind::Empty,
    };
    Node { kind, piece: number(record, 6), place: number(record, 8) }
}

/// The nodes of a good list.
pub(crate) fn nodes(records: &[u8]) -> impl ExactSizeIterator<Item = Node> + DoubleEndedIterator + '_ {
    records.chunks_exact(RECORD_SIZE).map(node)
}

/// The set of bytes of a class.
#[derive(Clone, Copy, Debug, PartialEq, Eq, Hash)]
pub struct Class<'e> {
    record: &'e [u8],
}

impl Class<'_> {
    /// Whether the class has this byte.
    pub fn contains(&self, byte: u8) -> bool {
        self.record[usize::from(byte / 8)] >> (byte % 8) & 1 == 1
    }
}

impl Expression {
    /// The nodes of its tree, each after its children: the root is the last.
    ///
    /// ```
    /// use foamlattice::{Expression, Kind};
    ///
    /// let kinds: Vec<Kind> = Expression::new("a*b")?.nodes().map(|node| node.kind).collect();
    /// assert_eq!(kinds[1], Kind::Star { operand: 0 });
    /// assert_eq!(kinds[3], Kind::Catenation { left: 1, right: 2 });
    /// # Ok::<(), foamlattice::Refusal>(())
    /// ```
    pub fn nodes(&self) -> impl ExactSizeIterator<Item = Node> + DoubleEndedIterator + '_ {
        nodes(self.records())
    }

    /// The place of each of its nodes, in the same order: which byte of the expression made it.
    ///
    /// ```
    /// let date = foamlattice::Expression::new("02-[0-2]")?;
    /// assert!(date.places().eq([0, 1, 1, 2, 2, 3, 3]));
    /// # Ok::<(), foamlattice::Refusal>(())
    /// ```
    pub fn places(&self) -> impl ExactSizeIterator<Item = usize> + DoubleEndedIterator + '_ {
        self.nodes().map(|node| node.place)
    }

    /// The class of this number, if there is one: they are numbered from 0 in the order of the nodes.
    ///
    /// ```
    /// let digit = foamlattice::Expression::new("[0-9]")?;
    /// assert!(digit.class(0).is_some_and(|class| class.contains(b'7') && !class.contains(b'a')));
    /// # Ok::<(), foamlattice::Refusal>(())
    /// ```
    pub fn class(&self, number: usize) -> Option<Class<'_>> {
        self.classes().chunks_exact(CLASS_SIZE).nth(number).map(|record| Class { record })
    }
}
