//! The table of steps of an expression: where each byte leads, worked out once.

use crate::expression::Expression;
use crate::slices::{self, TableCounts, MOST_TABLE};

/// The table of steps of an expression: [`Expression::with_table`].
#[derive(Clone, Debug, PartialEq, Eq, Hash)]
pub struct Table {
    entries: Vec<u16>,
    states: usize,
}

impl Table {
    /// The table of an expression, where it fits.
    pub(crate) fn of(expression: &Expression) -> Option<Table> {
        let mut entries = vec![0; MOST_TABLE];
        let mut room = vec![0; room_length(expression.pieces())];
        let made = slices::table(expression.records(), expression.classes(), &mut entries, &mut room);
        let counts: TableCounts = made.expect("the list of an expression is good")?;
        entries.truncate(counts.entries);
        entries.shrink_to_fit();
        Some(Table { entries, states: counts.states })
    }

    /// How many states it has; that in which nothing is left is one of them.
    pub fn states(&self) -> usize {
        self.states
    }

    /// Its entries, as `docs/REFERENCE.md` lays them out.
    pub fn entries(&self) -> &[u16] {
        &self.entries
    }
}

/// The words of room that are lent for a table: as many states as the table can have find room, where the expression tells at least
/// seven kinds of bytes apart.
fn room_length(pieces: usize) -> usize {
    MOST_TABLE * (pieces + 8) / 8
}

impl Expression {
    /// The same expression with its table of steps, by which [`is_full_match`](Expression::is_full_match) and
    /// [`lines`](Expression::lines) go from here on: each byte then costs two loads. The answers are the same. It pays where many texts
    /// are matched: making it tries every kind of byte in every state that a text can lead to. Up to 128 KB are kept.
    ///
    /// An expression whose table would have more than 65,536 entries stays as it is; so does one with thousands of states, many pieces
    /// and few kinds of bytes, where the room that is lent for finding its states is full before all are found.
    ///
    /// ```
    /// use foamlattice::Expression;
    ///
    /// let date = Expression::new("[01][0-9]-[0-3][0-9]")?.with_table();
    /// assert!(date.table().is_some());
    /// assert!(date.is_full_match("02-29"));
    /// # Ok::<(), foamlattice::Refusal>(())
    /// ```
    #[must_use]
    pub fn with_table(mut self) -> Expression {
        self.table = Table::of(&self);
        self
    }

    /// Its table of steps, if it has one.
    pub fn table(&self) -> Option<&Table> {
        self.table.as_ref()
    }
}
