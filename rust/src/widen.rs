//! Lists of the layout that had no places, turned into expressions of today.

use crate::expression::Expression;
use crate::refusal::Refusal;
use crate::slices::{self, MOST_RECORD_BYTES, OLD_RECORD_SIZE, RECORD_SIZE};

impl Expression {
    /// The expression of a good list of the layout that had no places, of 8 bytes a record, with its class records: each of its
    /// places is 0. It is refused by 10 where the list is not good, by 15 where it has more classes than are lent.
    ///
    /// ```
    /// use foamlattice::Expression;
    ///
    /// let archived = [1, b'a', 255, 255, 255, 255, 0, 0];
    /// assert!(Expression::from_old_records(&archived, &[])?.is_full_match("a"));
    /// # Ok::<(), foamlattice::Refusal>(())
    /// ```
    pub fn from_old_records(old: &[u8], classes: &[u8]) -> Result<Expression, Refusal> {
        let mut records = vec![0; MOST_RECORD_BYTES.min(old.len() / OLD_RECORD_SIZE * RECORD_SIZE)];
        slices::widen(old, &mut records)?;
        Expression::from_records(&records, classes)
    }
}
