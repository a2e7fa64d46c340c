//! Many lines in one call.

use crate::expression::Expression;
use crate::slices::{self, MOST_TEXT};

impl Expression {
    /// For each line of the text, whether the whole line is in the language. A line ends at byte 10, or at 13 and 10, which are no
    /// part of it; bytes after the last end are a line too. The text may have any length.
    ///
    /// This is the call for many short texts: the tables of the expression are made once for all of them.
    ///
    /// ```
    /// use foamlattice::Expression;
    ///
    /// let february = Expression::new("02-[0-2][0-9]")?;
    /// assert_eq!(february.lines("02-28\n02-29\r\n03-01\n"), [true, true, false]);
    /// # Ok::<(), foamlattice::Refusal>(())
    /// ```
    pub fn lines<T: AsRef<[u8]> + ?Sized>(&self, text: &T) -> Vec<bool> {
        let mut all = vec![];
        let mut rest = text.as_ref();
        while !rest.is_empty() {
            let (block, after) = rest.split_at(block_length(rest));
            all.extend(self.block_lines(block));
            rest = after;
        }
        all
    }

    /// The answers for the lines of a block: in one call, or for the one line that is too long for it.
    fn block_lines(&self, block: &[u8]) -> Vec<bool> {
        let mut answers = vec![0; block.iter().filter(|byte| **byte == b'\n').count() + 1];
        let counts = match self.table() {
            Some(table) => slices::lines_by_table(table.entries(), block, &mut answers),
            None => slices::lines(self.records(), self.classes(), block, &mut answers),
        };
        match counts {
            Ok(counts) => answers[..counts.lines].iter().map(|answer| *answer == 1).collect(),
            Err(_) => vec![self.is_full_match(without_end(block))],
        }
    }
}

/// How many bytes of the text one call can take, up to the end of a line; where a line is longer than that, the length of the line.
fn block_length(text: &[u8]) -> usize {
    if text.len() <= MOST_TEXT {
        return text.len();
    }
    let last = text[..MOST_TEXT].iter().rposition(|byte| *byte == b'\n');
    let end = last.or_else(|| text.iter().position(|byte| *byte == b'\n'));
    end.map_or(text.len(), |end| end + 1)
}

/// A line without its end.
fn without_end(line: &[u8]) -> &[u8] {
    let ended = line.strip_suffix(b"\n").map(|line| line.strip_suffix(b"\r").unwrap_or(line));
    ended.unwrap_or(line)
}
