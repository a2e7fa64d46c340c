//! An expression and many lines in one call.

use crate::slices::{self, MOST_OUTPUT};

/// Which later lines of an input match its first one: what the program `pick` prints for it.
///
/// The first line is an expression of the first syntax (see [`Expression::plain`](crate::Expression::plain)), each later one a text; a
/// line ends at byte 10, or at 13 and 10. For each text stand its number, `yes` and its rank among the yes lines or `no -`, and in the
/// last line the counts. An expression that is refused gives `refused N at P`, and more than 65,536 bytes give `input too long`.
///
/// ```
/// let printed = foamlattice::pick("02-2(8|9)\n02-28\n03-01\n");
/// assert_eq!(printed, b"1 yes 1\n2 no -\ntotal 2 yes 1 no 1\n");
/// ```
pub fn pick<T: AsRef<[u8]> + ?Sized>(input: &T) -> Vec<u8> {
    let mut output = vec![0; MOST_OUTPUT];
    let length = slices::pick(input.as_ref(), &mut output).map_or(0, <[u8]>::len);
    output.truncate(length);
    output
}
