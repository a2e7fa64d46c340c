//! Regular expressions by a proved matcher: the calls of `libfoamlattice.a`, safe and owned.
//!
//! The library is proved to answer as its reference says, on all bytes. What this crate adds, the buffers and the loops round the
//! calls, is not proved: it is kept small, and tested.
//!
//! ```
//! use foamlattice::{Expression, Refusal};
//!
//! fn main() -> Result<(), Refusal> {
//!     let date = Expression::new("[01][0-9]-[0-3][0-9]")?;
//!     assert!(date.is_full_match("02-29")); // the whole text
//!     assert!(date.is_match("on 02-29 at noon")?); // some part of it
//!     assert_eq!(date.find("on 02-29 at noon")?, Some(3..8));
//!     Ok(())
//! }
//! ```
//!
//! # For those who know the `regex` crate
//!
//! [`Expression`] is `Regex`: `new`, `is_match`, `find` and `find_iter` are what they are there. What differs:
//!
//! | | here |
//! |---|---|
//! | whole text | [`is_full_match`](Expression::is_full_match); there are no anchors: `^` and `$` are characters outside a class |
//! | which part is found | of those that start earliest the longest, whatever the order of the branches |
//! | texts | bytes; a search takes up to 65,536 of them and refuses more, so it gives a `Result` |
//! | a part | a [`Range`](core::ops::Range) of bytes |
//! | counts | `{2,4}`, both numbers written, up to 16: for `{3}` write `{3,3}` |
//! | `\` | only before a sign; there are no `\d`, `\w`, `\b`, flags, captured groups or lazy signs |
//! | `.` | any byte but 10 |
//! | errors | [`Refusal`]: a reason, its number, and the byte where the fault is |
//!
//! `docs/REFERENCE.md` has the syntax, each refusal with examples, and what the records hold.

#![deny(missing_docs, unsafe_code)]

mod expression;
#[allow(unsafe_code)]
mod ffi;
mod lines;
mod marks;
mod matches;
mod node;
mod pick;
mod refusal;
#[allow(unsafe_code)]
pub mod slices;
mod table;
mod widen;

pub use expression::Expression;
pub use marks::Marks;
pub use matches::Matches;
pub use node::{Class, Kind, Node};
pub use pick::pick;
pub use refusal::{Reason, Refusal};
pub use table::Table;
