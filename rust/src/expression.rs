//! An expression that was read, and what can be asked of it.

use crate::marks::Marks;
use crate::matches::Matches;
use crate::node::{self, Kind};
use crate::refusal::Refusal;
use crate::slices::{self, CLASS_SIZE, MOST_WORDS, RECORD_SIZE};
use crate::table::Table;
use std::fmt;
use std::hash::{Hash, Hasher};
use std::ops::Range;
use std::str::FromStr;

/// A regular expression that was read: it owns its records, its classes and, where it was asked for and fits, its table of steps.
///
/// Texts are bytes; `&str`, `String`, `&[u8]` and `Vec<u8>` are taken alike, and places are counted in bytes. A search of a text of
/// more than 65,536 bytes is refused ([`Reason::TextTooLong`](crate::Reason::TextTooLong)), and the text never cut; a full match takes
/// texts of any length.
#[derive(Clone)]
pub struct Expression {
    records: Vec<u8>,
    classes: Vec<u8>,
    pieces: usize,
    pub(crate) table: Option<Table>,
}

impl Expression {
    /// Reads an expression of the second syntax, the one with classes, `.`, `+`, `?` and counts.
    ///
    /// ```
    /// use foamlattice::Expression;
    ///
    /// let date = Expression::new("[0-9]{4,4}-[01][0-9]-[0-3][0-9]")?;
    /// assert!(date.is_full_match("2028-02-29"));
    ///
    /// let refusal = Expression::new("a{3}").unwrap_err();
    /// assert_eq!(refusal.to_string(), "refused 16 at 1: this is no count of the form {2,4}");
    /// # Ok::<(), foamlattice::Refusal>(())
    /// ```
    pub fn new<T: AsRef<[u8]> + ?Sized>(expression: &T) -> Result<Expression, Refusal> {
        let expression = expression.as_ref();
        let counts = slices::check2(expression)?;
        let mut records = vec![0; RECORD_SIZE * counts.records];
        let mut classes = vec![0; CLASS_SIZE * counts.classes];
        slices::read2(expression, &mut records, &mut classes)?;
        Ok(Expression { records, classes, pieces: counts.pieces, table: None })
    }

    /// Reads an expression of the first syntax: `(` `)` `|` `*` `\` are its signs, every other byte stands for itself.
    ///
    /// ```
    /// use foamlattice::Expression;
    ///
    /// assert!(Expression::plain("1+1=[2]")?.is_full_match("1+1=[2]"));
    /// # Ok::<(), foamlattice::Refusal>(())
    /// ```
    pub fn plain<T: AsRef<[u8]> + ?Sized>(expression: &T) -> Result<Expression, Refusal> {
        let expression = expression.as_ref();
        let counts = slices::check(expression)?;
        let mut records = vec![0; RECORD_SIZE * counts.records];
        slices::read(expression, &mut records)?;
        Ok(Expression { records, classes: vec![], pieces: counts.pieces, table: None })
    }

    /// The expression of a list of records that was kept, with its class records. It is refused by 10 where the list is not good,
    /// by 15 where it has more classes than are lent.
    ///
    /// ```
    /// use foamlattice::Expression;
    ///
    /// let date = Expression::new("02-[0-2][0-9]")?;
    /// assert_eq!(Expression::from_records(date.records(), date.classes()), Ok(date));
    /// # Ok::<(), foamlattice::Refusal>(())
    /// ```
    pub fn from_records(records: &[u8], classes: &[u8]) -> Result<Expression, Refusal> {
        slices::start(records, classes, &mut [0; MOST_WORDS])?;
        let pieces = node::nodes(records).map(|node| node.piece + 1).max().unwrap_or(0);
        let leaves = node::nodes(records).filter(|node| matches!(node.kind, Kind::Class(_))).count();
        let (records, classes) = (records.to_vec(), classes[..CLASS_SIZE * leaves].to_vec());
        Ok(Expression { records, classes, pieces, table: None })
    }

    /// Whether **some part** of the text is in the language, as `is_match` of the `regex` crate says. For the whole text there is
    /// [`is_full_match`](Expression::is_full_match).
    ///
    /// ```
    /// use foamlattice::Expression;
    ///
    /// let february = Expression::new("02-[0-2][0-9]")?;
    /// assert!(february.is_match("from 02-28 on")?);
    /// assert!(!february.is_full_match("from 02-28 on"));
    /// # Ok::<(), foamlattice::Refusal>(())
    /// ```
    pub fn is_match<T: AsRef<[u8]> + ?Sized>(&self, text: &T) -> Result<bool, Refusal> {
        self.find(text).map(|part| part.is_some())
    }

    /// Whether the **whole** text is in the language, from its first byte to its last. It may have any length.
    ///
    /// ```
    /// use foamlattice::Expression;
    ///
    /// let february = Expression::new("02-[0-2][0-9]")?;
    /// assert!(february.is_full_match("02-29"));
    /// assert!(!february.is_full_match("02-29 "));
    /// # Ok::<(), foamlattice::Refusal>(())
    /// ```
    pub fn is_full_match<T: AsRef<[u8]> + ?Sized>(&self, text: &T) -> bool {
        let answer = match &self.table {
            Some(table) => slices::is_full_match_by_table(table.entries(), text.as_ref()),
            None => slices::is_full_match(&self.records, &self.classes, text.as_ref()),
        };
        // One call is refused where the text is too long for it, and for nothing else: the steps have no limit.
        answer.unwrap_or_else(|_| {
            let mut marks = self.marks();
            marks.steps(text.as_ref());
            marks.is_full_match()
        })
    }

    /// The part of the text that starts earliest and, of those, ends furthest, if any part is in the language. It may be empty.
    ///
    /// ```
    /// use foamlattice::Expression;
    ///
    /// let text = "from 02-28 to 03-01";
    /// let found = Expression::new("[0-9]+-[0-9]+")?.find(text)?;
    /// assert_eq!(found.map(|part| &text[part]), Some("02-28"));
    /// // The order of the branches does not matter: of two parts with one start the longer one is found.
    /// assert_eq!(Expression::new("a|ab")?.find("ab")?, Some(0..2));
    /// # Ok::<(), foamlattice::Refusal>(())
    /// ```
    pub fn find<T: AsRef<[u8]> + ?Sized>(&self, text: &T) -> Result<Option<Range<usize>>, Refusal> {
        slices::find(&self.records, &self.classes, text.as_ref())
    }

    /// All parts of the text that [`find`](Expression::find) finds, one after the other: each is searched for from the end of the one
    /// before, so no two overlap. An empty part is given too, but not at the very end of the one before: there the search goes on
    /// a byte further. This is how `find_iter` of the `regex` crate goes on.
    ///
    /// A text that is too long is refused here, before the first part.
    ///
    /// ```
    /// use foamlattice::Expression;
    ///
    /// let text = "02-28, 02-29 and 03-01";
    /// let days: Vec<&str> = Expression::new("02-[0-9]+")?.find_iter(text)?.map(|part| &text[part]).collect();
    /// assert_eq!(days, ["02-28", "02-29"]);
    /// assert!(Expression::new("a*")?.find_iter("baac")?.eq([0..0, 1..3, 4..4]));
    /// # Ok::<(), foamlattice::Refusal>(())
    /// ```
    pub fn find_iter<'e, 't, T>(&'e self, text: &'t T) -> Result<Matches<'e, 't>, Refusal>
    where
        T: AsRef<[u8]> + ?Sized,
    {
        Matches::new(self, text.as_ref())
    }

    /// The marks before the first byte of a text that comes byte by byte.
    pub fn marks(&self) -> Marks<'_> {
        Marks::new(self)
    }

    /// How many pieces its tree is cut into; no cut into connected pieces of at most 15 nodes has fewer.
    pub fn pieces(&self) -> usize {
        self.pieces
    }

    /// The list of its tree records, [`RECORD_SIZE`] bytes each; [`nodes`](Expression::nodes) takes them apart.
    pub fn records(&self) -> &[u8] {
        &self.records
    }

    /// Its class records, [`CLASS_SIZE`] bytes each, in the order of the class leaves.
    pub fn classes(&self) -> &[u8] {
        &self.classes
    }
}

/// Expressions are equal where their records and classes are: a table changes no answer.
impl PartialEq for Expression {
    fn eq(&self, other: &Expression) -> bool {
        (&self.records, &self.classes) == (&other.records, &other.classes)
    }
}

impl Eq for Expression {}

impl Hash for Expression {
    fn hash<H: Hasher>(&self, state: &mut H) {
        (&self.records, &self.classes).hash(state);
    }
}

impl FromStr for Expression {
    type Err = Refusal;

    /// As [`Expression::new`].
    fn from_str(expression: &str) -> Result<Expression, Refusal> {
        Expression::new(expression)
    }
}

impl fmt::Debug for Expression {
    fn fmt(&self, f: &mut fmt::Formatter<'_>) -> fmt::Result {
        let (records, classes) = (self.records.len() / RECORD_SIZE, self.classes.len() / CLASS_SIZE);
        let mut counts = f.debug_struct("Expression");
        let states = self.table.as_ref().map(Table::states);
        counts
            .field("records", &records)
            .field("classes", &classes)
            .field("pieces", &self.pieces)
            .field("states", &states)
            .finish()
    }
}
