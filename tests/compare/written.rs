//! The second syntax as it is written, after docs/REFERENCE.md: read by functions that call each other, each answering the
//! part that it took; its language on what is written, signs and counts too, by the places where a text of it can end; and
//! how many nodes, classes and pieces it stands for, from those of its parts. With `expected.rs` it shares the tree that it
//! is laid out as, and no method; the tree says which records are to be written, and no more.

use crate::expected::{Kind, Node, Set, Tree, NONE};
use std::ops::Range;

/// A fault by its number and place.
pub type Fault = (u8, usize);

/// Where a byte stands: of a leaf its first byte, of a sign the sign.
type Place = usize;

pub enum Written {
    Byte(u8, Place),
    OneOf(Box<Set>, Place),
    Star(Box<Written>, Place),
    OneOrMore(Box<Written>, Place),
    NoneOrOne(Box<Written>, Place),
    /// At least so many and at most so many in a row.
    Between(usize, usize, Box<Written>, Place),
    /// Each with the place of its first byte, a `(` before it included.
    InARow(Vec<(Place, Written)>),
    /// Each but the first with the place of the bar before it.
    AnyOf(Vec<(Place, Written)>),
}

const SIGNS: &[u8] = b"()|*\\.[]+?{}";
const SIGNS_IN_CLASSES: &[u8] = b"\\]^-";
const MOST_ITEMS: usize = 16;
const MOST_OPEN: usize = 32;
const MOST_TIMES: usize = 16;
/// The most nodes of a tree.
pub const MOST_NODES: usize = 2_047;

/// Several parts, or the only one as it is.
fn together(mut parts: Vec<(Place, Written)>, join: fn(Vec<(Place, Written)>) -> Written) -> Written {
    if parts.len() == 1 {
        parts.remove(0).1
    } else {
        join(parts)
    }
}

/// The byte that stands in a class at a place, and the place after it; `None` where none can.
fn member(e: &[u8], at: usize) -> Option<(u8, usize)> {
    let escaped = *e.get(at)? == b'\\';
    let place = at + escaped as usize;
    let byte = *e.get(place)?;
    (SIGNS_IN_CLASSES.contains(&byte) == escaped).then_some((byte, place + 1))
}

/// An item of a class at a place: its first and last byte, and the place after it.
fn item(e: &[u8], at: usize) -> Option<(u8, u8, usize)> {
    let (first, after) = member(e, at)?;
    if e.get(after) != Some(&b'-') {
        return Some((first, first, after));
    }
    let (last, after) = member(e, after + 1)?;
    (first <= last).then_some((first, last, after))
}

/// The set of the class whose `[` stands at a place, and the place after its `]`; `None` where it is not of the form.
fn class(e: &[u8], at: usize) -> Option<(Set, usize)> {
    let all_but = e.get(at + 1) == Some(&b'^');
    let mut set = [all_but; 256];
    let mut after = at + 1 + all_but as usize;
    let mut items = 0;
    while *e.get(after)? != b']' {
        let (first, last, next) = item(e, after)?;
        set[first as usize..=last as usize].fill(!all_but);
        items += 1;
        after = next;
    }
    (1..=MOST_ITEMS).contains(&items).then_some((set, after + 1))
}

/// A number of a count: 0 to 16, spelled with no more digits than it has.
fn times(spelled: &[u8]) -> Option<usize> {
    (0..=MOST_TIMES).find(|number| number.to_string().as_bytes() == spelled)
}

/// The count whose `{` stands at a place, and the place after its `}`; `None` where it is not of the form.
fn count(e: &[u8], at: usize) -> Option<(usize, usize, usize)> {
    let inside = e[at + 1..].split(|&byte| byte == b'}').next()?;
    let after = at + 1 + inside.len() + 1;
    let numbers: Option<Vec<usize>> = inside.split(|&byte| byte == b',').map(times).collect();
    match numbers?[..] {
        [fewest, most] if after <= e.len() && fewest <= most && most > 0 => Some((fewest, most, after)),
        _ => None,
    }
}

struct Reading<'a> {
    e: &'a [u8],
    at: usize,
    open: usize,
}

impl Reading<'_> {
    fn next(&self) -> Option<u8> {
        self.e.get(self.at).copied()
    }

    fn any_of(&mut self) -> Result<Written, Fault> {
        let mut parts = vec![(self.at, self.in_a_row()?)];
        while self.next() == Some(b'|') {
            let bar = self.at;
            self.at += 1;
            parts.push((bar, self.in_a_row()?));
        }
        Ok(together(parts, Written::AnyOf))
    }

    fn in_a_row(&mut self) -> Result<Written, Fault> {
        let mut parts = vec![(self.at, self.operand()?)];
        while !matches!(self.next(), None | Some(b'|' | b')')) {
            parts.push((self.at, self.operand()?));
        }
        Ok(together(parts, Written::InARow))
    }

    fn operand(&mut self) -> Result<Written, Fault> {
        let mut operand = self.single()?;
        while let Some(sign @ (b'*' | b'+' | b'?' | b'{')) = self.next() {
            let place = self.at;
            self.at += 1;
            let below = Box::new(operand);
            operand = match sign {
                b'*' => Written::Star(below, place),
                b'+' => Written::OneOrMore(below, place),
                b'?' => Written::NoneOrOne(below, place),
                _ => {
                    let (fewest, most, after) = count(self.e, place).ok_or((16, place))?;
                    self.at = after;
                    Written::Between(fewest, most, below, place)
                }
            };
        }
        Ok(operand)
    }

    fn single(&mut self) -> Result<Written, Fault> {
        let place = self.at;
        let (written, after) = match self.next() {
            None | Some(b'|' | b'*' | b')' | b'+' | b'?' | b'{') => return Err((3, place)),
            Some(b'}') => return Err((16, place)),
            Some(b'(') => return self.group(),
            Some(b']') => return Err((14, place)),
            Some(b'[') => {
                let (set, after) = class(self.e, place).ok_or((14, place))?;
                (Written::OneOf(Box::new(set), place), after)
            }
            Some(b'.') => (Written::OneOf(Box::new(std::array::from_fn(|byte| byte != 10)), place), place + 1),
            Some(b'\\') => {
                let sign = self.e.get(place + 1).filter(|byte| SIGNS.contains(byte)).ok_or((7, place))?;
                (Written::Byte(*sign, place), place + 2)
            }
            Some(byte) => (Written::Byte(byte, place), place + 1),
        };
        self.at = after;
        Ok(written)
    }

    fn group(&mut self) -> Result<Written, Fault> {
        let place = self.at;
        if self.open == MOST_OPEN {
            return Err((6, place));
        }
        self.open += 1;
        self.at += 1;
        let inside = self.any_of()?;
        if self.next() != Some(b')') {
            return Err((4, place));
        }
        self.open -= 1;
        self.at += 1;
        Ok(inside)
    }
}

/// What an expression of the second syntax says, or its first fault among 1 to 7, 14 and 16.
pub fn read(e: &[u8]) -> Result<Written, Fault> {
    match e.len() {
        0 => return Err((1, 0)),
        1..=1024 => {}
        _ => return Err((2, 1024)),
    }
    let mut reading = Reading { e, at: 0, open: 0 };
    let written = reading.any_of()?;
    if reading.at < e.len() {
        Err((5, reading.at))
    } else {
        Ok(written)
    }
}

/// The fewest cut edges below a node, for each number of nodes, 1 to 15, that are left hanging together with it.
#[derive(Clone, Copy)]
struct Cuts([usize; 16]);

impl Cuts {
    const NEVER: usize = usize::MAX / 4;

    fn fewest(&self) -> usize {
        *self.0.iter().min().expect("there are sizes")
    }

    /// A node with these children: each is cut off, or stays with all that hangs together with it.
    fn node(children: &[Cuts]) -> Cuts {
        let mut here = [Cuts::NEVER; 16];
        here[1] = 0;
        for child in children {
            let mut all = here.map(|cuts| (cuts + 1 + child.fewest()).min(Cuts::NEVER));
            for (size, more) in (1..16).flat_map(|size| (1..16 - size).map(move |more| (size, more))) {
                all[size + more] = all[size + more].min(here[size] + child.0[more]);
            }
            here = all;
        }
        Cuts(here)
    }
}

/// The tree and the sets of its class leaves, in the order of leaves.
#[derive(Default)]
pub struct LaidOut {
    pub tree: Tree,
    pub sets: Vec<Set>,
}

impl LaidOut {
    fn push(&mut self, kind: Kind, left: usize, right: usize, place: Place) -> usize {
        self.tree.push(Node { kind, left, right, place });
        self.tree.len() - 1
    }

    /// The class records, 32 bytes for each set.
    pub fn class_records(&self) -> Vec<u8> {
        let byte = |eight: &[bool]| (0..8).map(|bit| (eight[bit] as u8) << bit).sum();
        self.sets.iter().flat_map(|set| set.chunks(8).map(byte)).collect()
    }
}

impl Written {
    pub fn laid_out(&self) -> LaidOut {
        let mut out = LaidOut::default();
        self.lay_out(&mut out);
        out
    }

    /// Adds its nodes, children first; answers the number of its root.
    fn lay_out(&self, out: &mut LaidOut) -> usize {
        match self {
            Written::Byte(byte, place) => out.push(Kind::Character(*byte), NONE, NONE, *place),
            Written::OneOf(set, place) => {
                out.sets.push(**set);
                out.push(Kind::Class(out.sets.len() - 1), NONE, NONE, *place)
            }
            Written::Star(operand, sign) => {
                let below = operand.lay_out(out);
                out.push(Kind::Star, below, NONE, *sign)
            }
            Written::OneOrMore(operand, sign) => {
                let first = operand.lay_out(out);
                let copy = operand.lay_out(out);
                let more = out.push(Kind::Star, copy, NONE, *sign);
                out.push(Kind::Catenation, first, more, *sign)
            }
            Written::NoneOrOne(operand, sign) => operand.lay_out_or_not(*sign, out),
            Written::Between(fewest, most, operand, sign) => {
                let parts = (0..*most).map(|i| (*sign, &**operand, i >= *fewest));
                Written::join(parts, Kind::Catenation, out)
            }
            Written::InARow(parts) => Written::join(Written::plain(parts), Kind::Catenation, out),
            Written::AnyOf(parts) => Written::join(Written::plain(parts), Kind::Union, out),
        }
    }

    /// Adds its nodes, the leaf of the empty text, and their union, for a sign at a place.
    fn lay_out_or_not(&self, sign: Place, out: &mut LaidOut) -> usize {
        let one = self.lay_out(out);
        let none = out.push(Kind::Empty, NONE, NONE, sign);
        out.push(Kind::Union, one, none, sign)
    }

    /// Parts of which none can be left out.
    fn plain(parts: &[(Place, Written)]) -> impl Iterator<Item = (Place, &Written, bool)> {
        parts.iter().map(|(place, part)| (*place, part, false))
    }

    /// Several parts, two at a time from the left, each with the place of the node that joins it to those before; each may be
    /// one that can be left out.
    fn join<'a>(parts: impl Iterator<Item = (Place, &'a Written, bool)>, kind: Kind, out: &mut LaidOut) -> usize {
        let mut root = None;
        for (place, part, or_not) in parts {
            let right = if or_not { part.lay_out_or_not(place, out) } else { part.lay_out(out) };
            root = Some(match root {
                None => right,
                Some(left) => out.push(kind.clone(), left, right, place),
            });
        }
        root.expect("there is a part")
    }

    /// How many nodes it stands for, from those of its parts; a number past all limits where there are more than that.
    pub fn nodes(&self) -> usize {
        let all = |parts: &[(Place, Written)]| parts.iter().fold(parts.len() - 1, |sum, part| sum.saturating_add(part.1.nodes()));
        match self {
            Written::Byte(..) | Written::OneOf(..) => 1,
            Written::Star(operand, _) => operand.nodes().saturating_add(1),
            Written::OneOrMore(operand, _) => operand.nodes().saturating_mul(2).saturating_add(2),
            Written::NoneOrOne(operand, _) => operand.nodes().saturating_add(2),
            Written::Between(fewest, most, operand, _) => {
                operand.nodes().saturating_mul(*most).saturating_add(2 * (most - fewest) + most - 1)
            }
            Written::InARow(parts) | Written::AnyOf(parts) => all(parts),
        }
    }

    /// How many class leaves it stands for.
    pub fn classes(&self) -> usize {
        match self {
            Written::Byte(..) => 0,
            Written::OneOf(..) => 1,
            Written::Star(operand, _) | Written::NoneOrOne(operand, _) => operand.classes(),
            Written::OneOrMore(operand, _) => operand.classes().saturating_mul(2),
            Written::Between(_, most, operand, _) => operand.classes().saturating_mul(*most),
            Written::InARow(parts) | Written::AnyOf(parts) => {
                parts.iter().fold(0, |sum, part| sum.saturating_add(part.1.classes()))
            }
        }
    }

    /// The fewest pieces that what it stands for can be cut into.
    pub fn fewest_pieces(&self) -> usize {
        1 + self.cuts().fewest()
    }

    fn cuts(&self) -> Cuts {
        let leaf = Cuts::node(&[]);
        let joined = |cuts: &mut dyn Iterator<Item = Cuts>| {
            cuts.reduce(|left, right| Cuts::node(&[left, right])).expect("there is a part")
        };
        match self {
            Written::Byte(..) | Written::OneOf(..) => leaf,
            Written::Star(operand, _) => Cuts::node(&[operand.cuts()]),
            Written::OneOrMore(operand, _) => {
                let one = operand.cuts();
                Cuts::node(&[one, Cuts::node(&[one])])
            }
            Written::NoneOrOne(operand, _) => Cuts::node(&[operand.cuts(), leaf]),
            Written::Between(fewest, most, operand, _) => {
                let one = operand.cuts();
                let or_not = Cuts::node(&[one, leaf]);
                joined(&mut (0..*most).map(|i| if i < *fewest { one } else { or_not }))
            }
            Written::InARow(parts) | Written::AnyOf(parts) => joined(&mut parts.iter().map(|part| part.1.cuts())),
        }
    }

    /// The places where a part of the text can end that starts at one of `starts` and lies in the language: sets of places
    /// as the bits of a word.
    fn ends(&self, text: &[u8], starts: u128) -> u128 {
        let after = |takes: &dyn Fn(u8) -> bool| {
            let mut rest = starts;
            let mut ends = 0;
            while rest != 0 {
                let place = rest.trailing_zeros() as usize;
                rest &= rest - 1;
                ends |= (text.get(place).is_some_and(|&byte| takes(byte)) as u128) << place << 1;
            }
            ends
        };
        match self {
            Written::Byte(one, _) => after(&|byte| byte == *one),
            Written::OneOf(set, _) => after(&|byte| set[byte as usize]),
            Written::InARow(parts) => parts.iter().fold(starts, |starts, part| part.1.ends(text, starts)),
            Written::AnyOf(parts) => parts.iter().fold(0, |ends, part| ends | part.1.ends(text, starts)),
            Written::Star(operand, _) => operand.ends_of_any(text, starts),
            Written::OneOrMore(operand, _) => operand.ends_of_any(text, operand.ends(text, starts)),
            Written::NoneOrOne(operand, _) => starts | operand.ends(text, starts),
            Written::Between(fewest, most, operand, _) => {
                let (mut now, mut all) = (starts, 0);
                for times in 0..=*most {
                    if times >= *fewest {
                        all |= now;
                    }
                    if now == 0 {
                        break;
                    }
                    now = operand.ends(text, now);
                }
                all
            }
        }
    }

    /// The places where any number of such parts in a row can end.
    fn ends_of_any(&self, text: &[u8], starts: u128) -> u128 {
        let (mut all, mut new) = (starts, starts);
        while new != 0 {
            new = self.ends(text, new) & !all;
            all |= new;
        }
        all
    }

    /// Whether a text of at most 127 bytes lies in the language.
    pub fn is_match(&self, text: &[u8]) -> bool {
        assert!(text.len() <= 127);
        self.ends(text, 1) >> text.len() & 1 == 1
    }

    /// The part that starts earliest and then ends furthest.
    pub fn find(&self, text: &[u8]) -> Option<Range<usize>> {
        assert!(text.len() <= 127);
        let ends = |start| (start, self.ends(text, 1_u128 << start));
        let (start, ends) = (0..=text.len()).map(ends).find(|&(_, ends)| ends != 0)?;
        Some(start..127 - ends.leading_zeros() as usize)
    }
}
