//! Where each node stands: in a row by its depth, above what is below it, in a strip that it shares with nothing else.

use crate::own_trees::{Part, What};
use crate::written;
use foamlattice::Kind;

/// The height of a node's box.
pub const HEIGHT: f64 = 28.0;
/// The width of each cell with a state's number, at both ends of a node's box.
pub const STATE: f64 = 24.0;
/// How far a piece's region goes beyond the boxes of its nodes.
pub const MARGIN: f64 = 9.0;
/// The room for a piece's name, above the box of its root.
pub const NAME: f64 = 16.0;
/// From row to row.
const ROW: f64 = HEIGHT + 2.0 * MARGIN + NAME + 18.0;
/// Between two regions in a row.
const GAP: f64 = 10.0;
/// The width of a letter, of a label and of a name; fonts differ, so it is a generous one.
const LETTER: f64 = 8.2;
/// The longest label.
const MOST_LETTERS: usize = 16;

/// What is drawn for a node or a stand-in.
pub struct Placed {
    pub label: String,
    pub title: String,
    pub piece: usize,
    pub stand_in: bool,
    pub start: usize,
    pub accepting: usize,
    /// The middle of its box.
    pub x: f64,
    pub y: f64,
    pub width: f64,
    /// Which one it hangs below.
    pub parent: Option<usize>,
    /// Whether it is the root of its piece.
    pub first: bool,
}

/// The name of a piece.
pub fn name(piece: usize) -> String {
    format!("piece {piece}")
}

/// The width of a box with this label.
pub fn box_width(label: &str) -> f64 {
    2.0 * STATE + (LETTER * label.chars().count() as f64 + 8.0).max(36.0)
}

/// How wide the region of a node is. That of a root has room for its piece's name, to the left of the line from above.
fn with_margin(width: f64, piece: usize, first: bool) -> f64 {
    let names = if first { 2.0 * (LETTER * name(piece).len() as f64 + 8.0) } else { 0.0 };
    (width + 2.0 * MARGIN).max(names)
}

/// How wide the region round a node is.
pub fn region_width(placed: &Placed) -> f64 {
    with_margin(placed.width, placed.piece, placed.first)
}

fn label(part: &Part, rule: &[u8]) -> String {
    let node = match part.what {
        What::StandIn(piece) => return name(piece),
        What::Node(node, _) => node,
    };
    let text: String = match node.kind {
        Kind::Catenation { .. } => "then".into(),
        Kind::Union { .. } => "or".into(),
        Kind::Star { .. } => "star".into(),
        Kind::Empty => "empty".into(),
        Kind::Character(b' ') => "space".into(),
        Kind::Character(_) | Kind::Class(_) => written::leaf(rule, node.place).iter().map(|byte| written::shown(*byte)).collect(),
    };
    let longer = text.chars().count() > MOST_LETTERS;
    if longer {
        text.chars().take(MOST_LETTERS - 1).chain(['…']).collect()
    } else {
        text
    }
}

fn title(part: &Part) -> String {
    match part.what {
        What::Node(node, number) => format!("record {number}, made by byte {}, {}", node.place, name(node.piece)),
        What::StandIn(piece) => format!("stand-in for {}, in {}", name(piece), name(part.piece)),
    }
}

/// The strip that a part and all below it take: its width, and those of its children's strips.
struct Strip {
    width: f64,
    below: Vec<Strip>,
}

fn strip(part: &Part, rule: &[u8], first: bool) -> Strip {
    let own = with_margin(box_width(&label(part, rule)), part.piece, first);
    let below: Vec<Strip> = part.children.iter().map(|child| strip(child, rule, child.piece != part.piece)).collect();
    let children: f64 = below.iter().map(|strip| strip.width).sum();
    Strip { width: children.max(own + GAP), below }
}

/// Puts a part and all below it into a strip that begins at `left`; answers its number.
fn put(placed: &mut Vec<Placed>, part: &Part, rule: &[u8], strip: &Strip, left: f64, above: Option<usize>) -> usize {
    let number = placed.len();
    let label = label(part, rule);
    let y = above.map_or(MARGIN + NAME + HEIGHT / 2.0, |above| placed[above].y + ROW);
    placed.push(Placed {
        title: title(part),
        piece: part.piece,
        stand_in: matches!(part.what, What::StandIn(_)),
        start: part.start,
        accepting: part.accepting,
        x: left + strip.width / 2.0,
        y,
        width: box_width(&label),
        parent: above,
        first: above.is_none_or(|above| placed[above].piece != part.piece),
        label,
    });
    let children: f64 = strip.below.iter().map(|strip| strip.width).sum();
    let mut at = left + (strip.width - children) / 2.0;
    let mut middles = vec![];
    for (child, strip) in part.children.iter().zip(&strip.below) {
        let child = put(placed, child, rule, strip, at, Some(number));
        middles.push(placed[child].x);
        at += strip.width;
    }
    if let [first, .., last] = middles[..] {
        placed[number].x = (first + last) / 2.0;
    } else if let [only] = middles[..] {
        placed[number].x = only;
    }
    number
}

/// All that is drawn, each after what it hangs below.
pub fn place(root: &Part, rule: &[u8]) -> Vec<Placed> {
    let mut placed = vec![];
    put(&mut placed, root, rule, &strip(root, rule, true), 0.0, None);
    placed
}

#[cfg(test)]
mod tests {
    use super::*;
    use crate::drawing::region;
    use crate::own_trees;
    use foamlattice::Expression;

    fn placed(rule: &str) -> Vec<Placed> {
        let read = Expression::new(rule).expect("a good rule");
        place(&own_trees::root(&read), rule.as_bytes())
    }

    #[test]
    fn no_two_regions_overlap() {
        let letters = "a".repeat(60);
        let words = ["(", &"(abcdefg)*".repeat(12), ")*"].concat();
        let deep = ["a", &"*".repeat(100)].concat();
        let rules =
            ["a", "a*b", "(0[1-9]|1[0-2])-([0-2][0-9]|3[01])", "[^a-z0-9_.,:;+=/%&]?(b{2,4}|c)+", &letters, &words, &deep];
        for rule in rules {
            let placed = placed(rule);
            for (number, one) in placed.iter().enumerate() {
                let (x, y, width, height) = region(one);
                let beside = |other: &Placed| {
                    let (left, top, wide, high) = region(other);
                    left + wide < x || x + width < left || top + high < y || y + height < top
                };
                assert!(placed[..number].iter().all(beside), "{rule}: {}", one.title);
            }
        }
    }

    #[test]
    fn each_record_and_each_stand_in_is_there() {
        let rule = "(abcdefgh(ijklmnop))*";
        let placed = placed(rule);
        assert_eq!(placed.iter().filter(|placed| placed.stand_in).count(), 2);
        assert_eq!(placed.iter().filter(|placed| !placed.stand_in).count(), 32);
        assert_eq!(placed.iter().filter(|placed| placed.first).count(), 3);
    }
}
