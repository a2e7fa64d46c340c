//! The bytes of a rule as they are shown, and the pieces whose nodes they made.

use foamlattice::{Expression, Kind, Node};

/// A byte of the rule, and its piece, where all nodes that it made are in one.
pub struct Byte {
    pub shown: String,
    pub piece: Option<usize>,
}

/// How a byte is shown.
pub fn shown(byte: u8) -> String {
    if byte.is_ascii_graphic() || byte == b' ' {
        char::from(byte).to_string()
    } else {
        format!("\\x{byte:02x}")
    }
}

/// A rule, and below it a caret under this place.
pub fn with_caret(rule: &[u8], place: usize) -> String {
    let shown = |bytes: &[u8]| bytes.iter().map(|byte| shown(*byte)).collect::<String>();
    let column = shown(&rule[..place]).len();
    format!("{}\n{:>2$}", shown(rule), '^', column + 1)
}

/// The bytes that a leaf is written with: a class up to its end, a character with its `\`.
pub fn leaf(rule: &[u8], place: usize) -> &[u8] {
    let rest = &rule[place..];
    let escaped = |at: usize| rest[..at].iter().rev().take_while(|byte| **byte == b'\\').count() % 2 == 1;
    let length = match rest[0] {
        b'[' => (1..rest.len()).find(|&at| rest[at] == b']' && !escaped(at)).map_or(1, |at| at + 1),
        b'\\' => 2,
        _ => 1,
    };
    &rest[..length.min(rest.len())]
}

/// The bytes of the rule that made a node.
fn made(rule: &[u8], node: &Node) -> usize {
    match node.kind {
        Kind::Character(_) | Kind::Class(_) => leaf(rule, node.place).len(),
        _ => 1,
    }
}

/// The bytes of a rule. A catenation has no sign of its own, and shades none.
pub fn bytes(rule: &[u8], expression: &Expression) -> Vec<Byte> {
    let signed = expression.nodes().filter(|node| !matches!(node.kind, Kind::Catenation { .. }));
    let runs: Vec<_> = signed.map(|node| (node.place..node.place + made(rule, &node), node.piece)).collect();
    let piece = |at: usize| {
        let mut pieces = runs.iter().filter(|(run, _)| run.contains(&at)).map(|(_, piece)| *piece);
        let first = pieces.next()?;
        pieces.all(|piece| piece == first).then_some(first)
    };
    rule.iter().enumerate().map(|(at, byte)| Byte { shown: shown(*byte), piece: piece(at) }).collect()
}

#[cfg(test)]
mod tests {
    use super::*;

    #[test]
    fn a_leaf_is_shown_as_it_is_written() {
        let rule = br"a[b\]c]\*.[\\]";
        let leaves: Vec<&[u8]> = [0, 1, 7, 9, 10].map(|place| leaf(rule, place)).to_vec();
        assert_eq!(leaves, [&b"a"[..], br"[b\]c]", br"\*", b".", br"[\\]"]);
        assert_eq!((shown(b'a'), shown(10)), ("a".to_string(), "\\x0a".to_string()));
    }

    #[test]
    fn a_caret_stands_under_its_place() {
        assert_eq!(with_caret(b"a\n|", 3), "a\\x0a|\n      ^");
        assert_eq!(with_caret(b"(a", 0), "(a\n^");
    }

    #[test]
    fn a_byte_has_the_piece_of_what_it_made() {
        let rule = "abcdefgh([i])";
        let read = Expression::new(rule).expect("a good rule");
        let pieces: Vec<_> = bytes(rule.as_bytes(), &read).iter().map(|byte| byte.piece).collect();
        assert_eq!(pieces[..8], [Some(1); 8]);
        assert_eq!(pieces[8..], [None, Some(0), Some(0), Some(0), None]);
        let copied = "(ab){8,8}";
        let read = Expression::new(copied).expect("a good rule");
        assert_eq!(bytes(copied.as_bytes(), &read)[1].piece, None);
    }
}
