//! The own trees of an expression's pieces, with the numbers of their states.

use foamlattice::{Expression, Node};

/// What stands in an own tree.
#[derive(Clone, Copy)]
pub enum What {
    /// A node of the expression's tree, and the number of its record.
    Node(Node, usize),
    /// The stand-in for the piece of this number.
    StandIn(usize),
}

/// A node or a stand-in in the own tree of a piece. Below a stand-in hangs the root of the piece that it stands for.
pub struct Part {
    pub what: What,
    pub piece: usize,
    pub start: usize,
    pub accepting: usize,
    pub children: Vec<Part>,
}

/// The root of the expression's tree, with all below it.
pub fn root(expression: &Expression) -> Part {
    let nodes: Vec<Node> = expression.nodes().collect();
    part(&nodes, nodes.len() - 1, &mut 0)
}

/// The next number of a state in the walk of a piece.
fn take(next: &mut usize) -> usize {
    *next += 1;
    *next - 1
}

/// A node with all below it: its start is numbered when the walk comes to it, its accepting state when the walk leaves it.
fn part(nodes: &[Node], number: usize, next: &mut usize) -> Part {
    let node = nodes[number];
    let start = take(next);
    let children = node.kind.children().map(|child| below(nodes, node.piece, child, next)).collect();
    Part { what: What::Node(node, number), piece: node.piece, start, accepting: take(next), children }
}

/// What stands below a node of this piece: its child, or the stand-in for the child's piece, which has a walk of its own.
fn below(nodes: &[Node], piece: usize, child: usize, next: &mut usize) -> Part {
    if nodes[child].piece == piece {
        return part(nodes, child, next);
    }
    let what = What::StandIn(nodes[child].piece);
    Part { what, piece, start: take(next), accepting: take(next), children: vec![part(nodes, child, &mut 0)] }
}

#[cfg(test)]
mod tests {
    use super::*;

    fn read(rule: &str) -> Expression {
        Expression::new(rule).expect("a good rule")
    }

    #[test]
    fn states_are_numbered_as_the_reference_does() {
        let root = root(&read("a*b"));
        let star = &root.children[0];
        let states = |part: &Part| (part.start, part.accepting);
        assert_eq!((states(&root), states(star)), ((0, 7), (1, 4)));
        assert_eq!((states(&star.children[0]), states(&root.children[1])), ((2, 3), (5, 6)));
    }

    #[test]
    fn a_stand_in_has_the_states_of_its_piece() {
        let rule = read("abcdefghi");
        let root = root(&rule);
        let stand_in = &root.children[0];
        let child = &stand_in.children[0];
        assert!(matches!(stand_in.what, What::StandIn(1)));
        assert_eq!((stand_in.piece, stand_in.start, stand_in.accepting), (0, 1, 2));
        assert_eq!((child.piece, child.start, child.accepting), (1, 0, 29));
        let mut marks = rule.marks();
        marks.steps(b"abcdefgh");
        assert_eq!((marks.words()[0] >> stand_in.accepting & 1, marks.words()[1] >> child.accepting & 1), (1, 1));
        marks.step(b'i');
        assert_eq!(marks.words()[0] >> root.accepting, 1);
    }
}
