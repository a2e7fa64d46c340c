//! What docs/REFERENCE.md says, implemented another way: a reader with an operator stack, the parts of a text that lie
//! in a language by sets of ends over the tree, the fewest pieces by dynamic programming, marks by a plain search over the
//! uncut automaton.

#[derive(Clone, Debug, PartialEq, Eq)]
pub enum Kind {
    Character(u8),
    /// A class leaf with the number of its class.
    Class(usize),
    /// The leaf of the empty text.
    Empty,
    Catenation,
    Union,
    Star,
}

/// Nodes in postorder: children come before their parent, the root is last.
#[derive(Clone, Debug)]
pub struct Node {
    pub kind: Kind,
    pub left: usize,
    pub right: usize,
    /// The place in the expression of what made it.
    pub place: usize,
}

pub type Tree = Vec<Node>;

/// Which of the 256 bytes are in a class.
pub type Set = [bool; 256];

pub const NONE: usize = 65_535;
/// Bytes of a class record.
pub const CLASS_SIZE: usize = 32;
/// Bytes of a record, and of one of the old layout.
pub const RECORD_SIZE: usize = 12;
pub const OLD_RECORD_SIZE: usize = 8;
/// The largest place that a record may have.
pub const MOST_PLACE: usize = 1_023;

fn is_special(b: u8) -> bool {
    b"()|*\\".contains(&b)
}

/// What is waiting on the operator stack: an open group or a bar, each with its place, or a joint; the right operand of the
/// last two is being read.
#[derive(Clone, Copy, PartialEq)]
enum Waiting {
    Group(usize),
    Bar(usize),
    Joint,
}

/// A complete operand: the number of its root, and the place where it begins as it is written, its `(` included.
#[derive(Clone, Copy)]
struct Operand {
    root: usize,
    begin: usize,
}

struct Stacks {
    tree: Tree,
    operands: Vec<Operand>,
    waiting: Vec<Waiting>,
}

impl Stacks {
    fn push(&mut self, kind: Kind, left: usize, right: usize, place: usize, begin: usize) {
        self.tree.push(Node { kind, left, right, place });
        self.operands.push(Operand { root: self.tree.len() - 1, begin });
    }
    fn reduce(&mut self, while_waiting: fn(Waiting) -> bool) {
        while let Some(&top) = self.waiting.last() {
            if !while_waiting(top) {
                break;
            }
            self.waiting.pop();
            let right = self.operands.pop().unwrap();
            let left = self.operands.pop().unwrap();
            let (kind, place) = match top {
                Waiting::Bar(bar) => (Kind::Union, bar),
                _ => (Kind::Catenation, right.begin),
            };
            self.push(kind, left.root, right.root, place, left.begin);
        }
    }
    fn depth(&self) -> usize {
        self.waiting.iter().filter(|w| matches!(w, Waiting::Group(_))).count()
    }
}

/// The tree of an expression of the first syntax, or its first fault among 1 to 7 by number and place.
pub fn read(e: &[u8]) -> Result<Tree, (u8, usize)> {
    if e.is_empty() {
        return Err((1, 0));
    }
    if e.len() > 1024 {
        return Err((2, 1024));
    }
    let mut s = Stacks { tree: vec![], operands: vec![], waiting: vec![] };
    let mut have = false;
    let mut i = 0;
    while i < e.len() {
        let b = e[i];
        if !have && b"|*)".contains(&b) {
            return Err((3, i));
        }
        match b {
            b'*' => {
                let operand = s.operands.pop().unwrap();
                s.push(Kind::Star, operand.root, NONE, i, operand.begin);
            }
            b'|' => {
                s.reduce(|w| !matches!(w, Waiting::Group(_)));
                s.waiting.push(Waiting::Bar(i));
                have = false;
            }
            b')' => {
                s.reduce(|w| !matches!(w, Waiting::Group(_)));
                match s.waiting.pop() {
                    Some(Waiting::Group(opening)) => s.operands.last_mut().unwrap().begin = opening,
                    _ => return Err((5, i)),
                }
            }
            _ => {
                if have {
                    s.reduce(|w| w == Waiting::Joint);
                    s.waiting.push(Waiting::Joint);
                }
                if b == b'(' {
                    if s.depth() == 32 {
                        return Err((6, i));
                    }
                    s.waiting.push(Waiting::Group(i));
                    have = false;
                } else {
                    let (mut c, place) = (b, i);
                    if b == b'\\' {
                        if i + 1 >= e.len() || !is_special(e[i + 1]) {
                            return Err((7, i));
                        }
                        c = e[i + 1];
                        i += 1;
                    }
                    s.push(Kind::Character(c), NONE, NONE, place, place);
                    have = true;
                }
            }
        }
        i += 1;
    }
    if !have {
        return Err((3, e.len()));
    }
    s.reduce(|w| !matches!(w, Waiting::Group(_)));
    if let Some(Waiting::Group(place)) = s.waiting.pop() {
        return Err((4, place));
    }
    Ok(s.tree)
}

fn children(n: &Node) -> Vec<usize> {
    match n.kind {
        Kind::Character(_) | Kind::Class(_) | Kind::Empty => vec![],
        Kind::Star => vec![n.left],
        _ => vec![n.left, n.right],
    }
}

/// The fewest pieces of at most 15 nodes, over all sets of cut edges: for each open size the fewest cut edges.
pub fn fewest_pieces(t: &Tree) -> usize {
    let many = usize::MAX / 4;
    let mut best: Vec<[usize; 16]> = vec![];
    for n in t {
        let mut here = [many; 16];
        here[1] = 0;
        for c in children(n) {
            let cut = 1 + *best[c].iter().min().unwrap();
            let mut joined = [many; 16];
            for size in 1..16 {
                if here[size] >= many {
                    continue;
                }
                joined[size] = joined[size].min(here[size] + cut);
                for more in 1..16 - size {
                    joined[size + more] = joined[size + more].min(here[size] + best[c][more]);
                }
            }
            here = joined;
        }
        best.push(here);
    }
    1 + *best.last().unwrap().iter().min().unwrap()
}

/// The piece of each node by the rule of the cut, and the number of pieces.
pub fn pieces(t: &Tree) -> (Vec<usize>, usize) {
    let mut open = vec![0usize; t.len()];
    let mut is_cut = vec![false; t.len()];
    for (i, n) in t.iter().enumerate() {
        let mut below = children(n);
        below.sort_by_key(|&c| (std::cmp::Reverse(open[c]), c));
        let mut size = 1 + below.iter().map(|&c| open[c]).sum::<usize>();
        for c in below {
            if size > 15 {
                is_cut[c] = true;
                size -= open[c];
            }
        }
        open[i] = size;
    }
    let mut piece = vec![0; t.len()];
    let mut count = 1;
    let mut todo = vec![(t.len() - 1, 0)];
    while let Some((i, parent)) = todo.pop() {
        piece[i] = if is_cut[i] {
            count += 1;
            count - 1
        } else {
            parent
        };
        for &c in children(&t[i]).iter().rev() {
            todo.push((c, piece[i]));
        }
    }
    (piece, count)
}

pub fn records(t: &Tree) -> Vec<u8> {
    let (piece, _) = pieces(t);
    let mut out = vec![];
    for (i, n) in t.iter().enumerate() {
        let (kind, character, first) = match n.kind {
            Kind::Character(c) => (1, c, n.left),
            Kind::Catenation => (2, 0, n.left),
            Kind::Union => (3, 0, n.left),
            Kind::Star => (4, 0, n.left),
            Kind::Class(number) => (5, 0, number),
            Kind::Empty => (6, 0, n.left),
        };
        out.extend([kind, character]);
        for number in [first, n.right, piece[i], n.place, 0] {
            out.extend((number as u16).to_le_bytes());
        }
    }
    out
}

/// The tree of a good list.
pub fn decode(list: &[u8]) -> Option<Tree> {
    if list.is_empty() || list.len() % RECORD_SIZE != 0 || list.len() > 15 * 128 * RECORD_SIZE {
        return None;
    }
    let mut t: Tree = vec![];
    let mut roots: Vec<usize> = vec![];
    let mut classes = 0;
    for r in list.chunks(RECORD_SIZE) {
        let place = r[8] as usize + 256 * r[9] as usize;
        if place > MOST_PLACE {
            return None;
        }
        classes += (r[0] == 5) as usize;
        let (kind, pops) = match r[0] {
            1 => (Kind::Character(r[1]), 0),
            5 => (Kind::Class(classes - 1), 0),
            2 => (Kind::Catenation, 2),
            3 => (Kind::Union, 2),
            4 => (Kind::Star, 1),
            6 => (Kind::Empty, 0),
            _ => return None,
        };
        if roots.len() < pops {
            return None;
        }
        let mut below = roots.split_off(roots.len() - pops);
        below.resize(2, NONE);
        t.push(Node { kind, left: below[0], right: below[1], place });
        roots.push(t.len() - 1);
    }
    (roots.len() == 1 && pieces(&t).1 <= 128 && records(&t) == list).then_some(t)
}

/// The list with the first bytes of its records alone, those of the old layout.
pub fn old_layout(list: &[u8]) -> Vec<u8> {
    list.chunks(RECORD_SIZE).flat_map(|record| record[..OLD_RECORD_SIZE].to_vec()).collect()
}

/// What a list of the old layout is turned into: the list of its tree, with the place 0 in every record, if it has one.
pub fn widened(old: &[u8]) -> Option<Vec<u8>> {
    let whole = old.len() % OLD_RECORD_SIZE == 0;
    let wide: Vec<u8> = old.chunks(OLD_RECORD_SIZE).flat_map(|record| [record, &[0; 4][..]].concat()).collect();
    decode(&wide).filter(|_| whole).map(|tree| records(&tree))
}

/// How many class leaves a tree has.
pub fn class_count(t: &Tree) -> usize {
    t.iter().filter(|n| matches!(n.kind, Kind::Class(_))).count()
}

/// The sets of so many class records. A byte past the end of what is lent counts as 0.
pub fn sets(classes: &[u8], count: usize) -> Vec<Set> {
    let holds = |class: usize, value: usize| {
        classes.get(CLASS_SIZE * class + value / 8).is_some_and(|byte| byte / (1 << (value % 8)) % 2 == 1)
    };
    (0..count).map(|class| std::array::from_fn(|value| holds(class, value))).collect()
}

/// Whether a leaf takes a byte. Other nodes take none.
fn takes(kind: &Kind, sets: &[Set], byte: u8) -> bool {
    match *kind {
        Kind::Character(c) => c == byte,
        Kind::Class(number) => sets[number][byte as usize],
        _ => false,
    }
}

/// For each place of a text where a part can start, the set of places where it can end: bit e of the word of s.
pub type Parts = Vec<u128>;

/// The places where a part of the language can end that starts at one of `places`.
fn ends(places: u128, parts: &Parts) -> u128 {
    let (mut all, mut left) = (0, places);
    while left != 0 {
        all |= parts[left.trailing_zeros() as usize];
        left &= left - 1;
    }
    all
}

/// All parts of a text of at most 127 bytes that lie in the language: from the leaves up, after the definition.
pub fn parts(t: &Tree, sets: &[Set], text: &[u8]) -> Parts {
    assert!(text.len() <= 127);
    let mut of: Vec<Parts> = vec![];
    for n in t {
        let from = |s: usize| match n.kind {
            Kind::Character(_) | Kind::Class(_) => (text.get(s).is_some_and(|&b| takes(&n.kind, sets, b)) as u128) << s << 1,
            Kind::Empty => 1 << s,
            Kind::Catenation => ends(of[n.left][s], &of[n.right]),
            Kind::Union => of[n.left][s] | of[n.right][s],
            Kind::Star => {
                let (mut all, mut before) = (1 << s, 0);
                while all != before {
                    before = all;
                    all |= ends(all, &of[n.left]);
                }
                all
            }
        };
        of.push((0..=text.len()).map(from).collect());
    }
    of.pop().unwrap()
}

pub fn is_match(parts: &Parts) -> bool {
    parts[0] >> (parts.len() - 1) & 1 == 1
}

/// The earliest start of a part, and its furthest end from there.
pub fn find(parts: &Parts) -> Option<std::ops::Range<usize>> {
    let start = parts.iter().position(|&ends| ends != 0)?;
    Some(start..127 - parts[start].leading_zeros() as usize)
}

/// Marks all that edges lead to from what is marked.
fn close(edges: &[Vec<usize>], marks: &mut [bool]) {
    let mut todo: Vec<usize> = (0..marks.len()).filter(|&s| marks[s]).collect();
    while let Some(s) = todo.pop() {
        for &next in &edges[s] {
            if !marks[next] {
                marks[next] = true;
                todo.push(next);
            }
        }
    }
}

/// The uncut automaton: state 2 i is node i's start, 2 i + 1 its accepting state.
#[derive(Clone)]
pub struct Automaton {
    empty: Vec<Vec<usize>>,
    kinds: Vec<Kind>,
    pub sets: Vec<Set>,
    /// The bits, by piece and number, of each state: one, or two where the state is shared.
    pub bits: Vec<Vec<(usize, usize)>>,
    pub widths: Vec<usize>,
}

pub fn automaton(t: &Tree, sets: Vec<Set>) -> Automaton {
    let mut a = Automaton {
        empty: vec![vec![]; 2 * t.len()],
        kinds: t.iter().map(|n| n.kind.clone()).collect(),
        sets,
        bits: vec![vec![]; 2 * t.len()],
        widths: vec![],
    };
    for (i, n) in t.iter().enumerate() {
        let (start, accepting) = (2 * i, 2 * i + 1);
        let (l, r) = (2 * n.left, 2 * n.right);
        match n.kind {
            Kind::Character(_) | Kind::Class(_) => {}
            Kind::Empty => a.empty[start].push(accepting),
            Kind::Catenation => {
                a.empty[start].push(l);
                a.empty[l + 1].push(r);
                a.empty[r + 1].push(accepting);
            }
            Kind::Union => {
                a.empty[start].extend([l, r]);
                a.empty[l + 1].push(accepting);
                a.empty[r + 1].push(accepting);
            }
            Kind::Star => {
                a.empty[start].extend([l, accepting]);
                a.empty[l + 1].extend([accepting, l]);
            }
        }
    }
    let (piece, count) = pieces(t);
    a.widths = vec![0; count];
    number(t, &piece, t.len() - 1, &mut a);
    a
}

/// Numbers the states by a walk: each piece counts its own, and a stand-in's two where a child piece begins.
fn number(t: &Tree, piece: &[usize], root: usize, a: &mut Automaton) {
    enum Visit {
        Enter(usize, usize),
        Leave(usize),
    }
    let mut todo = vec![Visit::Enter(root, piece[root])];
    while let Some(visit) = todo.pop() {
        match visit {
            Visit::Enter(i, parent) => {
                let k = piece[i];
                if k != parent {
                    for state in [2 * i, 2 * i + 1] {
                        a.bits[state].push((parent, a.widths[parent]));
                        a.widths[parent] += 1;
                    }
                }
                a.bits[2 * i].push((k, a.widths[k]));
                a.widths[k] += 1;
                todo.push(Visit::Leave(i));
                for &c in children(&t[i]).iter().rev() {
                    todo.push(Visit::Enter(c, k));
                }
            }
            Visit::Leave(i) => {
                let k = piece[i];
                a.bits[2 * i + 1].push((k, a.widths[k]));
                a.widths[k] += 1;
            }
        }
    }
}

impl Automaton {
    /// The starts of the leaves that may take a byte.
    pub fn leaf_starts(&self) -> impl Iterator<Item = usize> + '_ {
        let leaf = |kind: &Kind| matches!(kind, Kind::Character(_) | Kind::Class(_));
        self.kinds.iter().enumerate().filter(move |(_, kind)| leaf(kind)).map(|(i, _)| 2 * i)
    }
    /// Which nodes take a byte: bit i % 128 of word i / 128 for node i.
    pub fn taken_by(&self, byte: u8) -> Vec<u128> {
        let word = |kinds: &[Kind]| kinds.iter().rev().fold(0, |word, kind| word << 1 | takes(kind, &self.sets, byte) as u128);
        self.kinds.chunks(128).map(word).collect()
    }
    pub fn start(&self) -> Vec<bool> {
        let mut marks = vec![false; self.empty.len()];
        let root = self.kinds.len() - 1;
        marks[2 * root] = true;
        close(&self.empty, &mut marks);
        marks
    }
    pub fn step(&self, marks: &[bool], byte: u8) -> Vec<bool> {
        let mut next = vec![false; marks.len()];
        for (i, kind) in self.kinds.iter().enumerate() {
            next[2 * i + 1] = marks[2 * i] && takes(kind, &self.sets, byte);
        }
        close(&self.empty, &mut next);
        next
    }
    /// The edges of the empty text, each led back.
    fn led_back(&self) -> Vec<Vec<usize>> {
        let mut edges = vec![vec![]; self.empty.len()];
        for (from, to) in self.empty.iter().enumerate().flat_map(|(from, all)| all.iter().map(move |&to| (from, to))) {
            edges[to].push(from);
        }
        edges
    }
    /// The earliest place of a text where a part in the language starts, by one walk back from its end: at each place the states
    /// from which the accepting one can be reached, there or further on.
    pub fn earliest_start(&self, text: &[u8]) -> Option<usize> {
        let edges = self.led_back();
        let last = edges.len() - 1;
        let mut further_on = vec![false; edges.len()];
        let mut earliest = None;
        for place in (0..=text.len()).rev() {
            let mut here = vec![false; edges.len()];
            here[last] = true;
            // Past the end of the text nothing is further on, and no byte is asked for.
            for (i, kind) in self.kinds.iter().enumerate() {
                here[2 * i] = further_on[2 * i + 1] && takes(kind, &self.sets, text[place]);
            }
            close(&edges, &mut here);
            if here[last - 1] {
                earliest = Some(place);
            }
            further_on = here;
        }
        earliest
    }
    pub fn words(&self, marks: &[bool]) -> Vec<u64> {
        let mut words = vec![0; self.widths.len()];
        for (state, bits) in self.bits.iter().enumerate() {
            for &(k, i) in bits {
                words[k] |= (marks[state] as u64) << i;
            }
        }
        words
    }
    /// The marks that words hold: refused unless these marks give back the same words, so unless no bit past the last
    /// state is set and the two bits of each shared state agree.
    pub fn marks(&self, words: &[u64]) -> Option<Vec<bool>> {
        let marks: Vec<bool> = self.bits.iter().map(|bits| words[bits[0].0] >> bits[0].1 & 1 == 1).collect();
        (self.words(&marks) == words[..self.widths.len()]).then_some(marks)
    }
    /// The automaton that has lost a state.
    pub fn without(&self, state: usize) -> Automaton {
        let mut rest = self.clone();
        rest.empty[state].clear();
        for next in &mut rest.empty {
            next.retain(|&s| s != state);
        }
        rest
    }
    /// The ends of the parts that start where the text does, in their order: those of a text of any length.
    pub fn ends(&self, text: &[u8]) -> Vec<usize> {
        let mut marks = self.start();
        let mut out = vec![];
        for (i, &byte) in text.iter().enumerate() {
            if *marks.last().unwrap() {
                out.push(i);
            }
            if !marks.contains(&true) {
                return out;
            }
            marks = self.step(&marks, byte);
        }
        if *marks.last().unwrap() {
            out.push(text.len());
        }
        out
    }
}
