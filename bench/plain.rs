//! The plain simulation: a list of the states reached, over the uncut automaton, each state in it once.

use crate::expected::{self, Kind, Set};
use crate::workloads::Syntax;
use crate::written;

const NONE: usize = usize::MAX;

/// What a leaf takes: a byte, or those of a set.
#[derive(Clone, Copy)]
enum Takes {
    Byte(u8),
    Set(usize),
}

/// State 2 i is node i's start, 2 i + 1 its accepting state; each has at most two empty transitions.
pub struct Plain {
    leaves: Vec<Option<Takes>>,
    sets: Vec<Set>,
    next: Vec<[usize; 2]>,
    here: List,
    after: List,
}

/// Starts of leaves, those that are marked with the list's own mark; `accepting` where the last state was reached.
#[derive(Default)]
struct List {
    states: Vec<usize>,
    marked: Vec<u32>,
    mark: u32,
    accepting: bool,
}

impl List {
    fn clear(&mut self) {
        self.states.clear();
        self.mark += 1;
        self.accepting = false;
    }
}

/// Adds a state and all that empty transitions reach from it.
fn add(list: &mut List, next: &[[usize; 2]], leaves: &[Option<Takes>], mut state: usize) {
    while list.marked[state] != list.mark {
        list.marked[state] = list.mark;
        list.accepting |= state + 1 == next.len();
        if state % 2 == 0 && leaves[state / 2].is_some() {
            list.states.push(state);
        }
        let [first, second] = next[state];
        if second != NONE {
            add(list, next, leaves, second);
        }
        if first == NONE {
            return;
        }
        state = first;
    }
}

impl Plain {
    pub fn new(expression: &[u8], syntax: Syntax) -> Plain {
        let (tree, sets) = match syntax {
            Syntax::First => (expected::read(expression).expect("a good expression"), vec![]),
            Syntax::Second => {
                let laid_out = written::read(expression).expect("a good expression").laid_out();
                (laid_out.tree, laid_out.sets)
            }
        };
        let mut leaves = vec![None; tree.len()];
        let mut next = vec![[NONE; 2]; 2 * tree.len()];
        for (i, n) in tree.iter().enumerate() {
            let (start, accepting, left, right) = (2 * i, 2 * i + 1, 2 * n.left, 2 * n.right);
            match n.kind {
                Kind::Character(c) => leaves[i] = Some(Takes::Byte(c)),
                Kind::Class(number) => leaves[i] = Some(Takes::Set(number)),
                Kind::Empty => next[start] = [accepting, NONE],
                Kind::Catenation => {
                    next[start] = [left, NONE];
                    next[left + 1] = [right, NONE];
                    next[right + 1] = [accepting, NONE];
                }
                Kind::Union => {
                    next[start] = [left, right];
                    next[left + 1] = [accepting, NONE];
                    next[right + 1] = [accepting, NONE];
                }
                Kind::Star => {
                    next[start] = [left, accepting];
                    next[left + 1] = [left, accepting];
                }
            }
        }
        let list = || List { marked: vec![0; next.len()], ..List::default() };
        Plain { here: list(), after: list(), leaves, sets, next }
    }

    /// The furthest end of a part that starts where the text does.
    fn furthest(&mut self, text: &[u8]) -> Option<usize> {
        self.here.clear();
        add(&mut self.here, &self.next, &self.leaves, self.next.len() - 2);
        let mut furthest = self.here.accepting.then_some(0);
        for (i, &byte) in text.iter().enumerate() {
            self.after.clear();
            for &state in &self.here.states {
                let taken = match self.leaves[state / 2] {
                    Some(Takes::Byte(one)) => one == byte,
                    Some(Takes::Set(number)) => self.sets[number][byte as usize],
                    None => false,
                };
                if taken {
                    add(&mut self.after, &self.next, &self.leaves, state + 1);
                }
            }
            std::mem::swap(&mut self.here, &mut self.after);
            if self.here.accepting {
                furthest = Some(i + 1);
            }
            if self.here.states.is_empty() {
                break;
            }
        }
        furthest
    }

    pub fn is_match(&mut self, text: &[u8]) -> bool {
        self.furthest(text) == Some(text.len())
    }

    pub fn find(&mut self, text: &[u8]) -> Option<(usize, usize)> {
        (0..=text.len()).find_map(|start| self.furthest(&text[start..]).map(|end| (start, start + end)))
    }
}
