//! The matchers that are measured, behind one form. Each is prepared once for an expression, outside the measured time.

use crate::plain::Plain;
use crate::workloads::Syntax;
use foamlattice::Expression;
use std::ffi::{c_char, c_int, c_void, CString};

/// A matcher with one expression. `None` where it gives up on a text.
pub trait Matcher {
    fn is_match(&mut self, text: &[u8]) -> Option<bool>;
    fn find(&mut self, text: &[u8]) -> Option<Option<(usize, usize)>>;
}

pub struct Engine {
    pub name: &'static str,
    pub prepare: fn(&[u8], Syntax) -> Option<Box<dyn Matcher>>,
}

/// The library keeps nothing between calls: each call is lent the list, and checks it, again.
impl Matcher for Expression {
    fn is_match(&mut self, text: &[u8]) -> Option<bool> {
        Some(Expression::is_full_match(self, text))
    }
    fn find(&mut self, text: &[u8]) -> Option<Option<(usize, usize)>> {
        let found = Expression::find(self, text).ok()?;
        Some(found.map(|part| (part.start, part.end)))
    }
}

impl Matcher for Plain {
    fn is_match(&mut self, text: &[u8]) -> Option<bool> {
        Some(Plain::is_match(self, text))
    }
    fn find(&mut self, text: &[u8]) -> Option<Option<(usize, usize)>> {
        Some(Plain::find(self, text))
    }
}

/// The plain simulation that keeps nothing between calls either: its automaton is made from the expression in each call.
struct PlainAnew {
    expression: Vec<u8>,
    syntax: Syntax,
}

impl Matcher for PlainAnew {
    fn is_match(&mut self, text: &[u8]) -> Option<bool> {
        Some(Plain::new(&self.expression, self.syntax).is_match(text))
    }
    fn find(&mut self, text: &[u8]) -> Option<Option<(usize, usize)>> {
        Some(Plain::new(&self.expression, self.syntax).find(text))
    }
}

/// Another build of the library, with a name of its own for each function: the landing before, saved. It takes the list that
/// this build has read. Before the landing with classes its calls took none.
#[cfg(before)]
struct Before {
    read: Expression,
}

#[cfg(all(before, not(before_classes)))]
extern "C" {
    fn before_foam_match(records: *const u8, records_length: usize, text: *const u8, text_length: usize) -> u64;
    fn before_foam_search(records: *const u8, records_length: usize, text: *const u8, text_length: usize) -> u64;
}

#[cfg(all(before, before_classes))]
extern "C" {
    fn before_foam_match(r: *const u8, r_length: usize, c: *const u8, c_length: usize, t: *const u8, t_length: usize) -> u64;
    fn before_foam_search(r: *const u8, r_length: usize, c: *const u8, c_length: usize, t: *const u8, t_length: usize) -> u64;
}

#[cfg(before)]
impl Before {
    fn usable(self, syntax: Syntax) -> Option<Before> {
        (cfg!(before_classes) || syntax == Syntax::First).then_some(self)
    }
    #[cfg(not(before_classes))]
    fn call(&self, call: unsafe extern "C" fn(*const u8, usize, *const u8, usize) -> u64, text: &[u8]) -> u64 {
        let list = self.read.records();
        // SAFETY: both slices are valid for their lengths for the call.
        unsafe { call(list.as_ptr(), list.len(), text.as_ptr(), text.len()) }
    }
    #[cfg(before_classes)]
    fn call(&self, call: unsafe extern "C" fn(*const u8, usize, *const u8, usize, *const u8, usize) -> u64, text: &[u8]) -> u64 {
        let (list, classes) = (self.read.records(), self.read.classes());
        // SAFETY: the slices are valid for their lengths for the call.
        unsafe { call(list.as_ptr(), list.len(), classes.as_ptr(), classes.len(), text.as_ptr(), text.len()) }
    }
}

#[cfg(before)]
impl Matcher for Before {
    fn is_match(&mut self, text: &[u8]) -> Option<bool> {
        let answer = self.call(before_foam_match, text);
        (answer & 0xff == 0).then_some(answer >> 8 & 0xff == 1)
    }
    fn find(&mut self, text: &[u8]) -> Option<Option<(usize, usize)>> {
        let answer = self.call(before_foam_search, text);
        let part = (answer as usize >> 16 & 0xff_ffff, answer as usize >> 40);
        (answer & 0xff == 0).then_some((answer >> 8 & 0xff == 1).then_some(part))
    }
}

type New = unsafe extern "C" fn(*const c_char, *const c_char) -> *mut c_void;
type Whole = unsafe extern "C" fn(*mut c_void, *const c_char, usize) -> c_int;
type Part = unsafe extern "C" fn(*mut c_void, *const c_char, usize, *mut usize, *mut usize) -> c_int;

/// A matcher of others.h.
struct Other {
    compiled: *mut c_void,
    whole: Whole,
    part: Part,
}

fn other(expression: &[u8], new: New, whole: Whole, part: Part) -> Option<Box<dyn Matcher>> {
    let anchored = CString::new([b"^(", expression, b")$"].concat()).ok()?;
    let plain = CString::new(expression).ok()?;
    // SAFETY: both are strings with an end, and are not kept.
    let compiled = unsafe { new(anchored.as_ptr(), plain.as_ptr()) };
    (!compiled.is_null()).then(|| Box::new(Other { compiled, whole, part }) as Box<dyn Matcher>)
}

impl Matcher for Other {
    fn is_match(&mut self, text: &[u8]) -> Option<bool> {
        // SAFETY: `compiled` is what `new` gave, and the text is a whole slice.
        let answer = unsafe { (self.whole)(self.compiled, text.as_ptr().cast(), text.len()) };
        (answer >= 0).then_some(answer == 1)
    }
    fn find(&mut self, text: &[u8]) -> Option<Option<(usize, usize)>> {
        let (mut start, mut end) = (0, 0);
        // SAFETY: as above, and the two numbers are lent for the call.
        let answer = unsafe { (self.part)(self.compiled, text.as_ptr().cast(), text.len(), &mut start, &mut end) };
        (answer >= 0).then_some((answer == 1).then_some((start, end)))
    }
}

extern "C" {
    fn glibc_new(whole: *const c_char, part: *const c_char) -> *mut c_void;
    fn glibc_whole(compiled: *mut c_void, text: *const c_char, length: usize) -> c_int;
    fn glibc_part(compiled: *mut c_void, text: *const c_char, length: usize, start: *mut usize, end: *mut usize) -> c_int;
}

#[cfg(re2)]
extern "C" {
    fn re2_new(whole: *const c_char, part: *const c_char) -> *mut c_void;
    fn re2_whole(compiled: *mut c_void, text: *const c_char, length: usize) -> c_int;
    fn re2_part(compiled: *mut c_void, text: *const c_char, length: usize, start: *mut usize, end: *mut usize) -> c_int;
}

#[cfg(pcre2)]
extern "C" {
    fn pcre2_new(whole: *const c_char, part: *const c_char) -> *mut c_void;
    fn pcre2_whole(compiled: *mut c_void, text: *const c_char, length: usize) -> c_int;
    fn pcre2_part(compiled: *mut c_void, text: *const c_char, length: usize, start: *mut usize, end: *mut usize) -> c_int;
}

pub fn read(expression: &[u8], syntax: Syntax) -> Option<Expression> {
    match syntax {
        Syntax::First => Expression::plain(expression).ok(),
        Syntax::Second => Expression::new(expression).ok(),
    }
}

/// The plain simulation is first: the others are held against it.
pub fn all() -> Vec<Engine> {
    vec![
        Engine { name: "plain lists", prepare: |e, syntax| Some(Box::new(Plain::new(e, syntax))) },
        Engine { name: "foamlattice", prepare: |e, syntax| Some(Box::new(read(e, syntax)?)) },
        #[cfg(before)]
        Engine { name: "before", prepare: |e, syntax| Some(Box::new(Before { read: read(e, syntax)? }.usable(syntax)?)) },
        Engine { name: "plain, made anew", prepare: |e, syntax| Some(Box::new(PlainAnew { expression: e.to_vec(), syntax })) },
        Engine { name: "glibc regexec", prepare: |e, _| other(e, glibc_new, glibc_whole, glibc_part) },
        #[cfg(re2)]
        Engine { name: "RE2", prepare: |e, _| other(e, re2_new, re2_whole, re2_part) },
        #[cfg(pcre2)]
        Engine { name: "PCRE2", prepare: |e, _| other(e, pcre2_new, pcre2_whole, pcre2_part) },
    ]
}
