//! What the lines marked `// oracle` call: they note the nodes entered, bound the walks, and say
//! where the texture section begins and ends.
//!
//! Without the feature `notes` every function here is empty, so that the published code can be
//! timed.

use std::cell::{Cell, RefCell};

/// The calls that a trace may have open at once.
pub const DEPTH: usize = 512;

/// Messages of the bounds, told apart in `refusal`.
pub const WALK_TOO_LONG: &str = "oracle: a further node after as many as the table holds";
pub const TRACE_TOO_DEEP: &str = "oracle: a trace deeper than 512";
pub const GAVE_UP: &str = "oracle: a trace longer than the comparison waits for";

thread_local! {
    static NODES: RefCell<Vec<usize>> = RefCell::new(Vec::new());
    static CALLS: Cell<usize> = Cell::new(0);
    static PATIENCE: Cell<usize> = Cell::new(usize::MAX);
    static SKIPS_TEXTURES: Cell<bool> = Cell::new(false);
    static IN_TEXTURES: Cell<bool> = Cell::new(false);
    static TEXTURE_NUMBERS: RefCell<Vec<usize>> = RefCell::new(Vec::new());
}

/// A walk enters its root, which is in range.
#[inline(always)]
pub fn walk_starts(root: usize) {
    if cfg!(feature = "notes") {
        note(root);
    }
}

/// A walk is about to go on to node `n` of a table of `len`. Always false: it stands in a guard.
/// A node out of range is left to the published line, which panics.
#[inline(always)]
pub fn walk_goes_on(n: usize, len: usize) -> bool {
    if cfg!(feature = "notes") && n < len {
        if NODES.with(|nodes| nodes.borrow().len()) >= len {
            panic!("{}", WALK_TOO_LONG);
        }
        note(n);
    }
    false
}

/// One open call of a trace.
pub struct Call(bool);

impl Drop for Call {
    #[inline(always)]
    fn drop(&mut self) {
        if cfg!(feature = "notes") && self.0 {
            CALLS.with(|calls| calls.set(calls.get() - 1));
        }
    }
}

/// A trace is about to enter node `n` of a table of `len`. A node out of range is left to the
/// published line, which panics.
#[inline(always)]
pub fn trace_enters(n: usize, len: usize) -> Call {
    if !cfg!(feature = "notes") || n >= len {
        return Call(false);
    }
    let open = CALLS.with(|calls| calls.get());
    if open >= DEPTH {
        panic!("{}", TRACE_TOO_DEEP);
    }
    if NODES.with(|nodes| nodes.borrow().len()) >= PATIENCE.with(|p| p.get()) {
        panic!("{}", GAVE_UP);
    }
    note(n);
    CALLS.with(|calls| calls.set(open + 1));
    Call(true)
}

fn note(n: usize) {
    NODES.with(|nodes| nodes.borrow_mut().push(n));
}

/// Forgets the nodes noted so far.
pub fn begin() {
    NODES.with(|nodes| nodes.borrow_mut().clear());
    CALLS.with(|calls| calls.set(0));
}

/// The nodes noted since `begin`.
pub fn nodes() -> Vec<usize> {
    NODES.with(|nodes| std::mem::take(&mut *nodes.borrow_mut()))
}

/// Traces of this thread give up after so many nodes. A table with shared branches can take very
/// long.
pub fn set_patience(nodes: usize) {
    PATIENCE.with(|p| p.set(nodes));
}

/// Whether loading passes over the texture section once its count is read.
#[inline(always)]
pub fn skips_textures() -> bool {
    cfg!(feature = "notes") && SKIPS_TEXTURES.with(|skips| skips.get())
}

pub fn set_skips_textures(skips: bool) {
    SKIPS_TEXTURES.with(|s| s.set(skips));
}

/// Loading stands behind the texture count and before the vertices.
#[inline(always)]
pub fn in_textures(inside: bool) {
    if cfg!(feature = "notes") {
        IN_TEXTURES.with(|i| i.set(inside));
    }
}

pub fn is_in_textures() -> bool {
    IN_TEXTURES.with(|i| i.get())
}

/// The file's texture number of the next texture info.
#[inline(always)]
pub fn texture_number(number: usize) {
    if cfg!(feature = "notes") {
        TEXTURE_NUMBERS.with(|numbers| numbers.borrow_mut().push(number));
    }
}

/// The texture numbers noted since the last call.
pub fn texture_numbers() -> Vec<usize> {
    TEXTURE_NUMBERS.with(|numbers| std::mem::take(&mut *numbers.borrow_mut()))
}
