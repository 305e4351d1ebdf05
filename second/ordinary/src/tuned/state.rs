//! What is remembered of a type while its table is judged: a state in its
//! place of the index, and a word in its place of the work slice.

use crate::kinds::{DATASEC, DECL_TAG, FUNC, VAR};
use std::cell::Cell;

/// The record's byte place, which is below 2^18: all that the index keeps.
pub const PLACE: u32 = 0x0003_FFFF;
pub const KIND_AT: u32 = 18;
const CLASS_AT: u32 = 23;
/// What the word is, see below.
pub const CLASS: u32 = 7 << CLASS_AT;
/// Every by-value walk from here ends, and the layout has been judged.
pub const VALUE: u32 = 1 << 26;
/// Every walk along pointers and qualifiers from here ends.
pub const CHAIN: u32 = 1 << 27;
/// The search for rings came by here and has not gone back.
pub const PATH: u32 = 1 << 28;
/// A FUNC_PROTO: every parameter but a last 0/0 has a name.
pub const NAMED: u32 = 1 << 29;
/// Plain or void.
pub const REFERABLE: u32 = 1 << 30;
pub const PLAIN: u32 = 1 << 31;

/// Nothing is left to be asked of a type that has both.
pub const DONE: u32 = VALUE | CHAIN;
/// What is found out later of a type that was left open.
pub const FOUND: u32 = CLASS | DONE | PATH;

/// The word is the size; so it is of an enum, which may be a bit field.
pub const WHOLE: u32 = 1 << CLASS_AT;
pub const BYTES: u32 = WHOLE;
pub const ENUMERATED: u32 = WHOLE | 4 << CLASS_AT;
/// The base is an INT: the word is its tail word, with its size in bits 8 to
/// 15, where a tail word has nothing. A regular one has a class of its own.
pub const INTEGER: u32 = 2 << CLASS_AT;
pub const REGULAR: u32 = INTEGER;
pub const ODD: u32 = INTEGER | 4 << CLASS_AT;
/// No size, and a size above 32 bits.
pub const NO_SIZE: u32 = 4 << CLASS_AT;
pub const OVERFLOW: u32 = 0;

/// Type 0.
pub const VOID: u32 = REFERABLE | NO_SIZE | DONE;
/// Stands for a type behind the walk: it may be of any kind, and is open.
pub const UNSEEN: u32 = PLAIN | REFERABLE;

/// Of a record of this kind, whatever is found out of it.
#[inline(always)]
pub const fn of_kind(kind: u32) -> u32 {
    match kind {
        FUNC | VAR | DATASEC | DECL_TAG => kind << KIND_AT,
        _ => kind << KIND_AT | PLAIN | REFERABLE,
    }
}

#[inline(always)]
pub fn kind_of(state: u32) -> u32 {
    state >> KIND_AT & 31
}

/// Is a type of this kind, or may it be?
#[inline(always)]
pub fn may_be(state: u32, kind: u32) -> bool {
    kind_of(state) == kind || state == UNSEEN
}

#[inline(always)]
pub fn place_of(state: u32) -> usize {
    (state & PLACE) as usize
}

/// The exact size of a type that has one.
#[inline(always)]
pub fn size_of(state: u32, word: u32) -> Option<u32> {
    match state & CLASS {
        BYTES | ENUMERATED => Some(word),
        REGULAR | ODD => Some(word >> 8 & 0xFF),
        _ => None,
    }
}

/// The types that a record may refer to, the first of them void.
#[derive(Clone, Copy)]
pub struct Known<'a> {
    pub states: &'a [Cell<u32>],
    pub words: &'a [Cell<u32>],
    /// The state of a type with a larger number: UNSEEN in the walk. Later there
    /// is none, and 0 is nothing that a reference may lead to.
    pub beyond: u32,
}

impl Known<'_> {
    /// A type's state and word.
    #[inline(always)]
    pub fn at(self, number: u32) -> (u32, u32) {
        let at = number as usize;
        match (self.states.get(at), self.words.get(at)) {
            (Some(state), Some(word)) => (state.get(), word.get()),
            _ => (self.beyond, 0),
        }
    }
}
