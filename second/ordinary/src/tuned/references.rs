//! Phases 4 to 6 of one record, by what is known of the types that it refers
//! to.

use super::state::*;
use crate::kinds::*;
use crate::words::{words, Order};

/// What the references of a record say of it.
#[derive(Clone, Copy)]
pub struct Seen {
    /// What is found of its state. It is open without VALUE and CHAIN.
    pub found: u32,
    pub word: u32,
    /// 13 or 15, or 0 for none.
    pub fault: u32,
}

impl Seen {
    /// Of a record that refers to none.
    #[inline(always)]
    pub fn done(class: u32, word: u32) -> Seen {
        Seen {
            found: class | DONE,
            word,
            fault: 0,
        }
    }

    /// Of a STRUCT or UNION without a fault, with VALUE or without.
    #[inline(always)]
    pub fn structure(value: u32, size: u32) -> Seen {
        Seen {
            found: BYTES | CHAIN | value,
            word: size,
            fault: 0,
        }
    }

    /// 13 where a reference is forbidden; 15 where a rule is broken and all
    /// that it asks for is known.
    #[inline(always)]
    pub fn judged(allowed: bool, kept: bool, found: u32, word: u32) -> Seen {
        let fault = if !allowed {
            13
        } else if !kept && found & VALUE != 0 {
            15
        } else {
            0
        };
        Seen { found, word, fault }
    }

    /// What is found and the word; nothing where there is a fault.
    #[inline(always)]
    pub fn without_fault(self) -> Option<(u32, u32)> {
        (self.fault == 0).then_some((self.found, self.word))
    }
}

/// A pointer has its size whatever it leads to.
#[inline(always)]
pub fn pointer(known: Known, to: u32) -> Seen {
    let (state, _) = known.at(to);
    let found = BYTES | VALUE | state & CHAIN;
    Seen::judged(state & REFERABLE != 0, true, found, 8)
}

/// TYPEDEF, a qualifier or TYPE_TAG: all that is known of a type is known of
/// its other name.
#[inline(always)]
pub fn alias(known: Known, of: u32) -> Seen {
    let (state, word) = known.at(of);
    let found = state & (CLASS | DONE);
    Seen::judged(state & REFERABLE != 0, true, found, word)
}

/// The element, the index and the count of an ARRAY.
#[inline(always)]
pub fn array(known: Known, [element, index, count]: [u32; 3]) -> Seen {
    let (of, word) = known.at(element);
    let (by, _) = known.at(index);
    let allowed = of & PLAIN != 0 && may_be(by, INT);
    let kept = of & CLASS != NO_SIZE && by & CLASS == REGULAR;
    let (class, word) = product(of, word, count);
    let found = class | of & by & VALUE | CHAIN;
    Seen::judged(allowed, kept, found, word)
}

/// Zero elements of an overflowing type are 0 bytes.
#[inline(always)]
fn product(of: u32, word: u32, count: u32) -> (u32, u32) {
    match size_of(of, word) {
        Some(bytes) => match bytes.checked_mul(count) {
            Some(bytes) => (BYTES, bytes),
            None => (OVERFLOW, 0),
        },
        None if of & CLASS == OVERFLOW && count == 0 => (BYTES, 0),
        None => (of & CLASS, 0),
    }
}

/// A VAR must have a size; nobody asks for its base.
#[inline(always)]
pub fn variable(known: Known, of: u32) -> Seen {
    let (state, word) = known.at(of);
    let size = size_of(state, word);
    let class = if size.is_some() { BYTES } else { state & CLASS };
    let found = class | state & VALUE | CHAIN;
    let word = size.unwrap_or(0);
    Seen::judged(state & PLAIN != 0, size.is_some(), found, word)
}

/// A FUNC's prototype names every parameter but a last 0/0.
#[inline(always)]
pub fn function(known: Known, of: u32) -> Seen {
    let (state, _) = known.at(of);
    let found = NO_SIZE | CHAIN | if_seen(state);
    Seen::judged(may_be(state, FUNC_PROTO), state & NAMED != 0, found, 0)
}

/// VALUE where only the kind of what is referred to is asked for.
#[inline(always)]
fn if_seen(state: u32) -> u32 {
    if state == UNSEEN {
        0
    } else {
        VALUE
    }
}

/// What a FUNC_PROTO returns, and its parameters. Where one of type 0 may stand
/// has been judged by then.
#[inline(always)]
pub fn prototype<O: Order>(known: Known, returns: u32, tail: &[u8]) -> Seen {
    let (mut all, _) = known.at(returns);
    let mut seen = if_seen(all);
    for parameter in tail.as_chunks::<8>().0 {
        let [_, of] = words::<O, 8, 2>(parameter);
        let (state, _) = known.at(of);
        all &= state;
        seen &= if_seen(state);
    }
    Seen::judged(all & REFERABLE != 0, true, NO_SIZE | CHAIN | seen, 0)
}

/// The entries of a DATASEC of this size.
pub fn section<O: Order>(known: Known, size: u32, tail: &[u8]) -> Seen {
    let (mut all, mut allowed, mut kept, mut reached) = (VALUE, true, true, 0);
    for entry in tail.as_chunks::<12>().0 {
        let [of, start, bytes] = words::<O, 12, 3>(entry);
        let (state, word) = known.at(of);
        all &= state;
        allowed &= may_be(state, VAR);
        // a variable's word is its size where it has one
        kept &= match state & CLASS {
            BYTES => bytes >= word,
            class => class != OVERFLOW,
        };
        let end = u64::from(start) + u64::from(bytes);
        kept &= size == 0 || u64::from(start) >= reached && end <= u64::from(size);
        reached = end;
    }
    Seen::judged(allowed, kept, BYTES | all & VALUE | CHAIN, size)
}

/// A DECL_TAG's component: all ones, or below the count of what it tags.
pub fn tag<O: Order>(known: Known, records: &[u8], to: u32, component: u32) -> Seen {
    let (state, _) = known.at(to);
    let (below, seen) = match kind_of(state) {
        STRUCT | UNION => (vlen(word_of::<O>(records, state, 4)), VALUE),
        FUNC => {
            let (of, _) = known.at(word_of::<O>(records, state, 8));
            (vlen(word_of::<O>(records, of, 4)), if_seen(of))
        }
        _ => (0, if_seen(state)),
    };
    let allowed = one_of(TAGGED, kind_of(state)) || state == UNSEEN;
    let kept = component == u32::MAX || (component as usize) < below;
    Seen::judged(allowed, kept, NO_SIZE | CHAIN | seen, 0)
}

/// A word of the head of a record that has been walked over.
fn word_of<O: Order>(records: &[u8], state: u32, at: usize) -> u32 {
    let rest = records.get(place_of(state) + at..).unwrap_or_default();
    rest.first_chunk().map_or(0, |four| O::word(*four))
}
