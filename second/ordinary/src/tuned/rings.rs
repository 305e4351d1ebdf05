//! Report 14: a search from every type that is open after two passes.

use super::settle::{judge, simply, Walked};
use super::state::*;
use super::Table;
use crate::kinds::*;
use crate::words::{words, Order};
use crate::Report;

/// From the smallest type on, so that the first from which a ring is found is
/// the one to be named. Sections are no part of a walk; they ask for the sizes
/// of their variables, and are judged when all have them.
pub fn search<O: Order>(table: &Table) -> Result<(), Report> {
    for number in 1..table.states.len() {
        let has = |mark| table.states[number].get() & mark != 0;
        let is_section = kind_of(table.states[number].get()) == DATASEC;
        let ends = has(VALUE) || is_section || by_value::<O>(table, number);
        if !ends || !has(CHAIN) && !along_chain::<O>(table, number) {
            return Err(table.report(14, number));
        }
    }
    for number in 1..table.states.len() {
        if table.states[number].get() & VALUE == 0 {
            judge::<O>(table, number);
        }
    }
    Ok(())
}

/// Of an open type on the search's path, its word has the type that the search
/// came from, and above that the number of the member that is next.
const FROM: u32 = 0x7FFF;
const NEXT_AT: u32 = 15;

/// Settles an open type and all open ones that it holds, deepest first. False
/// where the search comes back to its own path.
fn by_value<O: Order>(table: &Table, root: usize) -> bool {
    let known = table.known();
    let (states, path) = (known.states, known.words);
    let mut at = root;
    states[root].set(states[root].get() | PATH);
    path[root].set(0);
    loop {
        let (state, way) = (states[at].get(), path[at].get());
        match step::<O>(table, known, state, way >> NEXT_AT) {
            Step::Into(to, next) => {
                let to_state = states[to].get();
                if to_state & PATH != 0 {
                    return false;
                }
                path[at].set(way & FROM | next << NEXT_AT);
                states[to].set(to_state | PATH);
                path[to].set(at as u32);
                at = to;
            }
            Step::Back(found) => {
                match found {
                    Some((found, word)) => {
                        states[at].set(state & !FOUND | found);
                        path[at].set(word);
                    }
                    None => judge::<O>(table, at),
                }
                if at == root {
                    return true;
                }
                at = (way & FROM) as usize;
            }
        }
    }
}

enum Step {
    /// Into an open type; when back, with this member.
    Into(usize, u32),
    /// None is open: this is found of the record, with its word, if it is found
    /// simply.
    Back(Option<(u32, u32)>),
}

/// What the search does at an open record, of whose members those before `next`
/// are settled.
#[inline(always)]
fn step<O: Order>(table: &Table, known: Known, state: u32, next: u32) -> Step {
    let Some(record) = Walked::at::<O>(table, state) else {
        return Step::Back(None);
    };
    let open = match record.kind {
        STRUCT | UNION => open_member::<O>(known, record, next),
        ARRAY => record
            .words::<O, 4, 1>()
            .and_then(|[of]| open(known, of, 0)),
        _ => open(known, record.third, 0),
    };
    match open {
        Some((to, next)) => Step::Into(to as usize, next),
        None => Step::Back(simply::<O>(known, record)),
    }
}

#[inline(always)]
fn open_member<O: Order>(known: Known, record: Walked, next: u32) -> Option<(u32, u32)> {
    let (members, _) = record.entries(12)?.as_chunks::<12>();
    let left = members.get(next as usize..)?;
    left.iter().zip(next + 1..).find_map(|(member, next)| {
        let [_, of, _] = words::<O, 12, 3>(member);
        open(known, of, next)
    })
}

#[inline(always)]
fn open(known: Known, number: u32, next: u32) -> Option<(u32, u32)> {
    let (state, _) = known.at(number);
    (state & VALUE == 0).then_some((number, next))
}

/// Settles an open chain of pointers and qualifiers: to its end, and once more
/// to mark it. False where it has none.
fn along_chain<O: Order>(table: &Table, root: usize) -> bool {
    let states = table.states;
    let mut at = root;
    while states[at].get() & CHAIN == 0 {
        if states[at].get() & PATH != 0 {
            return false;
        }
        states[at].set(states[at].get() | PATH);
        at = next::<O>(table, at);
    }
    at = root;
    while states[at].get() & CHAIN == 0 {
        states[at].set(states[at].get() & !PATH | CHAIN);
        at = next::<O>(table, at);
    }
    true
}

fn next<O: Order>(table: &Table, at: usize) -> usize {
    let record = Walked::at::<O>(table, table.states[at].get());
    record.map_or(0, |record| record.third as usize)
}
