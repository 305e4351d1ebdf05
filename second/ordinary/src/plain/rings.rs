//! Phase 5: walks that never end, of two sorts.

use super::Table;
use crate::kinds::*;

/// No endless walk starts here. Of a type on the search's path the work slice
/// has the type that the search came from, and above it the number of the
/// reference that is next.
const ENDS: u32 = u32::MAX;
const FROM: u32 = 0x7FFF;
const NEXT_AT: u32 = 15;

/// The reference of a type by its number from 0, as far as it has as many.
type Step = fn(&Table, u32, usize) -> Option<u32>;

impl Table<'_> {
    /// Report 14: the smallest type from which a walk of either sort is endless.
    pub fn first_endless(&self, work: &mut [u32]) -> Option<u32> {
        let sorts: [Step; 2] = [by_value, along_chain];
        let first = sorts.map(|step| {
            work.fill(0);
            (1..=self.count).find(|root| self.finds_ring(work, *root, step))
        });
        first.into_iter().flatten().min()
    }

    /// Searches as deep as it can, and marks each type when it goes back.
    fn finds_ring(&self, work: &mut [u32], root: u32, step: Step) -> bool {
        if work[root as usize] == ENDS {
            return false;
        }
        let mut at = root;
        work[root as usize] = root;
        loop {
            let (from, next) = (work[at as usize] & FROM, work[at as usize] >> NEXT_AT);
            match step(self, at, next as usize) {
                Some(0) => work[at as usize] = from | (next + 1) << NEXT_AT,
                Some(to) => {
                    work[at as usize] = from | (next + 1) << NEXT_AT;
                    match work[to as usize] {
                        ENDS => (),
                        0 => {
                            work[to as usize] = at;
                            at = to;
                        }
                        _ => return true,
                    }
                }
                None => {
                    work[at as usize] = ENDS;
                    if at == root {
                        return false;
                    }
                    at = from;
                }
            }
        }
    }
}

fn by_value(table: &Table, number: u32, at: usize) -> Option<u32> {
    let info = table.info(number);
    match kind(info) {
        STRUCT | UNION if at < vlen(info) => Some(table.tail(number, 3 * at + 1)),
        ARRAY if at == 0 => Some(table.tail(number, 0)),
        TYPEDEF | VOLATILE | CONST | RESTRICT | TYPE_TAG | VAR if at == 0 => {
            Some(table.third(number))
        }
        _ => None,
    }
}

fn along_chain(table: &Table, number: u32, at: usize) -> Option<u32> {
    match kind(table.info(number)) {
        PTR | TYPEDEF | VOLATILE | CONST | RESTRICT | TYPE_TAG if at == 0 => {
            Some(table.third(number))
        }
        _ => None,
    }
}
