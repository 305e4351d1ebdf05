//! Phase 5, report 14: endless walks of two sorts.

use crate::table::{Kind, Record, Table};

/// The types a record refers to by value. Void is left out: it doesn't count
/// as a step's end.
pub fn by_value(record: &Record) -> Vec<u32> {
    let mut ends = match record.kind {
        Kind::Array => vec![record.tail[0]],
        Kind::Typedef | Kind::Volatile | Kind::Const => vec![record.third],
        Kind::Restrict | Kind::TypeTag | Kind::Var => vec![record.third],
        Kind::Struct | Kind::Union => record.entries().iter().map(|entry| entry[1]).collect(),
        _ => Vec::new(),
    };
    ends.retain(|end| *end != 0);
    ends
}

/// The kinds where a step of the second sort starts.
pub const CHAIN_KINDS: [Kind; 6] = [
    Kind::Ptr,
    Kind::Typedef,
    Kind::Volatile,
    Kind::Const,
    Kind::Restrict,
    Kind::TypeTag,
];

/// The second sort of step, along a chain of pointers, tags and qualifiers.
/// It may end at any type; void is left out here too.
pub fn along_chain(record: &Record) -> Vec<u32> {
    if CHAIN_KINDS.contains(&record.kind) && record.third != 0 {
        vec![record.third]
    } else {
        Vec::new()
    }
}

/// Both sorts. A walk is of one of them and never changes over.
pub const SORTS: [fn(&Record) -> Vec<u32>; 2] = [by_value, along_chain];

/// The smallest type from which a walk of either sort has n steps.
///
/// A walk of n steps comes to a type again, so these are the types that can
/// reach a ring. Types without a step that leads on are struck out until none
/// is left; from what stays one can always go on.
pub fn report_14(table: &Table) -> Option<u32> {
    smallest(table, |steps| {
        let led_from = turned_round(steps);
        // How many steps of each type lead to types that are not struck out.
        let mut open: Vec<usize> = steps.iter().map(Vec::len).collect();
        let mut ended: Vec<usize> = (0..steps.len()).filter(|at| open[*at] == 0).collect();
        while let Some(at) = ended.pop() {
            for from in &led_from[at] {
                open[*from] -= 1;
                if open[*from] == 0 {
                    ended.push(*from);
                }
            }
        }
        open.iter().map(|steps| *steps > 0).collect()
    })
}

/// For each type, where the steps to it start; one that two steps lead from
/// is there twice.
fn turned_round(steps: &[Vec<u32>]) -> Vec<Vec<usize>> {
    let mut led_from = vec![Vec::new(); steps.len()];
    for (from, ends) in steps.iter().enumerate() {
        for end in ends {
            led_from[*end as usize - 1].push(from);
        }
    }
    led_from
}

/// The same in the paper's own words: round k holds the types with a walk of k
/// steps, and there are n rounds.
pub fn report_14_by_the_letter(table: &Table) -> Option<u32> {
    smallest(table, |steps| {
        let mut walks = vec![true; steps.len()];
        for _ in 0..steps.len() {
            walks = one_step_more(steps, &walks);
        }
        walks
    })
}

/// The smallest type with a walk of either sort; `walks` says which types have
/// one over given steps.
fn smallest(table: &Table, walks: fn(&[Vec<u32>]) -> Vec<bool>) -> Option<u32> {
    let named = SORTS.map(|step| {
        let steps: Vec<Vec<u32>> = table.records.iter().map(step).collect();
        walks(&steps).iter().position(|walk| *walk)
    });
    let before = named.into_iter().flatten().min()?;
    Some(before as u32 + 1)
}

/// Given the types with a walk of k steps, those with a walk of k + 1.
fn one_step_more(steps: &[Vec<u32>], walks: &[bool]) -> Vec<bool> {
    steps
        .iter()
        .map(|ends| ends.iter().any(|end| walks[*end as usize - 1]))
        .collect()
}
