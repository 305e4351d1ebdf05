//! Cases written as text for a checker that computes them by itself.

use crate::names::is_identifier;
use crate::vectors::{module_and_index, places, run, told_name, Case, Seen};
use crate::vectors::{APART, CHECK, EXT, LEANING, LEANING_NAME, LEANING_SIZE};
use crate::vectors::{LIST_READ, LIST_WRITTEN, MEMBER, NAME, OPS, SIZE};

/// Whether the text is written for an op: a member's value is left to `replay`.
pub fn has(op: u32) -> bool {
    OPS.contains(&op) && op != MEMBER
}

/// What stands before the first list: the names it leans on, and how a case
/// is held against the definitions.
const HEADER: &str = include_str!("judge.txt");

/// Cases that the checker builds itself, since they are too long to write.
const LIMITS: &str = include_str!("judge_limits.txt");

/// The whole file: lists of at most so many cases, cases1, cases2 and so on,
/// behind the long ones, if those are wanted.
pub fn file(cases: &[Case], in_a_list: usize, with_limits: bool) -> String {
    let mut text = HEADER.to_string();
    if with_limits {
        text.push_str(&format!("\n{LIMITS}"));
    }
    for (before, group) in cases.chunks(in_a_list).enumerate() {
        let lines: Vec<String> = group.iter().map(line).collect();
        text.push_str(&named_list(before + 1, &lines));
    }
    text
}

/// The surface syntax of a named list, one case on a line, and of the claim
/// that the definitions agree with all of it.
fn named_list(which: usize, lines: &[String]) -> String {
    let mut text = format!("\ncases{which} : List Case\ncases{which} =\n");
    for line in lines {
        text.push_str(&format!("    {line} ∷\n"));
    }
    text.push_str(&format!(
        "    []\n\nagree{which} : differing 1 cases{which} ≡ []\n\
         unfolding computes {UNFOLDED} cases{which}\nagree{which} = refl\n"
    ));
    text
}

/// How cases are held against the definitions, and what those of a pair, of a
/// cut, of a list and of a section unfold.
const UNFOLDED: &str = "leans cuts lists section_computes checked sized named joined apart \
                        list_read list_written leaning leaning_sized leaning_named sectioned recorded";

/// The surface syntax of a list of numbers.
fn numbers(list: &[u32]) -> String {
    let mut text = String::from("(");
    for number in list {
        text.push_str(&format!("{number} ∷ "));
    }
    text.push_str("[])");
    text
}

/// The surface syntax of a case: head, a, b, index, output.
fn line(case: &Case) -> String {
    let parts = parts(case, &run(case)).map(|part| numbers(&part));
    format!("case {}", parts.join(" "))
}

/// How many bytes a name has that is an identifier, else 0.
fn identifier_length(case: &Case, seen: &Seen) -> u32 {
    if case.op == NAME && is_identifier(&seen.output) {
        seen.p
    } else {
        0
    }
}

/// The five lists of a case. The index is the lent one for a size question,
/// which is then not written as bytes of b, and the one afterwards for a
/// check, a table taken apart, a list and a section; the output is the one
/// afterwards, a name's part, or a record's bytes.
fn parts(case: &Case, seen: &Seen) -> [Vec<u32>; 5] {
    let [number, inner, t, p] = match case.op {
        LEANING_NAME => told_name(case),
        _ => [seen.number, seen.inner, seen.t, seen.p],
    };
    let head = vec![
        case.op,
        case.index_places,
        case.work_places,
        case.output_bytes,
        case.x,
        number,
        inner,
        t,
        p,
        identifier_length(case, seen),
        case.y,
    ];
    let wide = |bytes: &[u8]| {
        bytes
            .iter()
            .map(|byte| u32::from(*byte))
            .collect::<Vec<u32>>()
    };
    let (b, index) = match case.op {
        SIZE => (Vec::new(), places(&case.b)),
        LEANING_SIZE => {
            let (module, index) = module_and_index(case);
            (wide(module), places(index))
        }
        CHECK | LEANING | APART | LIST_READ | LIST_WRITTEN | EXT => {
            (wide(&case.b), seen.index.clone())
        }
        _ => (wide(&case.b), Vec::new()),
    };
    [head, wide(&case.a), b, index, wide(&seen.output)]
}
