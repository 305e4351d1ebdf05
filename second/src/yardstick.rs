//! The ordinary checkers of `ordinary` beside this implementation: a check
//! through all three, compared in the answer and in every place of both slices.

use crate::generate::random::Random;
use crate::generate::{cases, Wanted};
use crate::vectors::{run, Case, CHECK};

pub type Check = fn(&[u8], &mut [u32], &mut [u32]) -> Result<u32, ordinary::Report>;

pub const CHECKERS: [(&str, Check); 2] = [
    ("tuned", ordinary::tuned::check),
    ("plain", ordinary::plain::check),
];

/// So many of a seed's cases are made at a time.
const IN_A_BATCH: usize = 10_000;

/// The fixed checks that are wanted, then so many of a seed's. The first case
/// that differs ends it with an error.
pub fn compare_all(wanted: &Wanted) -> Result<String, String> {
    let mut r = Random::new(wanted.seed);
    let mut trial = Trial::default();
    let mut batch = Wanted {
        cases: 0,
        ops: vec![CHECK],
        part: wanted.part.clone(),
        ..*wanted
    };
    trial.compare(&mut r, cases(&batch))?;
    (batch.edges, batch.large, batch.names) = (false, false, false);
    let mut left = wanted.cases;
    while left > 0 {
        batch.seed = r.next();
        batch.cases = left.min(IN_A_BATCH);
        left -= batch.cases;
        trial.compare(&mut r, cases(&batch))?;
    }
    Ok(trial.text())
}

/// How many cases have agreed, and how many of them were accepted.
#[derive(Default)]
struct Trial {
    agreed: usize,
    accepted: usize,
}

impl Trial {
    fn compare(&mut self, r: &mut Random, cases: Vec<Case>) -> Result<(), String> {
        for case in cases {
            match difference(r, &case) {
                None => self.agreed += 1,
                Some(what) => return Err(format!("{what}\n{} agreed, 1 differed", self.agreed)),
            }
            self.accepted += usize::from(run(&case).number == 0);
        }
        Ok(())
    }

    fn text(&self) -> String {
        format!(
            "{} of them accepted\n{} agreed, 0 differed\n",
            self.accepted, self.agreed
        )
    }
}

/// What differs, if anything does. The slices hold anything before a call, and
/// not the same for each checker.
pub fn difference(r: &mut Random, case: &Case) -> Option<String> {
    let wanted = run(case);
    CHECKERS.iter().find_map(|(name, check)| {
        let mut index = anything(r, case.index_places);
        let mut work = anything(r, case.work_places);
        let told = match check(&case.a, &mut index, &mut work) {
            Ok(count) => [0, count, 0],
            Err(report) => [report.number, report.type_number, report.place],
        };
        let asked = [wanted.number, wanted.t, wanted.p];
        if told == asked && index == wanted.index && work == wanted.work {
            return None;
        }
        let blob: String = case.a.iter().map(|byte| format!("{byte:02x}")).collect();
        Some(format!(
            "{name} answers {told:?} and not {asked:?}; index {:?}.. and not {:?}.., \
             {} places; work of {} places\n{blob}",
            head(&index),
            head(&wanted.index),
            case.index_places,
            case.work_places
        ))
    })
}

fn head(places: &[u32]) -> &[u32] {
    &places[..places.len().min(12)]
}

fn anything(r: &mut Random, places: u32) -> Vec<u32> {
    let first = r.word();
    let step = r.pick(&[0, 1, 0x9E37_79B9]);
    (0..places)
        .map(|at| first.wrapping_add(at.wrapping_mul(step)))
        .collect()
}
