//! The archive and this implementation in one process: generated cases of
//! every op through both, until the first that differs.
//!
//!     beside [--seed N] [--cases N | --groupings N]
//!
//! The fixed cases come first, as many as fit the count: tables at the limits,
//! and every rule's edges. Lent lengths vary with the seed. With `--groupings` so
//! many lists of two to sixteen of the tables of example/ are joined instead,
//! each in two random ways of bracketing, and taken apart again at every join.
//! Status 1 for a difference, 2 for a wrong call.

use second::beside::Trial;
use second::census::Census;
use second::generate::random::Random;
use second::generate::{cases, Scale, Wanted};
use second::groupings::Groupings;
use second::vectors::{Case, APART, CHECK, EXT, EXT_RECORD, JOIN, LEANING};
use second::vectors::{LIST_READ, LIST_WRITTEN, OPS};
use std::path::Path;
use std::process::ExitCode;

const USAGE: &str = "beside [--seed N] [--cases N | --groupings N]";

/// Of a thousand generated cases, how many have each scale.
const SHARES: [(Scale, usize); 3] = [(Scale::Small, 400), (Scale::Full, 590), (Scale::Long, 10)];

fn main() -> ExitCode {
    let arguments: Vec<String> = std::env::args().skip(1).collect();
    let Some(asked) = asked(&arguments) else {
        eprintln!("{USAGE}");
        return ExitCode::from(2);
    };
    let (agreed, differed) = match asked.groupings {
        Some(count) => groupings(asked.seed, count),
        None => generated(asked.seed, asked.cases),
    };
    println!("{agreed} agreed, {} differed", u32::from(differed));
    ExitCode::from(u8::from(differed))
}

/// How many cases agreed, and whether one then differed.
fn generated(seed: u64, count: usize) -> (usize, bool) {
    let mut run = Run {
        r: Random::new(seed),
        left: count,
        census: Census::default(),
    };
    let [small, any, long] = SHARES.map(|(_, count)| count);
    println!(
        "seed {seed}; of 1000 generated cases {small} are small, {any} of any size, {long} long"
    );
    let differed = run.all().is_err();
    println!("{}", run.summary());
    (count - run.left, differed)
}

/// The same of lists of the tables in example/.
fn groupings(seed: u64, count: usize) -> (usize, bool) {
    let folder = Path::new(env!("CARGO_MANIFEST_DIR")).join("../example");
    let mut groupings = Groupings::of(&folder).expect("the tables of example/");
    let [little, big] = groupings.counts();
    println!("seed {seed}; {little} little-endian tables and {big} big-endian");
    let mut r = Random::new(seed);
    let mut longest = 0;
    for agreed in 0..count {
        match groupings.compare(&mut r) {
            Ok(bytes) => longest = longest.max(bytes),
            Err(what) => {
                println!("differs: list {}: {what}", agreed + 1);
                return (agreed, true);
            }
        }
    }
    println!("the longest joined table has {longest} bytes");
    (count, false)
}

/// What the words ask for.
struct Asked {
    seed: u64,
    cases: usize,
    groupings: Option<usize>,
}

fn asked(arguments: &[String]) -> Option<Asked> {
    let mut asked = Asked {
        seed: 1,
        cases: 50_000,
        groupings: None,
    };
    for pair in arguments.chunks(2) {
        let value = pair.get(1)?.parse::<u64>().ok()?;
        match pair[0].as_str() {
            "--seed" => asked.seed = value,
            "--cases" => asked.cases = value as usize,
            "--groupings" => asked.groupings = Some(value as usize),
            _ => return None,
        }
    }
    Some(asked)
}

/// A case has differed; it has been printed.
struct Differed;

struct Run {
    r: Random,
    left: usize,
    census: Census,
}

impl Run {
    fn all(&mut self) -> Result<(), Differed> {
        let mut fixed = cases(&self.wanted(vec![1, 2, 3, 4], Scale::Full, 0, true));
        for op in &OPS[4..] {
            fixed.extend(cases(&self.wanted(vec![*op], Scale::Full, 0, true)));
        }
        println!("{} fixed cases before them", fixed.len().min(self.left));
        self.some(fixed)?;
        while self.left > 0 {
            for (scale, count) in SHARES {
                let wanted = self.wanted(OPS.to_vec(), scale, count.min(self.left), false);
                self.some(cases(&wanted))?;
            }
        }
        Ok(())
    }

    /// Of the fixed cases of members and pairs the short choice: the whole would leave no room for generated ones.
    fn wanted(&mut self, ops: Vec<u32>, scale: Scale, cases: usize, fixed: bool) -> Wanted {
        let thin = ops.len() == 1;
        Wanted {
            seed: self.r.next(),
            cases,
            ops,
            scale,
            edges: fixed,
            thin,
            large: fixed,
            ..Wanted::default()
        }
    }

    /// Each of these, as long as any are left to try.
    fn some(&mut self, cases: Vec<Case>) -> Result<(), Differed> {
        for case in cases.into_iter().take(self.left) {
            let trial = Trial::new(&mut self.r, case);
            match trial.compare() {
                Ok(seen) => self.census.add(trial.case.op, &seen),
                Err(what) => {
                    print_case(&trial, &what);
                    return Err(Differed);
                }
            }
            self.left -= 1;
        }
        Ok(())
    }

    /// The census, and how many checks, joins, pairs, cuts, lists, sections and
    /// records went through.
    fn summary(&self) -> String {
        let mut text = self.census.text();
        for (op, what) in [
            (CHECK, "checks accepted"),
            (JOIN, "joins done"),
            (LEANING, "pairs accepted"),
            (APART, "tables taken apart"),
            (LIST_READ, "lists read"),
            (LIST_WRITTEN, "lists written"),
            (EXT, "sections accepted"),
            (EXT_RECORD, "records found"),
        ] {
            let (done, all) = (self.census.count(op, Some(0)), self.census.count(op, None));
            let percent = 100.0 * done as f64 / all.max(1) as f64;
            text += &format!("{what}: {done} of {all} ({percent:.1} %)\n");
        }
        text.trim_end().to_string()
    }
}

fn print_case(trial: &Trial, what: &str) {
    let case = &trial.case;
    println!("differs: {what}");
    println!(
        "op {}, x {}, y {}, index {} places, work {} places, output {} bytes, answer {} places",
        case.op,
        case.x,
        case.y,
        case.index_places,
        case.work_places,
        case.output_bytes,
        trial.answer_places
    );
    println!("a: {}", hexadecimal(&case.a));
    println!("b: {}", hexadecimal(&case.b));
}

fn hexadecimal(bytes: &[u8]) -> String {
    bytes.iter().map(|byte| format!("{byte:02x}")).collect()
}
