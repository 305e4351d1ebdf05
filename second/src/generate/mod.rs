//! The generator: cases of every op from a seed. The same seed, count and
//! choices give the same cases on every machine.

pub mod apart_cases;
pub mod check_cases;
pub mod crossing;
pub mod damage_bytes;
pub mod damage_ext;
pub mod damage_ext_parts;
pub mod damage_fields;
pub mod damage_layout;
pub mod damage_references;
pub mod damage_words;
pub mod edges;
pub mod edges_apart;
pub mod edges_apart_words;
pub mod edges_ext;
pub mod edges_ext_parts;
pub mod edges_ext_records;
pub mod edges_faults;
pub mod edges_joins;
pub mod edges_layout;
pub mod edges_leaning;
pub mod edges_leaning_bases;
pub mod edges_leaning_names;
pub mod edges_leaning_sizes;
pub mod edges_leaning_types;
pub mod edges_list;
pub mod edges_list_lent;
pub mod edges_names;
pub mod edges_offsets;
pub mod edges_order_joins;
pub mod edges_order_sizes;
pub mod edges_orders;
pub mod edges_pointers;
pub mod edges_questions;
pub mod edges_records;
pub mod edges_sections;
pub mod edges_spans;
pub mod edges_tails;
pub mod edges_values;
pub mod edges_walks;
pub mod every_byte;
pub mod ext_cases;
pub mod ext_questions;
pub mod ext_valid;
pub mod fields;
pub mod grow;
pub mod grow_members;
pub mod heavy;
pub mod heavy_slow;
pub mod join_cases;
pub mod joined;
pub mod large;
pub mod large_apart;
pub mod large_ext;
pub mod large_fixed;
pub mod large_joins;
pub mod large_leaning;
pub mod large_lists;
pub mod large_records;
pub mod leaning_cases;
pub mod leaning_questions;
pub mod list_cases;
pub mod long;
pub mod long_apart;
pub mod long_ext;
pub mod long_lists;
pub mod long_pairs;
pub mod name_cases;
pub mod pair;
pub mod pieces;
pub mod random;
pub mod record_cases;
pub mod scene_members;
pub mod size_cases;
pub mod turn;
pub mod valid;

use crate::vectors::{run, Case, APART, CHECK, EXT, EXT_RECORD, JOIN};
use crate::vectors::{
    LEANING, LEANING_NAME, LEANING_SIZE, LIST_READ, LIST_WRITTEN, MEMBER, NAME, SIZE,
};
use random::Random;
use turn::in_some_order;

/// How large cases may be.
#[derive(Clone, Copy, PartialEq, Eq, Debug)]
pub enum Scale {
    /// For a checker that computes slowly.
    Tiny,
    /// No limits are reached.
    Small,
    /// Mostly small, some at the limits.
    Full,
    /// Checks, joins, members, pairs, joins taken apart, lists and sections of
    /// long tables only; the rest as at full scale.
    Long,
}

/// Which cases are wanted.
pub struct Wanted {
    pub seed: u64,
    pub cases: usize,
    pub ops: Vec<u32>,
    pub scale: Scale,
    /// Only cases with this answer number.
    pub only: Option<u32>,
    /// The fixed cases of every rule's edges, in front of a seed's.
    pub edges: bool,
    /// Of these, only the part of this name.
    pub part: Option<String>,
    /// Fewer of the edges crossed with each other, for a short file.
    pub thin: bool,
    /// The fixed tables at the limits, in front of everything.
    pub large: bool,
    /// Every byte at every place of a name, between those and the edges.
    pub names: bool,
}

/// No case of any sort: whoever wants some says which.
impl Default for Wanted {
    fn default() -> Wanted {
        Wanted {
            seed: 1,
            cases: 0,
            ops: vec![1, 2, 3, 4],
            scale: Scale::Full,
            only: None,
            edges: false,
            part: None,
            thin: false,
            large: false,
            names: false,
        }
    }
}

/// Tries for each case before a choice nothing can fulfil is given up.
const MOST_TRIES: usize = 20_000;

pub fn cases(wanted: &Wanted) -> Vec<Case> {
    let mut found = Vec::new();
    if wanted.large {
        found.extend(large_fixed::cases(wanted.thin));
        found.extend(large_joins::cases(wanted.thin));
        found.extend(large_records::cases(wanted.thin));
        found.extend(large_leaning::cases(wanted.thin));
        found.extend(large_apart::cases(wanted.thin));
        found.extend(large_lists::cases(wanted.thin));
        found.extend(large_ext::cases(wanted.thin));
    }
    if wanted.names {
        found.extend(every_byte::cases());
    }
    if wanted.edges {
        // at every scale: an edge left out is a rule that is not tried
        found.extend(match &wanted.part {
            Some(part) => edges::cases_of(part, wanted.thin),
            None => edges::cases(wanted.thin),
        });
    }
    found.retain(|case| asked_for(case, wanted));
    let all = found.len() + wanted.cases;
    let mut r = Random::new(wanted.seed);
    let mut tries = 0;
    while found.len() < all && tries < MOST_TRIES {
        let case = one(&mut r, wanted);
        if fits(&case, wanted.scale) && asked_for(&case, wanted) {
            found.push(case);
            tries = 0;
        } else {
            tries += 1;
        }
    }
    found
}

/// Those of some ops behind others: the fixed ones, as far as fixed ones are
/// wanted, and so many of a seed's of each op.
pub struct Behind {
    pub ops: &'static [u32],
    pub cases: usize,
}

impl Behind {
    pub fn members(cases: usize) -> Behind {
        let ops = &[MEMBER];
        Behind { ops, cases }
    }

    pub fn leaning(cases: usize) -> Behind {
        let ops = &[LEANING, LEANING_SIZE, LEANING_NAME];
        Behind { ops, cases }
    }

    pub fn apart(cases: usize) -> Behind {
        let ops = &[APART];
        Behind { ops, cases }
    }

    pub fn listed(cases: usize) -> Behind {
        let ops = &[LIST_READ, LIST_WRITTEN];
        Behind { ops, cases }
    }

    pub fn ext(cases: usize) -> Behind {
        let ops = &[EXT, EXT_RECORD];
        Behind { ops, cases }
    }
}

/// Those wanted, and the others behind them: what stands in front stays as it
/// is without them.
pub fn cases_then(mut wanted: Wanted, behind: &[Behind]) -> Vec<Case> {
    let mut found = cases(&wanted);
    for Behind { ops, cases: count } in behind {
        for op in *ops {
            wanted.ops = vec![*op];
            wanted.cases = *count;
            found.extend(cases(&wanted));
        }
    }
    found
}

/// Has a case an op and the number asked for?
fn asked_for(case: &Case, wanted: &Wanted) -> bool {
    wanted.ops.contains(&case.op) && wanted.only.is_none_or(|number| run(case).number == number)
}

/// Checks, joins, members, pairs, joins taken apart, lists and sections have the
/// most answers, so they come more often.
const WEIGHTED: [u32; 32] = [
    CHECK,
    CHECK,
    CHECK,
    CHECK,
    SIZE,
    SIZE,
    NAME,
    JOIN,
    JOIN,
    JOIN,
    MEMBER,
    MEMBER,
    MEMBER,
    LEANING,
    LEANING,
    LEANING,
    LEANING_SIZE,
    LEANING_SIZE,
    LEANING_NAME,
    APART,
    APART,
    APART,
    LIST_READ,
    LIST_READ,
    LIST_READ,
    LIST_WRITTEN,
    LIST_WRITTEN,
    EXT,
    EXT,
    EXT,
    EXT_RECORD,
    EXT_RECORD,
];

/// Each is made of little-endian tables, and turned round as often as not, but
/// for members: all that is told of a turned table that is accepted is 35.
fn one(r: &mut Random, wanted: &Wanted) -> Case {
    let open: Vec<u32> = WEIGHTED
        .into_iter()
        .filter(|op| wanted.ops.contains(op))
        .collect();
    let case = match (r.pick(&open), wanted.scale) {
        (CHECK, Scale::Long) => long::check(r),
        (JOIN, Scale::Long) => long::join(r),
        (MEMBER, Scale::Long) => return long::member(r),
        (MEMBER, scale) => return record_cases::case(r, scale),
        (APART, Scale::Long) => long_apart::case(r),
        (APART, scale) => apart_cases::case(r, scale),
        (LIST_READ, Scale::Long) => long_lists::read(r),
        (LIST_READ, scale) => list_cases::read(r, scale),
        (LIST_WRITTEN, Scale::Long) => long_lists::write(r),
        (LIST_WRITTEN, scale) => list_cases::write(r, scale),
        (EXT, Scale::Long) => long_ext::check(r),
        (EXT, scale) => ext_cases::case(r, scale),
        (EXT_RECORD, Scale::Long) => long_ext::record(r),
        (EXT_RECORD, scale) => ext_questions::case(r, scale),
        (LEANING, Scale::Long) => long_pairs::check(r),
        (LEANING, scale) => leaning_cases::case(r, scale),
        (LEANING_SIZE, scale) => leaning_questions::size(r, scale),
        (LEANING_NAME, scale) => leaning_questions::name(r, scale),
        (CHECK, scale) => check_cases::case(r, scale),
        (SIZE, scale) => size_cases::case(r, scale),
        (NAME, scale) => name_cases::case(r, scale),
        (_, scale) => join_cases::case(r, scale),
    };
    in_some_order(r, case)
}

/// Tries until a case hits what it is aimed at. Near misses stay too, one in so
/// many: not so many that the spread suffers.
pub fn until(
    r: &mut Random,
    scale: Scale,
    misses: u32,
    hits: impl Fn(&Case) -> bool,
    attempt: impl Fn(&mut Random) -> Case,
) -> Case {
    loop {
        let case = attempt(r);
        let stays = hits(&case) || r.one_in(misses);
        if stays && fits(&case, scale) {
            return case;
        }
    }
}

/// The slow checker takes short tables and slices only.
pub fn fits(case: &Case, scale: Scale) -> bool {
    if scale != Scale::Tiny {
        return true;
    }
    case.a.len() <= 150
        && case.b.len() <= 150
        && case.index_places <= 12
        && case.work_places <= 12
        && case.output_bytes <= 220
        && (case.op != SIZE || case.b.len() <= 48)
}
