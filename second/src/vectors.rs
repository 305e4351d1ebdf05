//! Cases, what is seen of them, and the vector file.

use crate::lean_questions::{name_leaning, LeaningName};

pub use crate::runs::run;

pub const CHECK: u32 = 1;
pub const SIZE: u32 = 2;
pub const NAME: u32 = 3;
pub const JOIN: u32 = 4;
pub const MEMBER: u32 = 5;
/// a at x types and y string bytes; b is as long as the second output.
pub const APART: u32 = 6;
/// A list to a table, b as long as the byte work slice; and a table to a list.
pub const LIST_READ: u32 = 7;
pub const LIST_WRITTEN: u32 = 8;
/// A module's table, b, on its base, a: the check, the size and the name.
pub const LEANING: u32 = 9;
pub const LEANING_SIZE: u32 = 10;
pub const LEANING_NAME: u32 = 11;
/// A .BTF.ext section, b, beside its table, a; and record y of part x of a
/// section, a, that stands alone.
pub const EXT: u32 = 12;
pub const EXT_RECORD: u32 = 13;

/// The ops that there are.
pub const OPS: [u32; 13] = [
    CHECK,
    SIZE,
    NAME,
    JOIN,
    MEMBER,
    APART,
    LIST_READ,
    LIST_WRITTEN,
    LEANING,
    LEANING_SIZE,
    LEANING_NAME,
    EXT,
    EXT_RECORD,
];

/// What a case may lend at most: places in each u32 slice, and bytes in a, b
/// and the output. Beyond the limits, so that they can be overstepped.
pub const MOST_PLACES: u32 = 20_000;
pub const MOST_BYTES: u32 = 280_000;

/// What is lent or passed in one call.
#[derive(Clone, PartialEq, Eq, Hash, Debug, Default)]
pub struct Case {
    pub op: u32,
    pub index_places: u32,
    pub work_places: u32,
    pub output_bytes: u32,
    pub x: u32,
    pub y: u32,
    pub a: Vec<u8>,
    pub b: Vec<u8>,
}

/// What must be seen afterwards: the answer and each whole lent slice. For a
/// name, `output` is the part, for a member its value in sixteen bytes, for a
/// table taken apart the first output and then the second, for a list that is
/// read the output and then the byte work slice, for a section's record its own
/// bytes.
#[derive(Clone, PartialEq, Eq, Debug, Default)]
pub struct Seen {
    pub number: u32,
    pub inner: u32,
    pub t: u32,
    pub p: u32,
    pub index: Vec<u32>,
    pub work: Vec<u32>,
    pub output: Vec<u8>,
}

/// What b holds in a size question of a pair: the module's table, then the
/// index.
pub fn module_and_index(case: &Case) -> (&[u8], &[u8]) {
    let bytes = 4 * case.output_bytes as usize;
    case.b.split_at(case.b.len().saturating_sub(bytes))
}

/// A name of a pair as C is told it, in more numbers than a file has: is there
/// none, does it lie in the module, where does it begin there, and how long is
/// it.
pub fn told_name(case: &Case) -> [u32; 4] {
    match name_leaning(&case.a, &case.b, case.x) {
        LeaningName::InBase(part) => [0, 0, start_in(&case.a, part), part.len() as u32],
        LeaningName::InModule(part) => [0, 1, start_in(&case.b, part), part.len() as u32],
        LeaningName::Nowhere => [1, 0, 0, 0],
    }
}

/// Where a part of a blob begins in it.
pub fn start_in(blob: &[u8], part: &[u8]) -> u32 {
    (part.as_ptr() as usize - blob.as_ptr() as usize) as u32
}

/// Bytes read as u32 places, low byte first.
pub fn places(bytes: &[u8]) -> Vec<u32> {
    bytes
        .chunks_exact(4)
        .map(|four| u32::from_le_bytes([four[0], four[1], four[2], four[3]]))
        .collect()
}

/// u32 places written as bytes, low byte first.
pub fn bytes_of(places: &[u32]) -> Vec<u8> {
    places
        .iter()
        .flat_map(|place| place.to_le_bytes())
        .collect()
}

/// The sum of a slice; 1 for an empty one.
pub fn sum(bytes: &[u8]) -> u32 {
    let mut sum: u64 = 1;
    for byte in bytes {
        sum = (sum * 257 + u64::from(*byte)) % 4_294_967_291;
    }
    sum as u32
}

/// The last line of a case.
pub fn numbers_of(seen: &Seen) -> [u32; 7] {
    [
        seen.number,
        seen.inner,
        seen.t,
        seen.p,
        sum(&bytes_of(&seen.index)),
        sum(&bytes_of(&seen.work)),
        sum(&seen.output),
    ]
}

/// The whole vector file.
pub fn file(cases: &[Case]) -> Vec<u8> {
    let mut file = b"SCRV".to_vec();
    file.extend(bytes_of(&[1, cases.len() as u32]));
    for case in cases {
        let first = [
            case.op,
            case.index_places,
            case.work_places,
            case.output_bytes,
            case.x,
            case.y,
            case.a.len() as u32,
            case.b.len() as u32,
        ];
        file.extend(bytes_of(&first));
        file.extend(&case.a);
        file.extend(&case.b);
        file.extend(bytes_of(&numbers_of(&run(case))));
    }
    file
}
