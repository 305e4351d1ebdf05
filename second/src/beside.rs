//! One case through the archive and through this implementation, compared in
//! every number and every place of every slice.

use crate::apart::Cut;
use crate::archive;
use crate::archive_ext;
use crate::archive_leaning::{self, Blobs};
use crate::archive_list;
use crate::generate::random::Random;
use crate::vectors::{module_and_index, places, run, start_in, told_name, Case, Seen};
use crate::vectors::{APART, CHECK, EXT, EXT_RECORD, JOIN, LEANING, LEANING_NAME, LEANING_SIZE};
use crate::vectors::{LIST_READ, LIST_WRITTEN, MEMBER, MOST_BYTES, MOST_PLACES, NAME, SIZE};

/// The ops whose answer is all that is written.
const QUESTIONS: [u32; 5] = [SIZE, NAME, LEANING_SIZE, LEANING_NAME, EXT_RECORD];

/// What stands in an answer's place before a call; no answer has this number.
const UNTOLD: u32 = 0xA5A5_A5A5;

/// Everything a call reads or writes. The written slices have a place more at
/// each end that is not lent, so that a write outside would be seen.
#[derive(Clone, PartialEq, Eq)]
struct Slices {
    a: Vec<u8>,
    b: Vec<u8>,
    given: Vec<u32>,
    index: Vec<u32>,
    work: Vec<u32>,
    output: Vec<u8>,
    /// The second output of a table taken apart, or the byte work slice of a
    /// list that is read; else nothing of it is lent.
    second_output: Vec<u8>,
    answer: Vec<u32>,
}

/// A case with what the archive is lent besides.
pub struct Trial {
    pub case: Case,
    pub answer_places: usize,
    /// How far behind an aligned place both blobs begin.
    pub shift: usize,
}

impl Trial {
    /// Lent lengths are mostly the case's own; answers mostly fit.
    pub fn new(r: &mut Random, mut case: Case) -> Trial {
        if !QUESTIONS.contains(&case.op) {
            case.index_places = lent(r, case.index_places, MOST_PLACES);
            case.work_places = lent(r, case.work_places, MOST_PLACES);
        }
        if [JOIN, APART, LIST_READ, LIST_WRITTEN].contains(&case.op) {
            case.output_bytes = lent(r, case.output_bytes, MOST_BYTES);
        }
        if [APART, LIST_READ].contains(&case.op) {
            let bytes = lent(r, case.b.len() as u32, MOST_BYTES);
            case.b.resize(bytes as usize, 0);
        }
        Trial {
            case,
            answer_places: r.pick(&[4, 4, 4, 4, 4, 4, 4, 5, 6, 0, 1, 2, 3]),
            shift: r.below(4) as usize,
        }
    }

    /// The answer, if both leave the same; else the first difference.
    pub fn compare(&self) -> Result<Seen, String> {
        let mut archive = self.slices();
        let mut second = archive.clone();
        self.run_archive(&mut archive);
        let seen = run(&self.case);
        self.put_seen(&seen, &mut second);
        if archive == second {
            Ok(seen)
        } else {
            Err(difference(&archive, &second))
        }
    }

    /// Filled before the call as the form of the vectors says.
    fn slices(&self) -> Slices {
        let case = &self.case;
        // The size question of a pair has its index behind the module's table.
        let (b, index) = match case.op {
            LEANING_SIZE => module_and_index(case),
            _ => (&case.b[..], &case.b[..]),
        };
        Slices {
            a: behind(self.shift, &case.a),
            b: behind(self.shift, b),
            given: places(index),
            index: vec![u32::MAX; case.index_places as usize + 2],
            work: vec![u32::MAX; case.work_places as usize + 2],
            output: vec![165; self.output_bytes() + 2],
            second_output: vec![165; self.second_bytes() + 2],
            answer: vec![UNTOLD; self.answer_places + 2],
        }
    }

    /// The bytes that are lent for an output, or for a member's value.
    fn output_bytes(&self) -> usize {
        match self.case.op {
            MEMBER => 16,
            LEANING_SIZE => 0,
            _ => self.case.output_bytes as usize,
        }
    }

    /// The bytes of b, which nothing else is asked of.
    fn second_bytes(&self) -> usize {
        match self.case.op {
            APART | LIST_READ => self.case.b.len(),
            _ => 0,
        }
    }

    fn run_archive(&self, s: &mut Slices) {
        let a = &s.a[self.shift..];
        let b = &s.b[self.shift..];
        let answer = inner(&mut s.answer);
        let (index, work) = (inner(&mut s.index), inner(&mut s.work));
        let pair = Blobs { base: a, module: b };
        match self.case.op {
            CHECK => archive::check(a, index, work, answer),
            SIZE => archive::size(a, &s.given, self.case.x, answer),
            NAME => archive::name(a, self.case.x, answer),
            MEMBER => self.run_member(a, b, index, work, answer, inner(&mut s.output)),
            APART => {
                let (types, strings) = (self.case.x, self.case.y);
                let cut = Cut { types, strings };
                let outputs = (inner(&mut s.output), inner(&mut s.second_output));
                archive::split(a, cut, index, work, outputs.0, outputs.1, answer)
            }
            LIST_READ => {
                let (bytes, output) = (inner(&mut s.second_output), inner(&mut s.output));
                archive_list::read(a, index, work, bytes, output, answer)
            }
            LIST_WRITTEN => archive_list::write(a, index, work, inner(&mut s.output), answer),
            LEANING => archive_leaning::check(pair, index, work, answer),
            LEANING_SIZE => {
                let (count, number) = (self.case.y, self.case.x);
                archive_leaning::size(pair, count, &s.given, number, answer)
            }
            LEANING_NAME => archive_leaning::name(pair, self.case.x, answer),
            EXT => archive_ext::check(a, b, index, work, answer),
            EXT_RECORD => archive_ext::record(a, self.case.x, self.case.y, answer),
            _ => archive::join(a, b, index, work, inner(&mut s.output), answer),
        }
    }

    /// A member in one call; and of an accepted table the same in two, which
    /// must leave the same.
    fn run_member(
        &self,
        table: &[u8],
        record: &[u8],
        index: &mut [u32],
        work: &mut [u32],
        answer: &mut [u32],
        value: &mut [u8],
    ) {
        let asked = archive::Member {
            type_number: self.case.x,
            member: self.case.y,
        };
        let (mut told, mut given) = (answer.to_vec(), value.to_vec());
        archive::member(table, index, work, asked, record, answer, value);
        let mut checked = [0; 4];
        archive::check(table, index, work, &mut checked);
        if checked[0] == 0 {
            let mut span = [UNTOLD; 5];
            archive::span(table, index, asked, &mut span);
            archive::value(&span, record, &mut told, &mut given);
            assert_eq!((&told[..], &given[..]), (&*answer, &*value));
        }
    }

    /// An answer's numbers. A name is told by where it begins and its length. A
    /// member's answer has a fifth number, which is 0 in every record that is
    /// short enough to be lent here; that of a section's record its bytes.
    fn told(&self, seen: &Seen) -> Vec<u32> {
        match self.case.op {
            NAME => vec![seen.number, 0, name_start(&self.case), seen.p],
            LEANING_NAME => told_name(&self.case).to_vec(),
            MEMBER => vec![seen.number, seen.inner, seen.t, seen.p, 0],
            EXT_RECORD => vec![seen.number, 0, seen.t, seen.p, seen.output.len() as u32],
            _ => vec![seen.number, seen.inner, seen.t, seen.p],
        }
    }

    /// What must be there after the call. No output is lent for a name or a
    /// section's record.
    fn put_seen(&self, seen: &Seen, s: &mut Slices) {
        let told = self.told(seen);
        for (place, number) in inner(&mut s.answer).iter_mut().zip(told) {
            *place = number;
        }
        inner(&mut s.index).copy_from_slice(&seen.index);
        inner(&mut s.work).copy_from_slice(&seen.work);
        if ![NAME, LEANING_NAME, EXT_RECORD].contains(&self.case.op) {
            let (first, second) = seen.output.split_at(self.output_bytes());
            inner(&mut s.output).copy_from_slice(first);
            inner(&mut s.second_output).copy_from_slice(second);
        }
    }
}

/// Mostly as many as the case says; else fewer, more, none or the most.
fn lent(r: &mut Random, own: u32, most: u32) -> u32 {
    match r.below(40) {
        0 => r.below(own + 1),
        1 => own.saturating_sub(1),
        2 => (own + r.between(1, 40)).min(most),
        3 if r.one_in(8) => most,
        4 if r.one_in(4) => 0,
        _ => own,
    }
}

/// The bytes behind so many others.
fn behind(shift: usize, bytes: &[u8]) -> Vec<u8> {
    let mut whole = vec![0x5A; shift];
    whole.extend(bytes);
    whole
}

/// The lent part of a slice.
fn inner<T>(whole: &mut [T]) -> &mut [T] {
    let last = whole.len() - 1;
    &mut whole[1..last]
}

/// Where this implementation's part begins in the blob.
fn name_start(case: &Case) -> u32 {
    let (part, _) = crate::name(&case.a, case.x);
    start_in(&case.a, part)
}

/// The first slice that differs, and where.
fn difference(archive: &Slices, second: &Slices) -> String {
    let bytes = |whole: &[u8]| whole.iter().map(|b| u32::from(*b)).collect::<Vec<u32>>();
    // with the number of places before the lent ones
    let pairs = [
        ("answer", 1, archive.answer.clone(), second.answer.clone()),
        ("index", 1, archive.index.clone(), second.index.clone()),
        ("work", 1, archive.work.clone(), second.work.clone()),
        ("output", 1, bytes(&archive.output), bytes(&second.output)),
        (
            "second output or byte work slice",
            1,
            bytes(&archive.second_output),
            bytes(&second.second_output),
        ),
        (
            "given index",
            0,
            archive.given.clone(),
            second.given.clone(),
        ),
        ("first blob", 0, bytes(&archive.a), bytes(&second.a)),
        ("second blob", 0, bytes(&archive.b), bytes(&second.b)),
    ];
    for (slice, before, left, must) in pairs {
        if let Some(at) = (0..left.len()).find(|at| left[*at] != must[*at]) {
            return format!(
                "{slice}, place {}: the archive has {}, second {}",
                at as i64 - before,
                left[at],
                must[at]
            );
        }
    }
    "no difference".to_string()
}
