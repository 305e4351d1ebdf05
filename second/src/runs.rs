//! Each op's call: what this implementation answers to a case, and how it
//! leaves what is lent.

use crate::apart::{take_apart, ApartRefusal, Cut};
use crate::check::check;
use crate::ext::check_ext;
use crate::ext_record::ext_record;
use crate::join::join;
use crate::lean::{check_leaning, LeaningRefusal};
use crate::lean_questions::{name_leaning, size_leaning, LeaningName};
use crate::list::{write_list, ListRefusal};
use crate::list_read::read_list;
use crate::name_at::name;
use crate::record::read_member;
use crate::report::Report;
use crate::size::{size, SizeAnswer};
use crate::vectors::{module_and_index, places, Case, Seen, APART, CHECK};
use crate::vectors::{EXT, EXT_RECORD, LEANING, LEANING_NAME, LEANING_SIZE};
use crate::vectors::{LIST_READ, LIST_WRITTEN, MEMBER, NAME, SIZE};

pub fn run(case: &Case) -> Seen {
    match case.op {
        CHECK => run_check(case),
        SIZE => run_size(case),
        NAME => run_name(case),
        MEMBER => run_member(case),
        APART => run_apart(case),
        LIST_READ => run_list_read(case),
        LIST_WRITTEN => run_list_written(case),
        LEANING => run_leaning(case),
        LEANING_SIZE => run_leaning_size(case),
        LEANING_NAME => run_leaning_name(case),
        EXT => run_ext(case),
        EXT_RECORD => run_ext_record(case),
        _ => run_join(case),
    }
}

/// Lent slices before a call, filled as the file's form says.
fn lent(case: &Case) -> Seen {
    Seen {
        index: vec![u32::MAX; case.index_places as usize],
        work: vec![u32::MAX; case.work_places as usize],
        output: vec![165; case.output_bytes as usize],
        ..Seen::default()
    }
}

fn run_check(case: &Case) -> Seen {
    let mut seen = lent(case);
    match check(&case.a, &mut seen.index, &mut seen.work) {
        Ok(count) => seen.t = count,
        Err(report) => put_report(&mut seen, report),
    }
    seen
}

/// The index is b, so no u32 slice is lent.
fn run_size(case: &Case) -> Seen {
    let mut seen = lent(case);
    put_size(&mut seen, size(&case.a, &places(&case.b), case.x));
    seen
}

fn put_size(seen: &mut Seen, answer: SizeAnswer) {
    match answer {
        SizeAnswer::Exact(bytes) => seen.p = bytes,
        SizeAnswer::NoSize => seen.number = 1,
        SizeAnswer::Overflow => seen.number = 2,
        SizeAnswer::Report21 => seen.number = 21,
        SizeAnswer::Report22 => seen.number = 22,
    }
}

fn run_name(case: &Case) -> Seen {
    let (part, nameless) = name(&case.a, case.x);
    Seen {
        number: u32::from(nameless),
        p: part.len() as u32,
        output: part.to_vec(),
        ..lent(case)
    }
}

fn run_join(case: &Case) -> Seen {
    let mut seen = lent(case);
    match join(
        &case.a,
        &case.b,
        &mut seen.index,
        &mut seen.work,
        &mut seen.output,
    ) {
        Ok(length) => seen.p = length as u32,
        Err(refusal) => {
            seen.number = refusal.number();
            put_inner(&mut seen, refusal.inner());
        }
    }
    seen
}

/// b is the record. No output is lent: the value is handed back, and is zeros
/// beside a refusal, which has no span either.
fn run_member(case: &Case) -> Seen {
    let mut seen = lent(case);
    seen.output = vec![0; 16];
    let (index, work) = (&mut seen.index, &mut seen.work);
    match read_member(&case.a, index, work, case.x, case.y, &case.b) {
        Ok(reading) => {
            seen.number = reading.value.number();
            // A record has at most MOST_BYTES, so its bits have 32-bit numbers.
            seen.t = reading.span.first as u32;
            seen.p = reading.span.bits as u32;
            seen.output = reading.value.filled().to_vec();
        }
        Err(refusal) => {
            seen.number = refusal.number();
            put_inner(&mut seen, refusal.inner());
        }
    }
    seen
}

/// Both outputs are filled alike, whatever b holds.
fn run_apart(case: &Case) -> Seen {
    let mut seen = lent(case);
    let mut second = vec![165; case.b.len()];
    let cut = Cut {
        types: case.x,
        strings: case.y,
    };
    let (index, work) = (&mut seen.index, &mut seen.work);
    match take_apart(&case.a, cut, index, work, &mut seen.output, &mut second) {
        Ok(lengths) => [seen.t, seen.p] = lengths.map(|length| length as u32),
        Err(ApartRefusal::Table(report)) => put_report(&mut seen, report),
        Err(refusal) => seen.number = refusal.number(),
    }
    seen.output.extend(second);
    seen
}

/// The byte work slice is filled like an output, whatever b holds.
fn run_list_read(case: &Case) -> Seen {
    let mut seen = lent(case);
    let mut byte_work = vec![165; case.b.len()];
    let (index, work) = (&mut seen.index, &mut seen.work);
    let answer = read_list(&case.a, index, work, &mut byte_work, &mut seen.output);
    put_length(&mut seen, answer);
    seen.output.extend(byte_work);
    seen
}

fn run_list_written(case: &Case) -> Seen {
    let mut seen = lent(case);
    let (index, work) = (&mut seen.index, &mut seen.work);
    let answer = write_list(&case.a, index, work, &mut seen.output);
    put_length(&mut seen, answer);
    seen
}

fn put_length(seen: &mut Seen, answer: Result<usize, ListRefusal>) {
    match answer {
        Ok(length) => seen.p = length as u32,
        Err(refusal) => {
            seen.number = refusal.number();
            put_inner(seen, refusal.inner());
        }
    }
}

fn run_leaning(case: &Case) -> Seen {
    let mut seen = lent(case);
    match check_leaning(&case.a, &case.b, &mut seen.index, &mut seen.work) {
        Ok(count) => seen.t = count,
        Err(LeaningRefusal::Module(report)) => put_report(&mut seen, report),
        Err(refusal) => {
            seen.number = refusal.number();
            put_inner(&mut seen, refusal.inner());
        }
    }
    seen
}

/// Nothing is lent: the field for an output's bytes counts the index's places.
fn run_leaning_size(case: &Case) -> Seen {
    let mut seen = Seen::default();
    let (module, index) = module_and_index(case);
    let answer = size_leaning(&case.a, case.y, module, &places(index), case.x);
    put_size(&mut seen, answer);
    seen
}

/// Whether there is a name is not told apart from an empty one.
fn run_leaning_name(case: &Case) -> Seen {
    let part = match name_leaning(&case.a, &case.b, case.x) {
        LeaningName::InBase(part) | LeaningName::InModule(part) => part,
        LeaningName::Nowhere => &[],
    };
    Seen {
        p: part.len() as u32,
        output: part.to_vec(),
        ..Seen::default()
    }
}

/// Acceptance answers 0 and nothing else.
fn run_ext(case: &Case) -> Seen {
    let mut seen = lent(case);
    if let Err(refusal) = check_ext(&case.a, &case.b, &mut seen.index, &mut seen.work) {
        seen.number = refusal.number();
        put_inner(&mut seen, refusal.inner());
    }
    seen
}

/// Nothing is lent: the record's bytes stand in the section.
fn run_ext_record(case: &Case) -> Seen {
    match ext_record(&case.a, case.x, case.y) {
        Some(record) => Seen {
            t: record.group_name,
            p: record.place as u32,
            output: record.bytes.to_vec(),
            ..Seen::default()
        },
        None => Seen {
            number: 1,
            ..Seen::default()
        },
    }
}

/// A report that is the answer itself.
fn put_report(seen: &mut Seen, report: Report) {
    seen.number = report.number;
    seen.t = report.type_number;
    seen.p = report.place;
}

/// The report inside a refusal, where there is one.
fn put_inner(seen: &mut Seen, inner: Option<Report>) {
    if let Some(report) = inner {
        seen.inner = report.number;
        seen.t = report.type_number;
        seen.p = report.place;
    }
}
