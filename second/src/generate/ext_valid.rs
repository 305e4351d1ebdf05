//! Accepted tables with functions, and .BTF.ext sections that are accepted
//! beside them.

use crate::check::judge;
use crate::ext_parts::{RecordSort, RECORD_SORTS};
use crate::generate::grow::grow;
use crate::generate::pieces::{kind_of, types_where};
use crate::generate::random::Random;
use crate::generate::{valid, Scale};
use crate::make::Make;
use crate::make_ext::MakeExt;
use crate::table::Kind;

/// An accepted table, mostly with a function or two.
pub fn table(r: &mut Random, scale: Scale) -> Make {
    loop {
        let mut m = valid::table(r, scale);
        for _ in 0..r.pick(&[0, 1, 1, 1, 2, 2]) {
            grow(r, &mut m, Kind::Func);
        }
        if r.one_in(2) {
            valid::shuffle(r, &mut m);
        }
        if judge(&m.blob(), usize::MAX, usize::MAX).is_ok() {
            return m;
        }
    }
}

/// What the records of a section may lead to.
#[derive(Clone)]
pub struct Targets {
    pub functions: Vec<u32>,
    /// The type count n.
    pub types: u32,
    /// The string length.
    pub strings: u32,
}

impl Targets {
    pub fn of(m: &Make) -> Targets {
        Targets {
            functions: types_where(m, |number| kind_of(m, number) == Some(Kind::Func)),
            types: m.count(),
            strings: m.strings.len() as u32,
        }
    }

    /// Any at all, for a section that stands beside no table.
    pub fn any(r: &mut Random) -> Targets {
        Targets {
            functions: vec![0, 1, r.word()],
            types: 1 << 30,
            strings: r.pick(&[9, 300, 1 << 30]),
        }
    }

    fn name(&self, r: &mut Random) -> u32 {
        let any = r.below(self.strings);
        r.pick(&[0, self.strings - 1, any, any])
    }

    /// So many words of a record; what no rule asks for is anything.
    fn record(&self, r: &mut Random, sort: RecordSort, words: usize) -> Vec<u32> {
        let mut record: Vec<u32> = (0..words).map(|_| free_word(r)).collect();
        match sort {
            RecordSort::Function => record[1] = r.pick(&self.functions),
            RecordSort::Line => {
                record[1] = self.name(r);
                record[2] = self.name(r);
            }
            RecordSort::Relocation => {
                let any = r.below(self.types + 1);
                record[1] = r.pick(&[0, self.types, any, any]);
                record[2] = self.name(r);
            }
        }
        record
    }
}

fn free_word(r: &mut Random) -> u32 {
    let any = r.word();
    r.pick(&[0, 8, 1_030, u32::MAX, any])
}

/// Two parts or three, of which some are empty or just their record size.
pub fn section(r: &mut Random, targets: &Targets, scale: Scale) -> MakeExt {
    let mut e = MakeExt::new(r.pick(&[2, 3, 3]));
    for part in 1..=e.parts.len() {
        let shape = r.below(9);
        if shape == 0 {
            continue;
        }
        let words = begin_part(r, &mut e, part);
        if shape == 1 || !may_have_records(targets, part) {
            continue;
        }
        for _ in 0..some(r, scale) {
            let count = some(r, scale);
            add_group(r, &mut e, targets, part, words, count);
        }
    }
    e
}

/// Its record size, mostly the least; answers that in words.
pub fn begin_part(r: &mut Random, e: &mut MakeExt, part: usize) -> usize {
    let words = RECORD_SORTS[part - 1].words() + r.pick(&[0, 0, 0, 1, 2, 5]);
    e.size(part, 4 * words as u32);
    words
}

/// A table without a FUNC has no function records beside it.
pub fn may_have_records(targets: &Targets, part: usize) -> bool {
    RECORD_SORTS[part - 1] != RecordSort::Function || !targets.functions.is_empty()
}

/// Adds a group of so many records.
pub fn add_group(
    r: &mut Random,
    e: &mut MakeExt,
    targets: &Targets,
    part: usize,
    words: usize,
    count: u32,
) {
    let sort = RECORD_SORTS[part - 1];
    let records: Vec<u32> = (0..count)
        .flat_map(|_| targets.record(r, sort, words))
        .collect();
    let name = targets.name(r);
    e.put_group(part, name, count, &records);
}

/// How many groups, or records of one.
fn some(r: &mut Random, scale: Scale) -> u32 {
    match scale {
        Scale::Tiny => r.pick(&[1, 1, 1, 2]),
        Scale::Small => r.pick(&[1, 1, 2, 3]),
        Scale::Full | Scale::Long => r.pick(&[1, 2, 3, 12]),
    }
}
