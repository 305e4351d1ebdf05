//! Accepted tables joined to one, and what is asked when it is taken apart.

use crate::apart::Cut;
use crate::generate::long::put_behind;
use crate::make::{Make, Raw};
use crate::vectors::{Case, APART, MOST_BYTES};

/// The cut in front of everything: the empty table is the first.
pub const FRONT: Cut = Cut {
    types: 0,
    strings: 1,
};

/// All in one, and the numbers of what each of them but the last ends.
#[derive(Clone)]
pub struct Joined {
    pub whole: Make,
    pub cuts: Vec<Cut>,
}

impl Joined {
    pub fn of(tables: &[Make]) -> Joined {
        let mut whole = Make::new();
        let mut cuts = Vec::new();
        for table in tables {
            put_behind(&mut whole, table);
            cuts.push(end_of(&whole));
        }
        cuts.pop();
        Joined { whole, cuts }
    }

    /// Where its joins can be cut: behind each table, in front of all of them
    /// and behind them.
    pub fn own_cuts(&self) -> Vec<Cut> {
        let mut cuts = self.cuts.clone();
        cuts.extend([FRONT, end_of(&self.whole)]);
        cuts
    }
}

/// The cut behind everything: the empty table is the second.
pub fn end_of(m: &Make) -> Cut {
    Cut {
        types: m.count(),
        strings: m.strings.len() as u32,
    }
}

/// How long the two tables of a good cut are; of others, what comes near it.
pub fn lengths(m: &Make, cut: Cut) -> [u32; 2] {
    let types = m.records.len().min(cut.types as usize);
    let strings = m.strings.len().min(cut.strings as usize);
    let bytes = |records: &[Raw]| -> usize {
        let words = records.iter().map(|record| 3 + record.tail.len());
        24 + 4 * words.sum::<usize>()
    };
    let (earlier, later) = m.records.split_at(types);
    let first = bytes(earlier) + strings;
    let second = bytes(later) + 1 + m.strings.len() - strings;
    [first as u32, second as u32]
}

/// A blob taken apart, with so many places lent in each u32 slice and so many
/// bytes in each output.
pub fn ask(a: Vec<u8>, cut: Cut, places: (u32, u32), outputs: [u32; 2]) -> Case {
    let [first, second] = outputs.map(|bytes| bytes.min(MOST_BYTES));
    Case {
        op: APART,
        index_places: places.0,
        work_places: places.1,
        output_bytes: first,
        x: cut.types,
        y: cut.strings,
        a,
        b: vec![165; second as usize],
    }
}
