//! Groupings of real tables, joined in two random ways of bracketing through the
//! archive and through this implementation, and taken apart again.

use crate::apart::Cut;
use crate::archive;
use crate::brackets::Bracketing;
use crate::check::judge;
use crate::generate::random::Random;
use crate::join::join;
use crate::limits::{BYTE_LIMIT, FULL_PLACES};
use crate::order::{Order, ORDERS};
use std::path::Path;

/// Slices of full size, lent again and again.
struct Room {
    index: Vec<u32>,
    work: Vec<u32>,
    first: Vec<u8>,
    second: Vec<u8>,
}

impl Room {
    fn new() -> Room {
        Room {
            index: vec![u32::MAX; FULL_PLACES as usize],
            work: vec![u32::MAX; FULL_PLACES as usize],
            first: vec![165; BYTE_LIMIT as usize],
            second: vec![165; BYTE_LIMIT as usize],
        }
    }

    /// What one call leaves must not pass for what the next one writes.
    fn clear(&mut self) {
        self.first.fill(165);
        self.second.fill(165);
    }

    /// Through the archive; or the number of the refusal.
    fn join(&mut self, a: &[u8], b: &[u8]) -> Result<Vec<u8>, u32> {
        self.clear();
        let mut answer = [0; 4];
        let (index, work) = (&mut self.index, &mut self.work);
        archive::join(a, b, index, work, &mut self.first, &mut answer);
        match answer {
            [0, _, _, length] => Ok(self.first[..length as usize].to_vec()),
            [number, ..] => Err(number),
        }
    }

    /// Through this implementation.
    fn join_here(&mut self, a: &[u8], b: &[u8]) -> Result<Vec<u8>, u32> {
        self.clear();
        let (index, work) = (&mut self.index, &mut self.work);
        match join(a, b, index, work, &mut self.first) {
            Ok(length) => Ok(self.first[..length].to_vec()),
            Err(refusal) => Err(refusal.number()),
        }
    }

    /// Taken apart through the archive.
    fn split(&mut self, blob: &[u8], cut: Cut) -> Result<[Vec<u8>; 2], u32> {
        self.clear();
        let mut answer = [0; 4];
        let (index, work) = (&mut self.index, &mut self.work);
        let (first, second) = (&mut self.first, &mut self.second);
        archive::split(blob, cut, index, work, first, second, &mut answer);
        match answer {
            [0, _, a, b] => Ok([first[..a as usize].to_vec(), second[..b as usize].to_vec()]),
            [number, ..] => Err(number),
        }
    }
}

/// The tables to choose from, those of an order together.
pub struct Groupings {
    tables: [Vec<Vec<u8>>; 2],
    room: Room,
}

impl Groupings {
    /// Of the accepted tables in a folder.
    pub fn of(folder: &Path) -> std::io::Result<Groupings> {
        let mut paths = Vec::new();
        for entry in std::fs::read_dir(folder)? {
            paths.push(entry?.path());
        }
        paths.retain(|path| path.extension().is_some_and(|word| word == "btf"));
        paths.sort();
        let mut all = Vec::new();
        for path in paths {
            all.push(std::fs::read(path)?);
        }
        all.retain(|blob| judge(blob, usize::MAX, usize::MAX).is_ok());
        let of_order = |order| {
            let found = all.iter().filter(|blob| Order::of(blob) == order);
            found.cloned().collect()
        };
        Ok(Groupings {
            tables: ORDERS.map(of_order),
            room: Room::new(),
        })
    }

    /// How many tables of each order there are.
    pub fn counts(&self) -> [usize; 2] {
        [self.tables[0].len(), self.tables[1].len()]
    }

    /// One list of two to sixteen, joined in two ways: how many bytes it has
    /// then, or what differs. One in four is big-endian.
    pub fn compare(&mut self, r: &mut Random) -> Result<usize, String> {
        let order = usize::from(r.one_in(4));
        let count = r.between(2, 16) as usize;
        let from = &self.tables[order];
        let list: Vec<Vec<u8>> = (0..count)
            .map(|_| from[r.below(from.len() as u32) as usize].clone())
            .collect();
        let ways = [0, 1].map(|_| Bracketing::any(r, 0, count));
        let mut joined = Vec::new();
        for way in &ways {
            joined.push(self.joined(way, &list)?);
        }
        if joined[0] != joined[1] {
            return Err(format!("{count} tables: {ways:?} differ"));
        }
        Ok(joined[0].len())
    }

    /// A list joined one way: by the archive as by this implementation, and at
    /// each of its joins taken apart again.
    fn joined(&mut self, way: &Bracketing, list: &[Vec<u8>]) -> Result<Vec<u8>, String> {
        let room = &mut self.room;
        let mut halves = Vec::new();
        let found = way.joined(list, &mut |a, b| {
            let whole = room.join(a, b)?;
            halves.push((a.to_vec(), b.to_vec(), whole.clone()));
            Ok(whole)
        });
        let here = way.joined(list, &mut |a, b| room.join_here(a, b));
        if found != here {
            return Err(format!("{way:?}: the archive and second differ"));
        }
        for (a, b, whole) in halves {
            let cut = numbers_of(&a);
            if room.split(&whole, cut) != Ok([a, b]) {
                return Err(format!("{way:?}: not taken apart at {cut:?}"));
            }
        }
        found.map_err(|number: u32| format!("{way:?}: refused, {number}"))
    }
}

/// A table's own numbers.
fn numbers_of(blob: &[u8]) -> Cut {
    let table = judge(blob, usize::MAX, usize::MAX).expect("accepted");
    Cut {
        types: table.count(),
        strings: table.strings.len() as u32,
    }
}
