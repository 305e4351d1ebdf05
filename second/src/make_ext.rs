//! A builder of .BTF.ext sections, word by word, for the tests and the
//! generator. It keeps no rule by itself, so it can build refused ones too.

use crate::ext_parts::{LONG_HEADER, SHORT_HEADER};
use crate::order::Order;

/// A section under construction.
#[derive(Clone, PartialEq, Eq, Debug)]
pub struct MakeExt {
    /// The words of each part: the record size, then the groups. An empty part
    /// has none.
    pub parts: Vec<Vec<u32>>,
}

impl MakeExt {
    /// Two or three parts, all of them empty.
    pub fn new(parts: usize) -> MakeExt {
        MakeExt {
            parts: vec![Vec::new(); parts],
        }
    }

    /// A part, counted from 1, that is just its record size.
    pub fn size(&mut self, part: usize, record_size: u32) {
        self.parts[part - 1] = vec![record_size];
    }

    /// Adds a group; the first one of a part says its record size.
    pub fn group<const W: usize>(&mut self, part: usize, name: u32, records: &[[u32; W]]) {
        if self.parts[part - 1].is_empty() {
            self.size(part, 4 * W as u32);
        }
        self.put_group(part, name, records.len() as u32, &records.concat());
    }

    /// A group of any words, with a count that nobody checks.
    pub fn put_group(&mut self, part: usize, name: u32, count: u32, words: &[u32]) {
        self.parts[part - 1].extend([name, count]);
        self.parts[part - 1].extend(words);
    }

    /// The header's words behind the first: its length, then each part's offset
    /// and length.
    pub fn header(&self) -> Vec<u32> {
        let length = match self.parts.len() {
            2 => SHORT_HEADER,
            _ => LONG_HEADER,
        };
        let mut words = vec![length as u32];
        let mut offset = 0;
        for part in &self.parts {
            let bytes = 4 * part.len() as u32;
            words.extend([offset, bytes]);
            offset += bytes;
        }
        words
    }

    /// The section as a blob, with a header that fits it. What is made is
    /// little-endian; `generate::turn` makes the other order of it.
    pub fn blob(&self) -> Vec<u8> {
        let mut blob = Order::Little.opening().to_vec();
        for word in self.header().iter().chain(self.parts.iter().flatten()) {
            blob.extend(word.to_le_bytes());
        }
        blob
    }
}

/// Where each group of a part begins, in words, as far as its counts lead.
pub fn group_heads(part: &[u32]) -> Vec<usize> {
    let mut heads = Vec::new();
    let mut at = 1;
    while at + 1 < part.len() {
        heads.push(at);
        at += 2 + part[at + 1] as usize * (part[0] as usize / 4);
    }
    heads
}

/// Where each whole record of a part begins, in words.
pub fn record_starts(part: &[u32]) -> Vec<usize> {
    let words = part.first().map_or(0, |size| *size as usize / 4);
    let of_group = |head: usize| {
        let all = (0..part[head + 1] as usize).map(move |before| head + 2 + before * words);
        all.take_while(|start| words > 0 && start + words <= part.len())
    };
    group_heads(part).into_iter().flat_map(of_group).collect()
}
