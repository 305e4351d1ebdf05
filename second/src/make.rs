//! A builder of tables, word by word, for the tests and the generator. It
//! keeps no rule of the paper by itself, so it can build refused tables too.

use crate::order::Order;
use crate::table::{blob_in, Kind};

/// A record before it is written.
#[derive(Clone, PartialEq, Eq, Debug)]
pub struct Raw {
    pub name: u32,
    pub info: u32,
    pub third: u32,
    pub tail: Vec<u32>,
}

impl Raw {
    pub fn kind_number(&self) -> u32 {
        crate::table::kind_number_of(self.info)
    }

    pub fn is(&self, kind: Kind) -> bool {
        self.kind_number() == kind as u32
    }

    /// A word counted from the head.
    pub fn put(&mut self, at: usize, word: u32) {
        match at {
            0 => self.name = word,
            1 => self.info = word,
            2 => self.third = word,
            _ => self.tail[at - 3] = word,
        }
    }

    pub fn set_vlen(&mut self, vlen: u32) {
        self.info = (self.info & !0xFFFF) | (vlen & 0xFFFF);
    }

    pub fn set_kind_number(&mut self, kind: u32) {
        self.info = (self.info & !0x1F00_0000) | (kind << 24);
    }
}

/// A table under construction.
#[derive(Clone, PartialEq, Eq, Debug)]
pub struct Make {
    pub records: Vec<Raw>,
    pub strings: Vec<u8>,
}

/// An info word.
pub fn info(kind: Kind, kind_flag: bool, vlen: u32) -> u32 {
    (u32::from(kind_flag) << 31) | ((kind as u32) << 24) | vlen
}

/// An INT's tail word.
pub fn int_word(encoding: u32, offset: u32, width: u32) -> u32 {
    (encoding << 24) | (offset << 16) | width
}

/// The word of a bit field: width above, bit offset below.
pub fn field(width: u32, offset: u32) -> u32 {
    (width << 24) | offset
}

impl Default for Make {
    fn default() -> Make {
        Make::new()
    }
}

impl Make {
    pub fn new() -> Make {
        Make {
            records: Vec::new(),
            strings: vec![0],
        }
    }

    pub fn count(&self) -> u32 {
        self.records.len() as u32
    }

    /// The record of a type number from 1 to n.
    pub fn at(&mut self, type_number: u32) -> &mut Raw {
        &mut self.records[type_number as usize - 1]
    }

    /// Adds a string and answers its offset.
    pub fn string(&mut self, text: impl AsRef<[u8]>) -> u32 {
        let offset = self.strings.len() as u32;
        self.strings.extend(text.as_ref());
        self.strings.push(0);
        offset
    }

    /// Adds a record and answers its type number.
    pub fn raw(&mut self, name: u32, info: u32, third: u32, tail: &[u32]) -> u32 {
        self.records.push(Raw {
            name,
            info,
            third,
            tail: tail.to_vec(),
        });
        self.count()
    }

    /// A record without kind_flag and vlen.
    pub fn bare(&mut self, kind: Kind, name: u32, third: u32, tail: &[u32]) -> u32 {
        self.raw(name, info(kind, false, 0), third, tail)
    }

    /// A record with entries, which vlen counts.
    pub fn listed<const W: usize>(
        &mut self,
        kind: Kind,
        kind_flag: bool,
        name: u32,
        third: u32,
        entries: &[[u32; W]],
    ) -> u32 {
        let info = info(kind, kind_flag, entries.len() as u32);
        self.raw(name, info, third, &entries.concat())
    }

    /// An unnamed regular INT of so many bytes.
    pub fn int(&mut self, bytes: u32) -> u32 {
        self.bare(Kind::Int, 0, bytes, &[int_word(0, 0, 8 * bytes)])
    }

    /// An unnamed INT with its own offset and width.
    pub fn odd_int(&mut self, bytes: u32, offset: u32, width: u32) -> u32 {
        self.bare(Kind::Int, 0, bytes, &[int_word(0, offset, width)])
    }

    pub fn ptr(&mut self, to: u32) -> u32 {
        self.bare(Kind::Ptr, 0, to, &[])
    }

    pub fn constant(&mut self, of: u32) -> u32 {
        self.bare(Kind::Const, 0, of, &[])
    }

    pub fn typedef(&mut self, name: u32, of: u32) -> u32 {
        self.bare(Kind::Typedef, name, of, &[])
    }

    pub fn array(&mut self, element: u32, index: u32, count: u32) -> u32 {
        self.bare(Kind::Array, 0, 0, &[element, index, count])
    }

    pub fn var(&mut self, name: u32, of: u32) -> u32 {
        self.bare(Kind::Var, name, of, &[1])
    }

    pub fn func(&mut self, name: u32, prototype: u32) -> u32 {
        self.bare(Kind::Func, name, prototype, &[])
    }

    pub fn proto(&mut self, returns: u32, parameters: &[[u32; 2]]) -> u32 {
        self.listed(Kind::FuncProto, false, 0, returns, parameters)
    }

    /// Members are name, type, offset word.
    pub fn structure(&mut self, bytes: u32, flag: bool, members: &[[u32; 3]]) -> u32 {
        self.listed(Kind::Struct, flag, 0, bytes, members)
    }

    pub fn union(&mut self, bytes: u32, flag: bool, members: &[[u32; 3]]) -> u32 {
        self.listed(Kind::Union, flag, 0, bytes, members)
    }

    /// Entries are variable, offset, size.
    pub fn section(&mut self, name: u32, bytes: u32, entries: &[[u32; 3]]) -> u32 {
        self.listed(Kind::Datasec, false, name, bytes, entries)
    }

    pub fn tag(&mut self, name: u32, target: u32, component: u32) -> u32 {
        self.bare(Kind::DeclTag, name, target, &[component])
    }

    /// The words of the type section.
    pub fn type_words(&self) -> Vec<u32> {
        let mut words = Vec::new();
        for record in &self.records {
            words.extend([record.name, record.info, record.third]);
            words.extend(&record.tail);
        }
        words
    }

    /// The table as a blob, with a header that fits it.
    pub fn blob(&self) -> Vec<u8> {
        blob_of(&self.type_words(), &self.strings)
    }
}

/// A blob of a type section and a string section behind a good header. What is
/// made is little-endian; `generate::turn` makes the other order of it.
pub fn blob_of(words: &[u32], strings: &[u8]) -> Vec<u8> {
    blob_in(Order::Little, words, strings)
}

/// The word at a byte place of a blob, in its own order.
pub fn word_at(blob: &[u8], place: usize) -> u32 {
    Order::of(blob).word(blob, place)
}

/// Overwrites that word.
pub fn put_word(blob: &mut [u8], place: usize, word: u32) {
    let four = Order::of(blob).bytes(word);
    blob[place..place + 4].copy_from_slice(&four);
}
