//! Phases 3 and 4: what a record says by itself, and what it refers to.

use super::Table;
use crate::kinds::*;

impl Table<'_> {
    /// Report 10, 11 or 12, the smallest that there is.
    pub fn breaks_record(&self, number: u32) -> Option<u32> {
        if self.breaks_head(number) {
            Some(10)
        } else if self.breaks_names(number) {
            Some(11)
        } else if self.breaks_tail(number) {
            Some(12)
        } else {
            None
        }
    }

    fn breaks_head(&self, number: u32) -> bool {
        let info = self.info(number);
        let third = self.third(number);
        let flag_0 = info >> 31 == 0;
        let vlen = vlen(info);
        let kept = match kind(info) {
            INT => flag_0 && vlen == 0 && one_of(INT_SIZES, third),
            ARRAY => flag_0 && vlen == 0 && third == 0,
            FWD => vlen == 0 && third == 0,
            STRUCT | UNION => true,
            ENUM | ENUM64 => one_of(ENUM_SIZES, third),
            FUNC => flag_0 && vlen <= 1,
            FUNC_PROTO | DATASEC => flag_0,
            FLOAT => flag_0 && vlen == 0 && one_of(FLOAT_SIZES, third),
            DECL_TAG | TYPE_TAG => vlen == 0,
            _ => flag_0 && vlen == 0,
        };
        !kept || info & 0x60FF_0000 != 0
    }

    fn breaks_names(&self, number: u32) -> bool {
        let name = self.name(number);
        let kind = kind(self.info(number));
        let kept = match kind {
            INT | FLOAT => self.text(name).is_some(),
            STRUCT | UNION | ENUM | ENUM64 => name == 0 || self.is_identifier(name),
            FWD | TYPEDEF | FUNC | VAR => self.is_identifier(name),
            DECL_TAG | TYPE_TAG => self.text(name).is_some_and(|text| !text.is_empty()),
            DATASEC => self.is_section_name(name),
            _ => name == 0,
        };
        let is_kept = |name: u32| match kind {
            ENUM | ENUM64 => self.is_identifier(name),
            STRUCT | UNION | FUNC_PROTO => name == 0 || self.is_identifier(name),
            _ => true,
        };
        !kept
            || self
                .entries(number)
                .any(|at| !is_kept(self.tail(number, at)))
    }

    /// Where the entries of a record begin, in words behind its head.
    pub fn entries(&self, number: u32) -> impl Iterator<Item = usize> {
        let info = self.info(number);
        let words = match kind(info) {
            STRUCT | UNION | DATASEC | ENUM64 => 3,
            ENUM | FUNC_PROTO => 2,
            _ => 0,
        };
        let count = if words == 0 { 0 } else { vlen(info) };
        (0..count).map(move |entry| words * entry)
    }

    /// The name at an offset below the string length.
    fn text(&self, offset: u32) -> Option<&[u8]> {
        let rest = self.strings.get(offset as usize..)?;
        let end = rest.iter().position(|byte| *byte == 0)?;
        Some(&rest[..end])
    }

    fn is_identifier(&self, offset: u32) -> bool {
        let Some(text) = self.text(offset) else {
            return false;
        };
        let is_in = |byte: &u8| byte.is_ascii_alphanumeric() || *byte == b'_';
        (1..=127).contains(&text.len()) && !text[0].is_ascii_digit() && text.iter().all(is_in)
    }

    fn is_section_name(&self, offset: u32) -> bool {
        let Some(text) = self.text(offset) else {
            return false;
        };
        (1..=127).contains(&text.len()) && text.iter().all(|byte| (33..=126).contains(byte))
    }

    fn breaks_tail(&self, number: u32) -> bool {
        match kind(self.info(number)) {
            INT => {
                let word = self.tail(number, 0);
                let (width, offset) = (word & 0xFF, word >> 16 & 0xFF);
                word & 0xF000_FF00 != 0
                    || !one_of(ENCODINGS, word >> 24)
                    || width == 0
                    || offset + width > 8 * self.third(number)
            }
            VAR => self.tail(number, 0) > 2,
            FUNC_PROTO => self.entries(number).any(|at| {
                let is_last = at / 2 + 1 == vlen(self.info(number));
                let (name, of) = (self.tail(number, at), self.tail(number, at + 1));
                of == 0 && (!is_last || name != 0)
            }),
            _ => false,
        }
    }

    /// Report 13.
    pub fn breaks_reference(&self, number: u32) -> bool {
        let third = self.third(number);
        let kept = match kind(self.info(number)) {
            PTR | TYPEDEF | VOLATILE | CONST | RESTRICT | TYPE_TAG => self.is_void_or_plain(third),
            VAR => third != 0 && self.is_void_or_plain(third),
            FUNC => self.kind(third) == Some(FUNC_PROTO),
            DECL_TAG => self.kind(third).is_some_and(|kind| one_of(TAGGED, kind)),
            ARRAY => {
                let [element, index] = [0, 1].map(|at| self.tail(number, at));
                element != 0 && self.is_void_or_plain(element) && self.kind(index) == Some(INT)
            }
            STRUCT | UNION => self.entries(number).all(|at| {
                let of = self.tail(number, at + 1);
                of != 0 && self.is_void_or_plain(of)
            }),
            FUNC_PROTO => {
                let mut parameters = self.entries(number).map(|at| self.tail(number, at + 1));
                self.is_void_or_plain(third) && parameters.all(|of| self.is_void_or_plain(of))
            }
            DATASEC => {
                let mut variables = self.entries(number).map(|at| self.tail(number, at));
                variables.all(|of| self.kind(of) == Some(VAR))
            }
            _ => true,
        };
        !kept
    }

    fn is_void_or_plain(&self, number: u32) -> bool {
        let kind = self.kind(number);
        kind.is_some_and(|kind| !matches!(kind, FUNC | VAR | DATASEC | DECL_TAG))
    }
}
