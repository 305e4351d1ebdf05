//! Phase 6: sizes and the layout rules.

use super::Table;
use crate::kinds::*;

#[derive(Clone, Copy, PartialEq, Eq)]
enum Size {
    Exact(u32),
    Missing,
    Overflow,
}

impl Table<'_> {
    /// Walks to the end of the chain. The product is exact while it fits 32
    /// bits; a 0 further down makes it 0 whatever it was.
    fn size(&self, number: u32) -> Size {
        let mut product = Some(1u32);
        let mut zero = false;
        let mut at = number;
        loop {
            let bytes = match self.kind(at) {
                Some(PTR) => 8,
                Some(INT | STRUCT | UNION | ENUM | FLOAT | DATASEC | ENUM64) => self.third(at),
                Some(ARRAY) => {
                    let count = self.tail(at, 2);
                    zero |= count == 0;
                    product = product.and_then(|product| product.checked_mul(count));
                    at = self.tail(at, 0);
                    continue;
                }
                Some(TYPEDEF | VOLATILE | CONST | RESTRICT | TYPE_TAG | VAR) => {
                    at = self.third(at);
                    continue;
                }
                _ => return Size::Missing,
            };
            return match product.and_then(|product| product.checked_mul(bytes)) {
                _ if zero || bytes == 0 => Size::Exact(0),
                Some(bytes) => Size::Exact(bytes),
                None => Size::Overflow,
            };
        }
    }

    /// Follows TYPEDEF, qualifiers and TYPE_TAG.
    fn base(&self, number: u32) -> u32 {
        let mut at = number;
        while let Some(TYPEDEF | VOLATILE | CONST | RESTRICT | TYPE_TAG) = self.kind(at) {
            at = self.third(at);
        }
        at
    }

    /// Report 15.
    pub fn breaks_layout(&self, number: u32) -> bool {
        let third = self.third(number);
        match kind(self.info(number)) {
            ARRAY => {
                let [element, index] = [0, 1].map(|at| self.tail(number, at));
                self.size(element) == Size::Missing || !is_regular(self.tail(index, 0))
            }
            STRUCT | UNION => self.breaks_members(number),
            VAR => !matches!(self.size(third), Size::Exact(_)),
            DECL_TAG => self.breaks_component(number),
            FUNC => self.entries(third).any(|at| {
                let is_last = at / 2 + 1 == vlen(self.info(third));
                let (name, of) = (self.tail(third, at), self.tail(third, at + 1));
                name == 0 && !(is_last && of == 0)
            }),
            DATASEC => self.breaks_section(number),
            _ => false,
        }
    }

    fn breaks_component(&self, number: u32) -> bool {
        let component = self.tail(number, 0);
        let tagged = self.third(number);
        let below = match self.kind(tagged) {
            Some(STRUCT | UNION) => vlen(self.info(tagged)),
            Some(FUNC) => vlen(self.info(self.third(tagged))),
            _ => 0,
        };
        component != u32::MAX && component as usize >= below
    }

    fn breaks_section(&self, number: u32) -> bool {
        let size = u64::from(self.third(number));
        let mut reached = 0;
        self.entries(number).any(|at| {
            let [of, start, bytes] = [0, 1, 2].map(|word| self.tail(number, at + word));
            let holds = match self.size(of) {
                Size::Exact(least) => bytes >= least,
                Size::Missing => true,
                Size::Overflow => false,
            };
            let (start, end) = (u64::from(start), u64::from(start) + u64::from(bytes));
            let placed = size == 0 || start >= reached && end <= size;
            reached = end;
            !holds || !placed
        })
    }

    fn breaks_members(&self, number: u32) -> bool {
        let info = self.info(number);
        let limit = 8 * u64::from(self.third(number));
        let mut last = 0;
        self.entries(number).any(|at| {
            let [of, word] = [1, 2].map(|word| self.tail(number, at + word));
            let has_fields = info >> 31 == 1;
            let offset = if has_fields { word & 0x00FF_FFFF } else { word };
            let falls = offset < last || kind(info) == UNION && offset != 0;
            last = offset;
            let end = if has_fields {
                self.field_end(of, offset, word >> 24)
            } else {
                self.member_end(of, offset)
            };
            falls || end.is_none_or(|end| end > limit)
        })
    }

    /// The bit behind a member with kind_flag 0; none where it breaks a rule.
    fn member_end(&self, of: u32, offset: u32) -> Option<u64> {
        let Size::Exact(bytes) = self.size(of) else {
            return None;
        };
        let base = self.base(of);
        if self.kind(base) == Some(INT) {
            let word = self.tail(base, 0);
            let bits = (word & 0xFF) + (word >> 16 & 0xFF);
            return Some(u64::from(offset) + u64::from(bits));
        }
        (offset & 7 == 0).then_some(u64::from(offset) + 8 * u64::from(bytes))
    }

    /// The same with kind_flag 1, of a field of so many bits, or of none.
    fn field_end(&self, of: u32, offset: u32, width: u32) -> Option<u64> {
        let Size::Exact(bytes) = self.size(of) else {
            return None;
        };
        let base = self.base(of);
        let (offset, bits) = (u64::from(offset), 8 * u64::from(bytes));
        if self.kind(base) == Some(INT) && !is_regular(self.tail(base, 0)) {
            return None;
        }
        if width == 0 {
            return (offset & 7 == 0).then_some(offset + bits);
        }
        let may_be_field = matches!(self.kind(base), Some(INT | ENUM | ENUM64));
        (may_be_field && u64::from(width) <= bits).then_some(offset + u64::from(width))
    }
}

/// Of an INT's tail word: offset 0, width 8, 16, 32, 64 or 128.
fn is_regular(word: u32) -> bool {
    let (width, offset) = (word & 0xFF, word >> 16 & 0xFF);
    offset == 0 && width >= 8 && width.is_power_of_two()
}
