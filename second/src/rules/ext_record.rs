//! The question for one record of a .BTF.ext section that stands alone.

use crate::ext_parts::{parts_of, report_41, Group, Groups, RECORD_SORTS};
use crate::order::{Order, ORDERS};

/// A record as it stands in its section.
#[derive(Clone, Copy, PartialEq, Eq, Debug)]
pub struct ExtRecord<'a> {
    /// Its group's name.
    pub group_name: u32,
    pub place: usize,
    /// Its own bytes, without any extra ones.
    pub bytes: &'a [u8],
}

/// Record k, counted from 0, of part 1, 2 or 3. None where the section has one
/// of the reports 41 and 43 to 46 in any part, so that it could stand beside no
/// table, or where there is no such record.
pub fn ext_record(section: &[u8], part: u32, k: u32) -> Option<ExtRecord<'_>> {
    let groups = all_groups(section)?;
    let sort = *RECORD_SORTS.get((part as usize).checked_sub(1)?)?;
    let mut before = k as usize;
    for group in groups.iter().filter(|group| group.sort == sort) {
        if before < group.count {
            return Some(record_in(section, group, before));
        }
        before -= group.count;
    }
    None
}

/// Every group of every part, if all of them fit.
fn all_groups(section: &[u8]) -> Option<Vec<Group>> {
    if report_41(section) {
        return None;
    }
    let order = own_order(section)?;
    let mut found = Vec::new();
    for part in parts_of(section, order).ok()? {
        for group in Groups::of(section, order, part).ok()? {
            found.push(group.ok()?);
        }
    }
    Some(found)
}

/// The order whose four bytes a section begins with.
fn own_order(section: &[u8]) -> Option<Order> {
    let begins = |order: &Order| section.starts_with(&order.opening());
    ORDERS.into_iter().find(begins)
}

fn record_in<'a>(section: &'a [u8], group: &Group, before: usize) -> ExtRecord<'a> {
    let place = group.place(before);
    ExtRecord {
        group_name: group.name,
        place,
        bytes: &section[place..place + group.sort.bytes()],
    }
}
