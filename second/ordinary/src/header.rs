//! Phase 1: the header and the two sections, reports 1 to 5.

use crate::words::{words, HighFirst, LowFirst, Order};
use crate::Report;

const HEADER_BYTES: usize = 24;
const BYTE_LIMIT: usize = 262_144;

/// A blob that passed phase 1.
pub struct Sections<'a> {
    pub high_first: bool,
    /// The blob up to its strings, so that places count from its start; the
    /// records begin behind the header.
    pub records: &'a [u8],
    /// Not empty; the first and the last byte are 0.
    pub strings: &'a [u8],
}

/// Where the first record stands.
pub const FIRST_PLACE: usize = HEADER_BYTES;

pub fn sections(blob: &[u8]) -> Result<Sections<'_>, Report> {
    let header = match blob.first_chunk::<HEADER_BYTES>() {
        Some(header) if blob.len() <= BYTE_LIMIT => header,
        _ => return Err(Report::bare(1)),
    };
    let high_first = match header[..4] {
        [0x9F, 0xEB, 1, 0] => false,
        [0xEB, 0x9F, 1, 0] => true,
        _ => return Err(Report::bare(2)),
    };
    let strings_at = if high_first {
        strings_at::<HighFirst>(header, blob.len())
    } else {
        strings_at::<LowFirst>(header, blob.len())
    };
    let (records, strings) = blob.split_at(strings_at?);
    if strings.first() != Some(&0) || strings.last() != Some(&0) {
        return Err(Report::bare(5));
    }
    Ok(Sections {
        high_first,
        records,
        strings,
    })
}

/// Reports 3 and 4. The sum is made in 64 bits, where it cannot wrap.
fn strings_at<O: Order>(header: &[u8; HEADER_BYTES], length: usize) -> Result<usize, Report> {
    let [_, header_len, type_off, type_len, str_off, str_len] = words::<O, HEADER_BYTES, 6>(header);
    if header_len != HEADER_BYTES as u32 {
        return Err(Report::bare(3));
    }
    let end = HEADER_BYTES as u64 + u64::from(type_len) + u64::from(str_len);
    if type_off != 0 || type_len % 4 != 0 || str_off != type_len || end != length as u64 {
        return Err(Report::bare(4));
    }
    Ok(HEADER_BYTES + type_len as usize)
}
