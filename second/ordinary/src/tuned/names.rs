//! Names, several bytes at a time.

const ONES: u64 = 0x0101_0101_0101_0101;
const HIGH: u64 = 0x80 * ONES;
/// The longest identifier, and the longest name of a section.
const LONGEST: usize = 127;

/// Is there an identifier at this offset: 1 to 127 letters, digits and
/// underscores, no digit first? Four bytes tell of the shortest names, by sums
/// that need no constant of 64 bits.
#[inline(always)]
pub fn is_identifier(strings: &[u8], offset: u32) -> bool {
    let at = offset as usize;
    let Some(four) = strings.get(at..at + 4) else {
        let eight = eight_at(strings, at);
        return ends(eight, outside::<true>(eight)).is_some_and(|length| length != 0);
    };
    let word = four
        .first_chunk()
        .map_or(0, |four| u32::from_le_bytes(*four));
    let others = outside::<true>(u64::from(word)) as u32;
    if others == 0 {
        return goes_on(strings, at + 4);
    }
    let length = (others.trailing_zeros() / 8) as usize;
    length != 0 && four[length] == 0
}

/// Does an identifier go on here, behind four of its bytes, and end?
#[inline(never)]
fn goes_on(strings: &[u8], at: usize) -> bool {
    let eight = eight_at(strings, at);
    match outside::<false>(eight) {
        0 => goes_on_long(strings, at - 4),
        others => ends(eight, others).is_some(),
    }
}

/// Of a name with more than eleven bytes, which is passed over in pieces that
/// the compiler takes at once.
#[inline(never)]
fn goes_on_long(strings: &[u8], name: usize) -> bool {
    let last = name + LONGEST;
    let mut at = name + 12;
    while at <= last && all_inside::<16>(strings, at) {
        at += 16;
    }
    while at <= last {
        let eight = eight_at(strings, at);
        let others = outside::<false>(eight);
        if others != 0 {
            return ends(eight, others).is_some_and(|length| at + length <= last);
        }
        at += 8;
    }
    false
}

/// Has an identifier all of so many bytes?
#[inline(always)]
fn all_inside<const BYTES: usize>(strings: &[u8], at: usize) -> bool {
    let piece = strings.get(at..at + BYTES);
    let Some(piece) = piece.and_then(|piece| piece.first_chunk::<BYTES>()) else {
        return false;
    };
    piece.iter().fold(true, |all, byte| {
        let is_letter = (byte | 0x20).wrapping_sub(b'a') < 26;
        let is_digit = byte.wrapping_sub(b'0') < 10;
        all & (is_letter | is_digit | (*byte == b'_'))
    })
}

/// Eight bytes, or those that are left and zero bytes behind them.
#[inline(always)]
fn eight_at(strings: &[u8], at: usize) -> u64 {
    if let Some(eight) = strings.get(at..).and_then(|rest| rest.first_chunk()) {
        return u64::from_le_bytes(*eight);
    }
    let beyond = (at + 8 - strings.len()).min(8) as u32;
    let last = match strings.last_chunk() {
        Some(eight) => u64::from_le_bytes(*eight),
        None => strings
            .iter()
            .fold(0, |all, byte| all >> 8 | u64::from(*byte) << 56),
    };
    last.checked_shr(8 * beyond).unwrap_or(0)
}

/// How many bytes stand in front of the first that is outside, if that is the
/// zero byte.
#[inline(always)]
fn ends(eight: u64, others: u64) -> Option<usize> {
    let bits = others.trailing_zeros() & 0x38;
    ((eight >> bits) as u8 == 0).then_some(bits as usize / 8)
}

/// The high bit of each byte that no identifier has; a digit is none of its
/// first. A sum of seven bits and a constant below 128 stays in its byte, and
/// has the high bit where the byte is at least 128 less the constant: two such
/// sums differ there if the byte lies between.
#[inline(always)]
fn outside<const FIRST: bool>(bytes: u64) -> u64 {
    let low = bytes & !HIGH;
    let small = low | (0x20 * ONES);
    let letter = (small + 0x1F * ONES) ^ (small + 0x05 * ONES);
    let mut digit = (low + 0x50 * ONES) ^ (low + 0x46 * ONES);
    if FIRST {
        digit &= !0x80;
    }
    let underscore = HIGH - (low ^ (0x5F * ONES));
    (!(letter | digit | underscore) | bytes) & HIGH
}

/// 1 to 127 bytes of 33 to 126.
pub fn is_section_name(strings: &[u8], offset: u32) -> bool {
    let name = strings.get(offset as usize..).unwrap_or_default();
    let kept = name.iter().take_while(|byte| (33..=126).contains(*byte));
    let length = kept.take(LONGEST + 1).count();
    (1..=LONGEST).contains(&length) && name[length] == 0
}
