//! A span's value in plain Rust shifts and masks, behind the same slices as the
//! archive's: what `speed` times it against, and no second reading of the
//! paper.

/// The numbers that `scrieve_value` tells, and its sixteen bytes.
#[inline(never)]
pub fn value(span: &[u32], record: &[u8], answer: &mut [u32], value: &mut [u8]) {
    let [number, size, low, bits, high] = span else {
        return;
    };
    let from = u64::from(*high) << 32 | u64::from(*low);
    let read = read(*number == 1, record, *size, from, *bits);
    let told = match read {
        Some(_) => [*number, 0, *low, *bits, *high],
        None => [30, 0, 0, 0, 0],
    };
    answer[..5].copy_from_slice(&told);
    value[..16].copy_from_slice(&read.unwrap_or(0).to_le_bytes());
}

/// Up to 64 bits, of a record that is long enough.
fn read(signed: bool, record: &[u8], size: u32, from: u64, bits: u32) -> Option<i128> {
    if record.len() < size as usize || bits == 0 || bits > 64 {
        return None;
    }
    let part = record.get((from / 8) as usize..)?;
    let shift = (from % 8) as u32;
    let number = match part.first_chunk::<8>() {
        Some(eight) if shift + bits <= 64 => u64::from_le_bytes(*eight) >> shift,
        _ => (number_of(part.get(..(shift + bits).div_ceil(8) as usize)?) >> shift) as u64,
    };
    let above = 64 - bits;
    Some(if signed {
        i128::from((number << above) as i64 >> above)
    } else {
        i128::from(number << above >> above)
    })
}

/// The number of a part that is short, or whose ninth byte is wanted.
fn number_of(bytes: &[u8]) -> u128 {
    bytes
        .iter()
        .rev()
        .fold(0, |n, byte| n << 8 | u128::from(*byte))
}
