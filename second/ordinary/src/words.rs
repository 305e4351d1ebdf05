//! Words of a blob in its byte order.

/// A byte order. What reads many words is compiled for each of the two, so
/// that a word is one load, turned round or not.
pub trait Order {
    fn word(four: [u8; 4]) -> u32;
}

pub struct LowFirst;
pub struct HighFirst;

impl Order for LowFirst {
    #[inline(always)]
    fn word(four: [u8; 4]) -> u32 {
        u32::from_le_bytes(four)
    }
}

impl Order for HighFirst {
    #[inline(always)]
    fn word(four: [u8; 4]) -> u32 {
        u32::from_be_bytes(four)
    }
}

/// The words of so many bytes, whose number is known: no place is tested.
#[inline(always)]
pub fn words<O: Order, const BYTES: usize, const WORDS: usize>(
    bytes: &[u8; BYTES],
) -> [u32; WORDS] {
    let (fours, _) = bytes.as_chunks::<4>();
    std::array::from_fn(|at| O::word(fours[at]))
}
