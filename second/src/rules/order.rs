//! The two byte orders: how a blob says which one it has, and its words.

/// In which order the bytes of a blob's words stand. Strings are bytes and
/// have none.
#[derive(Clone, Copy, PartialEq, Eq, Hash, Debug)]
pub enum Order {
    /// Low byte first.
    Little,
    /// High byte first.
    Big,
}

pub const ORDERS: [Order; 2] = [Order::Little, Order::Big];

impl Order {
    /// The order of any blob, by its first two bytes alone: big-endian where
    /// they are EB 9F, little-endian otherwise, also where they are missing.
    pub fn of(blob: &[u8]) -> Order {
        if blob.starts_with(&Order::Big.magic()) {
            Order::Big
        } else {
            Order::Little
        }
    }

    pub fn other(self) -> Order {
        match self {
            Order::Little => Order::Big,
            Order::Big => Order::Little,
        }
    }

    /// The two bytes that a table of this order begins with.
    pub fn magic(self) -> [u8; 2] {
        match self {
            Order::Little => [0x9F, 0xEB],
            Order::Big => [0xEB, 0x9F],
        }
    }

    /// The first four: version 1 and flags 0 are single bytes, so they stand
    /// alike in both orders.
    pub fn opening(self) -> [u8; 4] {
        let [first, second] = self.magic();
        [first, second, 0x01, 0x00]
    }

    /// The 32-bit word at a byte place.
    pub fn word(self, bytes: &[u8], place: usize) -> u32 {
        let four = [
            bytes[place],
            bytes[place + 1],
            bytes[place + 2],
            bytes[place + 3],
        ];
        match self {
            Order::Little => u32::from_le_bytes(four),
            Order::Big => u32::from_be_bytes(four),
        }
    }

    /// A word as it is written.
    pub fn bytes(self, word: u32) -> [u8; 4] {
        match self {
            Order::Little => word.to_le_bytes(),
            Order::Big => word.to_be_bytes(),
        }
    }
}
