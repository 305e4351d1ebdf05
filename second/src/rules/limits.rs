//! The paper's limits, each once.

/// Report 8 for a table, 18 for a join.
pub const TYPE_LIMIT: u32 = 16_384;
/// Report 1 for a table, 19 for a join.
pub const BYTE_LIMIT: u32 = 262_144;
/// The places that a table at the type limit needs: one is for void.
pub const FULL_PLACES: u32 = TYPE_LIMIT + 1;
