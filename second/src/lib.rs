//! A second, independent implementation of paper 01, in plain Rust.
//!
//! It is the yardstick for the proved one, so it is written to be read beside
//! the paper: one function for each report, whole records copied out of the
//! blob, no cleverness about speed or memory.

pub mod antt;
#[cfg(feature = "archive")]
pub mod archive;
#[cfg(feature = "archive")]
pub mod archive_ext;
#[cfg(feature = "archive")]
pub mod archive_leaning;
#[cfg(feature = "archive")]
pub mod archive_list;
#[cfg(feature = "archive")]
pub mod beside;
pub mod brackets;
pub mod census;
pub mod changed;
pub mod generate;
pub mod goals;
#[cfg(feature = "archive")]
pub mod groupings;
pub mod make;
pub mod make_ext;
pub mod plain_value;
pub mod rules;
pub mod runs;
pub mod timing;
pub mod vectors;
pub mod yardstick;

pub use rules::{
    apart, chain, check, ext, ext_parts, ext_record, head, header, join, layout, lean,
    lean_questions, limits, list, list_read, members, name_at, names, order, record, reference,
    report, size, table, tail, walk,
};

pub use apart::{take_apart, ApartRefusal, Cut};
pub use check::check;
pub use ext::{check_ext, ExtRefusal};
pub use ext_record::{ext_record, ExtRecord};
pub use join::{join, JoinRefusal};
pub use lean::{check_leaning, LeaningRefusal};
pub use lean_questions::{name_leaning, size_leaning, LeaningName};
pub use list::{write_list, ListRefusal};
pub use list_read::read_list;
pub use name_at::name;
pub use record::{read_member, ReadRefusal, Reading};
pub use report::Report;
pub use size::{size, SizeAnswer};
