//! The paper's rules, a file for each part of it: what is read beside the
//! paper. All else in this crate makes cases, runs them and compares.

pub mod apart;
pub mod chain;
pub mod check;
pub mod ext;
pub mod ext_parts;
pub mod ext_record;
pub mod head;
pub mod header;
pub mod join;
pub mod layout;
pub mod lean;
pub mod lean_questions;
pub mod limits;
pub mod list;
pub mod list_read;
pub mod members;
pub mod name_at;
pub mod names;
pub mod order;
pub mod record;
pub mod reference;
pub mod report;
pub mod size;
pub mod table;
pub mod tail;
pub mod walk;
