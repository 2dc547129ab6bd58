//! The merger's calls once more, in plain Rust, made from the profile's text alone.
//!
//! Nothing here is shared with the proved library: inputs are read into maps and sets, the rule is
//! computed on those, and the result is written out. Where the two disagree, one of them is wrong.

pub mod calls;
pub mod case;
pub mod dossier;
pub mod event;
pub mod limits;
pub mod opening;
pub mod packed;
pub mod question;
pub mod report;
pub mod rule;
pub mod script;
pub mod sha1;
pub mod table;
pub mod values;
