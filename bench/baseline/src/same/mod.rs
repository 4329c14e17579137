//! The messages by hand, as values of the kinds that the proved crates have: each module knows one type, and
//! its ranges, widths and places are constants. Each is written and read by the rule of the given writer or reader.
pub mod bsm;
pub mod cam;
pub mod list;
pub mod small;
pub mod strings;
pub mod wide;
