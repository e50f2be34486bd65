//! The fixed list: the oracle's answers to the scenarios of `scenarios`, in the format of
//! docs/ORACLE.md.

pub mod making;
pub mod planting;
pub mod reading;
pub mod writing;
