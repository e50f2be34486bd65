//! The calls of `01-scope.md`, as plainly as they can be written: from 01's sentences, not from
//! the Rust and not from the port. Only `heap` follows a file of the Rust, as 01 says.
//!
//! Every call takes any header, any tables and any arguments, and has one outcome for them.

pub mod building;
pub mod calls;
pub mod choice;
pub mod distance;
pub mod ground;
pub mod header;
pub mod heap;
pub mod linking;
pub mod refusals;
pub mod rules;
pub mod search;
pub mod tables;
pub mod walk;

pub use calls::{add, begin, build, mark, search, search_records, Outcome};
pub use header::Header;
pub use heap::Neighbor;
pub use tables::{Lent, Tables, View};
