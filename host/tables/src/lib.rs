//! Tables for whatever reads them: some that pass 01's rules though no build made them, some
//! damaged; calls with arguments of every kind; and a driver that asks two libraries the same and
//! compares all that they hand back and all that they were lent.

pub mod calls;
pub mod compare;
pub mod damaged;
pub mod guarded;
pub mod library;
pub mod passing;
mod sides;

pub use calls::{random_call, Call};
pub use compare::{compare, Difference, Report};
pub use damaged::damaged;
pub use guarded::Guarded;
pub use library::{Library, Plain, Searched};
pub use passing::random_passing;
