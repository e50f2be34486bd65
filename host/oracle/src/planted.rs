//! Ours. Switches that make the oracle wrong as a porter would make it.
//!
//! `planted!(Name)` is the constant `false` in the true oracle, so the switches cost nothing there.
//! The package `planted` compiles the same files with them; one at a time is on, per thread.

#[cfg(not(feature = "planted"))]
macro_rules! planted {
    ($name:ident) => {
        false
    };
}

#[cfg(feature = "planted")]
macro_rules! planted {
    ($name:ident) => {
        crate::planted::is_on(crate::planted::Planted::$name)
    };
}

#[cfg(feature = "planted")]
pub use switches::{is_on, switch, Planted};

#[cfg(feature = "planted")]
mod switches {
    use std::cell::Cell;

    #[derive(Debug, Clone, Copy, PartialEq, Eq)]
    pub enum Planted {
        /// The true oracle.
        None,
        SeenCleared,
        DescentMended,
        TieById,
        OtherChild,
        ShortListChosen,
        DroppedOnEqual,
        ChosenReversed,
        EntriesCut,
        NewIdLast,
        AnswerSorted,
        BoundAtLeast,
        MarkedEntryKept,
        SecondPush,
        /// Not an error of a porter: hora's own kernels in place of ours, to show what they say.
        OwnKernel,
    }

    impl Planted {
        /// The errors that the fixed list must tell from the true oracle.
        pub const ERRORS: [Planted; 13] = [
            Planted::SeenCleared,
            Planted::DescentMended,
            Planted::TieById,
            Planted::OtherChild,
            Planted::ShortListChosen,
            Planted::DroppedOnEqual,
            Planted::ChosenReversed,
            Planted::EntriesCut,
            Planted::NewIdLast,
            Planted::AnswerSorted,
            Planted::BoundAtLeast,
            Planted::MarkedEntryKept,
            Planted::SecondPush,
        ];

        /// The error in words, as docs/ORACLE.md lists it.
        pub fn words(self) -> &'static str {
            match self {
                Planted::None => "the true oracle",
                Planted::SeenCleared => "seen set cleared per level",
                Planted::DescentMended => "search descent mended",
                Planted::TieById => "tie broken by id",
                Planted::OtherChild => "the other child on a tie",
                Planted::ShortListChosen => "short list chosen from",
                Planted::DroppedOnEqual => "dropped on an equal distance",
                Planted::ChosenReversed => "chosen ids reversed",
                Planted::EntriesCut => "entries of later walks not all kept",
                Planted::NewIdLast => "new id not put first in a rechoice",
                Planted::AnswerSorted => "answer sorted instead of popped",
                Planted::BoundAtLeast => "bound compared with >=",
                Planted::MarkedEntryKept => "marked entry kept",
                Planted::SecondPush => "second push left in",
                Planted::OwnKernel => "hora's own kernels",
            }
        }
    }

    thread_local! {
        static ON: Cell<Planted> = const { Cell::new(Planted::None) };
    }

    /// Turns one switch on and every other off, for the calling thread.
    pub fn switch(planted: Planted) {
        ON.with(|on| on.set(planted));
    }

    pub fn is_on(planted: Planted) -> bool {
        ON.with(|on| on.get() == planted)
    }
}
