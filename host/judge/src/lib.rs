//! Demand 3 as a judge of answers. It knows distances, level-0 lists and chains, and nothing of
//! heaps or walks.
//!
//! "Take any table that passes 01's rules and has an id built, and any accepted query with k at
//! least 1. The list holds at most k different built, unmarked ids with their true distances,
//! nearest first. If it holds k, no unmarked id left out is nearer than the last listed, provided
//! a chain of level-0 links leads to it from the entry id and every id between those two is
//! strictly nearer than that last one. If it holds fewer than k, it holds every unmarked id that a
//! chain from the entry id reaches through unmarked ids only; the entry id itself may be marked."

mod chains;

use chains::Reached;
use plain::distance::{distance, order};
use plain::{Header, Neighbor, View};

/// Which part of the demand a list fails, tested in this order. `at` is a place in the list: of
/// all that fail the earliest, of a pair the later one. A chain begins with the entry id and ends
/// with the id.
#[derive(Debug, Clone, PartialEq, Eq)]
pub enum Fault {
    TooLong {
        at: usize,
    },
    NotBuilt {
        at: usize,
    },
    Twice {
        at: usize,
    },
    Marked {
        at: usize,
    },
    WrongDistance {
        at: usize,
    },
    WrongOrder {
        at: usize,
    },
    /// The list is full and this id is nearer than the last listed.
    LeftOut {
        id: u16,
        chain: Vec<u16>,
    },
    /// The list is short and this id is reached.
    Missing {
        id: u16,
        chain: Vec<u16>,
    },
    /// Some id is built, but not the entry id: there are no chains to judge by.
    EntryNotBuilt,
}

/// The table passes and the query is accepted. With k 0, or with nothing built, the empty list
/// alone is right.
pub fn judge(
    header: &Header,
    tables: View,
    query: &[f32],
    k: usize,
    entry: u16,
    list: &[Neighbor],
) -> Result<(), Fault> {
    let judged = Judged {
        header,
        tables,
        query,
        list,
    };
    judged.ids(k)?;
    judged.distances()?;
    if k == 0 || header.built == 0 {
        Ok(())
    } else if entry >= header.built {
        Err(Fault::EntryNotBuilt)
    } else if list.len() == k {
        judged.none_nearer(entry)
    } else {
        judged.none_missing(entry)
    }
}

struct Judged<'a> {
    header: &'a Header,
    tables: View<'a>,
    query: &'a [f32],
    list: &'a [Neighbor],
}

impl Judged<'_> {
    /// At most k different built, unmarked ids.
    fn ids(&self, k: usize) -> Result<(), Fault> {
        let id = |at: usize| self.list[at].id;
        if self.list.len() > k {
            return Err(Fault::TooLong { at: k });
        }
        if let Some(at) = self.first(|at| id(at) >= self.header.built) {
            return Err(Fault::NotBuilt { at });
        }
        if let Some(at) = self.first(|at| self.list[..at].iter().any(|n| n.id == id(at))) {
            return Err(Fault::Twice { at });
        }
        match self.first(|at| self.tables.marked(id(at))) {
            Some(at) => Err(Fault::Marked { at }),
            None => Ok(()),
        }
    }

    /// Their true distances, by bits, nearest first.
    fn distances(&self) -> Result<(), Fault> {
        let wrong = |at: usize| {
            let one = self.list[at];
            one.distance.to_bits() != self.distance_of(one.id).to_bits()
        };
        if let Some(at) = self.first(wrong) {
            return Err(Fault::WrongDistance { at });
        }
        let nearer = |at: usize| at > 0 && self.list[at].order() < self.list[at - 1].order();
        match self.first(nearer) {
            Some(at) => Err(Fault::WrongOrder { at }),
            None => Ok(()),
        }
    }

    /// Of a full list: no unmarked id left out is nearer than the last, if a chain leads to it
    /// through ids that are.
    fn none_nearer(&self, entry: u16) -> Result<(), Fault> {
        let last = self.list[self.list.len() - 1].order();
        let nearer = |id: u16| order(self.distance_of(id)) < last;
        let reached = Reached::from(self.header, self.tables, entry, nearer);
        let wrong = |id: &u16| reached.holds(*id) && self.absent(*id) && nearer(*id);
        match (0..self.header.built).find(wrong) {
            Some(id) => Err(Fault::LeftOut {
                id,
                chain: reached.chain(id),
            }),
            None => Ok(()),
        }
    }

    /// Of a short list: no unmarked id is absent, if a chain leads to it through unmarked ids.
    fn none_missing(&self, entry: u16) -> Result<(), Fault> {
        let unmarked = |id: u16| !self.tables.marked(id);
        let reached = Reached::from(self.header, self.tables, entry, unmarked);
        let wrong = |id: &u16| reached.holds(*id) && self.absent(*id);
        match (0..self.header.built).find(wrong) {
            Some(id) => Err(Fault::Missing {
                id,
                chain: reached.chain(id),
            }),
            None => Ok(()),
        }
    }

    fn first(&self, fails: impl Fn(usize) -> bool) -> Option<usize> {
        (0..self.list.len()).find(|at| fails(*at))
    }

    /// Unmarked and not listed.
    fn absent(&self, id: u16) -> bool {
        !self.tables.marked(id) && self.list.iter().all(|n| n.id != id)
    }

    fn distance_of(&self, id: u16) -> f32 {
        let vector = self.tables.vector(self.header, id as usize);
        distance(self.header.metric, self.query, vector)
    }
}
