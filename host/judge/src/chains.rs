//! Chains of level-0 links. A chain is a list of ids, each in the level-0 list of the one before;
//! it may be empty: an id reaches itself.

use plain::{Header, View};

/// What chains from one id reach, if every id between the two ends may be passed.
pub struct Reached {
    /// For each reached id the one before it; the first one comes after itself.
    before: Vec<Option<u16>>,
}

impl Reached {
    /// The first id is built. It is no inner id of a chain: whether it may be passed is not asked.
    pub fn from(header: &Header, tables: View, first: u16, pass: impl Fn(u16) -> bool) -> Reached {
        let mut before = vec![None; header.built as usize];
        before[first as usize] = Some(first);
        let mut open = vec![first];
        let mut at = 0;
        while at < open.len() {
            let id = open[at];
            at += 1;
            if id != first && !pass(id) {
                continue;
            }
            for next in tables.list(header, id as usize, 0) {
                if before[*next as usize].is_none() {
                    before[*next as usize] = Some(id);
                    open.push(*next);
                }
            }
        }
        Reached { before }
    }

    pub fn holds(&self, id: u16) -> bool {
        self.before[id as usize].is_some()
    }

    /// One of the shortest chains to a reached id, both ends included.
    pub fn chain(&self, id: u16) -> Vec<u16> {
        let mut chain = vec![id];
        let mut at = id;
        while let Some(before) = self.before[at as usize].filter(|before| *before != at) {
            chain.push(before);
            at = before;
        }
        chain.reverse();
        chain
    }
}
