//! Search, 01's section 7.

use crate::ground::Ground;
use crate::header::Header;
use crate::heap::Neighbor;
use crate::tables::View;
use crate::walk::Walk;

/// The answer, nearest first. The table passes and the arguments are accepted.
pub fn found(header: &Header, tables: View, query: &[f32], k: usize) -> Vec<Neighbor> {
    if header.built == 0 {
        return Vec::new();
    }
    let ground = Ground::new(header, tables, header.metric);
    let walk = Walk {
        level: 0,
        width: k.max(header.ef_search as usize),
        marked_entry_kept: false,
    };
    let mut seen = vec![false; header.built as usize];
    let mut kept = walk.run(ground, query, &[0], &mut seen);
    while kept.len() > k {
        kept.pop();
    }
    let mut answer: Vec<Neighbor> = std::iter::from_fn(|| kept.pop()).collect();
    answer.reverse();
    answer
}
