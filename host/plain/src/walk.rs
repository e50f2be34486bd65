//! The layer walk, 01's section 4.

use crate::distance::order;
use crate::ground::Ground;
use crate::heap::Heap;

/// One walk: on which level, how many are kept, and whether a marked entry is kept (in building)
/// or not (in searching).
#[derive(Clone, Copy)]
pub struct Walk {
    pub level: usize,
    pub width: usize,
    pub marked_entry_kept: bool,
}

impl Walk {
    /// Walks from the entries and answers what was kept. `seen` holds a flag for each id.
    pub fn run(self, ground: Ground, query: &[f32], entries: &[u16], seen: &mut [bool]) -> Heap {
        let mut kept = Heap::default();
        let mut candidates = Heap::default();
        for id in entries {
            seen[*id as usize] = true;
            if self.marked_entry_kept || !ground.tables.marked(*id) {
                let distance = ground.to(query, *id);
                kept.push(*id, distance);
                candidates.push(*id, -distance);
            } else {
                candidates.push(*id, -f32::MAX);
            }
        }
        while let Some(nearest) = candidates.pop() {
            if order(-nearest.distance) > bound(&kept) {
                break;
            }
            for id in ground.list(nearest.id, self.level) {
                if !seen[*id as usize] {
                    seen[*id as usize] = true;
                    self.look_at(ground, query, *id, &mut kept, &mut candidates);
                }
            }
        }
        kept
    }

    /// Takes an unseen id, or leaves it. "A marked one is walked through but not kept" is said
    /// without exception: read as in building too, where only entries are kept although marked.
    fn look_at(
        self,
        ground: Ground,
        query: &[f32],
        id: u16,
        kept: &mut Heap,
        candidates: &mut Heap,
    ) {
        let distance = ground.to(query, id);
        if kept.len() < self.width || order(distance) < bound(kept) {
            candidates.push(id, -distance);
            if !ground.tables.marked(id) {
                kept.push(id, distance);
            }
            if kept.len() > self.width {
                kept.pop();
            }
        }
    }
}

/// 01 speaks of "the bound" and does not say what it is. Read as: the farthest kept, and the
/// largest finite f32 while nothing is kept.
fn bound(kept: &Heap) -> i32 {
    kept.peek()
        .map_or(order(f32::MAX), |farthest| farthest.order())
}
