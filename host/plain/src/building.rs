//! Building, 01's section 6.

use crate::distance::order;
use crate::ground::Ground;
use crate::header::Header;
use crate::linking::connect;
use crate::tables::Lent;
use crate::walk::Walk;

/// Links the pending ids in order.
pub fn link_pending(header: &Header, tables: &mut Lent, metric: u16) {
    for new in header.built..header.added {
        // 01 does not say what id 0 is linked with. There is no other id yet, and R8 forbids
        // itself: nothing.
        if new > 0 {
            link_one(header, tables, metric, new);
        }
    }
}

fn link_one(header: &Header, tables: &mut Lent, metric: u16, new: u16) {
    let own_level = tables.levels[new as usize] as usize;
    let mut seen = vec![false; header.added as usize];
    let ground = Ground::new(header, tables.view(), metric);
    let mut entries = vec![descent(ground, new)];
    for level in (0..=own_level).rev() {
        let ground = Ground::new(header, tables.view(), metric);
        let walk = Walk {
            level,
            width: header.ef_build as usize,
            marked_entry_kept: true,
        };
        let kept = walk.run(ground, ground.vector(new), &entries, &mut seen);
        // 01 does not say how the kept ones are put in order for linking and for the next walk.
        // Read as: `into_sorted_vec`, the order of the starred list that the choice is shown on.
        let sorted = kept.into_sorted_vec();
        connect(header, tables, metric, new, &sorted, level);
        entries = sorted.iter().map(|n| n.id).collect();
    }
}

/// From id 0 down to the level above the new id's own: where the first walk starts.
fn descent(ground: Ground, new: u16) -> u16 {
    let own_level = ground.tables.levels[new as usize] as usize;
    let mut nearest = 0;
    let mut least = order(ground.between(nearest, new));
    for level in (own_level + 1..=ground.header.max_level as usize).rev() {
        // 01 does not say how many passes there are. Read as: until one moves nowhere. A pass
        // keeps reading the list it began.
        loop {
            let begun_at = nearest;
            for id in ground.list(begun_at, level) {
                let order = order(ground.between(*id, new));
                if order < least {
                    least = order;
                    nearest = *id;
                }
            }
            if nearest == begun_at {
                break;
            }
        }
    }
    nearest
}
