//! Linking, 01's section 5.

use crate::choice::choose;
use crate::ground::Ground;
use crate::header::Header;
use crate::heap::{Heap, Neighbor};
use crate::tables::{slots, Lent};

/// Links a new id on one level with what is chosen from `sorted`.
pub fn connect(
    header: &Header,
    tables: &mut Lent,
    metric: u16,
    new: u16,
    sorted: &[Neighbor],
    level: usize,
) {
    // 01 does not say which size the choice is asked for. Read as: the slots of the level, since
    // what is chosen has to fit there.
    let size = slots(header, level);
    let ground = Ground::new(header, tables.view(), metric);
    let chosen = choose(sorted, size, |a, b| ground.between(a, b));
    tables.set_list(header, new, level, &chosen);
    for owner in chosen {
        let ground = Ground::new(header, tables.view(), metric);
        let old = ground.list(owner, level);
        let list = if old.len() < size {
            [old, &[new]].concat()
        } else {
            chosen_anew(ground, owner, new, old, size)
        };
        tables.set_list(header, owner, level, &list);
    }
}

/// A full list: from the new id first and the old ids after it in list order, through the heap.
fn chosen_anew(ground: Ground, owner: u16, new: u16, old: &[u16], size: usize) -> Vec<u16> {
    let mut heap = Heap::default();
    heap.push(new, ground.between(owner, new));
    for id in old {
        heap.push(*id, ground.between(owner, *id));
    }
    choose(&heap.into_sorted_vec(), size, |a, b| ground.between(a, b))
}
