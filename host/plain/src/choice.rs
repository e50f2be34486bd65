//! Choice, 01's section 3.

use crate::distance::order;
use crate::heap::Neighbor;

/// Chooses from a list, nearest first. `between` is the distance of two ids.
pub fn choose(sorted: &[Neighbor], ret_size: usize, between: impl Fn(u16, u16) -> f32) -> Vec<u16> {
    if sorted.len() < ret_size {
        return sorted.iter().map(|n| n.id).collect();
    }
    let mut kept: Vec<u16> = Vec::new();
    for one in sorted {
        if kept.len() == ret_size {
            break;
        }
        let nearer_to = |other: &u16| order(between(one.id, *other)) < one.order();
        if !kept.iter().any(nearer_to) {
            kept.push(one.id);
        }
    }
    kept
}

#[cfg(test)]
mod tests {
    use super::*;

    /// 01's starred list: 2 at 1, then 1 and 0 at 25, with ids 0 to 2 at 0, 10, 4. Size 4: all
    /// three kept. Size 3: 2 and 1, since 0 is 16 from 2. Size 2: 2 and 1.
    #[test]
    fn starred() {
        let at = |id: u16| [0f32, 10.0, 4.0][id as usize];
        let between = |a, b| (at(a) - at(b)) * (at(a) - at(b));
        let near = |id, distance| Neighbor { id, distance };
        let list = [near(2, 1.0), near(1, 25.0), near(0, 25.0)];
        assert_eq!(choose(&list, 4, between), [2, 1, 0]);
        assert_eq!(choose(&list, 3, between), [2, 1]);
        assert_eq!(choose(&list, 2, between), [2, 1]);
        assert_eq!(choose(&list, 1, between), [2]);
    }

    /// Dropped only if strictly nearer to a kept one.
    #[test]
    fn an_equal_distance_is_kept() {
        let list = [0, 1].map(|id| Neighbor { id, distance: 5.0 });
        assert_eq!(choose(&list, 2, |_, _| 5.0), [0, 1]);
        assert_eq!(choose(&list, 2, |_, _| 4.0), [0]);
    }
}
