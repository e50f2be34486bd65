//! Each rule broken alone, with its place, and the first of two that are broken.

mod common;

use common::Index;
use plain::rules::{first_broken, Place, RULES};
use plain::tables::count_at;
use plain::{Header, Tables};

/// Six places, dimension 2. Ids 0 to 3 are built with levels 2, 1, 0, 2; id 1 is marked; id 4 is
/// pending with level 1; id 5 is not added. Id 0 has full lists on levels 0 and 1.
fn passing() -> Index {
    let header = Header::of(&[2, 6, 2, 3, 2, 4, 4, 1, 3, 5, 4]);
    let mut tables = Tables::zeroed(&header);
    tables.levels = vec![2, 1, 0, 2, 1, 0];
    tables.marks[1] = 1;
    for (at, coordinate) in tables.vectors[..10].iter_mut().enumerate() {
        *coordinate = at as f32;
    }
    let mut index = Index { header, tables };
    index.set(0, 0, &[1, 2, 3]);
    index.set(0, 1, &[1, 3]);
    index.set(0, 2, &[3]);
    index.set(1, 0, &[0]);
    index.set(1, 1, &[3]);
    index.set(2, 0, &[1, 0]);
    index.set(3, 2, &[0]);
    index
}

impl Index {
    fn set(&mut self, id: u16, level: usize, list: &[u16]) {
        let header = self.header;
        self.tables.lend().set_list(&header, id, level, list);
    }

    fn count(&mut self, id: usize, level: usize) -> &mut u16 {
        let at = count_at(&self.header, id, level);
        &mut self.tables.links[at]
    }

    fn slot(&mut self, id: usize, level: usize, slot: usize) -> &mut u16 {
        let at = count_at(&self.header, id, level);
        &mut self.tables.links[at + 1 + slot]
    }

    fn broken(&self) -> Option<(usize, Place)> {
        first_broken(&self.header, self.tables.view())
    }

    /// All broken rules.
    fn all_broken(&self) -> Vec<usize> {
        let view = self.tables.view();
        let broken = |n: &usize| RULES[*n - 1](&self.header, view).is_some();
        (1..=9).filter(broken).collect()
    }
}

type Break = fn(&mut Index);

/// The rule that a change breaks and no other, the id and the level.
const BREAKS: [(usize, Break, u16, u8); 36] = [
    (1, |i| i.header.added = 7, 0, 0),
    (1, |i| i.header.built = 6, 0, 0),
    (2, |i| i.header.metric = 4, 0, 0),
    (2, |i| i.header.metric = 65_535, 0, 0),
    (2, |i| i.header.metric = 0, 0, 0),
    (3, |i| i.tables.levels[0] = 3, 0, 0),
    (3, |i| i.tables.levels[3] = 3, 3, 0),
    (3, |i| i.tables.levels[4] = 255, 4, 0),
    (3, |i| i.tables.levels[5] = 1, 5, 0),
    (4, |i| i.tables.marks[0] = 2, 0, 0),
    (4, |i| i.tables.marks[1] = 255, 1, 0),
    (4, |i| i.tables.marks[4] = 1, 4, 0),
    (4, |i| i.tables.marks[5] = 1, 5, 0),
    (4, |i| i.header.has_deletion = 0, 1, 0),
    (5, |i| i.tables.vectors[5] = f32::NAN, 2, 0),
    (5, |i| i.tables.vectors[1] = f32::INFINITY, 0, 0),
    (5, |i| i.tables.vectors[8] = f32::NEG_INFINITY, 4, 0),
    (5, |i| i.tables.vectors[10] = -0.0, 5, 0),
    (5, |i| i.tables.vectors[11] = f32::from_bits(1), 5, 0),
    (6, |i| *i.count(0, 0) = 4, 0, 0),
    (6, |i| *i.count(0, 1) = 65_535, 0, 1),
    (6, |i| i.set(2, 1, &[0]), 2, 1),
    (6, |i| i.set(1, 2, &[0]), 1, 2),
    (6, |i| i.set(4, 0, &[0]), 4, 0),
    (6, |i| i.set(4, 1, &[3]), 4, 1),
    (6, |i| i.set(5, 0, &[0]), 5, 0),
    (7, |i| *i.slot(1, 0, 1) = 2, 1, 0),
    (7, |i| *i.slot(3, 2, 1) = 65_535, 3, 2),
    (7, |i| *i.slot(5, 2, 1) = 1, 5, 2),
    (8, |i| *i.slot(0, 0, 2) = 4, 0, 0),
    (8, |i| *i.slot(1, 0, 0) = 65_535, 1, 0),
    (8, |i| *i.slot(2, 0, 1) = 2, 2, 0),
    (8, |i| *i.slot(0, 1, 1) = 2, 0, 1),
    (8, |i| *i.slot(3, 2, 0) = 1, 3, 2),
    (9, |i| *i.slot(0, 0, 2) = 1, 0, 0),
    (9, |i| *i.slot(0, 1, 0) = 3, 0, 1),
];

#[test]
fn the_table_passes() {
    assert_eq!(passing().broken(), None);
    assert_eq!(passing().all_broken(), []);
}

#[test]
fn each_alone_with_its_place() {
    for (at, (rule, change, id, level)) in BREAKS.into_iter().enumerate() {
        let mut index = passing();
        change(&mut index);
        assert_eq!(index.all_broken(), [rule], "break {at}");
        let place = Place { id, level };
        assert_eq!(index.broken(), Some((rule, place)), "break {at}");
        // A call says 3, and 3 only where a rule is broken.
        assert_eq!(index.build(3), 3);
    }
    assert_eq!(passing().build(3), 0);
}

/// Two broken rules: the first decides, whatever the ids.
#[test]
fn the_first_of_two_decides() {
    for (first, change, id, level) in BREAKS {
        for (second, other, ..) in BREAKS.into_iter().filter(|b| b.0 > first) {
            let mut index = passing();
            other(&mut index);
            change(&mut index);
            let place = Place { id, level };
            assert_eq!(index.broken(), Some((first, place)), "{first} {second}");
        }
    }
}

/// The lowest id, and within it the lowest level.
#[test]
fn the_lowest_place() {
    let mut index = passing();
    for (id, level, expected) in [
        (5, 2, (5, 2)),
        (3, 1, (3, 1)),
        (4, 0, (3, 1)),
        (3, 0, (3, 0)),
    ] {
        *index.slot(id, level, 1) = 9;
        let place = Place {
            id: expected.0,
            level: expected.1,
        };
        assert_eq!(index.broken(), Some((7, place)));
    }
}

/// Without an id built, metric 0 passes; id 0 is held to `max_level` only once it is added.
#[test]
fn nothing_built_or_added() {
    let mut index = Index::begun(Header::of(&[1, 1, 1, 1, 2, 1, 1, 0, 0, 0, 0]));
    assert_eq!(index.broken(), None);
    index.header.metric = 3;
    assert_eq!(index.broken(), None);
    index.header.added = 1;
    let place = Place { id: 0, level: 0 };
    assert_eq!(index.broken(), Some((3, place)));
    index.tables.levels[0] = 2;
    assert_eq!(index.broken(), None);
}
