//! Rules R1 to R9, each by itself. A rule answers where it is broken: the lowest id concerned (a
//! list's owner) and, from R6 on, the lowest level within that id.
//!
//! The header lies in its bounds and the tables have their lengths; nothing else is taken for
//! granted, not even the rules before.

use crate::header::Header;
use crate::tables::{slots, View};

#[derive(Debug, Clone, Copy, PartialEq, Eq)]
pub struct Place {
    pub id: u16,
    pub level: u8,
}

pub type Rule = fn(&Header, View) -> Option<Place>;

pub const RULES: [Rule; 9] = [r1, r2, r3, r4, r5, r6, r7, r8, r9];

/// The number, from 1 to 9, of the first broken rule, and where it is broken.
pub fn first_broken(header: &Header, tables: View) -> Option<(usize, Place)> {
    let broken = |(at, rule): (usize, &Rule)| rule(header, tables).map(|place| (at + 1, place));
    RULES.iter().enumerate().find_map(broken)
}

/// built <= added <= capacity.
pub fn r1(header: &Header, _: View) -> Option<Place> {
    whole(header.built > header.added || header.added > header.capacity)
}

/// The metric is 0 to 3, and 1 to 3 if built is above 0.
pub fn r2(header: &Header, _: View) -> Option<Place> {
    whole(header.metric > 3 || (header.built > 0 && header.metric == 0))
}

/// Levels of added ids are at most `max_level`; id 0, if added, has `max_level`; levels of ids
/// not added are 0.
pub fn r3(header: &Header, tables: View) -> Option<Place> {
    first_id(header, |id| {
        let level = tables.levels[id] as u16;
        if id >= header.added as usize {
            level != 0
        } else if id == 0 {
            level != header.max_level
        } else {
            level > header.max_level
        }
    })
}

/// Marks are 0 or 1; 1 only on built ids and with `has_deletion`.
pub fn r4(header: &Header, tables: View) -> Option<Place> {
    first_id(header, |id| {
        let allowed = id < header.built as usize && header.has_deletion == 1;
        tables.marks[id] > allowed as u8
    })
}

/// Coordinates of added ids are finite; the rest are all zero bits.
pub fn r5(header: &Header, tables: View) -> Option<Place> {
    first_id(header, |id| {
        let vector = tables.vector(header, id);
        if id < header.added as usize {
            vector.iter().any(|c| !c.is_finite())
        } else {
            vector.iter().any(|c| c.to_bits() != 0)
        }
    })
}

/// No count exceeds its slots; counts are 0 on unbuilt ids and above an id's own level.
pub fn r6(header: &Header, tables: View) -> Option<Place> {
    first_list(header, |id, level| {
        let may_exist = id < header.built as usize && level <= tables.levels[id] as usize;
        let most = if may_exist { slots(header, level) } else { 0 };
        tables.count(header, id, level) > most
    })
}

/// Slots past a count are 0.
pub fn r7(header: &Header, tables: View) -> Option<Place> {
    first_list(header, |id, level| {
        let used = tables.list(header, id, level).len();
        let past = &tables.all_slots(header, id, level)[used..];
        // All bits together: nearly all cells of a table are looked at here, on every call.
        past.iter().fold(0, |bits, slot| bits | slot) != 0
    })
}

/// A listed id is built, is not the owner, and has at least the list's level.
pub fn r8(header: &Header, tables: View) -> Option<Place> {
    first_list(header, |id, level| {
        let wrong = |listed: &u16| {
            let to = *listed as usize;
            let high = tables.levels.get(to).is_some_and(|l| *l as usize >= level);
            *listed >= header.built || to == id || !high
        };
        tables.list(header, id, level).iter().any(wrong)
    })
}

/// No list holds an id twice.
pub fn r9(header: &Header, tables: View) -> Option<Place> {
    first_list(header, |id, level| {
        let list = tables.list(header, id, level);
        let again = |(at, listed): (usize, &u16)| list[..at].contains(listed);
        list.iter().enumerate().any(again)
    })
}

/// A rule on the header alone.
fn whole(broken: bool) -> Option<Place> {
    broken.then_some(Place { id: 0, level: 0 })
}

fn first_id(header: &Header, broken: impl Fn(usize) -> bool) -> Option<Place> {
    let id = (0..header.capacity).find(|id| broken(*id as usize))?;
    Some(Place { id, level: 0 })
}

fn first_list(header: &Header, broken: impl Fn(usize, usize) -> bool) -> Option<Place> {
    (0..header.capacity).find_map(|id| {
        let level = (0..=header.max_level as usize).find(|level| broken(id as usize, *level))?;
        let level = level as u8;
        Some(Place { id, level })
    })
}
