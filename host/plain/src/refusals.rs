//! The answer numbers 1 to 14. Each call's tests stand in the order of their numbers, so the first
//! that applies is the lowest.

use crate::header::{Header, BOUNDS};
use crate::rules::first_broken;
use crate::tables::{lengths, View};

/// The most that a search may be asked for.
pub const MOST: usize = 512;

pub fn of_begin(header: &Header, tables: View) -> u32 {
    if !header.within(&BOUNDS) {
        1
    } else if tables.lengths() != lengths(header) {
        2
    } else {
        0
    }
}

/// What every call but beginning tests first.
pub fn of_any(header: &Header, tables: View) -> u32 {
    match of_begin(header, tables) {
        0 if first_broken(header, tables).is_some() => 3,
        number => number,
    }
}

pub fn of_add(header: &Header, tables: View, vector: &[f32], level: u8) -> u32 {
    match of_any(header, tables) {
        0 => number_of_add(header, vector, level),
        number => number,
    }
}

pub fn of_build(header: &Header, tables: View, metric: u16) -> u32 {
    match of_any(header, tables) {
        0 => number_of_build(header, metric),
        number => number,
    }
}

pub fn of_mark(header: &Header, tables: View, id: u16) -> u32 {
    match of_any(header, tables) {
        0 => number_of_mark(header, tables, id),
        number => number,
    }
}

/// `room` is the length of the shortest answer buffer.
pub fn of_search(header: &Header, tables: View, query: &[f32], k: usize, room: usize) -> u32 {
    match of_any(header, tables) {
        0 => number_of_search(header, query, k, room),
        number => number,
    }
}

fn number_of_add(header: &Header, vector: &[f32], level: u8) -> u32 {
    if vector.len() != header.dimension as usize {
        6
    } else if header.added == header.capacity {
        7
    } else if level as u16 > header.max_level {
        8
    } else if has_other_than_finite(vector) {
        9
    } else {
        0
    }
}

fn number_of_build(header: &Header, metric: u16) -> u32 {
    if metric == 0 || metric > 3 {
        4
    } else if header.built > 0 && metric != header.metric {
        5
    } else {
        0
    }
}

fn number_of_mark(header: &Header, tables: View, id: u16) -> u32 {
    if header.has_deletion == 0 {
        12
    } else if id >= header.built {
        13
    } else if tables.marked(id) {
        14
    } else {
        0
    }
}

fn number_of_search(header: &Header, query: &[f32], k: usize, room: usize) -> u32 {
    if query.len() != header.dimension as usize {
        6
    } else if has_other_than_finite(query) {
        9
    } else if k > MOST {
        10
    } else if room < k {
        11
    } else {
        0
    }
}

fn has_other_than_finite(vector: &[f32]) -> bool {
    vector.iter().any(|c| !c.is_finite())
}
