//! Tables that hardly ever pass: one cell changed, several, garbage, other lengths, other headers.

use crate::guarded::Cell;
use crate::passing::random_passing;
use plain::header::BOUNDS;
use plain::{Header, Tables};
use scenarios::random::Random;

pub fn damaged(random: &mut Random) -> (Header, Tables) {
    let (mut header, mut tables) = random_passing(random);
    match random.below(10) {
        0..=4 => change_one(&mut header, &mut tables, random),
        5 => {
            for _ in 0..random.between((2, 5)) {
                change_one(&mut header, &mut tables, random);
            }
        }
        6 => garbage(&mut tables, random),
        7 => change_length(&mut tables, random),
        8 => change_header(&mut header, random),
        _ => {
            for _ in 0..random.between((2, 11)) {
                change_header(&mut header, random);
            }
        }
    }
    (header, tables)
}

/// One cell of the four tables, or one number of the header.
fn change_one(header: &mut Header, tables: &mut Tables, random: &mut Random) {
    match random.below(7) {
        0 => change_header(header, random),
        1 => change_cell(&mut tables.levels, random, |random, old| {
            let near = [0, 1, old.wrapping_add(1), old.wrapping_sub(1), 21, 255];
            random.pick(&near)
        }),
        2 => change_cell(&mut tables.marks, random, |random, old| {
            random.pick(&[0, 1, 1 - old.min(1), 2, 255])
        }),
        3 => change_cell(&mut tables.vectors, random, |random, _| any_float(random)),
        _ => change_link(header, tables, random),
    }
}

/// One cell becomes another than it was.
fn change_cell<T: Cell>(cells: &mut [T], random: &mut Random, draw: impl Fn(&mut Random, T) -> T) {
    if cells.is_empty() {
        return;
    }
    let at = random.below(cells.len());
    let old = cells[at];
    while cells[at].bits() == old.bits() {
        cells[at] = draw(random, old);
    }
}

/// A count or a slot becomes one that some rule forbids, or nearly: a neighbouring cell's, so that
/// an id stands twice; the owner; an id that is pending, not added or beyond the capacity.
fn change_link(header: &Header, tables: &mut Tables, random: &mut Random) {
    let links = &mut tables.links;
    if links.is_empty() {
        return;
    }
    let at = random.below(links.len());
    let old = links[at];
    let owner = at * header.capacity as usize / links.len();
    let beside = links[(at + 1) % links.len()];
    let before = links[(at + links.len() - 1) % links.len()];
    while links[at] == old {
        links[at] = match random.below(10) {
            0 | 1 => beside,
            2 | 3 => before,
            4 => owner as u16,
            5 => random.pick(&[header.built, header.added, header.capacity]),
            6 => old.wrapping_add(1),
            7 => old.wrapping_sub(1),
            8 => random.pick(&[0, 1, header.n_neighbor, header.n_neighbor0, 65, 65_535]),
            _ => random.draw() as u16,
        };
    }
}

/// One number at 0, 1, an end of its range, one past it, beside its old value, or anything.
fn change_header(header: &mut Header, random: &mut Random) {
    let mut numbers = header.numbers();
    let at = random.below(11);
    let (low, high) = match at {
        8 => (1, 3),
        9 => (header.built, header.capacity),
        10 => (0, header.added),
        _ => BOUNDS[at],
    };
    let old = numbers[at];
    let any = random.draw() as u16;
    let near = [old.wrapping_add(1), old.wrapping_sub(1), 65_535, any];
    let ends = [low, high, low.wrapping_sub(1), high.wrapping_add(1), 0, 1];
    while numbers[at] == old {
        numbers[at] = if random.percent(60) {
            random.pick(&ends)
        } else {
            random.pick(&near)
        };
    }
    *header = Header::of(&numbers);
}

/// Any bits in one table, or in all four.
fn garbage(tables: &mut Tables, random: &mut Random) {
    let only = random.below(5);
    let spoilt = |table| only == table || only == 4;
    if spoilt(0) {
        tables.vectors.fill_with(|| any_float(random));
    }
    if spoilt(1) {
        tables.levels.fill_with(|| random.draw() as u8);
    }
    if spoilt(2) {
        tables.marks.fill_with(|| random.draw() as u8);
    }
    if spoilt(3) {
        tables.links.fill_with(|| random.draw() as u16);
    }
}

fn change_length(tables: &mut Tables, random: &mut Random) {
    match random.below(4) {
        0 => resize(&mut tables.vectors, 0.0, random),
        1 => resize(&mut tables.levels, 0, random),
        2 => resize(&mut tables.marks, 0, random),
        _ => resize(&mut tables.links, 0, random),
    }
}

/// Nothing, one short, one long, or far off.
fn resize<T: Copy>(cells: &mut Vec<T>, more: T, random: &mut Random) {
    let old = cells.len();
    let far = random.below(3 * old + 10);
    let new = random.pick(&[0, old.saturating_sub(1), old + 1, far]);
    cells.resize(new, more);
}

/// Any bits, often a NaN with a payload, an infinity, a zero or a subnormal number.
pub fn any_float(random: &mut Random) -> f32 {
    let any = random.draw() as u32;
    let bits = match random.below(6) {
        0 => 0x7F80_0000 | any,
        1 => 0x7F80_0000 | (any & 0x8000_0000),
        2 => any & 0x8000_0000,
        3 => any & 0x807F_FFFF,
        _ => any,
    };
    f32::from_bits(bits)
}

#[cfg(test)]
mod tests {
    use super::*;
    use plain::refusals::of_begin;
    use plain::rules::{first_broken, RULES};

    /// Every rule is broken alone, somewhere; bounds and lengths are broken; some pass.
    #[test]
    fn every_kind_of_damage() {
        let mut random = Random::new(2);
        let mut alone = [0; 9];
        let (mut passing, mut bounds, mut lengths) = (0, 0, 0);
        for _ in 0..20_000 {
            let (header, tables) = damaged(&mut random);
            let view = tables.view();
            match of_begin(&header, view) {
                1 => bounds += 1,
                2 => lengths += 1,
                _ if first_broken(&header, view).is_none() => passing += 1,
                _ => {
                    let broken = |n: &usize| RULES[*n](&header, view).is_some();
                    let all: Vec<usize> = (0..9).filter(broken).collect();
                    alone[all[0]] += (all.len() == 1) as usize;
                }
            }
        }
        println!("alone {alone:?}, bounds {bounds}, lengths {lengths}, passing {passing}");
        assert!(alone.iter().all(|count| *count > 50), "{alone:?}");
        assert!(bounds > 500 && lengths > 500 && passing > 100);
    }
}
