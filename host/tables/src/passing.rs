//! Tables that pass R1 to R9 though no build made them.

use plain::header::BOUNDS;
use plain::tables::slots;
use plain::{Header, Tables};
use scenarios::coordinates::Coordinates;
use scenarios::random::Random;

pub(crate) const KINDS: [Coordinates; 7] = [
    Coordinates::Whole(1),
    Coordinates::Whole(2),
    Coordinates::Whole(255),
    Coordinates::Smooth,
    Coordinates::Small,
    Coordinates::AnyBits,
    Coordinates::Huge,
];

/// What the parameters usually are: small, so that many tables can be made.
const USUAL: [(usize, usize); 8] = [
    (1, 3),
    (1, 9),
    (1, 3),
    (1, 5),
    (0, 3),
    (1, 6),
    (1, 6),
    (0, 1),
];

pub fn random_passing(random: &mut Random) -> (Header, Tables) {
    let header = random_header(random);
    let mut tables = Tables::zeroed(&header);
    fill_vectors(&header, &mut tables, random);
    fill_levels(&header, &mut tables, random);
    fill_marks(&header, &mut tables, random);
    fill_links(&header, &mut tables, random);
    (header, tables)
}

/// In its bounds, with R1 and R2 kept.
fn random_header(random: &mut Random) -> Header {
    let mut header = random_parameters(random);
    header.added = some_of(header.capacity, random);
    header.built = some_of(header.added, random);
    // A build of many ids takes long where everything is large.
    if header.capacity > 100 && header.n_neighbor0 > 8 {
        header.built = header.built.max(header.added.saturating_sub(2));
    }
    // With nothing built a metric may be set already, by a build of nothing.
    let least = (header.built > 0) as usize;
    header.metric = random.between((least, 3)) as u16;
    header
}

/// Usually one of them may be anything, often an end of its range. Now and then all are: with a
/// small capacity, or, rarely, in tables of millions of cells.
fn random_parameters(random: &mut Random) -> Header {
    let mut numbers = [0; 11];
    for (number, usual) in numbers.iter_mut().zip(USUAL) {
        *number = random.between(usual) as u16;
    }
    let kind = random.below(2_000);
    let one = random.below(16);
    for (at, bound) in BOUNDS.iter().enumerate() {
        let wide = match kind {
            0 | 1 => true,
            2..=20 => at != 1,
            // A large capacity makes large tables: it is drawn less often.
            _ => at == one && (at != 1 || random.percent(25)),
        };
        if wide {
            let any = random.between((bound.0 as usize, bound.1 as usize)) as u16;
            numbers[at] = random.pick(&[bound.0, bound.1, any]);
        }
    }
    Header::of(&numbers)
}

/// From 0 to `most`, mostly in its upper half, often all.
fn some_of(most: u16, random: &mut Random) -> u16 {
    let most = most as usize;
    let some = match random.below(10) {
        0 => random.between((0, most)),
        1..=4 => most,
        _ => random.between((most.div_ceil(2), most)),
    };
    some as u16
}

fn fill_vectors(header: &Header, tables: &mut Tables, random: &mut Random) {
    let kind = random.pick(&KINDS);
    let used = header.added as usize * header.dimension as usize;
    for coordinate in &mut tables.vectors[..used] {
        *coordinate = kind.draw(random);
    }
}

fn fill_levels(header: &Header, tables: &mut Tables, random: &mut Random) {
    for level in &mut tables.levels[..header.added as usize] {
        *level = random.between((0, header.max_level as usize)) as u8;
    }
    if header.added > 0 {
        tables.levels[0] = header.max_level as u8;
    }
}

fn fill_marks(header: &Header, tables: &mut Tables, random: &mut Random) {
    if header.has_deletion == 0 {
        return;
    }
    let chance = random.pick(&[0, 10, 30, 60, 100]);
    for mark in &mut tables.marks[..header.built as usize] {
        *mark = random.percent(chance) as u8;
    }
}

fn fill_links(header: &Header, tables: &mut Tables, random: &mut Random) {
    // Some tables have every slot used that can be, some few, some all sorts.
    let least = random.pick(&[0, 0, 1, 64]);
    for id in 0..header.built {
        for level in 0..=tables.levels[id as usize] as usize {
            let most = slots(header, level);
            let count = random.between((least.min(most), most));
            let list = random_list(header, tables, (id, level), count, random);
            tables.lend().set_list(header, id, level, &list);
        }
    }
}

/// At most `count` ids that R8 and R9 allow in a list, in any order.
fn random_list(
    header: &Header,
    tables: &Tables,
    (owner, level): (u16, usize),
    count: usize,
    random: &mut Random,
) -> Vec<u16> {
    let mut list = Vec::new();
    for _ in 0..2 * count {
        let id = random.below(header.built as usize) as u16;
        let high = tables.levels[id as usize] as usize >= level;
        if id != owner && high && !list.contains(&id) && list.len() < count {
            list.push(id);
        }
    }
    list
}

#[cfg(test)]
mod tests {
    use super::*;
    use plain::refusals::of_any;

    /// All pass; every number of the header is met at both ends of its range, and lists of
    /// every kind are met.
    #[test]
    fn they_pass() {
        let mut random = Random::new(1);
        let mut ends = [(0, 0); 8];
        let (mut full, mut empty, mut aloft, mut largest) = (0, 0, 0, 0);
        for _ in 0..20_000 {
            let (header, tables) = random_passing(&mut random);
            assert_eq!(of_any(&header, tables.view()), 0);
            largest = largest.max(tables.links.len());
            for (at, bound) in BOUNDS.iter().enumerate() {
                ends[at].0 += (header.numbers()[at] == bound.0) as usize;
                ends[at].1 += (header.numbers()[at] == bound.1) as usize;
            }
            for id in 0..header.built as usize {
                let count = tables.view().count(&header, id, 0);
                full += (count == slots(&header, 0)) as usize;
                empty += (count == 0) as usize;
                let top = header.max_level as usize;
                aloft += (top > 0 && tables.view().count(&header, id, top) > 0) as usize;
            }
        }
        assert!(ends.iter().all(|end| end.0 > 0 && end.1 > 0), "{ends:?}");
        assert!(full > 0 && empty > 0 && aloft > 0);
        // More cells than a u16 counts, by far.
        assert!(largest > 1_000_000, "{largest}");
    }
}
