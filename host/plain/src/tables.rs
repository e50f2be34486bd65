//! The four lent tables and how the link table is laid out.

use crate::header::Header;

/// The tables with their cells, of any lengths.
#[derive(Debug, Clone)]
pub struct Tables {
    pub vectors: Vec<f32>,
    pub levels: Vec<u8>,
    pub marks: Vec<u8>,
    pub links: Vec<u16>,
}

/// The tables as a call is lent them.
pub struct Lent<'a> {
    pub vectors: &'a mut [f32],
    pub levels: &'a mut [u8],
    pub marks: &'a mut [u8],
    pub links: &'a mut [u16],
}

/// The tables to read from.
#[derive(Clone, Copy)]
pub struct View<'a> {
    pub vectors: &'a [f32],
    pub levels: &'a [u8],
    pub marks: &'a [u8],
    pub links: &'a [u16],
}

/// The lengths that 01 wants: vectors, levels, marks, links. The header lies in its bounds.
pub fn lengths(header: &Header) -> [usize; 4] {
    let capacity = header.capacity as usize;
    let dimension = header.dimension as usize;
    let links = capacity * block(header);
    [capacity * dimension, capacity, capacity, links]
}

/// The numbers of one id in the link table: for each level a count and its slots.
fn block(header: &Header) -> usize {
    let upper = 1 + header.n_neighbor as usize;
    1 + header.n_neighbor0 as usize + header.max_level as usize * upper
}

pub fn slots(header: &Header, level: usize) -> usize {
    if level == 0 {
        header.n_neighbor0 as usize
    } else {
        header.n_neighbor as usize
    }
}

/// Where the count of a list stands; its slots follow.
pub fn count_at(header: &Header, id: usize, level: usize) -> usize {
    let start = id * block(header);
    if level == 0 {
        start
    } else {
        let upper = 1 + header.n_neighbor as usize;
        start + 1 + header.n_neighbor0 as usize + (level - 1) * upper
    }
}

impl Tables {
    /// As beginning leaves them. The header lies in its bounds.
    pub fn zeroed(header: &Header) -> Tables {
        let [vectors, levels, marks, links] = lengths(header);
        Tables {
            vectors: vec![0.0; vectors],
            levels: vec![0; levels],
            marks: vec![0; marks],
            links: vec![0; links],
        }
    }

    pub fn lend(&mut self) -> Lent<'_> {
        Lent {
            vectors: &mut self.vectors,
            levels: &mut self.levels,
            marks: &mut self.marks,
            links: &mut self.links,
        }
    }

    pub fn view(&self) -> View<'_> {
        View {
            vectors: &self.vectors,
            levels: &self.levels,
            marks: &self.marks,
            links: &self.links,
        }
    }
}

impl Lent<'_> {
    /// The same tables, lent on.
    pub fn again(&mut self) -> Lent<'_> {
        Lent {
            vectors: self.vectors,
            levels: self.levels,
            marks: self.marks,
            links: self.links,
        }
    }

    pub fn view(&self) -> View<'_> {
        View {
            vectors: self.vectors,
            levels: self.levels,
            marks: self.marks,
            links: self.links,
        }
    }

    /// Stores a list that fits its slots; the slots past it become 0.
    pub fn set_list(&mut self, header: &Header, id: u16, level: usize, list: &[u16]) {
        let at = count_at(header, id as usize, level);
        self.links[at] = list.len() as u16;
        for slot in 0..slots(header, level) {
            self.links[at + 1 + slot] = list.get(slot).copied().unwrap_or(0);
        }
    }
}

impl<'a> View<'a> {
    pub fn lengths(&self) -> [usize; 4] {
        [
            self.vectors.len(),
            self.levels.len(),
            self.marks.len(),
            self.links.len(),
        ]
    }

    pub fn vector(&self, header: &Header, id: usize) -> &'a [f32] {
        let dimension = header.dimension as usize;
        &self.vectors[id * dimension..(id + 1) * dimension]
    }

    pub fn count(&self, header: &Header, id: usize, level: usize) -> usize {
        self.links[count_at(header, id, level)] as usize
    }

    /// All slots of a list, used or not.
    pub fn all_slots(&self, header: &Header, id: usize, level: usize) -> &'a [u16] {
        let first = count_at(header, id, level) + 1;
        &self.links[first..first + slots(header, level)]
    }

    /// The listed ids. A count above the slots, which R6 forbids, is read as all of them.
    pub fn list(&self, header: &Header, id: usize, level: usize) -> &'a [u16] {
        let count = self.count(header, id, level).min(slots(header, level));
        &self.all_slots(header, id, level)[..count]
    }

    pub fn marked(&self, id: u16) -> bool {
        self.marks[id as usize] != 0
    }
}
