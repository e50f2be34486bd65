//! Demand 3 read to the letter: "a chain leads to it" is asked of every chain, one by one. Only
//! for tables of a few ids.
#![allow(dead_code)]

use plain::distance::{distance, order};
use plain::{Header, Neighbor, Tables};
use scenarios::coordinates::Coordinates;
use scenarios::random::Random;
use tables::random_passing;

/// A table, a query and k, with the distance of each built id.
pub struct Asked {
    pub header: Header,
    pub tables: Tables,
    pub query: Vec<f32>,
    pub k: usize,
    pub distances: Vec<f32>,
    pub by_build: bool,
}

/// The same ids and marks, with lists that a build made.
fn build_anew(header: &mut Header, tables: &mut Tables) {
    let marks = std::mem::replace(&mut tables.marks, vec![0; header.capacity as usize]);
    tables.links.fill(0);
    header.built = 0;
    let outcome = plain::build(*header, tables.lend(), header.metric);
    assert_eq!(outcome.number, 0);
    *header = outcome.header;
    tables.marks = marks;
}

impl Asked {
    pub fn new(header: Header, tables: Tables, query: Vec<f32>, k: usize) -> Asked {
        let to = |id| distance(header.metric, &query, tables.view().vector(&header, id));
        let distances = (0..header.built as usize).map(to).collect();
        Asked {
            header,
            tables,
            query,
            k,
            distances,
            by_build: false,
        }
    }

    /// A random passing table with an id built, a query and a k. Four tables of five were made by
    /// no build. Many queries are made of stored coordinates, so that distances are equal.
    pub fn random(random: &mut Random) -> Asked {
        let (mut header, mut tables) = loop {
            let (header, tables) = random_passing(random);
            if header.built > 0 {
                break (header, tables);
            }
        };
        let by_build = random.percent(20) && header.added <= 100;
        if by_build {
            build_anew(&mut header, &mut tables);
        }
        let used = header.added as usize * header.dimension as usize;
        let stored = &tables.vectors[..used];
        let kind = random.pick(&[Coordinates::Whole(1), Coordinates::Whole(255)]);
        let draw = |_| match random.below(3) {
            0 => kind.draw(random),
            _ => random.pick(stored),
        };
        let query = (0..header.dimension).map(draw).collect();
        let k = match random.below(8) {
            0 => random.pick(&[1, 512]),
            _ => random.between((1, 2 + header.built.min(510) as usize)),
        };
        Asked {
            by_build,
            ..Asked::new(header, tables, query, k)
        }
    }

    pub fn neighbor(&self, id: u16) -> Neighbor {
        let distance = self.distances[id as usize];
        Neighbor { id, distance }
    }

    pub fn marked(&self, id: u16) -> bool {
        self.tables.marks[id as usize] == 1
    }

    /// What the plain reading answers.
    pub fn answer(&mut self) -> Vec<Neighbor> {
        let mut records = vec![Neighbor::default(); self.k];
        let lent = self.tables.lend();
        let outcome = plain::search_records(self.header, lent, &self.query, self.k, &mut records);
        assert_eq!(outcome.number, 0);
        records.truncate(outcome.found);
        records
    }

    pub fn judge(&self, entry: u16, list: &[Neighbor]) -> Result<(), judge::Fault> {
        let view = self.tables.view();
        judge::judge(&self.header, view, &self.query, self.k, entry, list)
    }

    /// Demand 3, sentence by sentence.
    pub fn is_right(&self, entry: u16, list: &[Neighbor]) -> bool {
        let listed = |id: u16| list.iter().any(|n| n.id == id);
        let true_one = |n: &Neighbor| {
            n.id < self.header.built && !self.marked(n.id) && n.bits() == self.neighbor(n.id).bits()
        };
        let twice = |at: usize| list[..at].iter().any(|n| n.id == list[at].id);
        let sorted = list
            .windows(2)
            .all(|pair| pair[0].order() <= pair[1].order());
        let different = !(0..list.len()).any(twice);
        if list.len() > self.k || !list.iter().all(true_one) || !sorted || !different {
            return false;
        }
        let order_of = |id: u16| order(self.distances[id as usize]);
        (0..self.header.built).all(|id| {
            if self.marked(id) || listed(id) {
                return true;
            }
            if list.len() == self.k {
                let last = list[self.k - 1].order();
                order_of(id) >= last
                    || !self.some_chain((entry, id), |inner| order_of(inner) < last)
            } else {
                !self.some_chain((entry, id), |inner| !self.marked(inner))
            }
        })
    }

    /// Whether some chain between these ends has only such ids between them. A chain that comes
    /// back to an id can be cut short, so those without a repeat are enough.
    fn some_chain(&self, (first, last): (u16, u16), inner: impl Fn(u16) -> bool) -> bool {
        let fits = |chain: &Vec<u16>| {
            let between = chain.get(1..chain.len() - 1).unwrap_or(&[]);
            chain[chain.len() - 1] == last && between.iter().all(|id| inner(*id))
        };
        self.chains(vec![first]).iter().any(fits)
    }

    /// All chains that go on from one, itself among them.
    fn chains(&self, chain: Vec<u16>) -> Vec<Vec<u16>> {
        let last = chain[chain.len() - 1] as usize;
        let mut all = vec![chain.clone()];
        for next in self.tables.view().list(&self.header, last, 0) {
            if !chain.contains(next) {
                let longer = [&chain[..], &[*next]].concat();
                all.extend(self.chains(longer));
            }
        }
        all
    }
}
