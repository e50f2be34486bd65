//! The plain reading with one mistake. Some mistakes change which number is given, some what a
//! call does.

mod refusing;

use plain::distance::order;
use plain::{Header, Lent, Neighbor};
pub use refusing::Refusing;
use tables::{Call, Library, Plain, Searched};

/// What a call does wrong although its number is right.
#[derive(Debug, Clone, Copy, PartialEq)]
pub enum Effect {
    None,
    /// Beginning does not zero one of the four tables.
    BeginLeaves(usize),
    /// Beginning leaves the last three numbers of the header.
    BeginKeepsHeader,
    /// A refused beginning has zeroed the links.
    BeginWroteFirst,
    Id0OwnLevel,
    /// A refused add has stored its level, or its coordinates.
    AddWroteLevel,
    AddWroteVector,
    /// A refused add counts its id.
    AddCounted,
    BuildStoresNoLinks,
    /// A build with none pending leaves the metric.
    BuildOfNoneKeepsMetric,
    /// A build refused with 5 has set the metric.
    BuildSetMetric,
    MarkChangesNothing,
    /// A mark refused with 14 takes the mark back.
    MarkToggles,
    FoundOneMore,
    FoundOneLess,
    /// The cell behind the answer is written, in one of the three buffers.
    PastFound(usize),
    /// A refused search has cleared the first entry.
    SearchWroteFirst,
    /// One cell behind the end of the ids is written.
    PastTheEnd,
    /// A distance of -0.0 loses its sign.
    ZeroWithoutSign,
    /// Of two equal distances in a row the lower id stands first.
    TiesById,
}

pub struct Mistaken {
    pub refusing: Refusing,
    pub effect: Effect,
}

impl Mistaken {
    /// The number that is given in place of the right one, if it is another. A call that is taken
    /// for done by mistake does nothing: its number shows it.
    fn other_number(&self, header: &[u16; 11], tables: &Lent, call: &Call) -> Option<u32> {
        let header = Header::of(header);
        let given = self.refusing.number(&header, tables.view(), call);
        let right = Refusing::default().number(&header, tables.view(), call);
        (given != right).then_some(given)
    }

    /// What is done to the two buffers after a search.
    fn spoil(&self, searched: Searched, ids: &mut [u16], distances: &mut [f32]) {
        let (number, found) = (searched.number, searched.found);
        match self.effect {
            Effect::PastFound(0) if number == 0 && found < ids.len() => ids[found] = 0,
            Effect::PastFound(1) if number == 0 && found < distances.len() => {
                distances[found] = 0.0
            }
            Effect::SearchWroteFirst if number != 0 && !ids.is_empty() => ids[0] = 0,
            // As a C library would. The cell is a guard: it lies in the same allocation.
            Effect::PastTheEnd => unsafe { ids.as_mut_ptr().add(ids.len()).write(0) },
            Effect::TiesById => {
                for at in 1..found {
                    if order(distances[at]) == order(distances[at - 1]) && ids[at] < ids[at - 1] {
                        ids.swap(at, at - 1);
                        distances.swap(at, at - 1);
                    }
                }
            }
            Effect::ZeroWithoutSign => {
                for distance in distances[..found].iter_mut().filter(|d| **d == 0.0) {
                    *distance = 0.0;
                }
            }
            _ => {}
        }
    }

    fn searched(&self, mut searched: Searched, room: usize) -> Searched {
        match self.effect {
            Effect::FoundOneMore if searched.number == 0 && searched.found < room => {
                searched.found += 1
            }
            Effect::FoundOneLess if searched.found > 0 => searched.found -= 1,
            _ => {}
        }
        searched
    }
}

impl Library for Mistaken {
    fn begin(&mut self, header: &mut [u16; 11], mut tables: Lent) -> u32 {
        if let Some(number) = self.other_number(header, &tables, &Call::Begin) {
            header[8..].fill(0);
            return number;
        }
        let given = *header;
        let vectors = tables.vectors.to_vec();
        let bytes = [tables.levels.to_vec(), tables.marks.to_vec()];
        let links = tables.links.to_vec();
        let number = Plain.begin(header, tables.again());
        match self.effect {
            Effect::BeginLeaves(0) => tables.vectors.copy_from_slice(&vectors),
            Effect::BeginLeaves(1) => tables.levels.copy_from_slice(&bytes[0]),
            Effect::BeginLeaves(2) => tables.marks.copy_from_slice(&bytes[1]),
            Effect::BeginLeaves(3) => tables.links.copy_from_slice(&links),
            Effect::BeginKeepsHeader if number != 0 => *header = given,
            Effect::BeginWroteFirst => tables.links.fill(0),
            _ => {}
        }
        number
    }

    fn add(&mut self, header: &mut [u16; 11], mut tables: Lent, vector: &[f32], level: u8) -> u32 {
        let call = Call::Add {
            vector: vector.to_vec(),
            level,
        };
        if let Some(number) = self.other_number(header, &tables, &call) {
            return number;
        }
        let id = header[9] as usize;
        let first = id * vector.len();
        let number = Plain.add(header, tables.again(), vector, level);
        match self.effect {
            Effect::Id0OwnLevel if number == 0 && id == 0 => tables.levels[0] = level,
            Effect::AddWroteLevel if number == 9 => tables.levels[id] = level,
            Effect::AddWroteVector if number == 8 => tables.vectors[first] = vector[0],
            Effect::AddCounted if number == 9 => header[9] += 1,
            _ => {}
        }
        number
    }

    fn build(&mut self, header: &mut [u16; 11], mut tables: Lent, metric: u16) -> u32 {
        if let Some(number) = self.other_number(header, &tables, &Call::Build { metric }) {
            return number;
        }
        let given = *header;
        let links = tables.links.to_vec();
        let number = Plain.build(header, tables.again(), metric);
        match self.effect {
            Effect::BuildStoresNoLinks => tables.links.copy_from_slice(&links),
            Effect::BuildOfNoneKeepsMetric if given[9] == given[10] => *header = given,
            Effect::BuildSetMetric if number == 5 => header[8] = metric,
            _ => {}
        }
        number
    }

    fn mark(&mut self, header: &mut [u16; 11], mut tables: Lent, id: u16) -> u32 {
        if let Some(number) = self.other_number(header, &tables, &Call::Mark { id }) {
            return number;
        }
        let number = Plain.mark(header, tables.again(), id);
        match self.effect {
            Effect::MarkChangesNothing if number == 0 => tables.marks[id as usize] = 0,
            Effect::MarkToggles if number == 14 => tables.marks[id as usize] = 0,
            _ => {}
        }
        number
    }

    fn search(
        &mut self,
        header: &mut [u16; 11],
        tables: Lent,
        query: &[f32],
        k: usize,
        ids: &mut [u16],
        distances: &mut [f32],
    ) -> Searched {
        let call = Call::Search {
            query: query.to_vec(),
            k,
            ids: ids.len(),
            distances: distances.len(),
        };
        if let Some(number) = self.other_number(header, &tables, &call) {
            return Searched { number, found: 0 };
        }
        let searched = Plain.search(header, tables, query, k, ids, distances);
        self.spoil(searched, ids, distances);
        self.searched(searched, ids.len())
    }

    fn search_records(
        &mut self,
        header: &mut [u16; 11],
        tables: Lent,
        query: &[f32],
        k: usize,
        records: &mut [Neighbor],
    ) -> Searched {
        let call = Call::SearchRecords {
            query: query.to_vec(),
            k,
            records: records.len(),
        };
        if let Some(number) = self.other_number(header, &tables, &call) {
            return Searched { number, found: 0 };
        }
        let searched = Plain.search_records(header, tables, query, k, records);
        let (number, found) = (searched.number, searched.found);
        if self.effect == Effect::PastFound(2) && number == 0 && found < records.len() {
            records[found] = Neighbor::default();
        }
        self.searched(searched, records.len())
    }
}
