//! "A done call leaves a passing table", asked of the plain reading after every done call.

use plain::refusals::of_any;
use plain::{Header, Lent, Neighbor};
use tables::{compare, Library, Plain, Searched};

/// The plain reading, with its tables looked at after each call.
#[derive(Default)]
struct Watched {
    done: usize,
}

impl Watched {
    fn watch(&mut self, header: &[u16; 11], tables: Lent, number: u32) -> u32 {
        if number == 0 {
            assert_eq!(of_any(&Header::of(header), tables.view()), 0);
            self.done += 1;
        }
        number
    }
}

impl Library for Watched {
    fn begin(&mut self, header: &mut [u16; 11], mut tables: Lent) -> u32 {
        let number = Plain.begin(header, tables.again());
        self.watch(header, tables, number)
    }

    fn add(&mut self, header: &mut [u16; 11], mut tables: Lent, vector: &[f32], level: u8) -> u32 {
        let number = Plain.add(header, tables.again(), vector, level);
        self.watch(header, tables, number)
    }

    fn build(&mut self, header: &mut [u16; 11], mut tables: Lent, metric: u16) -> u32 {
        let number = Plain.build(header, tables.again(), metric);
        self.watch(header, tables, number)
    }

    fn mark(&mut self, header: &mut [u16; 11], mut tables: Lent, id: u16) -> u32 {
        let number = Plain.mark(header, tables.again(), id);
        self.watch(header, tables, number)
    }

    fn search(
        &mut self,
        header: &mut [u16; 11],
        mut tables: Lent,
        query: &[f32],
        k: usize,
        ids: &mut [u16],
        distances: &mut [f32],
    ) -> Searched {
        let searched = Plain.search(header, tables.again(), query, k, ids, distances);
        self.watch(header, tables, searched.number);
        searched
    }

    fn search_records(
        &mut self,
        header: &mut [u16; 11],
        mut tables: Lent,
        query: &[f32],
        k: usize,
        records: &mut [Neighbor],
    ) -> Searched {
        let searched = Plain.search_records(header, tables.again(), query, k, records);
        self.watch(header, tables, searched.number);
        searched
    }
}

#[test]
fn a_done_call_leaves_a_passing_table() {
    let mut watched = Watched::default();
    let report = compare(&mut Plain, &mut watched, 50_000, 10_000);
    assert!(report.difference.is_none());
    println!("{} done calls", watched.done);
    assert!(watched.done > 5_000);
}
