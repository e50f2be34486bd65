//! The plain reading and the oracle on the same scenarios: all links after each build, ids and
//! distance bits after each search.

mod common;

use common::Index;
use oracle::Oracle;
use plain::Header;
use scenarios::families::{live, make, FAMILIES, FULL};
use scenarios::subject::{run, Answer, Subject};
use scenarios::{starred, Metric, Params, Scenario};

struct Plain(Index);

/// Every step of a scenario is done.
impl Subject for Plain {
    fn begin(params: &Params) -> Plain {
        let header = Header {
            dimension: params.dimension as u16,
            capacity: params.capacity as u16,
            n_neighbor: params.n_neighbor as u16,
            n_neighbor0: params.n_neighbor0 as u16,
            max_level: params.max_level as u16,
            ef_build: params.ef_build as u16,
            ef_search: params.ef_search as u16,
            has_deletion: params.has_deletion as u16,
            metric: 0,
            added: 0,
            built: 0,
        };
        Plain(Index::begun(header))
    }

    fn add(&mut self, vector: &[f32], level: usize) {
        assert_eq!(self.0.add(vector, level as u8), 0);
    }

    fn build(&mut self, metric: Metric) {
        assert_eq!(self.0.build(metric as u16), 0);
    }

    fn mark(&mut self, id: usize) {
        assert_eq!(self.0.mark(id as u16), 0);
    }

    fn search(&mut self, query: &[f32], k: usize) -> Vec<(usize, f32)> {
        let list = self.0.search(query, k);
        let pair = |(id, bits)| (id as usize, f32::from_bits(bits));
        list.into_iter().map(pair).collect()
    }

    fn built(&self) -> usize {
        self.0.header.built as usize
    }

    fn level(&self, id: usize) -> usize {
        self.0.tables.levels[id] as usize
    }

    fn links(&self, id: usize, level: usize) -> Vec<usize> {
        self.0
            .list(id, level)
            .iter()
            .map(|id| *id as usize)
            .collect()
    }
}

/// What was compared, so that a test can say that it was something.
#[derive(Debug, Default)]
struct Compared {
    scenarios: usize,
    lists: usize,
    searches: usize,
    listed: usize,
}

impl Compared {
    fn same(&mut self, scenario: &Scenario, name: &str, seed: u64) {
        let expected = run::<Oracle>(scenario);
        assert_eq!(run::<Plain>(scenario), expected, "{name} {seed}");
        self.scenarios += 1;
        for answer in &expected {
            match answer {
                Answer::Links(links) => self.lists += links.iter().map(Vec::len).sum::<usize>(),
                Answer::Found(found) => {
                    self.searches += 1;
                    self.listed += found.len();
                }
                Answer::Done => {}
            }
        }
    }
}

#[test]
fn starred_scenarios() {
    let mut compared = Compared::default();
    for scenario in starred::all() {
        compared.same(&scenario, "starred", 0);
    }
}

/// Scenarios of every family of the fixed list, with other seeds than its.
#[test]
fn families() {
    let mut compared = Compared::default();
    for family in &FAMILIES {
        let largest = family.ids.1 + family.spare.1;
        let seeds = if largest > 100 { 4 } else { 150 };
        for seed in 20_000..20_000 + seeds {
            compared.same(&make(family, seed), family.name, seed);
        }
    }
    println!("families: {compared:?}");
    assert!(compared.lists > 100_000 && compared.listed > 10_000);
}

/// Live scenarios: thousands of small ones, some larger. The full ones stand apart, below.
#[test]
fn live_seeds() {
    let mut compared = Compared::default();
    let mut larger = 25;
    for seed in 0..6_000 {
        let scenario = live(seed);
        let small = scenario.params.capacity <= 60;
        if small || (larger > 0 && scenario.params.capacity < 4000) {
            compared.same(&scenario, "live", seed);
            larger -= !small as usize;
        }
    }
    println!("live: {compared:?}");
    assert!(larger == 0 && compared.scenarios > 4_000);
}

/// One of about 4,096 ids. Each add tests all rules on the whole table, so the first one with
/// small tables is taken.
#[test]
fn a_full_index() {
    let mut compared = Compared::default();
    let small = |seed: &u64| make(&FULL, *seed).params.max_level < 2;
    let seed = (0..).find(small).unwrap();
    compared.same(&make(&FULL, seed), "full", seed);
    println!("full: {compared:?}");
    assert!(compared.lists >= 4000);
}
