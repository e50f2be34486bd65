//! Counts what a set of scenarios meets, from the steps and from the oracle's answers to them.

use crate::subject::Answer;
use crate::{Metric, Params, Scenario, Step};
use std::collections::BTreeMap;

/// A count for each name below.
#[derive(Debug, Default)]
pub struct Coverage {
    pub counts: BTreeMap<&'static str, usize>,
}

/// What every fixed list must meet at least once.
pub const NAMES: [&str; 47] = [
    "Manhattan",
    "DotProduct",
    "Euclidean",
    "dimension 1",
    "dimension 64",
    "dimension 256",
    "capacity 1",
    "capacity above 100",
    "capacity used up",
    "tables of more than 2,000,000 bytes",
    "n_neighbor 1",
    "n_neighbor 64",
    "n_neighbor0 1",
    "n_neighbor0 64",
    "max_level 0",
    "max_level 20",
    "ef_build 1",
    "ef_build 512",
    "ef_search 1",
    "ef_search 512",
    "has_deletion",
    "a coordinate 255 or -255",
    "a coordinate -0.0",
    "a subnormal coordinate",
    "an infinite square of a coordinate",
    "id 0 given a lower level",
    "an id other than 0 at max_level above 0",
    "nothing added, built",
    "nothing pending, built",
    "built after a mark",
    "a list with all slots used",
    "a list of 64 ids",
    "a list shorter than after the build before",
    "a link that runs one way: a rechosen list",
    "nothing built, searched",
    "ids pending, searched",
    "ids pending, marked",
    "id 0 marked, searched",
    "k 0",
    "k 512",
    "k above built",
    "512 found",
    "equal distances in an answer",
    "a distance cut to the largest",
    "a distance cut to the least",
    "a distance +0.0",
    "a distance -0.0",
];

impl Coverage {
    fn meet(&mut self, name: &'static str, met: bool) {
        assert!(NAMES.contains(&name), "{name} is not in the list of names");
        *self.counts.entry(name).or_insert(0) += met as usize;
    }

    /// The names that were never met.
    pub fn missing(&self) -> Vec<&'static str> {
        let never = |name: &&str| self.counts.get(*name).copied().unwrap_or(0) == 0;
        NAMES.into_iter().filter(never).collect()
    }

    /// Takes in one scenario with the answers to it.
    pub fn take(&mut self, scenario: &Scenario, answers: &[Answer]) {
        self.take_params(&scenario.params);
        let mut state = State::default();
        for (step, answer) in scenario.steps.iter().zip(answers) {
            match (step, answer) {
                (Step::Add { vector, level }, _) => {
                    self.take_add(&scenario.params, &state, vector, *level);
                    state.added += 1;
                }
                (Step::Build { metric }, Answer::Links(links)) => {
                    self.take_build(&state, *metric);
                    self.take_links(&scenario.params, &state, links);
                    state.built = state.added;
                    state.links = links.clone();
                }
                (Step::Mark { id }, _) => {
                    self.meet("ids pending, marked", state.built < state.added);
                    state.marked.push(*id);
                }
                (Step::Search { k, .. }, Answer::Found(found)) => {
                    self.take_search(&state, *k, found);
                }
                _ => panic!("an answer of another kind than its step"),
            }
        }
        self.meet("capacity used up", state.added == scenario.params.capacity);
    }

    fn take_params(&mut self, params: &Params) {
        self.meet("dimension 1", params.dimension == 1);
        self.meet("dimension 64", params.dimension == 64);
        self.meet("dimension 256", params.dimension == 256);
        self.meet("capacity 1", params.capacity == 1);
        self.meet("capacity above 100", params.capacity > 100);
        let large = params.table_bytes() > 2_000_000;
        self.meet("tables of more than 2,000,000 bytes", large);
        self.meet("n_neighbor 1", params.n_neighbor == 1);
        self.meet("n_neighbor 64", params.n_neighbor == 64);
        self.meet("n_neighbor0 1", params.n_neighbor0 == 1);
        self.meet("n_neighbor0 64", params.n_neighbor0 == 64);
        self.meet("max_level 0", params.max_level == 0);
        self.meet("max_level 20", params.max_level == 20);
        self.meet("ef_build 1", params.ef_build == 1);
        self.meet("ef_build 512", params.ef_build == 512);
        self.meet("ef_search 1", params.ef_search == 1);
        self.meet("ef_search 512", params.ef_search == 512);
        self.meet("has_deletion", params.has_deletion);
    }

    fn take_add(&mut self, params: &Params, state: &State, vector: &[f32], level: usize) {
        let any = |test: fn(f32) -> bool| vector.iter().any(|c| test(*c));
        self.meet("a coordinate 255 or -255", any(|c| c.abs() == 255.0));
        self.meet("a coordinate -0.0", any(|c| c.to_bits() == 0x8000_0000));
        self.meet("a subnormal coordinate", any(f32::is_subnormal));
        self.meet(
            "an infinite square of a coordinate",
            any(|c| (c * c).is_infinite()),
        );
        let entry = state.added == 0;
        let below = level < params.max_level;
        self.meet("id 0 given a lower level", entry && below);
        let high = !entry && !below && params.max_level > 0;
        self.meet("an id other than 0 at max_level above 0", high);
    }

    fn take_build(&mut self, state: &State, metric: Metric) {
        self.meet("Manhattan", metric == Metric::Manhattan);
        self.meet("DotProduct", metric == Metric::DotProduct);
        self.meet("Euclidean", metric == Metric::Euclidean);
        self.meet("nothing added, built", state.added == 0);
        let pending = state.added > state.built;
        self.meet("nothing pending, built", state.built > 0 && !pending);
        self.meet("built after a mark", pending && !state.marked.is_empty());
    }

    fn take_links(&mut self, params: &Params, state: &State, links: &[Vec<Vec<usize>>]) {
        for (id, lists) in links.iter().enumerate() {
            for (level, list) in lists.iter().enumerate() {
                let slots = if level == 0 {
                    params.n_neighbor0
                } else {
                    params.n_neighbor
                };
                self.meet("a list with all slots used", list.len() == slots);
                self.meet("a list of 64 ids", list.len() == 64);
                let before = state.links.get(id).map_or(0, |lists| lists[level].len());
                self.meet(
                    "a list shorter than after the build before",
                    list.len() < before,
                );
                // Linking runs both ways: a link that has no way back lost it in a rechoice.
                let one_way = list.iter().any(|to| !links[*to][level].contains(&id));
                self.meet("a link that runs one way: a rechosen list", one_way);
            }
        }
    }

    fn take_search(&mut self, state: &State, k: usize, found: &[(usize, u32)]) {
        self.meet("nothing built, searched", state.built == 0);
        self.meet("ids pending, searched", state.built < state.added);
        self.meet("id 0 marked, searched", state.marked.contains(&0));
        self.meet("k 0", k == 0);
        self.meet("k 512", k == 512);
        self.meet("k above built", k > state.built);
        self.meet("512 found", found.len() == 512);
        let equal = |pair: &[(usize, u32)]| pair[0].1 == pair[1].1;
        self.meet("equal distances in an answer", found.windows(2).any(equal));
        let any = |bits: u32| found.iter().any(|f| f.1 == bits);
        self.meet("a distance cut to the largest", any(f32::MAX.to_bits()));
        self.meet("a distance cut to the least", any(f32::MIN.to_bits()));
        self.meet("a distance +0.0", any(0));
        self.meet("a distance -0.0", any(0x8000_0000));
    }
}

/// What has happened so far in a scenario.
#[derive(Default)]
struct State {
    added: usize,
    built: usize,
    marked: Vec<usize>,
    /// After the last build.
    links: Vec<Vec<Vec<usize>>>,
}
