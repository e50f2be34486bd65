//! The kinds of scenarios. A family is a set of knobs; a seed does the rest.

use crate::coordinates::Coordinates;
use crate::random::Random;
use crate::{Metric, Params, Scenario, Step};

/// How levels are drawn. 01 takes any level up to `max_level`.
#[derive(Debug, Clone, Copy)]
pub enum Levels {
    /// As hora draws them: up one more with one chance in two.
    Halving,
    /// From 0 to `max_level`, all alike.
    Even,
    /// `max_level`, nearly always.
    Top,
}

/// Ranges include both ends. Chances are in percent.
#[derive(Debug, Clone, Copy)]
pub struct Family {
    pub name: &'static str,
    /// How many stand in the fixed list.
    pub listed: usize,
    pub dimension: (usize, usize),
    pub ids: (usize, usize),
    /// Capacity beyond the ids.
    pub spare: (usize, usize),
    pub n_neighbor: (usize, usize),
    pub n_neighbor0: (usize, usize),
    pub max_level: (usize, usize),
    pub ef_build: (usize, usize),
    pub ef_search: (usize, usize),
    pub levels: Levels,
    pub coordinates: &'static [Coordinates],
    /// A new vector repeats an earlier one.
    pub repeats: usize,
    pub has_deletion: usize,
    /// Marks after each build, where marks are allowed.
    pub marks: (usize, usize),
    /// The first mark falls on id 0.
    pub mark_entry: usize,
    pub builds: (usize, usize),
    /// Calls with nothing to do: a search or a build before anything is added, a build with none
    /// pending, a search while ids are pending.
    pub idle: usize,
    pub searches: (usize, usize),
    pub ks: &'static [usize],
}

/// Stands in `ks` for: any k from 0 to two above the number of ids.
pub const ANY_K: usize = 1000;

const SMALL: Family = Family {
    name: "small",
    listed: 0,
    dimension: (1, 3),
    ids: (1, 16),
    spare: (0, 2),
    n_neighbor: (1, 4),
    n_neighbor0: (1, 5),
    max_level: (0, 3),
    ef_build: (1, 8),
    ef_search: (1, 6),
    levels: Levels::Halving,
    coordinates: &[Coordinates::Whole(2)],
    repeats: 10,
    has_deletion: 50,
    marks: (0, 2),
    mark_entry: 20,
    builds: (1, 3),
    idle: 10,
    searches: (1, 3),
    ks: &[ANY_K, ANY_K, ANY_K, 1],
};

/// The families of the fixed list.
pub const FAMILIES: [Family; 22] = [
    Family {
        name: "line",
        listed: 60,
        dimension: (1, 1),
        ..SMALL
    },
    Family {
        name: "grid",
        listed: 50,
        dimension: (2, 3),
        ids: (8, 30),
        ef_build: (2, 16),
        ..SMALL
    },
    Family {
        name: "crowd",
        listed: 25,
        dimension: (1, 2),
        ids: (16, 40),
        coordinates: &[Coordinates::Whole(1)],
        n_neighbor0: (3, 8),
        ef_build: (4, 24),
        ef_search: (1, 12),
        repeats: 40,
        ..SMALL
    },
    Family {
        name: "whole",
        listed: 30,
        dimension: (2, 16),
        ids: (4, 20),
        coordinates: &[Coordinates::Whole(255)],
        ..SMALL
    },
    Family {
        name: "whole in 64",
        listed: 6,
        dimension: (60, 64),
        ids: (6, 14),
        coordinates: &[Coordinates::Whole(255), Coordinates::Whole(2)],
        ..SMALL
    },
    Family {
        name: "long",
        listed: 4,
        dimension: (256, 256),
        ids: (3, 6),
        coordinates: &[Coordinates::Smooth, Coordinates::Small],
        builds: (1, 2),
        searches: (1, 1),
        ..SMALL
    },
    Family {
        name: "smooth",
        listed: 30,
        dimension: (1, 12),
        ids: (4, 24),
        coordinates: &[Coordinates::Smooth],
        ..SMALL
    },
    Family {
        name: "small floats",
        listed: 30,
        dimension: (1, 4),
        coordinates: &[Coordinates::Small],
        ..SMALL
    },
    Family {
        name: "any bits",
        listed: 30,
        dimension: (1, 4),
        coordinates: &[Coordinates::AnyBits],
        ..SMALL
    },
    Family {
        name: "huge",
        listed: 40,
        dimension: (1, 4),
        coordinates: &[Coordinates::Huge, Coordinates::Huge, Coordinates::AnyBits],
        mark_entry: 50,
        ..SMALL
    },
    Family {
        name: "tall",
        listed: 40,
        ids: (4, 16),
        n_neighbor: (1, 3),
        max_level: (12, 20),
        levels: Levels::Even,
        builds: (1, 2),
        coordinates: &[Coordinates::Whole(2), Coordinates::Smooth],
        ..SMALL
    },
    Family {
        name: "at the top",
        listed: 20,
        ids: (4, 14),
        n_neighbor: (1, 3),
        max_level: (1, 20),
        levels: Levels::Top,
        builds: (1, 2),
        ..SMALL
    },
    Family {
        name: "flat",
        listed: 30,
        ids: (6, 40),
        max_level: (0, 0),
        n_neighbor0: (2, 4),
        ef_build: (4, 16),
        ..SMALL
    },
    Family {
        name: "narrow",
        listed: 30,
        n_neighbor: (1, 1),
        n_neighbor0: (1, 2),
        ef_build: (1, 2),
        ef_search: (1, 1),
        ids: (3, 20),
        ..SMALL
    },
    Family {
        name: "marked",
        listed: 60,
        has_deletion: 100,
        marks: (1, 4),
        mark_entry: 60,
        builds: (2, 5),
        searches: (1, 2),
        coordinates: &[Coordinates::Whole(2), Coordinates::Whole(255)],
        ..SMALL
    },
    Family {
        name: "marked aloft",
        listed: 50,
        dimension: (1, 2),
        ids: (10, 20),
        n_neighbor: (1, 3),
        n_neighbor0: (1, 3),
        max_level: (1, 3),
        ef_build: (2, 8),
        levels: Levels::Even,
        has_deletion: 100,
        marks: (3, 6),
        builds: (2, 4),
        searches: (0, 1),
        ..SMALL
    },
    Family {
        name: "grown",
        listed: 16,
        ids: (10, 16),
        builds: (8, 10),
        searches: (0, 1),
        ..SMALL
    },
    Family {
        name: "edges",
        listed: 24,
        ids: (0, 2),
        spare: (0, 1),
        idle: 70,
        ks: &[0, 1, 2, 512],
        coordinates: &[Coordinates::Whole(2), Coordinates::Small, Coordinates::Huge],
        ..SMALL
    },
    Family {
        name: "wide",
        listed: 4,
        dimension: (1, 2),
        ids: (72, 100),
        n_neighbor: (64, 64),
        n_neighbor0: (64, 64),
        max_level: (0, 2),
        ef_build: (512, 512),
        ef_search: (512, 512),
        levels: Levels::Even,
        coordinates: &[Coordinates::Whole(2), Coordinates::Whole(255)],
        builds: (1, 2),
        ks: &[ANY_K, 512],
        ..SMALL
    },
    // Few ids in tables that nearly fill a stack: blocks of 1,365 numbers.
    Family {
        name: "large tables",
        listed: 3,
        dimension: (1, 4),
        ids: (60, 80),
        spare: (840, 900),
        n_neighbor: (64, 64),
        n_neighbor0: (64, 64),
        max_level: (20, 20),
        ef_build: (20, 80),
        coordinates: &[Coordinates::Whole(255), Coordinates::Smooth],
        builds: (1, 1),
        ..SMALL
    },
    Family {
        name: "hundreds",
        listed: 10,
        dimension: (1, 8),
        ids: (150, 300),
        spare: (0, 100),
        n_neighbor: (2, 8),
        n_neighbor0: (4, 12),
        max_level: (0, 20),
        ef_build: (8, 64),
        ef_search: (1, 64),
        coordinates: &[
            Coordinates::Whole(2),
            Coordinates::Whole(255),
            Coordinates::Smooth,
        ],
        marks: (0, 40),
        builds: (1, 2),
        searches: (4, 6),
        ks: &[1, 10, 10, 60],
        ..SMALL
    },
    Family {
        name: "above 512",
        listed: 4,
        dimension: (2, 2),
        ids: (530, 560),
        n_neighbor: (2, 4),
        n_neighbor0: (6, 10),
        max_level: (0, 20),
        ef_build: (300, 512),
        ef_search: (1, 512),
        coordinates: &[Coordinates::Whole(255), Coordinates::Whole(20)],
        has_deletion: 100,
        marks: (1, 4),
        builds: (1, 1),
        searches: (2, 2),
        ks: &[512],
        ..SMALL
    },
];

/// For live runs only: capacity 4,096, too large for a stack and for the list.
pub const FULL: Family = Family {
    name: "full",
    dimension: (1, 16),
    ids: (4000, 4096),
    spare: (0, 0),
    n_neighbor: (8, 32),
    n_neighbor0: (16, 64),
    max_level: (0, 20),
    ef_build: (32, 128),
    ef_search: (1, 512),
    coordinates: &[
        Coordinates::Whole(2),
        Coordinates::Whole(255),
        Coordinates::Smooth,
    ],
    marks: (0, 200),
    builds: (1, 3),
    searches: (10, 20),
    ks: &[1, 10, 100, 512],
    ..SMALL
};

/// For live runs only: parameters from their whole ranges.
pub const ANYTHING: Family = Family {
    name: "anything",
    dimension: (1, 64),
    ids: (0, 300),
    spare: (0, 50),
    n_neighbor: (1, 64),
    n_neighbor0: (1, 64),
    max_level: (0, 20),
    ef_build: (1, 512),
    ef_search: (1, 512),
    coordinates: &[
        Coordinates::Whole(2),
        Coordinates::Whole(255),
        Coordinates::Smooth,
        Coordinates::Small,
        Coordinates::AnyBits,
        Coordinates::Huge,
    ],
    marks: (0, 20),
    builds: (1, 4),
    ks: &[ANY_K, ANY_K, ANY_K, 512],
    ..SMALL
};

/// A scenario for live runs: of any family, of the whole ranges, or, one in 200, a full index.
pub fn live(seed: u64) -> Scenario {
    let mut random = Random::new(!seed);
    if random.below(200) == 0 {
        return make(&FULL, seed);
    }
    match random.below(FAMILIES.len() + 5) {
        at if at < FAMILIES.len() => make(&FAMILIES[at], seed),
        _ => make(&ANYTHING, seed),
    }
}

/// One scenario of a family.
pub fn make(family: &Family, seed: u64) -> Scenario {
    let mut maker = Maker::begin(family, Random::new(seed));
    maker.run();
    Scenario {
        params: maker.params,
        steps: maker.steps,
    }
}

/// A scenario while it is made, with what is needed to make only done calls.
struct Maker<'a> {
    family: &'a Family,
    random: Random,
    params: Params,
    ids: usize,
    metric: Metric,
    coordinates: Coordinates,
    vectors: Vec<Vec<f32>>,
    marked: Vec<bool>,
    steps: Vec<Step>,
}

impl Maker<'_> {
    fn begin(family: &Family, mut random: Random) -> Maker<'_> {
        let ids = random.between(family.ids);
        let params = Params {
            dimension: random.between(family.dimension),
            capacity: (ids + random.between(family.spare)).clamp(1, 4096),
            n_neighbor: random.between(family.n_neighbor),
            n_neighbor0: random.between(family.n_neighbor0),
            max_level: random.between(family.max_level),
            ef_build: random.between(family.ef_build),
            ef_search: random.between(family.ef_search),
            has_deletion: random.percent(family.has_deletion),
        };
        let metrics = [Metric::Manhattan, Metric::DotProduct, Metric::Euclidean];
        Maker {
            family,
            params,
            ids,
            metric: random.pick(&metrics),
            coordinates: random.pick(family.coordinates),
            random,
            vectors: Vec::new(),
            marked: Vec::new(),
            steps: Vec::new(),
        }
    }

    fn run(&mut self) {
        self.idle();
        let builds = self.random.between(self.family.builds);
        for round in 1..=builds {
            // The last build links what is left.
            let left = self.ids - self.vectors.len();
            let more = if round == builds {
                left
            } else {
                left.div_ceil(builds - round + 1)
            };
            for _ in 0..more {
                self.add();
            }
            if self.random.percent(20) {
                self.mark_some();
            }
            if self.random.percent(self.family.idle) {
                self.search();
            }
            self.build();
            self.idle();
            self.mark_some();
            for _ in 0..self.random.between(self.family.searches) {
                self.search();
            }
        }
    }

    /// Calls that find nothing pending.
    fn idle(&mut self) {
        if self.random.percent(self.family.idle) {
            self.search();
        }
        if self.random.percent(self.family.idle) {
            self.build();
        }
    }

    fn add(&mut self) {
        let repeat = !self.vectors.is_empty() && self.random.percent(self.family.repeats);
        let vector = if repeat {
            let of = self.random.below(self.vectors.len());
            self.vectors[of].clone()
        } else {
            self.coordinates
                .vector(self.params.dimension, &mut self.random)
        };
        self.vectors.push(vector.clone());
        let level = self.level();
        self.steps.push(Step::Add { vector, level });
    }

    fn level(&mut self) -> usize {
        let max_level = self.params.max_level;
        match self.family.levels {
            Levels::Halving => {
                let mut level = 0;
                while level < max_level && self.random.percent(50) {
                    level += 1;
                }
                level
            }
            Levels::Even => self.random.between((0, max_level)),
            Levels::Top if self.random.percent(90) => max_level,
            Levels::Top => self.random.between((0, max_level)),
        }
    }

    fn build(&mut self) {
        self.marked.resize(self.vectors.len(), false);
        self.steps.push(Step::Build {
            metric: self.metric,
        });
    }

    fn mark_some(&mut self) {
        if !self.params.has_deletion || self.marked.is_empty() {
            return;
        }
        if self.random.percent(self.family.mark_entry) {
            self.mark(0);
        }
        for _ in 0..self.random.between(self.family.marks) {
            let id = self.random.below(self.marked.len());
            self.mark(id);
        }
    }

    /// An id that is marked already would be refused: it is passed over.
    fn mark(&mut self, id: usize) {
        if !self.marked[id] {
            self.marked[id] = true;
            self.steps.push(Step::Mark { id });
        }
    }

    fn search(&mut self) {
        let query = if !self.vectors.is_empty() && self.random.percent(30) {
            let of = self.random.below(self.vectors.len());
            self.vectors[of].clone()
        } else {
            self.coordinates
                .vector(self.params.dimension, &mut self.random)
        };
        let k = match self.random.pick(self.family.ks) {
            ANY_K => self.random.between((0, self.ids + 2)),
            k => k,
        };
        self.steps.push(Step::Search { query, k });
    }
}
