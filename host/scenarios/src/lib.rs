//! Scenarios: parameters and a run of calls, each of which is done by `01-scope.md`. The same seed
//! gives the same scenario. `families` makes them, `subject` runs them, `coverage` counts what
//! they meet, `validity` holds them to 01's bounds.

pub mod coordinates;
pub mod coverage;
pub mod families;
pub mod random;
pub mod starred;
pub mod subject;
pub mod validity;

pub use oracle::Metric;

/// The first eight numbers of 01's header.
#[derive(Debug, Clone, Copy, PartialEq, Eq)]
pub struct Params {
    pub dimension: usize,
    pub capacity: usize,
    pub n_neighbor: usize,
    pub n_neighbor0: usize,
    pub max_level: usize,
    pub ef_build: usize,
    pub ef_search: usize,
    pub has_deletion: bool,
}

impl Params {
    /// Bytes of the four lent tables.
    pub fn table_bytes(&self) -> usize {
        let slots = 1 + self.n_neighbor0 + self.max_level * (1 + self.n_neighbor);
        self.capacity * slots * 2 + self.capacity * self.dimension * 4 + 2 * self.capacity
    }
}

#[derive(Debug, Clone, PartialEq)]
pub enum Step {
    Add { vector: Vec<f32>, level: usize },
    Build { metric: Metric },
    Mark { id: usize },
    Search { query: Vec<f32>, k: usize },
}

#[derive(Debug, Clone, PartialEq)]
pub struct Scenario {
    pub params: Params,
    pub steps: Vec<Step>,
}
