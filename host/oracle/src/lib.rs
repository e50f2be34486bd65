//! The oracle: hora's HNSW index (hora-search/hora 239bd36669, Apache-2.0) made to run as
//! `01-scope.md` says under "Domain of the runs". `core/` and `index/` are hora's files, changed
//! only where a comment says so; the rest is ours. See docs/ORACLE.md.

#[macro_use]
pub mod planted;
pub mod fixedbitset;
pub mod kernel;
pub mod num;

pub mod core {
    pub mod ann_index;
    pub mod calc;
    pub mod heap;
    pub mod metrics;
    pub mod neighbor;
    pub mod node;
    pub mod simd_metrics;
}

pub mod index {
    pub mod hnsw_idx;
    pub mod hnsw_params;
}

/// hora's macro chooses a parallel iterator here. Ours has no threads.
#[macro_export]
macro_rules! into_iter {
    ($iter:expr, $name:ident) => {
        let $name = $iter.into_iter();
    };
}

pub use crate::core::metrics::Metric;
pub use crate::index::hnsw_params::HNSWParams;

use crate::core::ann_index::ANNIndex;
use crate::core::node::Node;
use crate::index::hnsw_idx::HNSWIndex;

/// hora's index under the calls of `01-scope.md`. It refuses nothing: a driver gives it done calls
/// only, and what hora answers with an error or a panic is a panic here.
pub struct Oracle {
    index: HNSWIndex<f32, usize>,
}

impl Oracle {
    pub fn new(dimension: usize, params: &HNSWParams<f32>) -> Oracle {
        Oracle {
            index: HNSWIndex::new(dimension, params),
        }
    }

    /// Ids count up from 0. hora gives id 0 `max_level`, whatever level comes with it.
    pub fn add(&mut self, vector: &[f32], level: usize) {
        let id = self.index.added();
        self.index.give_level(level);
        self.index.add(vector, id).unwrap();
    }

    pub fn build(&mut self, metric: Metric) {
        self.index.build(metric).unwrap();
    }

    pub fn mark(&mut self, id: usize) {
        self.index.delete_id(id).unwrap();
    }

    /// Ids and distances, nearest first.
    pub fn search(&self, query: &[f32], k: usize) -> Vec<(usize, f32)> {
        let found: Vec<(Node<f32, usize>, f32)> = self.index.search_nodes(query, k);
        found
            .iter()
            .map(|(node, distance)| (node.idx().unwrap(), *distance))
            .collect()
    }

    /// The list of an added id at a level from 0 to its own.
    pub fn links(&self, id: usize, level: usize) -> Vec<usize> {
        self.index.get_neighbor(id, level).read().unwrap().clone()
    }

    pub fn level(&self, id: usize) -> usize {
        self.index.get_level(id)
    }

    /// How many ids have been linked.
    pub fn built(&self) -> usize {
        self.index.constructed()
    }
}
