//! What a walk goes over: the tables under one metric.

use crate::distance::distance;
use crate::header::Header;
use crate::tables::View;

#[derive(Clone, Copy)]
pub struct Ground<'a> {
    pub header: &'a Header,
    pub tables: View<'a>,
    /// 1 to 3. A first build goes over the tables before the header holds it.
    pub metric: u16,
}

impl<'a> Ground<'a> {
    pub fn new(header: &'a Header, tables: View<'a>, metric: u16) -> Ground<'a> {
        Ground {
            header,
            tables,
            metric,
        }
    }

    pub fn vector(&self, id: u16) -> &'a [f32] {
        self.tables.vector(self.header, id as usize)
    }

    pub fn list(&self, id: u16, level: usize) -> &'a [u16] {
        self.tables.list(self.header, id as usize, level)
    }

    pub fn to(&self, query: &[f32], id: u16) -> f32 {
        distance(self.metric, query, self.vector(id))
    }

    pub fn between(&self, a: u16, b: u16) -> f32 {
        self.to(self.vector(a), b)
    }
}
