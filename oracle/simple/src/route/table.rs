use core::{Location, Router};

/// A table of whole metres: row = from, column = to.
#[derive(Debug, Default)]
pub struct TableRouter {
    distances: Vec<Vec<u32>>,
}

impl TableRouter {
    pub fn new(distances: Vec<Vec<u32>>) -> Self {
        Self { distances }
    }
}

impl Router for &TableRouter {
    fn route(&self, start: &Location, end: &Location) -> f64 {
        self.distances[start.index()][end.index()] as f64
    }
}
