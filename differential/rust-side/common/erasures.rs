//! A change of weights: the Rust's own load_edge_modifier, and what its modifier remembers for the next clear.
use super::card::{Answer, Card};
use super::dual_module::*;
use super::session::Session;

impl Card {
    /// Its refusals, each over the whole list: 3 4 16.
    fn weights_refused(&self, pairs: &[(i64, i64)]) -> Option<u8> {
        if pairs.iter().any(|x| x.0 < 0 || x.0 >= self.sz.e as i64) {
            return Some(3);
        }
        if pairs.iter().any(|x| x.1 < 0 || x.1 > 1_000_000) {
            return Some(4);
        }
        (!self.nodes.is_empty() || self.weights_changed()).then_some(16)
    }

    pub(super) fn weights_changed(&self) -> bool {
        self.module.edge_modifier.has_modified_edges()
    }

    /// The weights that a clear leaves: it takes what the modifier remembers from its end on.
    pub(super) fn original_row(&self) -> Vec<i64> {
        let mut row: Vec<i64> = self.module.edges.iter().map(|e| e.read_recursive_force().weight as i64).collect();
        for &(e, weight) in self.module.edge_modifier.iter().rev() {
            row[e] = weight as i64;
        }
        row
    }

    fn load(&mut self, pairs: &[(i64, i64)]) {
        let pairs: Vec<_> = pairs.iter().map(|x| (x.0 as usize, x.1 as isize)).collect();
        self.module.load_edge_modifier(&pairs);
    }
}

impl Session {
    /// Changes weights. None: the Rust stops.
    pub fn load_edge_modifier(&mut self, pairs: &[(i64, i64)]) -> Option<Answer> {
        self.on_module(|c| match c.weights_refused(pairs) {
            Some(k) => Answer::Refused(k),
            None => {
                c.load(pairs);
                Answer::Done
            }
        })
    }

    /// Whether a change stands.
    pub fn weights_changed(&self) -> bool {
        self.card.as_ref().unwrap().weights_changed()
    }

    /// Whether the Rust stops when weights are changed while a change stands. It stops before it writes.
    pub fn stops_at_second(&mut self, pairs: &[(i64, i64)]) -> bool {
        self.on_module(|c| c.load(pairs)).is_none()
    }
}
