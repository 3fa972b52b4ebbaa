//! The calls for all clusters: the Rust's own compute_maximum_update_length, prepare_all and grow on its active list.
use super::card::{Answer, Card};
use super::dual_module::*;
use super::session::{write_answer, Session};
use super::util::Weight;
use std::panic::{catch_unwind, AssertUnwindSafe};

/// What a group answers, as lines: free, or how many conflicts and stops, the conflicts as met, and the stops with their nodes.
#[derive(Debug, Default)]
pub struct Group {
    pub head: String,
    pub conflicts: Vec<String>,
    pub stops: Vec<(usize, String)>,
}

fn line(m: &MaxUpdateLength) -> String {
    let mut out = vec![];
    write_answer(&mut out, 0, &Answer::Length(m.clone()));
    String::from_utf8(out).unwrap()[2..].trim_end().to_string()
}

fn stop(m: &MaxUpdateLength) -> (usize, String) {
    (m.get_vertex_shrink_stop().map_or(usize::MAX, |p| p.read_recursive().index), line(m))
}

fn told(g: GroupMaxUpdateLength) -> Group {
    match g {
        GroupMaxUpdateLength::NonZeroGrow((l, e)) => {
            Group { head: format!("free {} {}", if l == Weight::MAX { -1 } else { l }, i32::from(e)), ..Group::default() }
        }
        GroupMaxUpdateLength::Conflicts((list, stops)) => Group {
            head: format!("group {} {}", list.len(), stops.len()),
            conflicts: list.iter().map(line).collect(),
            stops: stops.values().map(stop).collect(),
        },
    }
}

impl Card {
    /// Whether a shrinking node could take off an overgrown vertex with an edge of weight 0, where the port mends the pass.
    fn may_mend(&self) -> bool {
        self.live().filter(|p| p.read_recursive().grow_state == DualNodeGrowState::Shrink).any(|p| self.overgrows_zero(p))
    }

    /// Whether a vertex on the overgrown stack of a node has an edge of weight 0.
    pub(super) fn overgrows_zero(&self, p: &DualNodePtr) -> bool {
        let i = self.module.get_dual_node_internal_ptr(p);
        let i = i.read_recursive();
        i.overgrown_stack.iter().any(|(v, _)| {
            let v = v.upgrade_force();
            let v = v.read_recursive_force();
            let zero = v.edges.iter().any(|e| e.upgrade_force().read_recursive_force().weight == 0);
            zero
        })
    }
}

impl Session {
    /// A call on the Rust's module, or nothing where it stops.
    pub(super) fn on_module<T>(&mut self, f: impl FnOnce(&mut Card) -> T) -> Option<T> {
        let card = self.card.as_mut().unwrap();
        let done = catch_unwind(AssertUnwindSafe(|| f(card))).ok();
        super::notes();
        done
    }

    pub fn may_mend(&self) -> bool {
        self.card.as_ref().unwrap().may_mend()
    }
    pub fn group(&mut self) -> Option<Group> {
        self.on_module(|c| told(c.module.compute_maximum_update_length()))
    }
    pub fn prepare_all(&mut self) -> Option<()> {
        self.on_module(|c| {
            c.module.prepare_all();
        })
    }
    pub fn round(&mut self, length: Weight) -> Option<()> {
        self.on_module(|c| c.module.grow(length))
    }
    /// The Rust's renewal is private: a round of length 0 renews the list and moves nothing. The assertion on the
    /// length is passed over.
    pub fn renew(&mut self) -> Option<()> {
        self.round(0)
    }

    /// A round without a guard, for timing.
    pub fn play(&mut self, length: Weight) {
        self.card.as_mut().unwrap().module.grow(length)
    }
    /// The group's answer as it is, for timing.
    pub fn ask_group(&mut self) -> GroupMaxUpdateLength {
        self.card.as_mut().unwrap().module.compute_maximum_update_length()
    }
}
