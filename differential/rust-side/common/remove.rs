//! Opening a blossom: the Rust's own remove_blossom on its module, and what expand_blossom does around it but for the
//! states that it sets; or expand_blossom itself.
use super::card::{Answer, Card};
use super::dual_module::*;
use super::session::Session;

fn members(p: &DualNodePtr) -> Vec<DualNodePtr> {
    match &p.read_recursive().class {
        DualNodeClass::Blossom { nodes_circle, .. } => nodes_circle.iter().map(|w| w.upgrade_force()).collect(),
        DualNodeClass::DefectVertex { .. } => vec![],
    }
}

impl Card {
    /// A blossom of dual variable 0 that may be opened, or its refusal: 3 6 15 9.
    fn may_open(&self, n: i32) -> Result<DualNodePtr, Answer> {
        let p = self.node_refused(n, true, false)?;
        let dual = self.module.get_dual_node_internal_ptr(&p).read_recursive().dual_variable;
        if members(&p).is_empty() || dual != 0 {
            return Err(Answer::Refused(15));
        }
        self.node_refused(n, true, true)
    }

    /// Where a pass might be mended, the bench prepares first, mended; the Rust's own preparation then finds nothing to
    /// do.
    fn remove(&mut self, p: &DualNodePtr, expand: bool) {
        if self.overgrows_zero(p) {
            self.prepare(p, false, true);
        }
        let n = p.read_recursive().index;
        if expand {
            self.interface.expand_blossom(p.clone(), &mut self.module);
        } else {
            self.module.remove_blossom(p.clone());
            for m in members(p) {
                m.write().parent_blossom = None;
            }
            self.interface.write().remove_node(n);
        }
        self.removed[n] = true;
    }
}

impl Session {
    /// Opens a blossom, by expand_blossom where `expand` says so. None: the Rust stops.
    pub fn open_blossom(&mut self, n: i32, expand: bool) -> Option<Answer> {
        self.on_module(|c| match c.may_open(n) {
            Ok(p) => {
                c.remove(&p, expand);
                Answer::Done
            }
            Err(refused) => refused,
        })
    }

    /// The circle of a blossom, in its order.
    pub fn circle(&self, n: i32) -> Vec<i32> {
        let card = self.card.as_ref().unwrap();
        let numbers = |p| members(p).iter().map(|m| m.read_recursive().index as i32).collect();
        card.nodes.get(n as usize).map_or(vec![], numbers)
    }
}
