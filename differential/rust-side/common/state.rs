//! The Rust's state as the rows of a block (docs/LAYOUT.md).
use super::card::Card;
use super::dual_module::*;
use super::dual_module_serial::*;

fn number(p: &DualNodePtr) -> i64 {
    p.read_recursive().index as i64
}

/// The class word of a blossom that was opened is V + this.
const REMOVED: i64 = 1024;

impl Card {
    /// The node behind a pointer of the module; of one that was removed, by the pointer itself.
    fn number_of(&self, p: &DualNodeInternalWeak) -> i64 {
        match p.upgrade() {
            Some(i) => number(&i.read_recursive().origin.upgrade_force()),
            None => self.internals.iter().position(|x| x == p).map_or(-1, |n| n as i64),
        }
    }

    /// The outermost node above the one behind a pointer, or -1.
    pub(super) fn outermost(&self, p: &Option<DualNodeInternalWeak>) -> i64 {
        let Some(p) = p else { return -1 };
        let mut n = self.nodes[self.number_of(p) as usize].clone();
        loop {
            let above = n.read_recursive().parent_blossom.as_ref().map(|b| b.upgrade_force());
            match above {
                Some(b) => n = b,
                None => return number(&n),
            }
        }
    }
    /// The node behind a pointer, as its number + 1, or 0.
    fn stored(&self, p: &Option<DualNodeInternalWeak>) -> i64 {
        p.as_ref().map_or(0, |p| self.number_of(p) + 1)
    }

    /// Flags, holders, grandsons, and the sides of each vertex in the Rust's order.
    fn vertex_rows(&self) -> [Vec<i64>; 5] {
        let [mut flags, mut holder, mut grandson, mut first, mut at] = [const { vec![] }; 5];
        for p in &self.module.vertices {
            let v = p.read_recursive_force();
            let fresh = v.timestamp == self.module.active_timestamp;
            flags.push(i64::from(v.is_virtual) + 2 * i64::from(fresh && v.is_defect));
            holder.push(if fresh { self.stored(&v.propagated_dual_node) } else { 0 });
            grandson.push(if fresh { self.stored(&v.propagated_grandson_dual_node) } else { 0 });
            first.push(at.len() as i64);
            for e in &v.edges {
                let e = e.upgrade_force();
                let e = e.read_recursive_force();
                at.push(2 * e.edge_index as i64 + i64::from(e.left != p.downgrade()));
            }
        }
        [flags, holder, grandson, first, at]
    }

    /// Ends, growths, holders and grandsons of the sides, and the weights.
    fn edge_rows(&self) -> [Vec<i64>; 5] {
        let [mut end, mut growth, mut holder, mut grandson, mut weight] = [const { vec![] }; 5];
        for e in &self.module.edges {
            let e = e.read_recursive_force();
            let fresh = i64::from(e.timestamp == self.module.active_timestamp);
            for v in [&e.left, &e.right] {
                end.push(v.upgrade_force().read_recursive_force().vertex_index as i64);
            }
            growth.extend([e.left_growth, e.right_growth].map(|g| fresh * g as i64));
            holder.extend([&e.left_dual_node, &e.right_dual_node].map(|n| fresh * self.stored(n)));
            grandson.extend([&e.left_grandson_dual_node, &e.right_grandson_dual_node].map(|n| fresh * self.stored(n)));
            weight.push(e.weight as i64);
        }
        [end, growth, holder, grandson, weight]
    }

    /// Class, grow state, parent, dual variable and lists of every node.
    fn node_rows(&self) -> [Vec<i64>; 8] {
        let mut rows = [const { vec![] }; 8];
        for (p, &removed) in self.nodes.iter().zip(&self.removed) {
            if removed {
                let start = rows[7].len() as i64;
                for (row, x) in rows.iter_mut().zip([self.sz.v as i64 + REMOVED, 0, 0, 0, start, 0, 0]) {
                    row.push(x);
                }
                continue;
            }
            let internal = self.module.get_dual_node_internal_ptr(p);
            let i = internal.read_recursive();
            let n = p.read_recursive();
            let class = match &n.class {
                DualNodeClass::DefectVertex { defect_index } => *defect_index as i64,
                DualNodeClass::Blossom { nodes_circle, .. } => self.sz.v as i64 + number(&nodes_circle[0].upgrade_force()),
            };
            let state = match n.grow_state {
                DualNodeGrowState::Stay => 0,
                DualNodeGrowState::Grow => 1,
                DualNodeGrowState::Shrink => 2,
            };
            let parent = n.parent_blossom.as_ref().map_or(0, |b| number(&b.upgrade_force()) + 1);
            let start = rows[7].len() as i64;
            let (boundary, overgrown) = (i.boundary.len() as i64, i.overgrown_stack.len() as i64);
            let words = [class, state, parent, i.dual_variable as i64, start, boundary, overgrown];
            for (row, x) in rows.iter_mut().zip(words) {
                row.push(x);
            }
            rows[7].extend(i.boundary.iter().map(|(left, e)| {
                2 * e.upgrade_force().read_recursive_force().edge_index as i64 + i64::from(!left)
            }));
            rows[7].extend(i.overgrown_stack.iter().map(|(v, a)| {
                1024 * *a as i64 + v.upgrade_force().read_recursive_force().vertex_index as i64
            }));
        }
        rows
    }

    /// The active list, each node at its first place: renewal leaves the first of equal entries.
    fn active_row(&self) -> Vec<i64> {
        let mut row = vec![];
        for p in &self.module.active_list {
            let n = self.number_of(p);
            if !row.contains(&n) {
                row.push(n);
            }
        }
        row
    }

    /// The rows of a block, each with as many words as the state fills.
    pub fn rows(&self) -> Vec<Vec<i64>> {
        let s = &self.sz;
        let [flags, vertex_holder, vertex_grandson, first, at] = self.vertex_rows();
        let [end, growth, holder, grandson, weight] = self.edge_rows();
        let active = self.active_row();
        let mark = i64::from(self.weights_changed());
        let header = vec![s.v as i64, s.e as i64, s.n as i64, s.l, self.nodes.len() as i64, active.len() as i64, mark];
        let mut rows = vec![header, flags, vertex_holder, vertex_grandson, first, end, growth, holder, grandson, at, weight];
        rows.extend(self.node_rows());
        rows.push(active);
        rows.push(self.original_row());
        rows
    }
}
