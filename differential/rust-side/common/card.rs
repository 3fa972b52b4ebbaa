//! The calls of the card on the unmodified DualModuleSerial. Two ways of calling it: `call` works out the refusals
//! (docs/SPECIFICATION.md 8) from the Rust's state and mends preparation, `straight` calls the Rust's own methods and
//! knows of refusals only what it is told.
use super::dual_module::*;
use super::dual_module_serial::*;
use super::util::*;
use std::any::Any;
use std::panic::{catch_unwind, AssertUnwindSafe};

pub struct Sizes {
    pub v: usize,
    pub e: usize,
    pub n: usize,
    pub l: i64,
}

/// What a call answers.
pub enum Answer {
    Node(usize),
    Done,
    Prepared(usize),
    Length(MaxUpdateLength),
    Edges(Vec<(isize, isize)>),
    /// The edge, and what stands at its left and its right end: an outermost node, or -1.
    Contacts(Vec<(usize, i64, i64)>),
    Refused(u8),
    /// The Rust stops although no refusal applies: outside the domain.
    Stopped,
}
use Answer::*;

pub struct Card {
    pub(super) sz: Sizes,
    pub(super) module: DualModuleSerial,
    pub(super) interface: DualModuleInterfacePtr,
    pub(super) nodes: Vec<DualNodePtr>,
    /// what the module keeps of each node, and whether it has dropped it: a blossom that was opened
    pub(super) internals: Vec<DualNodeInternalWeak>,
    pub(super) removed: Vec<bool>,
    /// a pass of the last call took off an overgrown vertex with an edge of weight 0, and the Rust called for no other
    pub mended: bool,
}

/// Hands calls on to the serial module but leaves out create_blossom's own preparation, since add_dual_node prepares too.
struct Once<'a>(&'a mut DualModuleSerial, Vec<SyncRequest>);
impl<'a> DualModuleImpl for Once<'a> {
    fn new_empty(_: &SolverInitializer) -> Self {
        unimplemented!()
    }
    fn clear(&mut self) {
        self.0.clear()
    }
    fn add_dual_node(&mut self, p: &DualNodePtr) {
        self.0.add_dual_node(p)
    }
    fn remove_blossom(&mut self, p: DualNodePtr) {
        self.0.remove_blossom(p)
    }
    fn set_grow_state(&mut self, p: &DualNodePtr, s: DualNodeGrowState) {
        self.0.set_grow_state(p, s)
    }
    fn compute_maximum_update_length(&mut self) -> GroupMaxUpdateLength {
        self.0.compute_maximum_update_length()
    }
    fn grow(&mut self, length: Weight) {
        self.0.grow(length)
    }
    fn prepare_nodes_shrink(&mut self, _: &[DualNodePtr]) -> &mut Vec<SyncRequest> {
        &mut self.1
    }
}

fn state_of(s: i32) -> Option<DualNodeGrowState> {
    match s {
        0 => Some(DualNodeGrowState::Stay),
        1 => Some(DualNodeGrowState::Grow),
        2 => Some(DualNodeGrowState::Shrink),
        _ => None,
    }
}

/// Whether the Rust stopped at an unreachable!.
pub fn unreachable_code(why: &Box<dyn Any + Send>) -> bool {
    let said = why.downcast_ref::<&str>().copied().or_else(|| why.downcast_ref::<String>().map(String::as_str));
    said.is_some_and(|s| s.contains("entered unreachable code"))
}

/// Whether the Rust's own constructor opens this graph and numbers it alike: even weights, smaller end left, no parallel edges.
pub fn constructible(edges: &[(usize, usize, isize)]) -> bool {
    let mut ends: Vec<_> = edges.iter().map(|e| (e.0, e.1)).collect();
    ends.sort_unstable();
    edges.iter().all(|e| e.0 < e.1 && e.2 % 2 == 0) && ends.windows(2).all(|w| w[0] != w[1])
}

impl Card {
    /// A graph, by the Rust's constructor where it takes the graph, or by one without edges to which the edges are then pushed.
    pub fn open(sz: Sizes, edges: &[(usize, usize, isize)], virtuals: &[usize], constructor: bool) -> Self {
        let given = if constructor && constructible(edges) { edges.to_vec() } else { vec![] };
        let push = given.is_empty();
        let mut module = DualModuleSerial::new_empty(&SolverInitializer::new(sz.v, given, virtuals.to_vec()));
        if push {
            for (i, &(l, r, w)) in edges.iter().enumerate() {
                let e = EdgePtr::new_value(Edge {
                    edge_index: i,
                    weight: w,
                    left: module.vertices[l].downgrade(),
                    right: module.vertices[r].downgrade(),
                    left_growth: 0,
                    right_growth: 0,
                    left_dual_node: None,
                    left_grandson_dual_node: None,
                    right_dual_node: None,
                    right_grandson_dual_node: None,
                    timestamp: 0,
                    dedup_timestamp: (0, 0),
                });
                for a in [l, r] {
                    module.vertices[a].write(0).edges.push(e.downgrade());
                }
                module.edges.push(e);
            }
            module.edge_num = edges.len();
        }
        let interface = DualModuleInterfacePtr::new_empty();
        Card { sz, module, interface, nodes: vec![], internals: vec![], removed: vec![], mended: false }
    }

    fn node(&self, n: i32) -> Option<DualNodePtr> {
        usize::try_from(n).ok().filter(|&n| n < self.nodes.len() && !self.removed[n]).map(|n| self.nodes[n].clone())
    }
    /// The nodes that were not removed.
    pub(super) fn live(&self) -> impl Iterator<Item = &DualNodePtr> + '_ {
        self.nodes.iter().zip(&self.removed).filter(|x| !x.1).map(|x| x.0)
    }
    fn inner(&self, p: &DualNodePtr) -> bool {
        p.read_recursive().parent_blossom.is_some()
    }
    fn fresh(&self, t: FastClearTimestamp) -> bool {
        t == self.module.active_timestamp
    }

    /// Would a shrinking pass take off an overgrown vertex that has an edge of weight 0?
    fn pops_zero(&self, p: &DualNodePtr) -> bool {
        let i = self.module.get_dual_node_internal_ptr(p);
        let i = i.read_recursive();
        i.overgrown_stack.iter().rev().take_while(|x| x.1 == 0).any(|(v, _)| {
            let v = v.upgrade_force();
            let v = v.read_recursive_force();
            let zero = v.edges.iter().any(|e| e.upgrade_force().read_recursive_force().weight == 0);
            zero
        })
    }

    /// prepare_dual_node_growth with its passes counted; with `mend`, a pass that takes off an overgrown vertex with an edge of
    /// weight 0 calls for another.
    pub(super) fn prepare(&mut self, p: &DualNodePtr, grow: bool, mend: bool) -> usize {
        let mut passes = 0;
        loop {
            let zero = mend && !grow && self.pops_zero(p);
            let another = self.module.prepare_dual_node_growth_single(p, grow);
            passes += 1;
            self.mended |= zero && !another;
            if !another && !zero {
                return passes;
            }
            assert!(passes < 100_000, "preparation does not end");
        }
    }

    fn insert(&mut self, p: DualNodePtr, state: DualNodeGrowState) -> Answer {
        self.nodes.push(p.clone());
        self.internals.push(self.module.get_dual_node_internal_ptr(&p).downgrade());
        self.removed.push(false);
        self.interface.set_grow_state(&p, state, &mut self.module);
        let n = p.read_recursive().index;
        Node(n)
    }

    fn growths(&self) -> impl Iterator<Item = (isize, isize, isize)> + '_ {
        self.module.edges.iter().map(|e| {
            let e = e.read_recursive_force();
            if self.fresh(e.timestamp) {
                (e.left_growth, e.right_growth, e.weight)
            } else {
                (0, 0, e.weight)
            }
        })
    }
    /// Of every edge whether one node holds both sides, and its weight less its growths.
    pub fn gaps(&self) -> Vec<(bool, isize)> {
        let one_holder = self.module.edges.iter().map(|e| {
            let e = e.read_recursive_force();
            self.fresh(e.timestamp) && e.left_dual_node.is_some() && e.left_dual_node == e.right_dual_node
        });
        one_holder.zip(self.growths()).map(|(inner, (l, r, w))| (inner, w - l - r)).collect()
    }
    fn table(&self) -> Answer {
        Edges(self.growths().map(|g| (g.0, g.1)).collect())
    }
    /// The contacts (SPECIFICATION 22), read from the Rust's edges, vertices and nodes, which has no such call.
    fn contacts(&self) -> Answer {
        let full = self.growths().enumerate().filter(|(_, g)| g.0 + g.1 == g.2).map(|(e, _)| e);
        Contacts(full.filter_map(|e| self.contact(e)).collect())
    }
    /// A full edge with what stands at its ends, if it joins something.
    fn contact(&self, i: usize) -> Option<(usize, i64, i64)> {
        let e = self.module.edges[i].read_recursive_force();
        let fresh = self.fresh(e.timestamp);
        let [p, q] = [&e.left_dual_node, &e.right_dual_node].map(|n| if fresh { self.outermost(n) } else { -1 });
        let free = |v: &VertexWeak| {
            let v = v.upgrade_force();
            let v = v.read_recursive_force();
            v.is_virtual && !(self.fresh(v.timestamp) && v.propagated_dual_node.is_some())
        };
        let joins = match (p, q) {
            (-1, -1) => false,
            (-1, _) => free(&e.left),
            (_, -1) => free(&e.right),
            _ => p != q,
        };
        joins.then_some((i, p, q))
    }
    /// The representative vertex of every node; none of one that was removed.
    pub fn representatives(&self) -> Vec<Option<usize>> {
        self.nodes.iter().zip(&self.removed).map(|(p, gone)| (!gone).then(|| p.get_representative_vertex())).collect()
    }
    fn clear(&mut self) -> Answer {
        self.module.clear();
        self.interface.clear();
        self.nodes.clear();
        self.internals.clear();
        self.removed.clear();
        Done
    }

    // ------------------------------------------------------------------ refusals, from the Rust's state

    fn store_short(&self, named: &[DualNodePtr], c: usize) -> bool {
        let mut used = 0;
        for p in self.live().filter(|p| !named.contains(p)) {
            let i = self.module.get_dual_node_internal_ptr(p);
            let i = i.read_recursive();
            used += i.boundary.len() + i.overgrown_stack.len();
        }
        self.sz.l - (used as i64) < (c * (2 * self.sz.e + self.sz.v)) as i64
    }

    fn occupied(&self, v: usize) -> bool {
        let vp = &self.module.vertices[v];
        let v = vp.read_recursive_force();
        let side = v.edges.iter().any(|e| {
            let e = e.upgrade_force();
            let e = e.read_recursive_force();
            let held = if e.left == vp.downgrade() { e.left_dual_node.is_some() } else { e.right_dual_node.is_some() };
            self.fresh(e.timestamp) && held
        });
        v.is_virtual || side || self.fresh(v.timestamp) && (v.is_defect || v.propagated_dual_node.is_some())
    }

    /// 10 to 12, on the prepared state
    fn growth_refused(&self, p: &DualNodePtr, by: isize) -> Option<u8> {
        let ip = self.module.get_dual_node_internal_ptr(p);
        let i = ip.read_recursive();
        let me = Some(ip.downgrade());
        let top = i.overgrown_stack.last().map(|x| x.1);
        let any = |f: &dyn Fn(isize, isize, isize, bool) -> bool| {
            i.boundary.iter().any(|(l, e)| {
                let e = e.upgrade_force();
                let e = e.read_recursive_force();
                let own = if *l { e.left_growth } else { e.right_growth };
                f(own, e.left_growth + e.right_growth, e.weight, e.left_dual_node == me && e.right_dual_node == me)
            })
        };
        if by < 0 {
            let more = -by > i.dual_variable || top.is_some_and(|t| -by > t) || any(&|own, _, _, _| -by > own);
            return more.then_some(11);
        }
        if any(&|_, both, w, twice| !twice && both + by > w) {
            return Some(10);
        }
        let much = 1_000_000_000;
        let more = i.dual_variable + by > much
            || top.is_some_and(|t| t + by > much)
            || any(&|own, _, _, _| own + by > 1_100_000_000_000);
        more.then_some(12)
    }

    pub(super) fn node_refused(&self, n: i32, listed: bool, prepares: bool) -> Result<DualNodePtr, Answer> {
        let p = self.node(n).filter(|_| listed).ok_or(Refused(3))?;
        if self.inner(&p) {
            return Err(Refused(6));
        }
        if prepares && self.store_short(&[p.clone()], 1) {
            return Err(Refused(9));
        }
        Ok(p)
    }

    // ------------------------------------------------- the calls, refused as docs/SPECIFICATION.md 8 says, and mended

    pub fn call(&mut self, kind: u16, a: &[i32]) -> Answer {
        self.mended = false;
        match catch_unwind(AssertUnwindSafe(|| self.call_or_refusal(kind, a))) {
            Ok(Ok(x)) | Ok(Err(x)) => x,
            // the length of a side that the scan may not meet: refusal 13
            Err(why) if kind == 8 && unreachable_code(&why) => Refused(13),
            Err(_) => Stopped,
        }
    }

    fn call_or_refusal(&mut self, kind: u16, a: &[i32]) -> Result<Answer, Answer> {
        Ok(match kind {
            4 => {
                if a[0] < 0 || a[0] as usize >= self.sz.v {
                    return Err(Refused(3));
                }
                let state = state_of(a[1]).ok_or(Refused(3))?;
                if self.occupied(a[0] as usize) {
                    return Err(Refused(5));
                }
                if self.nodes.len() >= self.sz.n {
                    return Err(Refused(8));
                }
                if self.store_short(&[], 1) {
                    return Err(Refused(9));
                }
                let p = self.interface.create_defect_node(a[0] as usize, &mut self.module);
                self.insert(p, state)
            }
            5 => {
                let state = state_of(a[0]).ok_or(Refused(3))?;
                let circle = a[1..].iter().map(|&n| self.node(n)).collect::<Option<Vec<_>>>().ok_or(Refused(3))?;
                if circle.iter().any(|p| self.inner(p)) {
                    return Err(Refused(6));
                }
                // the Rust has no limit: 63 is the port's own
                let repeats = || (1..circle.len()).any(|i| circle[..i].contains(&circle[i]));
                if circle.len() < 3 || circle.len() > 63 || circle.len() % 2 == 0 || repeats() {
                    return Err(Refused(7));
                }
                if self.nodes.len() >= self.sz.n {
                    return Err(Refused(8));
                }
                if self.store_short(&circle, circle.len() + 1) {
                    return Err(Refused(9));
                }
                for p in circle.iter() {
                    self.prepare(p, false, true);
                }
                let p = self.interface.create_blossom(circle, vec![], &mut Once(&mut self.module, vec![]));
                self.insert(p, state)
            }
            6 => {
                let p = self.node_refused(a[0], state_of(a[1]).is_some(), false)?;
                self.interface.set_grow_state(&p, state_of(a[1]).unwrap(), &mut self.module);
                Done
            }
            7 => {
                let p = self.node_refused(a[0], a[1] == 0 || a[1] == 1, true)?;
                Prepared(self.prepare(&p, a[1] == 1, true))
            }
            8 => {
                let p = self.node_refused(a[0], a[1] == 0 || a[1] == 1, a[2] == 1)?;
                if a[2] == 1 {
                    self.prepare(&p, a[1] == 1, true);
                }
                Length(self.module.compute_maximum_update_length_dual_node(&p, a[1] == 1, true))
            }
            9 => {
                let p = self.node_refused(a[0], true, a[1] != 0)?;
                if a[1] != 0 {
                    self.prepare(&p, a[1] > 0, true);
                    if let Some(k) = self.growth_refused(&p, a[1] as isize) {
                        return Err(Refused(k));
                    }
                }
                self.module.grow_dual_node(&p, a[1] as isize);
                Done
            }
            10 => self.table(),
            11 => {
                let p = self.node_refused(a[0], true, false)?;
                let state = p.read_recursive().grow_state;
                if state == DualNodeGrowState::Stay {
                    return Ok(Done);
                }
                let grow = state == DualNodeGrowState::Grow;
                self.node_refused(a[0], true, true)?;
                self.prepare(&p, grow, true);
                match self.module.compute_maximum_update_length_dual_node(&p, grow, true) {
                    MaxUpdateLength::NonZeroGrow((l, _)) if l != Weight::MAX => {
                        let by = if grow { l } else { -l };
                        if let Some(k) = self.growth_refused(&p, by) {
                            return Err(Refused(k));
                        }
                        self.module.grow_dual_node(&p, by);
                        Done
                    }
                    m => Length(m),
                }
            }
            12 => self.contacts(),
            _ => self.clear(),
        })
    }

    // ------------------------------------------------------------------ the calls as the Rust has them

    /// The call itself. The Rust stops (panics) where it stops.
    pub fn straight(&mut self, kind: u16, a: &[i32]) -> Answer {
        match kind {
            4 => {
                let p = self.interface.create_defect_node(a[0] as usize, &mut self.module);
                self.insert(p, state_of(a[1]).unwrap())
            }
            5 => {
                let circle = a[1..].iter().map(|&n| self.nodes[n as usize].clone()).collect();
                let p = self.interface.create_blossom(circle, vec![], &mut self.module);
                self.insert(p, state_of(a[0]).unwrap())
            }
            10 => self.table(),
            12 => self.contacts(),
            13 => self.clear(),
            _ => {
                let p = self.nodes[a[0] as usize].clone();
                match kind {
                    6 => {
                        self.interface.set_grow_state(&p, state_of(a[1]).unwrap(), &mut self.module);
                        Done
                    }
                    7 => Prepared(self.prepare(&p, a[1] == 1, false)),
                    8 => Length(self.module.compute_maximum_update_length_dual_node(&p, a[1] == 1, a[2] == 0)),
                    9 => {
                        self.module.grow_dual_node(&p, a[1] as isize);
                        Done
                    }
                    _ => self.advance(&p),
                }
            }
        }
    }

    fn advance(&mut self, p: &DualNodePtr) -> Answer {
        let grow = match p.read_recursive().grow_state {
            DualNodeGrowState::Stay => return Done,
            s => s == DualNodeGrowState::Grow,
        };
        match self.module.compute_maximum_update_length_dual_node(p, grow, false) {
            MaxUpdateLength::NonZeroGrow((l, _)) if l != Weight::MAX => {
                self.module.grow_dual_node(p, if grow { l } else { -l });
                Done
            }
            m => Length(m),
        }
    }

    /// What a growth that is refused (10 to 12) leaves: the Rust's own preparation in its direction.
    pub fn prepare_only(&mut self, kind: u16, a: &[i32]) {
        let p = self.nodes[a[0] as usize].clone();
        let grow = if kind == 9 { a[1] > 0 } else { p.read_recursive().grow_state == DualNodeGrowState::Grow };
        self.module.prepare_dual_node_growth(&p, grow);
    }
}
