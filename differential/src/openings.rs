//! Openings of blossoms against the Rust's own remove_blossom, and against its expand_blossom, which then sets the
//! members to Grow: answers and whole states. Blossoms are nested up to 10 deep, grow and shrink, are opened in any state
//! and inserted again.
use crate::graphs::{self, Graph};
use crate::random::Random;
use crate::rounds::{different, Both, Counts, End, Step};
use std::collections::{BTreeMap, BTreeSet};

/// include/fusion_blossom.h
mod c {
    extern "C" {
        pub fn fb_remove_blossom(
            b: *mut i64, bl: usize, t: *mut i64, tl: usize, node: usize, a: *mut usize, al: usize,
        ) -> usize;
    }
}

const DEEPEST: usize = 10;
const REMOVED: i64 = 1024;

#[derive(Default)]
struct Openings {
    made: usize,
    expanded: usize,
    grown: usize,
    again: usize,
    deep: [usize; DEEPEST + 1],
    states: [usize; 3],
    refused: BTreeMap<usize, usize>,
    vertices: usize,
}

/// A stream with what is known of its blossoms.
struct Run<'a, 'b> {
    both: Both<'a>,
    n: &'b mut Openings,
    /// blossoms that have had a dual variable above 0, and circles that were opened
    grown: BTreeSet<i32>,
    opened: BTreeSet<Vec<i32>>,
}

impl Run<'_, '_> {
    /// The word of a node in row 11 (class) and on: grow state, parent, dual variable.
    fn word(&self, row: usize, n: i32) -> i64 {
        let b = &self.both.port.lent.block;
        let [v, e, most] = [0, 1, 2].map(|i| b[i] as usize);
        b[16 + 4 * v + 11 * e + (row - 11) * most + n as usize]
    }
    fn vertices(&self) -> i64 {
        self.both.port.lent.block[0]
    }
    fn is_removed(&self, n: i32) -> bool {
        self.word(11, n) == self.vertices() + REMOVED
    }
    fn is_blossom(&self, n: i32) -> bool {
        self.word(11, n) >= self.vertices() && !self.is_removed(n)
    }
    /// The nodes that lie in no blossom.
    fn outermost(&self) -> Vec<i32> {
        (0..self.both.nodes()).filter(|&n| self.word(13, n) == 0 && !self.is_removed(n)).collect()
    }
    /// How many blossoms lie in each other from each node on.
    fn depths(&self) -> Vec<usize> {
        let mut deep: Vec<usize> = (0..self.both.nodes()).map(|n| usize::from(self.is_blossom(n))).collect();
        for n in 0..self.both.nodes() {
            let parent = self.word(13, n) as usize;
            if parent > 0 {
                deep[parent - 1] = deep[parent - 1].max(deep[n as usize] + 1);
            }
        }
        deep
    }

    /// An opening on both sides.
    fn open(&mut self, n: i32) -> Step {
        let there = n >= 0 && n < self.both.nodes();
        let (deep, state) = if there { (self.depths()[n as usize], self.word(12, n) as usize) } else { (0, 0) };
        let circle = if there { self.both.rust.circle(n) } else { vec![] };
        let expand = self.both.r.chance(25);
        let l = &mut self.both.port.lent;
        l.scratch.fill(7);
        let (b, bl, t, tl) = (l.block.as_mut_ptr(), l.block.len(), l.scratch.as_mut_ptr(), l.scratch.len());
        unsafe { c::fb_remove_blossom(b, bl, t, tl, n as usize, l.answer.as_mut_ptr(), 5) };
        let port = l.line();
        let (done, left) = (l.answer[0] == 7, if l.answer[0] == 7 { 0 } else { 7 });
        if l.scratch.iter().any(|x| *x != left) {
            return Err(End::Different(format!("{port}: the scratch")));
        }
        let rust = match self.both.rust.open_blossom(n, expand) {
            Some(asserting::card::Answer::Refused(k)) => format!("refused {k}"),
            Some(_) => "done".to_string(),
            None => "the Rust stops".to_string(),
        };
        if port != rust {
            return Err(different(&format!("opening {n}: {port}"), &rust));
        }
        if !done {
            *self.n.refused.entry(self.both.port.lent.answer[1]).or_default() += 1;
            return self.both.whole();
        }
        self.n.made += 1;
        self.n.deep[deep.min(DEEPEST)] += 1;
        self.n.states[state] += 1;
        self.n.grown += usize::from(self.grown.contains(&n));
        if expand {
            self.n.expanded += 1;
            for &m in &circle {
                self.both.port.lent.ask(6, &[m, 1], &[]);
            }
        }
        let mut members = circle;
        members.sort_unstable();
        self.opened.insert(members);
        self.both.whole()
    }

    /// A blossom; most of them around the deepest node.
    fn insert(&mut self, nodes: &[i32]) -> Step {
        let deep = self.depths();
        let mut circle = nodes.to_vec();
        self.both.r.shuffle(&mut circle);
        if self.both.r.chance(70) {
            let fit = nodes.iter().filter(|&&n| deep[n as usize] < DEEPEST);
            let inner = *fit.max_by_key(|&&n| deep[n as usize]).unwrap_or(&nodes[0]);
            circle.retain(|&n| n != inner);
            circle.insert(self.both.r.below(2), inner);
        }
        circle.truncate(if circle.len() >= 5 && self.both.r.chance(15) { 5 } else { 3 });
        if circle.iter().any(|&n| deep[n as usize] >= DEEPEST) {
            return Ok(());
        }
        let state = self.both.r.pick(&[0, 1, 1, 2]);
        self.insert_circle(state, &circle)
    }

    fn insert_circle(&mut self, state: i32, circle: &[i32]) -> Step {
        self.both.one(5, &[&[state], circle].concat())?;
        let mut members = circle.to_vec();
        members.sort_unstable();
        self.n.again += usize::from(self.both.port.lent.answer[0] == 8 && self.opened.contains(&members));
        Ok(())
    }

    /// A blossom moves up and down again, as far as it goes.
    fn grow_and_shrink_back(&mut self, n: i32) -> Step {
        self.both.one(6, &[n, 1])?;
        for _ in 0..self.both.r.range(1, 3) {
            self.both.one(11, &[n])?;
        }
        self.note();
        self.shrink(n)
    }

    fn shrink(&mut self, n: i32) -> Step {
        self.both.one(6, &[n, 2])?;
        for _ in 0..12 {
            self.both.one(11, &[n])?;
            if self.both.port.lent.answer[0] != 7 {
                break;
            }
        }
        Ok(())
    }

    /// Which blossoms have grown.
    fn note(&mut self) {
        for n in 0..self.both.nodes() {
            if self.is_blossom(n) && self.word(14, n) > 0 {
                self.grown.insert(n);
            }
        }
    }

    /// An opening of a blossom that can be opened, mostly, in any grow state; often it is inserted again.
    fn some_opening(&mut self, blossoms: &[i32]) -> Step {
        let bare: Vec<i32> = blossoms.iter().copied().filter(|&n| self.word(14, n) == 0).collect();
        let any = bare.is_empty() || self.both.r.chance(5);
        let n = if any { self.both.r.pick(blossoms) } else { self.both.r.pick(&bare) };
        if self.both.r.chance(35) {
            self.grow_and_shrink_back(n)?;
        } else if self.word(14, n) > 0 && self.both.r.chance(80) {
            self.shrink(n)?;
        }
        if self.both.r.chance(60) {
            let state = self.both.r.pick(&[0, 1, 2]);
            self.both.one(6, &[n, state])?;
        }
        let mut circle = self.both.rust.circle(n);
        self.open(n)?;
        if self.both.port.lent.answer[0] == 7 && self.both.r.chance(30) {
            self.both.r.shuffle(&mut circle);
            self.insert_circle(1, &circle)?;
        }
        Ok(())
    }

    fn step(&mut self) -> Step {
        let (count, nodes) = (self.both.nodes(), self.outermost());
        let blossoms: Vec<i32> = nodes.iter().copied().filter(|&n| self.is_blossom(n)).collect();
        let v = self.vertices() as i32;
        let n = match (nodes.is_empty(), blossoms.is_empty() || self.both.r.chance(30)) {
            (true, _) => 0,
            (_, true) => self.both.r.pick(&nodes),
            _ => self.both.r.pick(&blossoms),
        };
        match self.both.r.below(100) {
            0..=9 => {
                let (vertex, state) = (self.both.r.range(0, v - 1), self.both.r.pick(&[0, 1, 1, 2]));
                self.both.one(4, &[vertex, state])
            }
            10..=29 if nodes.len() >= 3 => self.insert(&nodes),
            30..=54 if !blossoms.is_empty() => self.some_opening(&blossoms),
            55..=57 => {
                let n = self.both.r.range(-1, count + 1);
                self.open(n)
            }
            58..=67 if !blossoms.is_empty() => self.grow_and_shrink_back(n),
            68..=77 => self.both.one(11, &[n]),
            78..=83 => {
                let by = self.both.r.pick(&[1, 1, 2, -1, -1, -2]);
                self.both.one(9, &[n, by])
            }
            84..=88 => {
                let state = self.both.r.pick(&[0, 1, 2, 2]);
                self.both.one(6, &[n, state])
            }
            89..=90 => {
                let direction = self.both.r.pick(&[0, 1]);
                self.both.one(7, &[n, direction])
            }
            91..=92 => {
                let direction = self.both.r.pick(&[0, 1]);
                self.both.one(8, &[n, direction, 1])
            }
            93 => self.both.other(true),
            94 => self.both.other(false),
            95..=97 => self.all_clusters(),
            98 => {
                let n = self.both.r.range(0, count);
                self.both.one(11, &[n])
            }
            _ => Ok(()),
        }
    }

    /// The group, and a round by its length.
    fn all_clusters(&mut self) -> Step {
        match self.both.group()? {
            Some(length) if length < 1_000_000 => self.both.round(length).map(|_| ()),
            None if self.both.port.lent.answer[0] == 14 => self.both.settle(),
            _ => Ok(()),
        }
    }

    fn run(&mut self, steps: usize) -> Step {
        let (v, percent) = (self.vertices() as i32, self.both.r.pick(&[20, 40, 60, 90]));
        self.both.defects(v, percent)?;
        let most = self.both.port.lent.block[2] as i32;
        for _ in 0..steps {
            self.step()?;
            self.note();
            if self.both.nodes() == most && self.both.r.chance(20) || self.both.r.below(400) == 0 {
                self.both.one(13, &[])?;
                self.grown.clear();
                self.opened.clear();
                self.both.defects(v, percent)?;
            }
        }
        self.representatives()
    }

    /// The representative vertex of every node; a removed one has none.
    fn representatives(&mut self) -> Step {
        for (n, v) in self.both.rust.representatives().into_iter().enumerate() {
            self.n.vertices += 1;
            if self.both.port.lent.representative(n) != v {
                let said = self.both.port.lent.line();
                return Err(End::Different(format!("representative vertex of {n}: {said} | {v:?}")));
            }
        }
        Ok(())
    }
}

fn agree(seed: u64, g: &Graph, n: &mut Counts, m: &mut Openings) -> Step {
    let r = &mut Random::new(seed);
    let nodes = r.pick(&[100, 200, 400, 1024]);
    let part = 2 * g.edges.len() as i32 + g.v;
    let store = (part * r.pick(&[4, 5, 6, 12, 20, 40])).min(65_536);
    let steps = r.range(60, 300) as usize;
    let both = Both::open(r, g, nodes, store, n);
    let mut run = Run { both, n: m, grown: BTreeSet::new(), opened: BTreeSet::new() };
    let end = run.run(steps);
    run.both.n.nodes = run.both.n.nodes.max(run.both.nodes() as usize);
    end
}

pub fn compare(runs: u64, seed: u64) -> bool {
    let (mut n, mut m) = (Counts::default(), Openings::default());
    let (mut streams, mut different, mut largest) = ([0; graphs::KINDS.len()], 0, (0, 0));
    println!("{runs} streams of openings from seed {seed}");
    for i in 0..runs {
        let one = seed.wrapping_mul(1_000_003).wrapping_add(i);
        let r = &mut Random::new(!one);
        let g = if r.chance(85) { graphs::graph(r) } else { graphs::any_size(r) };
        if g.v > 1024 || g.edges.len() > 4096 {
            continue;
        }
        streams[g.kind] += 1;
        largest = (largest.0.max(g.v), largest.1.max(g.edges.len()));
        match agree(one, &g, &mut n, &mut m) {
            Ok(()) => {}
            Err(End::Outside(why)) => *n.ended.entry(why).or_default() += 1,
            Err(End::Different(why)) => {
                println!(
                    "DIFFERENT, seed {one}, {} of V {}, E {}: port | Rust: {why}",
                    graphs::KINDS[g.kind], g.v, g.edges.len()
                );
                different += 1;
            }
        }
    }
    let listed = |names: &[&str], counts: &[usize]| {
        names.iter().zip(counts).map(|(k, n)| format!("{k} {n}")).collect::<Vec<_>>().join(", ")
    };
    println!(
        "{} streams ({}), up to V {}, E {} and {} nodes",
        streams.iter().sum::<usize>(), listed(&graphs::KINDS, &streams), largest.0, largest.1, n.nodes
    );
    println!(
        "{} openings, {} of them by expand_blossom; {} of blossoms that had grown; {} circles inserted again",
        m.made, m.expanded, m.grown, m.again
    );
    println!("opened in {}; by depth {:?}", listed(&["Stay", "Grow", "Shrink"], &m.states), &m.deep[1..]);
    println!("refused openings: {}", m.refused.iter().map(|(k, n)| format!("{k} {n}")).collect::<Vec<_>>().join(", "));
    println!(
        "{} calls on one node, {} groups, {} rounds; {} representative vertices, {} whole states of {} words compared",
        n.calls, n.groups, n.rounds, m.vertices, n.states, n.words
    );
    println!("ended early: {}", n.ended.iter().map(|(k, n)| format!("{k} {n}")).collect::<Vec<_>>().join(", "));
    println!("different: {different}");
    different == 0
}
