//! Changes of weights against the Rust's own load_edge_modifier, which its clear takes back: answers and whole states,
//! the weights that stand, those that the graph was opened with and the mark among them. Shot after shot on one graph,
//! with repeated edges, weights of 0, empty lists, and lists that are refused.
use crate::graphs::{self, Graph};
use crate::random::Random;
use crate::rounds::{different, Both, Counts, End, Step};
use std::collections::{BTreeMap, BTreeSet};

/// include/fusion_blossom.h
mod c {
    extern "C" {
        pub fn fb_load_edge_modifier(
            b: *mut i64, bl: usize, t: *const i64, tl: usize, pairs: *const i64, pl: usize, a: *mut usize, al: usize,
        ) -> usize;
    }
}

#[derive(Default)]
struct Erasures {
    made: usize,
    empty: usize,
    pairs: usize,
    zeros: usize,
    repeated: usize,
    shots: usize,
    stopped: usize,
    refused: BTreeMap<usize, usize>,
}

/// Shots on one graph.
struct Run<'a, 'b> {
    both: Both<'a>,
    n: &'b mut Erasures,
    edges: i64,
    vertices: i32,
}

fn words(pairs: &[(i64, i64)]) -> Vec<i64> {
    pairs.iter().flat_map(|x| [x.0, x.1]).collect()
}

impl Run<'_, '_> {
    /// A list; some edges twice, some weights 0, and with `spoiled` a pair that is refused.
    fn list(&mut self, spoiled: bool) -> Vec<(i64, i64)> {
        let r = &mut *self.both.r;
        let most = r.pick(&[1, 2, 5, self.edges.min(40) as i32, self.edges.min(400) as i32]);
        let largest = r.pick(&[0, 2, 10, 1000, 1_000_000]);
        let mut pairs: Vec<(i64, i64)> = vec![];
        for _ in 0..r.range(1, most.max(1)) {
            let edge = if !pairs.is_empty() && r.chance(10) {
                let k = r.below(pairs.len());
                pairs[k].0
            } else {
                r.range(0, self.edges as i32 - 1) as i64
            };
            let weight = if r.chance(30) { 0 } else { r.range(0, largest) as i64 };
            pairs.push((edge, if r.chance(50) { weight - weight % 2 } else { weight }));
        }
        if spoiled {
            let k = r.below(pairs.len());
            match r.below(4) {
                0 => pairs[k].0 = self.edges,
                1 => pairs[k].0 = -1,
                2 => pairs[k].1 = 1_000_001,
                _ => pairs[k].1 = -1,
            }
        }
        pairs
    }

    /// The port's call; its answer is left in `lent.answer`. Neither scratch nor a refused block is written.
    fn ask(&mut self, pairs: &[i64]) -> Step {
        let l = &mut self.both.port.lent;
        let before = l.block.clone();
        l.scratch.fill(7);
        let (b, bl, t, tl) = (l.block.as_mut_ptr(), l.block.len(), l.scratch.as_ptr(), l.scratch.len());
        unsafe { c::fb_load_edge_modifier(b, bl, t, tl, pairs.as_ptr(), pairs.len(), l.answer.as_mut_ptr(), 5) };
        let moved = l.answer[0] == 11 && l.block != before;
        if moved || l.scratch.iter().any(|x| *x != 7) {
            return Err(End::Different(format!("{}: block or scratch", l.line())));
        }
        if l.answer[0] == 11 {
            *self.n.refused.entry(l.answer[1]).or_default() += 1;
        }
        Ok(())
    }

    /// A change on both sides.
    fn load(&mut self, pairs: &[(i64, i64)]) -> Step {
        let stands = self.both.rust.weights_changed();
        self.ask(&words(pairs))?;
        let rust = match self.both.rust.load_edge_modifier(pairs) {
            Some(asserting::card::Answer::Refused(k)) => format!("refused {k}"),
            Some(_) => "done".to_string(),
            None => "the Rust stops".to_string(),
        };
        let port = self.both.port.lent.line();
        if port != rust {
            return Err(different(&format!("{} pairs: {port}", pairs.len()), &rust));
        }
        if port == "refused 16" && stands {
            if !self.both.rust.stops_at_second(pairs) {
                return Err(different(&port, "the Rust does not stop"));
            }
            self.n.stopped += 1;
        }
        if port == "done" {
            self.n.made += 1;
            self.n.empty += usize::from(pairs.is_empty());
            self.n.pairs += pairs.len();
            self.n.zeros += pairs.iter().filter(|x| x.1 == 0).count();
            self.n.repeated += pairs.len() - pairs.iter().map(|x| x.0).collect::<BTreeSet<_>>().len();
        }
        self.both.whole()
    }

    /// One that the port refuses for an odd word, of which the Rust's lists have none.
    fn odd(&mut self) -> Step {
        let pairs = self.list(false);
        let mut list = words(&pairs);
        list.pop();
        self.ask(&list)?;
        if self.both.port.lent.line() != "refused 1" {
            return Err(different(&self.both.port.lent.line(), "refused 1"));
        }
        self.both.whole()
    }

    /// Lists before the defects: at most one is taken.
    fn before(&mut self) -> Step {
        if self.both.r.chance(15) {
            self.load(&[])?;
        }
        if self.both.r.chance(20) {
            let pairs = self.list(true);
            self.load(&pairs)?;
        }
        if self.both.r.chance(10) {
            self.odd()?;
        }
        if self.both.r.chance(85) {
            let pairs = self.list(false);
            self.load(&pairs)?;
        }
        if self.both.r.chance(20) {
            let pairs = self.list(false);
            self.load(&pairs)?;
        }
        Ok(())
    }

    fn shot(&mut self, alone: bool, steps: usize) -> Step {
        self.before()?;
        let percent = self.both.r.pick(&[5, 10, 20, 40, 70]);
        self.both.defects(self.vertices, percent)?;
        if self.both.r.chance(15) {
            let spoiled = self.both.r.chance(30);
            let pairs = if self.both.r.chance(10) { vec![] } else { self.list(spoiled) };
            self.load(&pairs)?;
        }
        if alone {
            for _ in 0..steps {
                self.both.any(self.vertices)?;
            }
        } else {
            self.both.moves(self.vertices, percent, steps)?;
        }
        self.both.whole()?;
        self.n.shots += 1;
        self.both.n.nodes = self.both.n.nodes.max(self.both.nodes() as usize);
        self.both.one(13, &[])?;
        self.both.whole()
    }
}

fn agree(seed: u64, g: &Graph, n: &mut Counts, m: &mut Erasures) -> Step {
    let r = &mut Random::new(seed);
    let nodes = r.range(1 + g.v / 4, g.v + g.v / 4).min(1024);
    let store = (2 * (2 * g.edges.len() as i32 + g.v) * r.pick(&[1, 2, 4, 8])).min(65_536);
    let (shots, steps, alone) = (r.range(2, 6), r.range(5, 40) as usize, r.chance(50));
    let both = Both::open(r, g, nodes, store, n);
    let mut run = Run { both, n: m, edges: g.edges.len() as i64, vertices: g.v };
    (0..shots).try_for_each(|_| run.shot(alone, steps))
}

pub fn compare(runs: u64, seed: u64) -> bool {
    let (mut n, mut m) = (Counts::default(), Erasures::default());
    let (mut streams, mut different, mut largest) = ([0; graphs::KINDS.len()], 0, (0, 0));
    println!("{runs} streams of changes of weights from seed {seed}");
    for i in 0..runs {
        let one = seed.wrapping_mul(1_000_003).wrapping_add(i);
        let r = &mut Random::new(!one);
        let g = if r.chance(85) { graphs::graph(r) } else { graphs::any_size(r) };
        if g.v > 1024 || g.edges.len() > 4096 {
            continue;
        }
        streams[g.kind] += 1;
        largest = (largest.0.max(g.v), largest.1.max(g.edges.len()));
        match agree(one, &g, &mut n, &mut m) {
            Ok(()) => {}
            Err(End::Outside(why)) => *n.ended.entry(why).or_default() += 1,
            Err(End::Different(why)) => {
                println!(
                    "DIFFERENT, seed {one}, {} of V {}, E {}: port | Rust: {why}",
                    graphs::KINDS[g.kind], g.v, g.edges.len()
                );
                different += 1;
            }
        }
    }
    let listed: Vec<_> = graphs::KINDS.iter().zip(streams).map(|(k, n)| format!("{k} {n}")).collect();
    println!(
        "{} streams ({}), up to V {}, E {} and {} nodes",
        streams.iter().sum::<usize>(), listed.join(", "), largest.0, largest.1, n.nodes
    );
    println!(
        "{} changes in {} shots, {} of them empty: {} pairs, {} of weight 0, {} of an edge named before",
        m.made, m.shots, m.empty, m.pairs, m.zeros, m.repeated
    );
    println!("refused changes: {}", m.refused.iter().map(|(k, n)| format!("{k} {n}")).collect::<Vec<_>>().join(", "));
    println!(
        "the Rust stopped at {} of those refused 16, where a change stood; {} calls on one node, {} groups, {} rounds",
        m.stopped, n.calls, n.groups, n.rounds
    );
    println!("{} whole states of {} words compared", n.states, n.words);
    println!("ended early: {}", n.ended.iter().map(|(k, n)| format!("{k} {n}")).collect::<Vec<_>>().join(", "));
    println!("different: {different}");
    different == 0
}
