//! The calls for all clusters against the Rust's own, on its active list: answers, conflicts in their order, stops, and
//! whole states.
use crate::graphs::{self, Graph};
use crate::lent::{circle, state_differs, Lent};
use crate::random::Random;
use crate::records::{record, Record};
use crate::streams;
use asserting::session::Session;
use std::collections::BTreeMap;

/// include/fusion_blossom.h
mod c {
    extern "C" {
        pub fn fb_renew_active_list(b: *mut i64, bl: usize, a: *mut usize, al: usize) -> usize;
        pub fn fb_prepare_all(
            b: *mut i64, bl: usize, s: *mut i64, sl: usize, t: *mut i64, tl: usize, a: *mut usize, al: usize,
        ) -> usize;
        pub fn fb_grow_all(
            b: *mut i64, bl: usize, s: *mut i64, sl: usize, t: *mut i64, tl: usize, length: i64, a: *mut usize,
            al: usize,
        ) -> usize;
        pub fn fb_group_max_update_length(
            b: *mut i64, bl: usize, s: *mut i64, sl: usize, t: *mut i64, tl: usize, entries: *mut usize, el: usize,
            a: *mut usize, al: usize,
        ) -> usize;
    }
}

pub enum Call {
    Renew,
    PrepareAll,
    Group,
    Round(i64),
}

/// Lent memory with a second block and a list of entries.
pub struct Port {
    pub lent: Lent,
    pub second: Vec<i64>,
    pub entries: Vec<usize>,
}

impl Port {
    pub fn open(records: &[Record]) -> Self {
        let lent = Lent::open(records);
        let (words, nodes) = (lent.block.len(), lent.block[2] as usize);
        Port { lent, second: vec![7; words], entries: vec![0; 5 * nodes] }
    }

    /// A call; its answer is left in `lent.answer`.
    pub fn call(&mut self, call: &Call) {
        let l = &mut self.lent;
        let (b, bl, s, sl) = (l.block.as_mut_ptr(), l.block.len(), self.second.as_mut_ptr(), self.second.len());
        let (t, tl, a, al) = (l.scratch.as_mut_ptr(), l.scratch.len(), l.answer.as_mut_ptr(), 5);
        unsafe {
            match call {
                Call::Renew => c::fb_renew_active_list(b, bl, a, al),
                Call::PrepareAll => c::fb_prepare_all(b, bl, s, sl, t, tl, a, al),
                Call::Group => {
                    let (es, el) = (self.entries.as_mut_ptr(), self.entries.len());
                    c::fb_group_max_update_length(b, bl, s, sl, t, tl, es, el, a, al)
                }
                Call::Round(length) => c::fb_grow_all(b, bl, s, sl, t, tl, *length, a, al),
            }
        };
    }

    fn entry(&self, k: usize) -> String {
        Lent::words(&self.entries[5 * k..5 * k + 5])
    }
}

#[derive(Default)]
pub struct Counts {
    pub rounds: usize,
    pub groups: usize,
    others: usize,
    pub calls: usize,
    listed: usize,
    pub states: usize,
    pub words: usize,
    pub nodes: usize,
    stopped: usize,
    pub ended: BTreeMap<&'static str, usize>,
    answers: BTreeMap<String, usize>,
}

/// A stream on both sides.
pub struct Both<'a> {
    pub r: &'a mut Random,
    pub port: Port,
    pub rust: Session,
    pub n: &'a mut Counts,
    pub step: usize,
    every: usize,
}

/// Why a stream ends: a difference, or something that is outside the comparison.
pub enum End {
    Different(String),
    Outside(&'static str),
}
pub type Step = Result<(), End>;

pub fn different(port: &str, rust: &str) -> End {
    End::Different(format!("{port} | {rust}"))
}

impl Both<'_> {
    fn note(&mut self, call: &str) {
        let said = Lent::words(&self.port.lent.answer);
        let kind = match self.port.lent.answer[0] {
            1 => "unlimited".to_string(),
            11 => said,
            _ => said.split(' ').next().unwrap().to_string(),
        };
        *self.n.answers.entry(format!("{call} {kind}")).or_default() += 1;
    }

    /// Whole states, or after some calls only.
    fn states(&mut self) -> Step {
        self.step += 1;
        if self.step % self.every == 0 {
            self.whole()
        } else {
            Ok(())
        }
    }

    /// The Rust's state and the words of the block.
    pub fn whole(&mut self) -> Step {
        let rows = self.rust.rows();
        if let Some(why) = state_differs(&self.port.lent.block, &rows) {
            return Err(End::Different(format!("after step {}: {why}", self.step)));
        }
        self.n.states += 1;
        self.n.words += rows.iter().map(Vec::len).sum::<usize>();
        Ok(())
    }

    /// A call on one node.
    pub fn one(&mut self, kind: u16, fields: &[i32]) -> Step {
        self.rust.lines.clear();
        let said = self.rust.feed(&record(kind, fields));
        if said.outside {
            return Err(End::Outside("the Rust does not finish a call"));
        }
        self.port.lent.ask(kind, fields, &circle(kind, fields));
        self.n.calls += 1;
        let rust = String::from_utf8_lossy(&self.rust.lines).trim_end().to_string();
        let (port, rust) = (self.port.lent.line(), rust.split_once(' ').map_or("", |x| x.1).to_string());
        if port != rust {
            return Err(different(&format!("record {kind} {fields:?}: {port}"), &rust));
        }
        self.states()
    }

    /// What a trial that was not refused leaves: the second block equal, the scratch zero.
    fn left(&self) -> Step {
        if self.port.second != self.port.lent.block || self.port.lent.scratch.iter().any(|x| *x != 0) {
            return Err(End::Different("second block or scratch".to_string()));
        }
        Ok(())
    }

    /// The port's refusal of a call that the Rust is not asked for, if there is one: then nothing has moved.
    fn refused(&mut self) -> Result<bool, End> {
        if self.port.lent.answer[0] != 11 {
            return Ok(false);
        }
        match self.port.lent.answer[1] {
            9 => Err(End::Outside("refused 9")),
            10 | 11 | 12 => Ok(true),
            k => Err(different(&format!("refused {k}"), "no node is refused so")),
        }
    }

    /// The group on both sides; the nodes that are listed, or the length.
    pub fn group(&mut self) -> Result<Option<i64>, End> {
        if self.rust.may_mend() {
            return Err(End::Outside("a mended preparation"));
        }
        self.port.call(&Call::Group);
        self.n.groups += 1;
        self.note("group");
        self.refused()?;
        let rust = self.rust.group().ok_or_else(|| different(&self.port.lent.line(), "the Rust stops in the group"))?;
        let port = Lent::words(&self.port.lent.answer);
        if port != rust.head {
            return Err(different(&port, &rust.head));
        }
        let mut stops = rust.stops;
        stops.sort();
        for (k, want) in rust.conflicts.iter().chain(stops.iter().map(|s| &s.1)).enumerate() {
            self.n.listed += 1;
            if self.port.entry(k) != *want {
                return Err(different(&format!("entry {k}: {}", self.port.entry(k)), want));
            }
        }
        self.left()?;
        self.states()?;
        let a = &self.port.lent.answer;
        Ok((a[0] == 0).then_some(a[2] as i64))
    }

    pub fn round(&mut self, length: i64) -> Result<bool, End> {
        if self.rust.may_mend() {
            return Err(End::Outside("a mended preparation"));
        }
        self.port.call(&Call::Round(length));
        self.n.rounds += 1;
        self.note("round");
        let refused = self.refused()?;
        if !refused {
            self.rust.round(length as isize).ok_or_else(|| different("a round is done", "the Rust stops"))?;
        }
        self.left()?;
        self.states()?;
        Ok(!refused)
    }

    pub fn other(&mut self, renew: bool) -> Step {
        if self.rust.may_mend() {
            return Err(End::Outside("a mended preparation"));
        }
        self.port.call(if renew { &Call::Renew } else { &Call::PrepareAll });
        self.n.others += 1;
        self.note(if renew { "renew" } else { "prepare all" });
        self.refused()?;
        let done = if renew { self.rust.renew() } else { self.rust.prepare_all() };
        done.ok_or_else(|| different("done", "the Rust stops"))?;
        self.states()
    }

    /// The nodes of a list get other states, so that the group goes on.
    pub fn settle(&mut self) -> Step {
        let count = self.port.lent.answer[1] + self.port.lent.answer[2];
        let nodes: Vec<i32> = (0..count)
            .map(|k| {
                let e = &self.port.entries[5 * k..5 * k + 5];
                if e[0] == 2 { e[3] as i32 } else { e[1] as i32 }
            })
            .collect();
        for n in nodes {
            let grow = self.r.pick(&[0, 0, 0, 1, 2, 2]);
            self.one(6, &[n, grow])?;
        }
        Ok(())
    }

    pub fn nodes(&self) -> i32 {
        self.port.lent.block[4] as i32
    }

    pub fn defects(&mut self, v: i32, percent: i32) -> Step {
        for vertex in 0..v {
            if self.r.chance(percent) {
                let state = self.r.pick(&[1, 1, 1, 1, 1, 1, 1, 0, 2]);
                self.one(4, &[vertex, state])?;
            }
        }
        Ok(())
    }

    /// Any call on one node.
    pub fn any(&mut self, v: i32) -> Step {
        let (count, n) = (self.nodes(), self.r.below(1 + self.nodes() as usize) as i32);
        match self.r.below(9) {
            0 | 1 => {
                let vertex = self.r.range(0, v - 1);
                let state = self.r.pick(&[0, 1, 1, 2]);
                self.one(4, &[vertex, state])
            }
            2 | 3 => {
                let state = self.r.pick(&[0, 1, 2]);
                self.one(6, &[n, state])
            }
            4 => self.one(11, &[n]),
            5 => {
                let direction = self.r.pick(&[0, 1]);
                self.one(8, &[n, direction, 1])
            }
            6 => {
                let by = self.r.pick(&[1, -1, 2, -2]);
                self.one(9, &[n, by])
            }
            _ if count >= 3 => {
                let state = self.r.pick(&[1, 1, 2, 0]);
                let circle: Vec<i32> = (0..3).map(|_| self.r.range(0, count - 1)).collect();
                self.one(5, &[vec![state], circle].concat())
            }
            _ => Ok(()),
        }
    }

    fn run(&mut self, v: i32, steps: usize) -> Step {
        let percent = self.r.pick(&[2, 5, 10, 20, 40]);
        self.defects(v, percent)?;
        self.moves(v, percent, steps)?;
        self.too_far()
    }

    /// Groups, rounds and calls on one node; seldom a clear, and defects after it.
    pub fn moves(&mut self, v: i32, percent: i32, steps: usize) -> Step {
        for _ in 0..steps {
            match self.r.below(100) {
                0..=74 => {
                    if let Some(length) = self.group()? {
                        let part = self.r.chance(20) && length > 1;
                        let by = if part { self.r.range(1, length.min(1_000_000) as i32) as i64 } else { length };
                        if !self.round(by)? {
                            return Err(End::Outside("a limit"));
                        }
                    } else if self.port.lent.answer[0] == 14 {
                        let kept = self.r.chance(10);
                        if kept {
                            self.round(1)?; // among conflicts and stops
                        } else {
                            self.settle()?;
                        }
                    } else {
                        self.any(v)?;
                    }
                }
                75..=79 => self.other(true)?,
                80..=84 => self.other(false)?,
                99 => {
                    self.one(13, &[])?;
                    self.defects(v, percent)?;
                }
                _ => self.any(v)?,
            }
        }
        Ok(())
    }

    /// A round beyond the group's length: where the port refuses it by 10 or 11, the Rust must stop.
    fn too_far(&mut self) -> Step {
        let Some(length) = self.group()? else { return Ok(()) };
        self.port.call(&Call::Round(length + 1));
        self.n.rounds += 1;
        self.note("round");
        let refused = self.refused()? && self.port.lent.answer[1] < 12;
        match (refused, self.rust.round(length as isize + 1)) {
            (true, Some(())) => Err(different(&self.port.lent.line(), "the Rust does not stop")),
            (true, None) => {
                self.n.stopped += 1;
                Ok(())
            }
            (false, None) => Err(different("a round is done", "the Rust stops")),
            (false, Some(())) => self.states(),
        }
    }
}

impl<'a> Both<'a> {
    /// The graph, opened on both sides.
    pub fn open(r: &'a mut Random, g: &Graph, nodes: i32, store: i32, n: &'a mut Counts) -> Self {
        let records = streams::opening(g, nodes, store);
        let mut rust = Session::new(false);
        rust.limits = streams::LIBRARY;
        for rec in &records {
            rust.feed(rec);
        }
        rust.feed(&record(13, &[])); // the first call opens the graph
        let port = Port::open(&records);
        let every = 1 + port.lent.block.len() / 4_000;
        Both { r, port, rust, n, step: 0, every }
    }
}

fn agree(seed: u64, g: &Graph, n: &mut Counts) -> Step {
    let r = &mut Random::new(seed);
    let nodes = r.range(1 + g.v / 4, g.v + g.v / 4).min(1024);
    let store = (2 * (2 * g.edges.len() as i32 + g.v) * r.pick(&[1, 2, 4, 8])).min(65_536);
    let steps = r.range(10, 60) as usize;
    let mut both = Both::open(r, g, nodes, store, n);
    let end = both.run(g.v, steps);
    both.n.nodes = both.n.nodes.max(both.port.lent.block[4] as usize);
    end
}

pub fn compare(runs: u64, seed: u64) -> bool {
    let (mut n, mut streams, mut different, mut largest) = (Counts::default(), [0; graphs::KINDS.len()], 0, (0, 0));
    println!("{runs} streams of rounds from seed {seed}");
    for i in 0..runs {
        let one = seed.wrapping_mul(1_000_003).wrapping_add(i);
        let g = graphs::any_size(&mut Random::new(!one));
        if g.v > 1024 || g.edges.len() > 4096 {
            continue;
        }
        streams[g.kind] += 1;
        largest = (largest.0.max(g.v), largest.1.max(g.edges.len()));
        match agree(one, &g, &mut n) {
            Ok(()) => {}
            Err(End::Outside(why)) => *n.ended.entry(why).or_default() += 1,
            Err(End::Different(why)) => {
                let kind = graphs::KINDS[g.kind];
                println!("DIFFERENT, seed {one}, {kind} of V {}, E {}: port | Rust: {why}", g.v, g.edges.len());
                different += 1;
            }
        }
    }
    let kinds: Vec<_> = graphs::KINDS.iter().zip(streams).filter(|k| k.1 > 0).map(|(k, n)| format!("{k} {n}")).collect();
    println!(
        "{} streams ({}), up to V {}, E {} and {} nodes",
        streams.iter().sum::<usize>(), kinds.join(", "), largest.0, largest.1, n.nodes
    );
    println!(
        "{} groups, {} rounds, {} renewals and preparations of all, {} calls on one node",
        n.groups, n.rounds, n.others, n.calls
    );
    println!(
        "{} entries, {} whole states of {} words compared; the Rust stopped at {} rounds that the port refuses",
        n.listed, n.states, n.words, n.stopped
    );
    println!("answers: {}", n.answers.iter().map(|(k, n)| format!("{k} {n}")).collect::<Vec<_>>().join(", "));
    println!("ended early: {}", n.ended.iter().map(|(k, n)| format!("{k} {n}")).collect::<Vec<_>>().join(", "));
    println!("different: {different}");
    different == 0
}
