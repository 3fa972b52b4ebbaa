//! Random record streams. Each call is chosen in view of the answers so far, which the Rust gives.
use crate::graphs::{self, Graph};
use crate::random::Random;
use crate::records::{record, Record};
use asserting::session::{Said, Session};

pub struct Stream {
    pub graph: usize,
    pub policy: usize,
    pub records: Vec<Record>,
    pub said: Vec<Said>,
    /// the lines that the Rust gives, mended
    pub lines: Vec<u8>,
    /// the Rust stopped outside the domain, or a record is the last that is compared
    pub outside: bool,
    /// the representative vertex of each node at the end
    pub representatives: Vec<Option<usize>>,
}

pub const POLICIES: [&str; 6] = ["decoding", "any calls", "breathing", "nesting", "bad fields", "unprepared"];

const BREATHING: usize = 2;

/// How often a policy does what, in parts.
struct Policy {
    follow: i32,
    defect: i32,
    blossom: i32,
    state: i32,
    prepare: i32,
    length: i32,
    unprepared: i32,
    grow: i32,
    shrink: i32,
    advance: i32,
    read: i32,
    bad: i32,
    clear: i32,
}

const TABLE: [Policy; 6] = [
    Policy {
        follow: 40, defect: 8, blossom: 2, state: 4, prepare: 2, length: 16, unprepared: 1,
        grow: 2, shrink: 2, advance: 30, read: 4, bad: 0, clear: 0,
    },
    Policy {
        follow: 5, defect: 12, blossom: 6, state: 10, prepare: 12, length: 8, unprepared: 5,
        grow: 18, shrink: 14, advance: 16, read: 6, bad: 4, clear: 1,
    },
    Policy {
        follow: 25, defect: 4, blossom: 1, state: 4, prepare: 10, length: 15, unprepared: 3,
        grow: 12, shrink: 25, advance: 12, read: 6, bad: 0, clear: 0,
    },
    Policy {
        follow: 15, defect: 16, blossom: 18, state: 10, prepare: 5, length: 8, unprepared: 2,
        grow: 10, shrink: 12, advance: 14, read: 5, bad: 1, clear: 0,
    },
    Policy {
        follow: 10, defect: 10, blossom: 8, state: 6, prepare: 6, length: 6, unprepared: 4,
        grow: 10, shrink: 10, advance: 10, read: 4, bad: 30, clear: 2,
    },
    Policy {
        follow: 4, defect: 8, blossom: 4, state: 8, prepare: 6, length: 4, unprepared: 34,
        grow: 14, shrink: 14, advance: 8, read: 4, bad: 1, clear: 1,
    },
];

/// What the choice of calls knows: the nodes, and the last answer.
#[derive(Default)]
struct View {
    inner: Vec<bool>,
    state: Vec<i32>,
    last: Vec<String>,
}

impl View {
    fn outer(&self) -> Vec<i32> {
        (0..self.inner.len()).filter(|&n| !self.inner[n]).map(|n| n as i32).collect()
    }
    fn see(&mut self, kind: u16, a: &[i32], line: &str) {
        self.last = line.split_whitespace().skip(1).map(str::to_string).collect();
        let word = self.last.first().map_or("", String::as_str);
        match (kind, word) {
            (4, "node") => {
                self.inner.push(false);
                self.state.push(a[1]);
            }
            (5, "node") => {
                for &m in &a[1..] {
                    self.inner[m as usize] = true;
                    self.state[m as usize] = 0;
                }
                self.inner.push(false);
                self.state.push(a[0]);
            }
            (6, "done") => self.state[a[0] as usize] = a[1],
            (13, "done") => *self = View::default(),
            _ => {}
        }
    }
}

fn node(r: &mut Random, view: &View) -> i32 {
    let out = view.outer();
    if out.is_empty() || r.chance(2) { r.range(0, 2) } else { r.pick(&out) }
}

fn circle(r: &mut Random, view: &View, with: &[i32]) -> Option<Vec<i32>> {
    let mut out = view.outer();
    out.retain(|n| !with.contains(n));
    r.shuffle(&mut out);
    let want = if r.chance(75) { 3 } else { r.pick(&[5, 5, 7]) };
    let mut c = with.to_vec();
    c.extend(out);
    (c.len() >= 3).then(|| {
        let n = if c.len() >= want { want } else { 3 };
        c.truncate(n);
        if r.chance(50) {
            r.shuffle(&mut c);
        }
        c
    })
}

fn blossom(r: &mut Random, view: &View, with: &[i32]) -> Option<(u16, Vec<i32>)> {
    circle(r, view, with).map(|c| {
        let mut a = vec![r.pick(&[1, 1, 1, 2, 0])];
        a.extend(c);
        (5, a)
    })
}

/// A call that the last answer suggests, as a decoder would: half of a conflict stops or joins a blossom, a free length is grown.
fn follow(r: &mut Random, view: &View, asked: &(u16, Vec<i32>)) -> Option<(u16, Vec<i32>)> {
    let number = |i: usize| view.last.get(i).and_then(|w| w.parse::<i32>().ok());
    match view.last.first()?.as_str() {
        "free" if asked.0 == 8 => {
            let (n, l) = (asked.1[0], number(1)?);
            let l = if l < 0 { r.pick(&[1, 2, 7, 20, 400_000_000, 999_999_999]) } else { l };
            let by = match r.range(0, 9) {
                0 => l / 2,
                1 => l.saturating_add(1),
                2 => 1,
                _ => l,
            };
            Some((9, vec![n, if asked.1[1] == 1 { by } else { -by }]))
        }
        "conflict" => {
            let (a, b) = (number(1)?, number(3)?);
            if a != b && r.chance(35) && view.outer().len() >= 3 {
                return blossom(r, view, &[a, b]);
            }
            Some((6, vec![r.pick(&[a, b]), r.pick(&[0, 0, 2])]))
        }
        "virtual" => Some((6, vec![number(1)?, r.pick(&[0, 0, 2])])),
        "expand" | "stop" => Some((6, vec![number(1)?, r.pick(&[1, 1, 0])])),
        _ => None,
    }
}

fn bad(r: &mut Random, view: &View, v: i32) -> (u16, Vec<i32>) {
    let n = view.inner.len() as i32;
    let wild = |r: &mut Random| r.pick(&[-1, n, n + 1, 32, 33, 1000, i32::MAX, i32::MIN, -2]);
    let any = |r: &mut Random| if r.chance(50) { r.range(-1, n) } else { r.range(0, n.max(1) - 1) };
    match r.range(0, 8) {
        0 => (4, vec![r.pick(&[-1, v, v + 1, 64, i32::MAX, 0]), r.range(-1, 3)]),
        1 => (5, (0..r.range(1, 6)).map(|i| if i == 0 { r.range(-1, 3) } else { any(r) }).collect()),
        2 => (5, (0..r.pick(&[3, 4, 5, 6])).map(|i| if i == 0 { 1 } else { r.range(0, n.max(1) - 1) }).collect()),
        3 => (6, vec![any(r), r.range(-1, 4)]),
        4 => (7, vec![wild(r), r.range(-1, 2)]),
        5 => (8, vec![any(r), r.range(-1, 2), r.range(0, 1)]),
        6 => (9, vec![any(r), r.pick(&[i32::MAX, i32::MIN, 1_000_000_000, -1_000_000_000, 0, 1000, -1000])]),
        7 => (11, vec![wild(r)]),
        _ => (9, vec![wild(r), r.range(-3, 3)]),
    }
}

fn choose(r: &mut Random, p: &Policy, view: &View, v: i32, asked: &(u16, Vec<i32>)) -> (u16, Vec<i32>) {
    if r.chance(p.follow) {
        if let Some(c) = follow(r, view, asked) {
            return c;
        }
    }
    if view.inner.is_empty() || (view.inner.len() < 3 && r.chance(30)) {
        return (4, vec![r.range(0, v - 1), r.pick(&[1, 1, 1, 2, 0])]);
    }
    let parts = [
        p.defect, p.blossom, p.state, p.prepare, p.length, p.unprepared, p.grow, p.shrink, p.advance, p.read, p.bad,
        p.clear,
    ];
    let mut x = r.range(0, parts.iter().sum::<i32>() - 1);
    let mut i = 0;
    while x >= parts[i] {
        x -= parts[i];
        i += 1;
    }
    let n = node(r, view);
    match i {
        0 => (4, vec![r.range(0, v - 1), r.pick(&[1, 1, 1, 2, 0])]),
        1 => blossom(r, view, &[]).unwrap_or((10, vec![])),
        2 => (6, vec![n, r.range(0, 2)]),
        3 => (7, vec![n, r.range(0, 1)]),
        4 => (8, vec![n, r.range(0, 1), 1]),
        5 => (8, vec![n, r.range(0, 1), 0]),
        6 => (9, vec![n, r.pick(&[0, 1, 1, 1, 2, 2, 2, 3, 4, 4, 5, 6, 8, 10, 100])]),
        7 => (9, vec![n, -r.pick(&[1, 1, 1, 2, 2, 2, 3, 4, 4, 6, 8, 100])]),
        8 => (11, vec![n]),
        9 => (r.pick(&[10, 10, 12]), vec![]),
        10 => bad(r, view, v),
        _ => (13, vec![]),
    }
}

/// The records before the opening; now and then wrong ones.
fn head(r: &mut Random, g: &Graph) -> Vec<Record> {
    let e = g.edges.len() as i32;
    let need = 2 * e + g.v;
    let n = if r.chance(60) { r.range(8, 32) } else { r.range(1, 32) };
    let l = match r.range(0, 9) {
        0 => need,
        1 => need + r.range(0, 60),
        2 => 3 * need,
        3 => r.range(0, 2000),
        _ => 2000,
    };
    let mut sizes = [g.v, e, n, l.min(2000)];
    if r.chance(2) {
        let i = r.below(4);
        let bad = [
            r.pick(&[0, 65, -1, 1]),
            r.pick(&[0, 129, e - 1, e + 1]),
            r.pick(&[0, 33, -1]),
            r.pick(&[-1, 2001, i32::MAX]),
        ];
        sizes[i] = bad[i];
    }
    let mut edges: Vec<_> = g.edges.iter().map(|e| record(2, &[e.0, e.1, e.2])).collect();
    if r.chance(1) {
        let i = r.below(edges.len());
        edges[i] = record(2, &r.pick(&[[0, 0, 2], [-1, 0, 2], [0, g.v, 2], [0, 1, -1], [0, 1, 1_000_001], [0, 1, i32::MIN]]));
    }
    let mut virtuals: Vec<_> = g.virtuals.iter().map(|&v| record(3, &[v])).collect();
    if r.chance(10) && !virtuals.is_empty() {
        virtuals.push(virtuals[0].clone());
    }
    if r.chance(1) {
        virtuals.push(record(3, &[r.pick(&[-1, g.v, 64, i32::MAX])]));
    }
    let mut out = vec![record(1, &sizes)];
    match r.range(0, 9) {
        0 => {
            out.extend(virtuals);
            out.extend(edges);
        }
        1 => {
            edges.extend(virtuals);
            r.shuffle(&mut edges);
            out.extend(edges);
        }
        _ => {
            out.extend(edges);
            out.extend(virtuals);
        }
    }
    out
}

/// A record that ends the run: ill-formed, or cut off.
fn broken(r: &mut Random) -> Record {
    match r.range(0, 3) {
        0 => {
            let (k, n) = r.pick(&[
                (0, 0), (14, 0), (99, 1), (10, 1), (4, 1), (2, 3), (3, 1), (1, 4), (5, 0), (65535, 0), (13, 1), (11, 0),
                (9, 3),
            ]);
            record(k, &[0, 1, 2, 3][..n])
        }
        1 => record(8, &[0, 1, r.pick(&[2, -1, i32::MAX])]),
        2 => {
            let mut b = record(r.pick(&[9, 10, 5]), &[0, 1, 2][..r.below(4)]);
            let keep = 1 + r.below(b.len() - 1);
            b.truncate(keep);
            b
        }
        _ => {
            let mut b = vec![r.pick(&[0, 1, 3, 4, 5, 7]), 0];
            b.extend(vec![7; b[0] as usize]);
            b
        }
    }
}

pub fn stream(seed: u64) -> Stream {
    let r = &mut Random::new(seed);
    let g = graphs::graph(r);
    let policy = if g.kind == graphs::TREE && r.chance(50) { BREATHING } else { r.below(POLICIES.len()) };
    let mut calls = match r.range(0, 19) {
        0 => r.range(600, 2500),
        1..=6 => r.range(150, 600),
        _ => r.range(10, 150),
    };
    let mut s = Stream {
        graph: g.kind,
        policy,
        records: vec![],
        said: vec![],
        lines: vec![],
        outside: false,
        representatives: vec![],
    };
    let mut session = Session::new(false);
    for rec in head(r, &g) {
        s.said.push(session.feed(&rec));
        s.records.push(rec);
    }
    let mut view = View::default();
    let mut asked = (0, vec![]);
    let tail = r.range(0, 99);
    while calls > -2 && !session.ended {
        calls -= 1;
        asked = match calls {
            0 => (10, vec![]),
            -1 => (12, vec![]),
            -2 => break,
            _ => choose(r, &TABLE[policy], &view, g.v, &asked),
        };
        let rec = record(asked.0, &asked.1);
        let before = session.lines.len();
        s.said.push(session.feed(&rec));
        s.records.push(rec);
        let line = String::from_utf8_lossy(&session.lines[before..]).lines().next().unwrap_or("").to_string();
        view.see(asked.0, &asked.1, &line);
    }
    if tail < 20 && !session.ended {
        let rec = broken(r);
        let whole = asserting::session::record_length(&rec) == Some(rec.len());
        s.said.push(session.feed(&rec));
        s.records.push(rec);
        if tail < 10 && whole {
            s.records.push(record(10, &[])); // not read any more
        }
    }
    s.outside = s.said.iter().any(|x| x.outside);
    s.representatives = session.representatives();
    s.lines = session.lines;
    s
}

/// The records that open a graph.
pub fn opening(g: &Graph, n: i32, l: i32) -> Vec<Record> {
    let mut out = vec![record(1, &[g.v, g.edges.len() as i32, n, l])];
    out.extend(g.edges.iter().map(|e| record(2, &[e.0, e.1, e.2])));
    out.extend(g.virtuals.iter().map(|&v| record(3, &[v])));
    out
}

/// A circle about as long as the port takes, 63 nodes, or longer, now and then with a repeat; as many nodes as there
/// are.
#[cfg(library)]
fn long_circle(r: &mut Random, view: &View) -> (u16, Vec<i32>) {
    let mut out = view.outer();
    r.shuffle(&mut out);
    out.truncate(r.pick(&[61, 63, 63, 64, 65, 101]));
    if r.chance(25) && out.len() > 1 {
        out[0] = out[1];
    }
    (5, [vec![r.pick(&[1, 1, 2, 0])], out].concat())
}

/// A stream on a graph of the library's sizes: good fields for the most part, now and then many defects first and a
/// long circle of them, a table at the end.
#[cfg(library)]
pub fn large(seed: u64, g: &Graph) -> Stream {
    let r = &mut Random::new(seed);
    let policy = r.pick(&[0, 1, BREATHING, 3, 5]);
    let mut s = Stream {
        graph: g.kind,
        policy,
        records: vec![],
        said: vec![],
        lines: vec![],
        outside: false,
        representatives: vec![],
    };
    let mut session = Session::new(false);
    session.limits = LIBRARY;
    let (n, l) = (r.range(20, 1024), if r.chance(80) { 65_536 } else { r.range(10_000, 65_536) });
    let mut view = View::default();
    let mut asked = (0, vec![]);
    let calls = r.range(100, 800) as usize;
    // a store of 65,536 has room for a circle of 63 where 2 E + V is at most 1,024
    let small = 2 * g.edges.len() as i32 + g.v <= 1024;
    let crowd = if r.chance(if small { 50 } else { 15 }) { r.range(200, 1_500) as usize } else { 0 };
    let mut records = opening(g, n, l);
    let opened = records.len();
    let one_hub = g.one_hub();
    records.reverse();
    loop {
        let rec = records.pop().unwrap_or_else(|| {
            asked = match s.records.len() - opened {
                i if i < crowd => (4, vec![r.range(0, g.v - 1), r.pick(&[1, 1, 2, 0])]),
                i if i < crowd + calls && crowd > 0 && i % 97 == 0 => long_circle(r, &view),
                i if i < crowd + calls && one_hub && r.chance(20) => (4, vec![0, r.pick(&[1, 1, 2, 0])]),
                i if i < crowd + calls => choose(r, &TABLE[policy], &view, g.v, &asked),
                _ => (10, vec![]),
            };
            record(asked.0, &asked.1)
        });
        let before = session.lines.len();
        s.said.push(session.feed(&rec));
        s.records.push(rec);
        let line = String::from_utf8_lossy(&session.lines[before..]).lines().next().unwrap_or("").to_string();
        view.see(asked.0, &asked.1, &line);
        if session.ended || s.records.len() > opened + crowd + calls {
            break;
        }
    }
    s.outside = s.said.iter().any(|x| x.outside);
    s.representatives = session.representatives();
    s.lines = session.lines;
    s
}

pub const LIBRARY: [i32; 4] = [1024, 4096, 1024, 65_536];

/// A long run of a decoder on one graph: shots of some defects, each followed by a clear. Only accepted calls are left:
/// refusals 3 to 9 and 13 change nothing and go, 10 to 12 leave a preparation, which takes their place.
pub fn decoding(seed: u64, g: &Graph, calls: usize, n: i32, l: i32) -> Vec<Record> {
    let r = &mut Random::new(seed);
    let mut out = opening(g, n, l);
    let mut session = Session::new(false);
    session.limits = LIBRARY;
    for rec in &out {
        session.feed(rec);
    }
    let mut view = View::default();
    let mut asked = (0, vec![]);
    let opened = out.len();
    let mut shot = 0;
    while out.len() < opened + calls {
        shot += 1;
        asked = match shot % 160 {
            0 => (13, vec![]),
            1..=16 => (4, vec![r.range(0, g.v - 1), 1]),
            _ => choose(r, &TABLE[0], &view, g.v, &asked),
        };
        let rec = record(asked.0, &asked.1);
        let before = session.lines.len();
        let said = session.feed(&rec);
        let line = String::from_utf8_lossy(&session.lines[before..]).lines().next().unwrap_or("").to_string();
        view.see(asked.0, &asked.1, &line);
        match said.refused {
            0 => out.push(rec),
            10..=12 => {
                let n = asked.1[0];
                let grow = if asked.0 == 9 { asked.1[1] > 0 } else { view.state[n as usize] == 1 };
                out.push(record(7, &[n, i32::from(grow)]))
            }
            _ => {}
        }
    }
    out
}
