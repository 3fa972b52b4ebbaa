//! The summary: what was compared, by kind of answer and by kind of graph.
use crate::compare::Found;
use crate::graphs::KINDS;
use crate::records::{fields, kind, Record};
use crate::streams::{Stream, POLICIES};
use std::collections::BTreeMap;

#[derive(Default)]
pub struct Counts {
    pub different: usize,
    streams: [usize; KINDS.len()],
    calls: [usize; KINDS.len()],
    policies: [usize; POLICIES.len()],
    answers: BTreeMap<(usize, String), [usize; KINDS.len()]>,
    lines: usize,
    longest: usize,
    outside: usize,
    mended: usize,
    after_mended: usize,
    straight: usize,
    constructed: usize,
    confirmed: usize,
    not_confirmed: usize,
    notes: [usize; 3],
    blossoms: usize,
    nested: usize,
    depth: usize,
    weights: [usize; 3],
    passes: usize,
    several: usize,
}

const ORDER: [&str; 14] = [
    "node", "done", "prepared", "free", "free -1", "conflict", "conflict, stop", "virtual", "expand", "stop",
    "stop, peer", "edge", "contact", "refused",
];

/// The kind of a line. A conflict that does not name the node that was asked comes from a shrink stop.
fn answer(line: &str, records: &[Record]) -> (usize, String) {
    let mut w: Vec<_> = line.split(' ').collect();
    let asked = &records[w.remove(0).parse::<usize>().unwrap() - 1];
    let name = match (w[0], w.len()) {
        ("conflict", _) if w[3].parse().ok() != fields(asked).first().copied() => "conflict, stop".to_string(),
        ("free", _) if w[1] == "-1" => "free -1".to_string(),
        ("stop", 4) => "stop, peer".to_string(),
        ("refused", _) => w.join(" "),
        _ => w[0].to_string(),
    };
    let i = ORDER.iter().position(|o| *o == name).unwrap_or(ORDER.len());
    (if w[0] == "refused" { ORDER.len() + w[1].parse::<usize>().unwrap() } else { i }, name)
}

impl Counts {
    pub fn add(&mut self, s: &Stream, f: &Found) {
        let g = s.graph;
        let calls = s.said.iter().filter(|x| x.kind > 3).count();
        self.streams[g] += 1;
        self.calls[g] += calls;
        self.policies[s.policy] += 1;
        self.longest = self.longest.max(calls);
        self.different += usize::from(f.difference.is_some());
        self.outside += usize::from(s.outside);
        self.mended += usize::from(s.said.iter().any(|x| x.mended));
        self.after_mended += f.after_mended;
        self.straight += f.straight;
        self.constructed += usize::from(f.constructed);
        self.confirmed += usize::from(f.confirmed);
        self.not_confirmed += usize::from(f.not_confirmed);
        for x in &s.said {
            for (i, n) in self.notes.iter_mut().enumerate() {
                *n += usize::from(x.notes >> i & 1 == 1);
            }
        }
        for line in String::from_utf8_lossy(&s.lines).lines() {
            self.lines += 1;
            if let Some(n) = line.split_once(" prepared ").and_then(|x| x.1.parse().ok()) {
                self.passes = self.passes.max(n);
                self.several += usize::from(n > 1);
            }
            self.answers.entry(answer(line, &s.records)).or_default()[g] += 1;
        }
        self.graph(s);
        self.nests(s);
    }

    /// Streams with an edge of weight 0, of odd weight, and with parallel edges.
    fn graph(&mut self, s: &Stream) {
        let edges: Vec<_> = s.records.iter().filter(|r| kind(r) == 2).map(fields).collect();
        let mut ends: Vec<_> = edges.iter().map(|e| (e[0].min(e[1]), e[0].max(e[1]))).collect();
        ends.sort_unstable();
        self.weights[0] += usize::from(edges.iter().any(|e| e[2] == 0));
        self.weights[1] += usize::from(edges.iter().any(|e| e[2] % 2 == 1));
        self.weights[2] += usize::from(ends.windows(2).any(|w| w[0] == w[1]));
    }

    fn nests(&mut self, s: &Stream) {
        let mut depth: Vec<usize> = vec![];
        for (r, x) in s.records.iter().zip(&s.said) {
            match (x.kind, x.refused, x.outside) {
                (4, 0, false) => depth.push(0),
                (5, 0, false) => {
                    let d = 1 + fields(r)[1..].iter().map(|&m| depth[m as usize]).max().unwrap_or(0);
                    depth.push(d);
                    self.blossoms += 1;
                    self.nested += usize::from(d > 1);
                    self.depth = self.depth.max(d);
                }
                (13, 0, _) => depth.clear(),
                _ => {}
            }
        }
    }

    fn row(name: &str, xs: &[usize]) {
        print!("| {name} |");
        for x in xs {
            print!(" {x} |");
        }
        println!(" {} |", xs.iter().sum::<usize>());
    }

    pub fn print(&self) {
        println!("\n| lines by answer | {} | all |\n|{}", KINDS.join(" | "), "---|".repeat(KINDS.len() + 2));
        Self::row("streams", &self.streams);
        Self::row("calls", &self.calls);
        for ((_, name), xs) in &self.answers {
            Self::row(name, xs);
        }
        println!();
        let policies: Vec<_> = POLICIES.iter().zip(&self.policies).map(|(n, x)| format!("{n} {x}")).collect();
        println!("streams by way of choosing calls: {}", policies.join(", "));
        println!(
            "streams with an edge of weight 0 {}, of odd weight {}, with parallel edges {}",
            self.weights[0], self.weights[1], self.weights[2]
        );
        println!(
            "longest stream: {} calls; blossoms {}, of these nested {}, deepest {}",
            self.longest, self.blossoms, self.nested, self.depth
        );
        println!("preparations of more than one pass {}, most passes {}", self.several, self.passes);
        println!("compared with the mended Rust, assertions on: {} lines", self.lines);
        println!(
            "accepted calls compared with the Rust's own methods in a release build: {}; graphs opened by its own \
             constructor: {}",
            self.straight, self.constructed
        );
        println!("streams with a mended preparation {}, calls from it on {}", self.mended, self.after_mended);
        println!(
            "calls with an odd gap {}, an empty boundary {}, an old time stamp {}",
            self.notes[0], self.notes[1], self.notes[2]
        );
        println!(
            "refusals 10 and 11 made all the same: the Rust stopped {} times, did not stop {} times",
            self.confirmed, self.not_confirmed
        );
        println!("streams in which the Rust stopped without a refusal: {}", self.outside);
        println!("streams compared with a shorter space for lines: {}", self.streams.iter().sum::<usize>());
        println!("different: {}", self.different);
    }
}
