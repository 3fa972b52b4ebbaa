//! The exported calls of crate `c_api` on lent memory, at sizes that records do not have: their answers, tables,
//! contacts, representative vertices and the words that they leave in the block are compared with the Rust's.
use crate::graphs;
use crate::lent::{circle, state_differs, Lent};
use crate::random::Random;
use crate::records::{fields, kind};
use crate::streams;
use asserting::session::Session;
use std::collections::BTreeMap;

#[derive(Default)]
struct Counts {
    calls: usize,
    lines: usize,
    vertices: usize,
    states: usize,
    words: usize,
    nodes: usize,
    /// how often each answer came, by its first word, a refusal with its number
    answers: BTreeMap<String, usize>,
    /// the same of circles of more than 60 nodes, by their number
    circles: BTreeMap<String, usize>,
    /// and of defects at a hub that has all edges, by how many they are
    hubs: BTreeMap<String, usize>,
}

/// One stream: the first record at which port and Rust differ. Of a large block the words are compared after some calls only.
fn agree(s: &streams::Stream, n: &mut Counts) -> Result<(), String> {
    let mut lent = Lent::open(&s.records);
    let e = fields(&s.records[0])[1] as usize;
    let text = String::from_utf8_lossy(&s.lines);
    let mut rust = text.lines();
    let mut session = Session::new(false);
    session.limits = streams::LIBRARY;
    let every = 1 + lent.block.len() / 4_000;
    let one_hub = s.records.iter().filter(|r| kind(r) == 2).all(|r| fields(r)[0] == 0);
    for (i, rec) in s.records.iter().enumerate() {
        let (k, a) = (kind(rec), fields(rec));
        if s.said[i].outside {
            return Ok(());
        }
        session.feed(rec);
        if k <= 3 {
            continue;
        }
        n.calls += 1;
        let port = if k == 10 || k == 12 {
            lent.lists(k, e)
        } else {
            lent.ask(k, &a, &circle(k, &a));
            vec![lent.line()]
        };
        for p in port {
            n.lines += 1;
            let kind = if p.starts_with("refused") { &p[..] } else { p.split(' ').next().unwrap() };
            *n.answers.entry(kind.to_string()).or_default() += 1;
            if k == 4 && a[0] == 0 && one_hub {
                *n.hubs.entry(format!("{e} {kind}")).or_default() += 1;
            }
            if k == 5 && a.len() > 61 {
                *n.circles.entry(format!("{} {kind}", a.len() - 1)).or_default() += 1;
            }
            let p = format!("{} {p}", i + 1);
            match rust.next() {
                Some(r) if r == p => {}
                r => return Err(format!("{p} | {}", r.unwrap_or("nothing"))),
            }
        }
        if i % every == 0 || i + 1 == s.records.len() {
            let rows = session.rows();
            if let Some(why) = state_differs(&lent.block, &rows) {
                return Err(format!("after record {}: {why}", i + 1));
            }
            n.states += 1;
            n.words += rows.iter().map(Vec::len).sum::<usize>();
        }
    }
    n.nodes = n.nodes.max(lent.block[4] as usize);
    if let Some(r) = rust.next() {
        return Err(format!("nothing | {r}"));
    }
    for (m, &v) in s.representatives.iter().enumerate() {
        n.vertices += 1;
        if lent.representative(m) != v {
            return Err(format!("representative vertex of {m}: {} | vertex {v:?}", lent.line()));
        }
    }
    match lent.representative(s.representatives.len()) {
        None => Ok(()),
        Some(_) => Err("one node too many".to_string()),
    }
}

pub fn compare(runs: u64, seed: u64) -> bool {
    let (mut n, mut streams, mut different, mut largest) = (Counts::default(), [0; graphs::KINDS.len()], 0, (0, 0));
    println!("{runs} streams from seed {seed}");
    for i in 0..runs {
        let one = seed.wrapping_mul(1_000_003).wrapping_add(i);
        let r = &mut Random::new(!one);
        let g = graphs::any_size(r);
        if g.v > 1024 || g.edges.len() > 4096 {
            continue;
        }
        streams[g.kind] += 1;
        largest = (largest.0.max(g.v), largest.1.max(g.edges.len()));
        if let Err(why) = agree(&streams::large(one, &g), &mut n) {
            println!("DIFFERENT, seed {one}, {} of V {}, E {}: port | Rust: {why}", graphs::KINDS[g.kind], g.v, g.edges.len());
            different += 1;
        }
    }
    let kinds: Vec<_> = graphs::KINDS.iter().zip(streams).filter(|k| k.1 > 0).map(|(k, n)| format!("{k} {n}")).collect();
    println!(
        "{} streams ({}), up to V {}, E {} and {} nodes",
        streams.iter().sum::<usize>(), kinds.join(", "), largest.0, largest.1, n.nodes
    );
    println!(
        "{} calls, {} lines, {} representative vertices, {} whole states of {} words compared",
        n.calls, n.lines, n.vertices, n.states, n.words
    );
    let listed = |m: &BTreeMap<String, usize>| m.iter().map(|(k, n)| format!("{k} {n}")).collect::<Vec<_>>().join(", ");
    println!("answers: {}", listed(&n.answers));
    println!("circles of more than 60 nodes: {}", listed(&n.circles));
    println!("defects at a hub of so many edges: {}", listed(&n.hubs));
    println!("different: {different}");
    different == 0
}
