//! The gap of every edge against the Rust's weight less its growths, and inner against its holders. The Rust has no such call.
use crate::graphs;
use crate::lent::{circle, Lent};
use crate::random::Random;
use crate::records::{fields, kind};
use crate::streams;
use asserting::session::Session;
use std::collections::BTreeMap;

/// include/fusion_blossom.h
mod c {
    extern "C" {
        pub fn fb_gap(b: *const i64, bl: usize, t: *const i64, tl: usize, edge: usize, a: *mut usize, al: usize) -> usize;
    }
}

/// What the port tells of an edge.
fn port(l: &mut Lent, e: usize) -> String {
    unsafe { c::fb_gap(l.block.as_ptr(), l.block.len(), l.scratch.as_ptr(), l.scratch.len(), e, l.answer.as_mut_ptr(), 5) };
    match l.answer[0] {
        17 => "inner".to_string(),
        18 => format!("over {}", l.answer[1]),
        19 => format!("gap {}", l.answer[1]),
        _ => l.line(),
    }
}

/// The same of the Rust's edge: whether one node holds both sides, and its weight less its growths.
fn rust((inner, left): (bool, isize)) -> String {
    if inner {
        "inner".to_string()
    } else if left < 0 {
        format!("over {}", -left)
    } else {
        format!("gap {left}")
    }
}

#[derive(Default)]
struct Counts {
    calls: usize,
    edges: usize,
    /// inner edges whose growths pass their weight
    past: usize,
    told: BTreeMap<String, usize>,
}

/// Every edge, and the number behind the last.
fn every_edge(lent: &mut Lent, edges: &[(bool, isize)], n: &mut Counts) -> Result<(), String> {
    for (e, &edge) in edges.iter().enumerate() {
        let (p, r) = (port(lent, e), rust(edge));
        n.edges += 1;
        n.past += usize::from(edge.0 && edge.1 < 0);
        *n.told.entry(p.split(' ').next().unwrap().to_string()).or_default() += 1;
        if p != r {
            return Err(format!("edge {e}: {p} | {r}"));
        }
        if p.starts_with("over") {
            return Err(format!("edge {e}: {p} after calls"));
        }
    }
    match port(lent, edges.len()) {
        p if p == "refused 3" => Ok(()),
        p => Err(format!("edge {}: {p} | refused 3", edges.len())),
    }
}

/// One stream. The gaps of a large block are compared after some calls only, and at the end.
fn agree(s: &streams::Stream, n: &mut Counts) -> Result<(), String> {
    let mut lent = Lent::open(&s.records);
    let mut session = Session::new(false);
    session.limits = streams::LIBRARY;
    let every = 1 + lent.block.len() / 400;
    for (i, rec) in s.records.iter().enumerate() {
        let (k, a) = (kind(rec), fields(rec));
        if s.said[i].outside {
            return Ok(());
        }
        session.feed(rec);
        if k <= 3 {
            continue;
        }
        n.calls += 1;
        if k != 10 && k != 12 {
            lent.ask(k, &a, &circle(k, &a));
        }
        if i % every == 0 || i + 1 == s.records.len() {
            every_edge(&mut lent, &session.gaps(), n).map_err(|why| format!("after record {}: {why}", i + 1))?;
        }
    }
    Ok(())
}

pub fn compare(runs: u64, seed: u64) -> bool {
    let (mut n, mut different) = (Counts::default(), 0);
    println!("{runs} streams from seed {seed}");
    for i in 0..runs {
        let one = seed.wrapping_mul(1_000_003).wrapping_add(i);
        let g = graphs::any_size(&mut Random::new(!one));
        if g.v > 1024 || g.edges.len() > 4096 {
            continue;
        }
        if let Err(why) = agree(&streams::large(one, &g), &mut n) {
            println!("DIFFERENT, seed {one}, {} of V {}, E {}: port | Rust: {why}", graphs::KINDS[g.kind], g.v, g.edges.len());
            different += 1;
        }
    }
    println!("{} calls, {} gaps compared, {} of inner edges past their weight", n.calls, n.edges, n.past);
    println!("told: {}", n.told.iter().map(|(k, n)| format!("{k} {n}")).collect::<Vec<_>>().join(", "));
    println!("different: {different}");
    different == 0
}
