//! Times the library's calls, with the test of block and scratch before each and without, against the Rust's methods.
use crate::graphs::{self, Weights};
#[cfg(cores)]
use crate::lent::c;
use crate::lent::{circle, given, memory, Lent};
use crate::random::Random;
use crate::records::{fields, kind, record, Record};
use crate::streams;
use crate::timed::{path, pulse, take_and_release, ROUNDS, SIZES};
use std::time::Instant;

macro_rules! rust_time {
    ($krate:ident, $records:expr, $calls:expr, $codes:expr) => {{
        let mut s = $krate::session::Session::new(true);
        s.limits = streams::LIBRARY;
        for r in $records.iter().filter(|r| kind(r) <= 3) {
            s.run(r);
        }
        s.run(&crate::records::record(13, &[]));
        let t = Instant::now();
        for ((k, a, _), code) in $calls.iter().zip($codes) {
            assert!(s.ask(*k, a) == *code, "the answers differ");
        }
        t.elapsed().as_secs_f64()
    }};
}

pub(crate) use rust_time;

/// Seconds for all calls, the cases of the answers, and the block that they leave.
pub fn port_time(records: &[Record], calls: &[(u16, Vec<i32>, Vec<i64>)]) -> (f64, Vec<usize>, Vec<i64>) {
    let mut lent = Lent::open(records);
    let mut codes = vec![0; calls.len()];
    let t = Instant::now();
    for ((k, a, circle), code) in calls.iter().zip(codes.iter_mut()) {
        *code = lent.ask(*k, a, circle);
    }
    (t.elapsed().as_secs_f64(), codes, lent.block)
}

/// Seconds for the same calls without the test before each, and the block that they leave.
#[cfg(cores)]
fn cores_time(records: &[Record], calls: &[Record]) -> (f64, Vec<i64>) {
    let (sizes, edges, virtuals) = given(records);
    let ([v, e, n, l], bytes) = (sizes, calls.concat());
    let run = |part: &[u8]| {
        let (mut block, mut scratch) = memory(sizes);
        let t = Instant::now();
        let made = unsafe {
            c::core_calls(
                block.as_mut_ptr(), block.len(), scratch.as_mut_ptr(), scratch.len(), v, e, n, l, edges.as_ptr(),
                edges.len(), virtuals.as_ptr(), virtuals.len(), part.as_ptr(), part.len(),
            )
        };
        (t.elapsed().as_secs_f64(), made, block)
    };
    let (opening, _, _) = run(&[]);
    let (all, made, block) = run(&bytes);
    assert_eq!(made, calls.len(), "a call is refused");
    (all - opening, block)
}

#[cfg(not(cores))]
fn cores_time(_: &[Record], _: &[Record]) -> (f64, Vec<i64>) {
    panic!("CORES names no archive: bench/cores.sh makes one")
}

const LIBRARY_CALLS: &str = "\
Decoding runs again, without lines. **With the test**: the exported calls of crate `c_api`, each of which tests block and
scratch first, soundness included; the Rust has no such test. **Without**: the same calls on a block that was opened in
the same call (bench/cores, proved like the rest, for measuring only), with reading each call from its record and less
the time of the opening. Both leave the same words, which is checked.";

const BESIDE_OTHERS: &str = "\
A defect takes 8 vertices and releases them, as above, beside other defects whose lists stand behind its own: V 1,023, E
527, N 1,024, L 65,536. Where its lists become longer or shorter, theirs are moved.";

const WITH_THE_BLOCK: &str = "\
Without the test two calls cost more on a larger block where the Rust's do not. A preparation that makes the lists of a
node longer or shorter moves the lists of all later nodes, because the store is compact (docs/LAYOUT.md); that is a word
for each entry and one for each node, and the table on the number of nodes has what it comes to. Clearing writes three
words for each vertex and each side and the weight of each edge, because afterwards a block is the one that opening made,
word for word, but for the words that are free; the Rust counts up a time stamp instead, and clears each vertex and edge
when it next meets it. No other call depends on V, E or N.";

/// The tables of docs/SPEED.md on library calls.
pub fn table() {
    println!("\n## Library calls on lent memory");
    println!("\n{LIBRARY_CALLS}");
    heading("graph");
    let r = &mut Random::new(8);
    for (d, rounds, n, l) in SIZES {
        let g = graphs::large(r, d, rounds, false, Weights::Even);
        let name = format!("distance {d}, {rounds} round{}: V {}, E {}", if rounds > 1 { "s" } else { "" }, g.v, g.edges.len());
        row(&name, &streams::decoding(d as u64, &g, 2_000, n, l));
    }
    println!("\n### Cost against V");
    println!("\nOne defect in the middle of a path, as above.");
    heading("V");
    for v in [64, 256, 1024] {
        row(&v.to_string(), &pulse(&path(v), v / 2, 4000, 500));
    }
    println!("\n### Cost against the number of nodes");
    println!("\n{BESIDE_OTHERS}");
    heading("other defects");
    for others in [0, 30, 300, 900] {
        row(&others.to_string(), &take_and_release(others, 495, 1024, 65_536, 500));
    }
    println!("\n### Clearing");
    println!("\nA defect and a clear in turn, 32 nodes and 10,000 words for lists.");
    heading("graph");
    for (d, rounds) in [(7, 1), (15, 1), (15, 8)] {
        let g = graphs::large(r, d, rounds, false, Weights::Even);
        let mut records = streams::opening(&g, 32, 10_000);
        records.extend((0..1_000).map(|i| if i % 2 == 0 { record(4, &[1, 1]) } else { record(13, &[]) }));
        row(&format!("V {}, E {}", g.v, g.edges.len()), &records);
    }
    println!("\n### What grows with the block");
    println!("\n{WITH_THE_BLOCK}");
}

fn heading(first: &str) {
    println!(
        "\n| {first} | words of the block | calls | with the test, ns a call | without | Rust | Rust without locks \
         | with / Rust | without / Rust | without / Rust without locks |\n|---|---|---|---|---|---|---|---|---|---|"
    );
}

/// The calls of one stream, all accepted: the best of several runs each.
fn row(name: &str, records: &[Record]) {
    let made: Vec<_> = records.iter().filter(|r| !matches!(kind(r), 0..=3 | 10 | 12)).cloned().collect();
    let calls: Vec<_> = made.iter().map(|r| (kind(r), fields(r), circle(kind(r), &fields(r)))).collect();
    let mut best = [f64::MAX; 4];
    for _ in 0..ROUNDS {
        let (with, codes, block) = port_time(records, &calls);
        assert!(!codes.contains(&11), "a call is refused");
        let (without, left) = cores_time(records, &made);
        assert!(left == block, "the blocks differ");
        let times = [with, without, rust_time!(release, records, calls, &codes), rust_time!(unlocked, records, calls, &codes)];
        for (b, t) in best.iter_mut().zip(times) {
            *b = b.min(t);
        }
    }
    let [with, without, locks, bare] = best.map(|s| s * 1e9 / calls.len() as f64);
    let words = memory(given(records).0).0.len();
    print!("| {name} | {words} | {} | {with:.0} | {without:.0} | {locks:.0} | {bare:.0} ", calls.len());
    println!("| {:.2} | {:.2} | {:.2} |", with / locks, without / locks, without / bare);
}
