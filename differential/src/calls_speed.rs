//! Times lists of calls by fb_calls beside the single calls and the Rust's methods, and the soundness test alone.
use crate::graphs::{self, Weights};
use crate::lent::{circle, given, list_call, memory, Lent};
use crate::library_speed::{port_time, rust_time};
use crate::random::Random;
use crate::records::{fields, kind, Record};
use crate::streams;
use crate::timed::{ROUNDS, SIZES};
use std::time::Instant;

/// Calls to a list.
const LISTS: [usize; 3] = [1, 10, 100];

const MANY_CALLS: &str = "\
The same runs by `fb_calls`, in lists of 1, 10 and 100 calls, with writing each list and reading the case of each
answer. Answers and blocks are those of the single calls, which is checked, and so is that memory is tested once for a
list.";

const ALONE: &str = "\
`fb_representative_vertex` of node 0 on the block that the run leaves: the test of block and scratch, and one read.";

/// Seconds for all calls in lists of `size`, the cases of the answers, and the block that they leave.
fn lists_time(records: &[Record], calls: &[(u16, Vec<i32>, Vec<i64>)], size: usize) -> (f64, Vec<usize>, Vec<i64>) {
    let mut lent = Lent::open(records);
    let (mut words, mut circles) = (vec![], vec![]);
    let mut answers = vec![0; 5 * size];
    let mut codes = Vec::with_capacity(calls.len());
    let t = Instant::now();
    for part in calls.chunks(size) {
        words.clear();
        circles.clear();
        for (k, a, circle) in part {
            list_call(*k, a, circle, &mut words, &mut circles);
        }
        let told = lent.ask_list(&words, &circles, &mut answers);
        assert!(told == (part.len(), 1), "calls made and tests");
        codes.extend(answers.chunks(5).take(part.len()).map(|a| a[0]));
    }
    (t.elapsed().as_secs_f64(), codes, lent.block)
}

/// Nanoseconds of the test of block and scratch.
fn test_time(records: &[Record], calls: &[(u16, Vec<i32>, Vec<i64>)]) -> f64 {
    let mut lent = Lent::open(records);
    for (k, a, circle) in calls {
        lent.ask(*k, a, circle);
    }
    let mut best = f64::MAX;
    for _ in 0..ROUNDS {
        let t = Instant::now();
        for _ in 0..100 {
            assert!(lent.representative(0).is_some());
        }
        best = best.min(t.elapsed().as_secs_f64() / 100.0);
    }
    best * 1e9
}

/// The tables of docs/SPEED.md on lists of calls and on the test.
pub fn table() {
    println!("\n## Many calls with one test\n\n{MANY_CALLS}");
    println!(
        "\n| graph | words of the block | calls | single, ns a call | lists of 1 | of 10 | of 100 | Rust \
         | Rust without locks | of 100 / Rust | of 100 / Rust without locks |\n|---|---|---|---|---|---|---|---|---|---|---|"
    );
    let mut tests = vec![];
    let r = &mut Random::new(8);
    for (d, rounds, n, l) in SIZES {
        let g = graphs::large(r, d, rounds, false, Weights::Even);
        let name = format!("distance {d}, {rounds} round{}: V {}, E {}", if rounds > 1 { "s" } else { "" }, g.v, g.edges.len());
        tests.push(row(&name, &streams::decoding(d as u64, &g, 2_000, n, l)));
    }
    println!("\n### The test alone\n\n{ALONE}");
    println!("\n| graph | words of the block | the test, ns | Rust, ns a call | test / Rust |\n|---|---|---|---|---|");
    for (name, words, test, rust) in tests {
        println!("| {name} | {words} | {test:.0} | {rust:.0} | {:.2} |", test / rust);
    }
}

/// The calls of one stream, all accepted: the best of several runs each. Its name, the words of its block, and the
/// nanoseconds of the test and of the Rust's call.
fn row(name: &str, records: &[Record]) -> (String, usize, f64, f64) {
    let made = records.iter().filter(|r| !matches!(kind(r), 0..=3 | 10 | 12));
    let calls: Vec<_> = made.map(|r| (kind(r), fields(r), circle(kind(r), &fields(r)))).collect();
    let mut best = [f64::MAX; 6];
    for _ in 0..ROUNDS {
        let (single, codes, block) = port_time(records, &calls);
        let mut times = vec![single];
        for size in LISTS {
            let (seconds, told, left) = lists_time(records, &calls, size);
            assert!(told == codes, "the answers differ");
            assert!(left == block, "the blocks differ");
            times.push(seconds);
        }
        times.push(rust_time!(release, records, calls, &codes));
        times.push(rust_time!(unlocked, records, calls, &codes));
        for (b, t) in best.iter_mut().zip(times) {
            *b = b.min(t);
        }
    }
    let [single, ones, tens, hundreds, locks, bare] = best.map(|s| s * 1e9 / calls.len() as f64);
    let words = memory(given(records).0).0.len();
    print!("| {name} | {words} | {} | {single:.0} | {ones:.0} | {tens:.0} | {hundreds:.0} ", calls.len());
    println!("| {locks:.0} | {bare:.0} | {:.2} | {:.2} |", hundreds / locks, hundreds / bare);
    (name.to_string(), words, test_time(records, &calls), locks)
}
