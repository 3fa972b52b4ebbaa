//! Times the port and the Rust on the same records: both read records and write lines, in one process, in alternation,
//! best of several.
use crate::compare::flat;
use crate::graphs::{self, Weights};
use crate::port;
use crate::random::Random;
use crate::records::{kind, Record};
use crate::streams;
use crate::timed::{path, pulse, star, take_and_release, ROUNDS};
use std::io::{Read, Write};
use std::time::Instant;

macro_rules! rust_side {
    ($name:ident, $krate:ident) => {
        /// Records in, lines out, by the Rust's own methods.
        fn $name(mut records: &[u8], lines: Vec<u8>) -> Vec<u8> {
            let mut s = $krate::session::Session::new(true);
            s.lines = lines;
            while let Some(n) = $krate::session::record_length(records) {
                s.run(&records[..n]);
                records = &records[n..];
            }
            s.lines
        }
    };
}
rust_side!(with_locks, release);
rust_side!(without_locks, unlocked);

/// The Rust as a program: records from standard input, lines to standard output, all at once.
pub fn program(unlocked: bool) {
    let mut records = vec![];
    std::io::stdin().lock().read_to_end(&mut records).expect("standard input");
    let run = if unlocked { without_locks } else { with_locks };
    let lines = run(&records, Vec::with_capacity(2 * records.len()));
    std::io::stdout().lock().write_all(&lines).expect("standard output");
}

/// A long stream of records for whole processes, to standard output: decoding runs of accepted calls on a patch of
/// distance 11.
pub fn stream() {
    let g = graphs::patch(&mut Random::new(7), 11, Weights::Even);
    let records = streams::decoding(11, &g, 480_000, 32, 2000);
    std::io::stdout().lock().write_all(&flat(&records)).expect("standard output");
}

/// Nanoseconds a call: port, Rust, Rust without locks.
fn measure(records: &[Record]) -> (usize, [f64; 3]) {
    let bytes = flat(records);
    let calls = records.iter().filter(|r| kind(r) > 3).count();
    let mut space = vec![0; 4096 + bytes.len() * 64];
    let n = port::cardrun_lines(&bytes, &mut space);
    let mut lines = Vec::with_capacity(n + 64);
    for f in [with_locks, without_locks] {
        lines = f(&bytes, lines);
        assert!(lines == space[..n], "the lines differ");
        assert!(!String::from_utf8_lossy(&lines).contains("refused"), "a call is refused");
        lines.clear();
    }
    let mut best = [f64::MAX; 3];
    for _ in 0..ROUNDS {
        let t = Instant::now();
        assert!(port::cardrun_lines(&bytes, &mut space) == n);
        best[0] = best[0].min(t.elapsed().as_secs_f64());
        for (i, f) in [with_locks as fn(&[u8], Vec<u8>) -> Vec<u8>, without_locks].into_iter().enumerate() {
            let t = Instant::now();
            lines = f(&bytes, lines);
            best[1 + i] = best[1 + i].min(t.elapsed().as_secs_f64());
            assert!(lines.len() == n);
            lines.clear();
        }
    }
    (calls, best.map(|s| s * 1e9 / calls as f64))
}

fn row(name: &str, records: &[Record]) {
    let (calls, t) = measure(records);
    println!("| {name} | {calls} | {:.0} | {:.0} | {:.0} | {:.2} | {:.2} |", t[0], t[1], t[2], t[0] / t[1], t[0] / t[2]);
}

fn heading(first: &str) {
    println!(
        "\n| {first} | calls | port, ns a call | Rust, ns a call | Rust without locks | port / Rust \
         | port / Rust without locks |\n|---|---|---|---|---|---|---|"
    );
}

pub fn table() {
    let r = &mut Random::new(7);
    println!("\n## Decoding runs, records to lines");
    heading("graph");
    let even = Weights::Even;
    let mut patches = vec![];
    for d in [3, 5, 7, 9, 11] {
        patches.push((format!("distance {d}, 1 round"), graphs::patch(r, d, even)));
    }
    for (d, n) in [(3, 8), (5, 3), (7, 2)] {
        patches.push((format!("distance {d}, {n} rounds"), graphs::rounds(r, d, n, false, even)));
    }
    patches.push(("strip of distance 15".to_string(), graphs::strip(r, 15, even)));
    for (i, (name, g)) in patches.iter().enumerate() {
        let records = streams::decoding(i as u64, g, 10_000, 32, 2000);
        row(&format!("{name}: V {}, E {}", g.v, g.edges.len()), &records);
    }
    println!("\n## Cost against V");
    println!("\nOne defect in the middle of a path, boundary of 2 sides: grow by 1, length, shrink by 1, length, in turn.");
    heading("V");
    for v in [4, 8, 16, 32, 64] {
        row(&v.to_string(), &pulse(&path(v), v / 2, 2000, 2_500));
    }
    println!("\n## Cost against boundary length");
    println!("\nThe same calls on a defect at the hub of a star, V 64, E 128.");
    heading("sides");
    for spokes in [2, 4, 8, 16, 32, 64, 126] {
        row(&spokes.to_string(), &pulse(&star(spokes), 0, 2000, 2_500));
    }
    println!("\n## Cost against the number of nodes");
    println!(
        "
A defect takes 8 vertices and releases them again, in 4 growths: its boundary has 8 sides, then 24. Its lists stand
before those of the other defects."
    );
    heading("other defects");
    for others in [0, 10, 20, 30] {
        row(&others.to_string(), &take_and_release(others, 15, 32, 2000, 2_500));
    }
}
