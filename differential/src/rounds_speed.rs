//! Times decoding in rounds: the calls for all clusters against the Rust's own.
use crate::graphs::{self, Weights};
use crate::random::Random;
use crate::records::{record, Record};
use crate::rounds::{Call, Port};
use crate::streams;
use crate::timed::ROUNDS;
use std::time::Instant;

/// A call of a decoding run.
enum Op {
    One(u16, Vec<i32>),
    Group,
    Round(i64),
}

/// A decoding run in rounds, as the hosts play it: nodes that meet stay from then on.
fn decoding(records: &[Record], defects: &[i32]) -> Vec<Op> {
    let mut port = Port::open(records);
    let mut ops: Vec<Op> = defects.iter().map(|v| Op::One(4, vec![*v, 1])).collect();
    for v in defects {
        port.lent.ask(4, &[*v, 1], &[]);
    }
    loop {
        port.call(&Call::Group);
        ops.push(Op::Group);
        match port.lent.answer[0] {
            0 => {
                let length = port.lent.answer[2] as i64;
                port.call(&Call::Round(length));
                ops.push(Op::Round(length));
            }
            14 => {
                let count = port.lent.answer[1];
                let named = |e: &[usize]| if e[0] == 2 { vec![e[1], e[3]] } else { vec![e[1]] };
                let mut nodes: Vec<usize> = port.entries[..5 * count].chunks(5).flat_map(named).collect();
                nodes.sort_unstable();
                nodes.dedup();
                for n in nodes {
                    port.lent.ask(6, &[n as i32, 0], &[]);
                    ops.push(Op::One(6, vec![n as i32, 0]));
                }
            }
            _ => return ops,
        }
    }
}

fn port_time(records: &[Record], ops: &[Op]) -> f64 {
    let mut port = Port::open(records);
    let t = Instant::now();
    for op in ops {
        match op {
            Op::One(kind, a) => {
                port.lent.ask(*kind, a, &[]);
            }
            Op::Group => port.call(&Call::Group),
            Op::Round(length) => port.call(&Call::Round(*length)),
        }
        assert_ne!(port.lent.answer[0], 11, "a call is refused");
    }
    t.elapsed().as_secs_f64()
}

macro_rules! rust_time {
    ($krate:ident, $records:expr, $ops:expr) => {{
        let mut s = $krate::session::Session::new(true);
        s.limits = streams::LIBRARY;
        for r in $records {
            s.run(r);
        }
        s.run(&record(13, &[]));
        let t = Instant::now();
        for op in $ops {
            match op {
                Op::One(kind, a) => {
                    s.ask(*kind, a);
                }
                Op::Group => {
                    s.ask_group();
                }
                Op::Round(length) => s.play(*length as isize),
            }
        }
        t.elapsed().as_secs_f64()
    }};
}

/// Times decoding runs in rounds: insertions, groups, rounds and set states, on both sides.
pub fn table() {
    println!("\n## Decoding in rounds");
    println!(
        "
Insertion of the defects, then the group's length and a round by it, or its conflicts and the nodes in them set to Stay,
until no node is active; the opening is not timed. The port by the exported calls, each of which tests block and scratch
first, soundness included, and works on a second block, which is copied; the Rust by its own
compute_maximum_update_length and grow. The best of {ROUNDS} runs each, as microseconds a decode."
    );
    println!(
        "\n| graph | words of the block | defects | groups | rounds | port, us | Rust, us | Rust without locks \
         | port / Rust | port / Rust without locks |\n|---|---|---|---|---|---|---|---|---|---|"
    );
    let r = &mut Random::new(15);
    for (d, rounds, percent) in [(7, 1, 10), (11, 1, 10), (15, 1, 5), (15, 1, 10), (15, 1, 20), (15, 8, 2), (15, 8, 5)] {
        let g = graphs::large(r, d, rounds, false, Weights::Even);
        let virtuals: Vec<i32> = g.virtuals.clone();
        let defects: Vec<i32> = (0..g.v).filter(|v| !virtuals.contains(v) && r.chance(percent)).collect();
        let records = streams::opening(&g, 256, (2 * (2 * g.edges.len() as i32 + g.v)).min(65_536));
        let ops = decoding(&records, &defects);
        let mut best = [f64::MAX; 3];
        for _ in 0..ROUNDS {
            let times = [port_time(&records, &ops), rust_time!(release, &records, &ops), rust_time!(unlocked, &records, &ops)];
            for (b, t) in best.iter_mut().zip(times) {
                *b = b.min(t);
            }
        }
        let [port, locks, bare] = best.map(|s| s * 1e6);
        let count = |f: fn(&Op) -> bool| ops.iter().filter(|o| f(o)).count();
        let (groups, played) = (count(|o| matches!(o, Op::Group)), count(|o| matches!(o, Op::Round(_))));
        let name = format!("distance {d}, {rounds} round{}: V {}, E {}", if rounds > 1 { "s" } else { "" }, g.v, g.edges.len());
        let words = Port::open(&records).lent.block.len();
        println!(
            "| {name} | {words} | {} | {groups} | {played} | {port:.0} | {locks:.0} | {bare:.0} | {:.2} | {:.2} |",
            defects.len(), port / locks, port / bare
        );
    }
}
