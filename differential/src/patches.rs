//! Every small patch: 728 graphs on four vertices, and on each a run that is the same calls.
use crate::compare::{compare, flat, rust_lines};
use crate::random::Random;
use crate::records::{record, Record};
use crate::streams::Stream;
use std::collections::BTreeMap;

const PAIRS: [[i32; 2]; 6] = [[0, 1], [0, 2], [0, 3], [1, 2], [1, 3], [2, 3]];

/// A pair is absent, of weight 2, or of weight 4. The last pair changes fastest; the graph without edges is left out.
fn graphs() -> Vec<Vec<[i32; 3]>> {
    let mut all: Vec<Vec<[i32; 3]>> = vec![vec![]];
    for [a, b] in PAIRS {
        let more = |g: &Vec<[i32; 3]>| [g.clone(), [&g[..], &[[a, b, 2]]].concat(), [&g[..], &[[a, b, 4]]].concat()];
        all = all.iter().flat_map(more).collect();
    }
    all.split_off(1)
}

/// Vertex 3 is virtual; N 4, L 200; defects 0, 1, 2 in Grow, advance 0, 1, 2, 0, 1, 2, and the table.
fn records(edges: &[[i32; 3]]) -> Vec<Record> {
    let mut r = vec![record(1, &[4, edges.len() as i32, 4, 200])];
    r.extend(edges.iter().map(|e| record(2, e)));
    r.push(record(3, &[3]));
    r.extend([0, 1, 2].map(|v| record(4, &[v, 1])));
    r.extend([0, 1, 2, 0, 1, 2].map(|n| record(11, &[n])));
    r.push(record(10, &[]));
    r
}

fn stream(edges: &[[i32; 3]]) -> Stream {
    let records = records(edges);
    let (lines, said) = rust_lines(&records);
    let outside = said.iter().any(|x| x.outside);
    Stream { graph: 0, policy: 0, records, said, lines, outside, representatives: vec![] }
}

/// Runs all of them through the port and the Rust, and writes the frames, with the lines that both gave, to the file.
pub fn run(path: &str) -> bool {
    let (mut frames, mut answers) = (vec![], BTreeMap::<String, usize>::new());
    let (mut calls, mut lines, mut straight, mut constructed, mut stopped, mut different) = (0, 0, 0, 0, 0, 0);
    let mut notes = [0; 3];
    let graphs = graphs();
    for (i, edges) in graphs.iter().enumerate() {
        let s = stream(edges);
        let f = compare(&mut Random::new(i as u64), &s);
        if let Some(d) = &f.difference {
            println!("graph {} differs: {d}", i + 1);
            different += 1;
        }
        calls += s.said.iter().filter(|x| x.kind > 3).count();
        straight += f.straight;
        constructed += usize::from(f.constructed);
        stopped += usize::from(s.outside);
        for x in &s.said {
            for (i, n) in notes.iter_mut().enumerate() {
                *n += usize::from(x.notes >> i & 1 == 1);
            }
        }
        for line in String::from_utf8_lossy(&s.lines).lines() {
            lines += 1;
            *answers.entry(line.split(' ').nth(1).unwrap_or("").to_string()).or_default() += 1;
        }
        let bytes = flat(&s.records);
        frames.extend((bytes.len() as u32).to_le_bytes());
        frames.extend((s.lines.len() as u32).to_le_bytes());
        frames.extend(bytes);
        frames.extend(&s.lines);
    }
    std::fs::write(path, &frames).unwrap();
    println!("{} runs, {calls} calls; compared with the Rust, assertions on: {lines} lines", graphs.len());
    println!("lines by answer: {}", answers.iter().map(|(a, n)| format!("{a} {n}")).collect::<Vec<_>>().join(", "));
    println!("accepted calls compared with the Rust's own methods in a release build: {straight}");
    println!("graphs opened by its own constructor: {constructed}");
    println!("calls with an odd gap {}, an empty boundary {}, an old time stamp {}", notes[0], notes[1], notes[2]);
    println!("runs in which the Rust stopped without a refusal: {stopped}");
    println!("different: {different}");
    different == 0 && stopped == 0
}
