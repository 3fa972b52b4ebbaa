//! Records that are timed.
use crate::graphs::Graph;
use crate::records::{record, Record};

/// Each time is the best of so many runs.
pub const ROUNDS: usize = 60;

/// Patches that library calls are timed on: distance, rounds, N, L.
#[cfg(library)]
pub const SIZES: [(i32, i32, i32, i32); 6] = [
    (7, 1, 32, 2_000), (11, 1, 64, 4_000), (15, 1, 64, 8_000), (7, 7, 64, 8_000), (11, 11, 128, 40_000),
    (15, 8, 128, 50_000),
];

/// One defect that is grown by 1, asked, shrunk by 1 and asked again.
pub fn pulse(g: &Graph, at: i32, l: i32, times: usize) -> Vec<Record> {
    let mut out = vec![record(1, &[g.v, g.edges.len() as i32, 32, l])];
    out.extend(g.edges.iter().map(|e| record(2, &[e.0, e.1, e.2])));
    out.push(record(4, &[at, 1]));
    out.push(record(9, &[0, 1]));
    for _ in 0..times {
        out.push(record(9, &[0, 1]));
        out.push(record(8, &[0, 1, 1]));
        out.push(record(9, &[0, -1]));
        out.push(record(8, &[0, 0, 1]));
    }
    out
}

/// A path of v vertices with heavy edges: the boundary of its middle is 2 sides.
pub fn path(v: i32) -> Graph {
    Graph { kind: 5, v, edges: (1..v).map(|x| (x - 1, x, 1_000_000)).collect(), virtuals: vec![] }
}

/// 64 vertices and 128 edges, of which `spokes` are at vertex 0.
pub fn star(spokes: i32) -> Graph {
    let mut edges: Vec<_> = (0..spokes).map(|i| (0, 1 + i % 63, 1_000_000)).collect();
    edges.extend((spokes..128).map(|i| (1 + i % 62, 2 + i % 62, 1_000_000)));
    Graph { kind: 4, v: 64, edges, virtuals: vec![] }
}

/// A hub with 8 near leaves, each with 3 far ones behind heavy edges, and further vertices in pairs. `others` of these
/// are defects that stay; the defect at the hub, whose lists stand first in the store, takes the near leaves and
/// releases them again.
pub fn take_and_release(others: i32, pairs: i32, n: i32, l: i32, times: usize) -> Vec<Record> {
    let mut edges: Vec<_> = (1..9).map(|x| (0, x, 2)).collect();
    edges.extend((9..33).map(|x| (1 + (x - 9) / 3, x, 1_000_000)));
    edges.extend((0..pairs).map(|i| (33 + 2 * i, 34 + 2 * i, 1_000_000)));
    let mut out = vec![record(1, &[33 + 2 * pairs, edges.len() as i32, n, l])];
    out.extend(edges.iter().map(|e| record(2, &[e.0, e.1, e.2])));
    out.push(record(4, &[0, 1]));
    out.extend((0..others).map(|i| record(4, &[33 + i, 0])));
    for _ in 0..times {
        out.extend([record(9, &[0, 2]), record(9, &[0, 1]), record(9, &[0, -1]), record(9, &[0, -2])]);
    }
    out
}
