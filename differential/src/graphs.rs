//! Random graphs within the program's limits, V 64 and E 128, and for the library within V 1,024 and E 4,096.
use crate::random::Random;

pub struct Graph {
    pub kind: usize,
    pub v: i32,
    pub edges: Vec<(i32, i32, i32)>,
    pub virtuals: Vec<i32>,
}

pub const KINDS: [&str; 8] = ["patch", "rounds", "strip", "multigraph", "hub", "chain", "dense", "tree"];
pub const TREE: usize = 7;

/// How weights are drawn.
#[derive(Clone, Copy)]
pub enum Weights {
    Same,
    Even,
    Odd,
    Zero,
    Sparse,
    Large,
}

pub fn weight(r: &mut Random, w: Weights) -> i32 {
    match w {
        Weights::Same => 4,
        Weights::Even => 2 * r.range(1, 6),
        Weights::Odd => r.range(1, 9),
        Weights::Zero => r.pick(&[0, 0, 0, 1, 2, 2, 4]),
        Weights::Sparse => r.pick(&[0, 2, 2, 4, 4, 6, 8, 10]),
        Weights::Large => r.pick(&[1, 2, 1000, 999_999, 1_000_000]),
    }
}

/// One round of the rotated surface code of distance d: a vertex for each check of one type, an edge for each data qubit, and one
/// virtual vertex on each of the two sides. Only the first `rows` rows of data qubits.
fn rotated(d: i32, rows: i32) -> (i32, Vec<(i32, i32)>, Vec<i32>) {
    // checks of one type sit at the plaquettes (i, j) with i + j even, 0 <= i <= rows, 1 <= j <= d - 1; a data qubit
    // (x, y) touches the plaquettes (x, y), (x, y + 1), (x + 1, y), (x + 1, y + 1), of which two have the type
    let plaquette = |i: i32, j: i32| (i + j) % 2 == 0;
    let mut number = std::collections::HashMap::new();
    let mut ends = vec![];
    for x in 0..rows {
        for y in 0..d {
            let around = [(x, y), (x, y + 1), (x + 1, y), (x + 1, y + 1)];
            let near: Vec<_> = around.into_iter().filter(|p| plaquette(p.0, p.1)).collect();
            let mut at = vec![];
            for p in near {
                if p.1 == 0 || p.1 == d {
                    at.push(if p.1 == 0 { -1 } else { -2 });
                } else {
                    let n = number.len() as i32;
                    at.push(*number.entry(p).or_insert(n));
                }
            }
            ends.push((at[0], at[1]));
        }
    }
    let v = number.len() as i32;
    let place = |x: i32| if x < 0 { v - 1 - x } else { x };
    let ends = ends.into_iter().map(|(a, b)| (place(a), place(b))).collect();
    (v + 2, ends, vec![v, v + 1])
}

fn sorted(e: (i32, i32)) -> (i32, i32) {
    (e.0.min(e.1), e.0.max(e.1))
}

/// `rounds` copies of a round, each vertex joined to itself in the next round; `diagonal` adds an edge from each edge's
/// left end to its right end in the next round.
fn stacked(r: &mut Random, d: i32, rows: i32, rounds: i32, diagonal: bool, w: Weights) -> Graph {
    let (v, ends, virtuals) = rotated(d, rows);
    let mut g = Graph { kind: 0, v: v * rounds, edges: vec![], virtuals: vec![] };
    let doubled = r.chance(40);
    let two_sided = |e: &(i32, i32)| !virtuals.contains(&e.0) && !virtuals.contains(&e.1);
    for t in 0..rounds {
        let (here, next) = (t * v, (t + 1) * v);
        for e in &ends {
            let (a, b) = sorted((e.0 + here, e.1 + here));
            // two data qubits at a corner may join the same check and side
            if doubled || !g.edges.iter().any(|x| (x.0, x.1) == (a, b)) {
                g.edges.push((a, b, weight(r, w)));
            }
        }
        for &x in &virtuals {
            g.virtuals.push(x + here);
        }
        if t + 1 < rounds {
            for x in (0..v).filter(|x| !virtuals.contains(x)) {
                g.edges.push((x + here, x + next, weight(r, w)));
            }
            for e in ends.iter().filter(|e| diagonal && two_sided(e)) {
                let (a, b) = sorted((e.0 + here, e.1 + next));
                g.edges.push((a, b, weight(r, w)));
            }
        }
    }
    g
}

fn fits(g: &Graph) -> bool {
    g.v <= 64 && g.edges.len() <= 128
}

/// A patch of distance d, whole, in one round.
pub fn patch(r: &mut Random, d: i32, w: Weights) -> Graph {
    stacked(r, d, d, 1, false, w)
}

/// A whole patch of distance d in several rounds, at the library's sizes.
#[cfg(library)]
pub fn large(r: &mut Random, d: i32, rounds: i32, diagonal: bool, w: Weights) -> Graph {
    stacked(r, d, d, rounds, diagonal, w)
}

/// As many rounds of distance d as fit, at most `most`.
pub fn rounds(r: &mut Random, d: i32, most: i32, diagonal: bool, w: Weights) -> Graph {
    let mut n = most;
    loop {
        let g = stacked(r, d, d, n, diagonal, w);
        if fits(&g) || n == 1 {
            return Graph { kind: 1, ..g };
        }
        n -= 1;
    }
}

/// The rows of a patch of distance d that fit: distances above 11 don't fit whole.
pub fn strip(r: &mut Random, d: i32, w: Weights) -> Graph {
    let mut rows = d;
    loop {
        let g = stacked(r, d, rows, 1, false, w);
        if fits(&g) {
            return Graph { kind: 2, ..g };
        }
        rows -= 1;
    }
}

pub fn two(r: &mut Random, v: i32) -> (i32, i32) {
    let a = r.range(0, v - 1);
    let b = (a + r.range(1, v - 1)) % v;
    (a, b)
}

fn some_virtuals(r: &mut Random, v: i32, share: i32) -> Vec<i32> {
    let mut x: Vec<_> = (0..v).filter(|_| r.chance(share)).collect();
    if x.is_empty() && r.chance(70) {
        x.push(r.range(0, v - 1));
    }
    x
}

fn multigraph(r: &mut Random, v: i32, e: i32, w: Weights) -> Graph {
    let edges = (0..e).map(|_| two(r, v)).map(|(a, b)| (a, b, 0)).collect();
    let mut g = Graph { kind: 3, v, edges, virtuals: some_virtuals(r, v, 20) };
    for i in 0..g.edges.len() {
        g.edges[i].2 = weight(r, w);
    }
    g
}

/// One to three hubs with many leaves, some spokes doubled, some leaves joined.
fn hub(r: &mut Random, hubs: i32, leaves: i32, w: Weights) -> Graph {
    let v = hubs + leaves;
    let mut edges = vec![];
    for x in hubs..v {
        let h = r.range(0, hubs - 1);
        for _ in 0..if r.chance(20) { 2 } else { 1 } {
            edges.push((h, x, weight(r, w)));
        }
    }
    for h in 1..hubs {
        edges.push((h - 1, h, weight(r, w)));
    }
    for _ in 0..r.range(0, leaves) {
        let (a, b) = two(r, v);
        edges.push((a, b, weight(r, w)));
    }
    edges.truncate(if leaves > 60 { 4096 } else { 128 });
    r.shuffle(&mut edges);
    Graph { kind: 4, v, edges, virtuals: some_virtuals(r, v, 8) }
}

#[cfg(library)]
impl Graph {
    /// Every edge is one of vertex 0.
    pub fn one_hub(&self) -> bool {
        self.edges.iter().all(|e| e.0 == 0)
    }
}

/// Vertex 0 with so many edges and nothing else: a leaf each, parallel ones where there are more than leaves.
#[cfg(library)]
fn one_hub(r: &mut Random, degree: i32, w: Weights) -> Graph {
    let leaves = degree.min(1023);
    let edges = (0..degree).map(|e| (0, 1 + e % leaves, weight(r, w))).collect();
    Graph { kind: 4, v: leaves + 1, edges, virtuals: some_virtuals(r, leaves + 1, 4) }
}

/// A path or a ring, with some edges doubled.
fn chain(r: &mut Random, v: i32, w: Weights) -> Graph {
    let mut edges: Vec<_> = (1..v).map(|x| (x - 1, x, weight(r, w))).collect();
    if v > 2 && r.chance(30) {
        edges.push((v - 1, 0, weight(r, w)));
    }
    for _ in 0..if r.chance(40) { r.range(1, 4) } else { 0 } {
        let x = r.range(1, v - 1);
        edges.push((x, x - 1, weight(r, w)));
    }
    if r.chance(30) {
        r.shuffle(&mut edges);
    }
    let virtuals = if r.chance(60) { vec![0, v - 1] } else { some_virtuals(r, v, 10) };
    Graph { kind: 5, v, edges, virtuals }
}

/// Few vertices, many edges: complete graphs, two vertices with up to 128 parallel edges.
fn dense(r: &mut Random, w: Weights) -> Graph {
    let v = r.range(2, 9);
    let mut edges = vec![];
    if r.chance(60) {
        for a in 0..v {
            for b in a + 1..v {
                edges.push((a, b, weight(r, w)));
            }
        }
    }
    for _ in 0..r.range(0, 40) {
        let (a, b) = two(r, v);
        edges.push((a, b, weight(r, w)));
    }
    if edges.is_empty() {
        edges.push((0, 1, weight(r, w)));
    }
    edges.truncate(128);
    Graph { kind: 6, v, edges, virtuals: some_virtuals(r, v, 15) }
}

/// A tree, some edges doubled: a cluster overgrows its leaves one after another.
fn tree(r: &mut Random, v: i32, w: Weights) -> Graph {
    let near = r.range(1, 8);
    let mut edges: Vec<_> = (1..v).map(|x| (r.range((x - near).max(0), x - 1), x, weight(r, w))).collect();
    for _ in 0..if r.chance(30) { r.range(1, 3) } else { 0 } {
        let e = r.pick(&edges);
        edges.push((e.1, e.0, weight(r, w)));
    }
    let virtuals = if r.chance(50) { vec![] } else { vec![r.range(0, v - 1)] };
    Graph { kind: TREE, v, edges, virtuals }
}

pub fn graph(r: &mut Random) -> Graph {
    use Weights::*;
    let w = r.pick(&[Same, Even, Even, Odd, Zero, Zero, Sparse, Large]);
    match r.range(0, 99) {
        0..=13 => {
            let d = r.pick(&[3, 3, 5, 5, 7, 9, 11]);
            patch(r, d, w)
        }
        14..=26 => {
            let (d, most, diagonal) = (r.pick(&[3, 3, 5, 7]), r.range(2, 9), r.chance(40));
            rounds(r, d, most, diagonal, w)
        }
        27..=36 => {
            let d = r.pick(&[5, 7, 9, 11, 13, 15]);
            strip(r, d, w)
        }
        37..=58 => {
            let v = if r.chance(85) { r.range(2, 14) } else { r.range(2, 64) };
            let e = if r.chance(85) { r.range(1, (3 * v).min(40)) } else { r.range(1, 128) };
            multigraph(r, v, e, w)
        }
        59..=69 => {
            let (hubs, leaves) = (r.range(1, 3), if r.chance(70) { r.range(2, 16) } else { r.range(17, 60) });
            hub(r, hubs, leaves, w)
        }
        70..=80 => {
            let v = if r.chance(70) { r.range(2, 16) } else { r.range(17, 64) };
            chain(r, v, w)
        }
        81..=88 => dense(r, w),
        _ => {
            let v = r.range(3, 24);
            tree(r, v, w)
        }
    }
}

/// A graph that is no patch, at the library's sizes, now and then at its limits.
#[cfg(library)]
pub fn any_large(r: &mut Random, w: Weights) -> Graph {
    let v = if r.chance(10) { 1024 } else { r.range(20, 1024) };
    match r.range(0, 10) {
        0..=3 => {
            let e = if r.chance(10) { 4096 } else { r.range(v / 2, 4 * v) };
            multigraph(r, v, e, w)
        }
        4..=5 => {
            let hubs = r.range(1, 9);
            hub(r, hubs, v - hubs, w)
        }
        6..=7 => chain(r, v, w),
        8..=9 => tree(r, v, w),
        _ => {
            let degree = r.pick(&[1, 2, 300, 4096]);
            one_hub(r, degree, w)
        }
    }
}

/// Whole patches of distance 3 to 15 in several rounds, and the other kinds of graphs, up to V 1,024 and E 4,096.
#[cfg(library)]
pub fn any_size(r: &mut Random) -> Graph {
    let w = r.pick(&[Weights::Same, Weights::Even, Weights::Odd, Weights::Sparse, Weights::Zero]);
    if r.chance(40) {
        return any_large(r, w);
    }
    let d = r.pick(&[3, 5, 7, 9, 11, 13, 15]);
    let most = [204, 73, 38, 23, 16, 11, 8][(d as usize - 3) / 2];
    let (rounds, diagonal) = (if r.chance(50) { r.range(1, 3) } else { r.range(1, most) }, r.chance(30));
    large(r, d, rounds, diagonal, w)
}

#[cfg(test)]
mod tests {
    use super::*;

    /// Edges on the shortest way between two vertices.
    fn apart(g: &Graph, from: i32, to: i32) -> i32 {
        let mut d = vec![i32::MAX; g.v as usize];
        d[from as usize] = 0;
        for _ in 0..g.v {
            for &(a, b, _) in &g.edges {
                for (x, y) in [(a as usize, b as usize), (b as usize, a as usize)] {
                    d[y] = d[y].min(d[x].saturating_add(1));
                }
            }
        }
        d[to as usize]
    }

    #[test]
    fn patches_have_their_distance() {
        for d in [3, 5, 7, 9, 11] {
            let g = patch(&mut Random::new(d as u64), d, Weights::Same);
            assert_eq!(g.v, (d * d - 1) / 2 + 2);
            assert_eq!(apart(&g, g.virtuals[0], g.virtuals[1]), d);
            assert!(fits(&g));
        }
    }
}
