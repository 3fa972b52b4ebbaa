//! Decodes a planar surface-code patch of distance 15 with the exported calls, as decode.c does and with the same
//! result: all defects grow together in rounds, those that meet are paired, one that meets a side or a paired one is
//! matched with its nearest side. The calls are declared in fusion_blossom.h.
use std::time::Instant;

const D: usize = 15;
const COLS: usize = D - 1;
const LEFT: usize = D * COLS;
const RIGHT: usize = LEFT + 1;
const V: usize = RIGHT + 1;
const E: usize = D * D + (D - 1) * COLS;
const N: usize = 256;
const L: usize = 2 * (2 * E + V); // FB_STORE: enough for defects alone
const WEIGHT: usize = 2;

// Cases of an answer, states and the numbers of an entry, as fusion_blossom.h has them with FB_ in front.
const FREE: usize = 0;
const CONFLICT: usize = 2;
const VIRTUAL: usize = 3;
const GROUP: usize = 14;
const DONE: usize = 7;
const NODE: usize = 8;
const STAY: usize = 0;
const GROW: usize = 1;
const ENTRY: usize = 5;

type Words = *mut i64;
type Told = *mut usize;

// Block, second block where it is lent, scratch and answer, each with its length, stand around the values of a call.
extern "C" {
    fn fb_open(
        b: Words, bl: usize, s: Words, sl: usize, edges: *const i64, el: usize, virtuals: *const i64, vl: usize, v: usize,
        e: usize, n: usize, l: usize, a: Told, al: usize,
    ) -> usize;
    fn fb_insert_defect(b: Words, bl: usize, s: Words, sl: usize, v: usize, state: usize, a: Told, al: usize) -> usize;
    fn fb_set_grow_state(b: Words, bl: usize, s: Words, sl: usize, n: usize, state: usize, a: Told, al: usize) -> usize;
    fn fb_group_max_update_length(
        b: Words, bl: usize, second: Words, cl: usize, s: Words, sl: usize, entries: Told, el: usize, a: Told, al: usize,
    ) -> usize;
    fn fb_grow_all(
        b: Words, bl: usize, second: Words, cl: usize, s: Words, sl: usize, length: i64, a: Told, al: usize,
    ) -> usize;
    fn fb_read_table(b: Words, bl: usize, s: Words, sl: usize, list: Words, ll: usize, a: Told, al: usize) -> usize;
}

/// The memory that is lent to the calls, the last answer, the entries of the group, and how many calls were made.
struct Card {
    block: Vec<i64>,
    second: Vec<i64>,
    scratch: Vec<i64>,
    answer: [usize; 5],
    entries: Vec<usize>,
    calls: usize,
}

/// Makes a call with the card's memory. SAFETY: each pointer is followed by the length of its own vector, slice or
/// array, and no two of these overlap.
macro_rules! call {
    ($card:expr, $call:ident $(, $value:expr)*) => {{
        let (b, s) = (&mut $card.block, &mut $card.scratch);
        $card.calls += 1;
        unsafe { $call(b.as_mut_ptr(), b.len(), s.as_mut_ptr(), s.len(), $($value,)* $card.answer.as_mut_ptr(), 5) }
    }};
}

impl Card {
    /// The value of an answer that must be of this case.
    fn told(&self, case: usize, what: &str) -> usize {
        assert_eq!(self.answer[0], case, "{what}: case {}, value {}", self.answer[0], self.answer[1]);
        self.answer[1]
    }

    fn open(edges: &[i64], ends: &[i64]) -> Card {
        let words = 16 + 4 * V + 12 * E + 8 * N + L;
        let mut c = Card {
            block: vec![0; words],
            second: vec![0; words],
            scratch: vec![0; 4 * E + V.min(2 * E)],
            answer: [0; 5],
            entries: vec![0; ENTRY * N],
            calls: 0,
        };
        call!(c, fb_open, edges.as_ptr(), edges.len(), ends.as_ptr(), ends.len(), V, E, N, L);
        c.told(DONE, "open");
        c
    }

    fn insert_defect(&mut self, vertex: usize) -> usize {
        call!(self, fb_insert_defect, vertex, GROW);
        self.told(NODE, "insert defect")
    }

    fn rest(&mut self, node: usize) {
        call!(self, fb_set_grow_state, node, STAY);
        self.told(DONE, "set state");
    }

    /// How far all may grow, or the entries of the conflicts.
    fn group(&mut self) -> Result<usize, Vec<[usize; ENTRY]>> {
        self.calls += 1;
        let (b, s, t, e) = (&mut self.block, &mut self.second, &mut self.scratch, &mut self.entries);
        let (told, a) = (e.as_mut_ptr(), self.answer.as_mut_ptr());
        // SAFETY: as above.
        unsafe {
            fb_group_max_update_length(
                b.as_mut_ptr(), b.len(), s.as_mut_ptr(), s.len(), t.as_mut_ptr(), t.len(), told, e.len(), a, 5,
            )
        };
        if self.answer[0] == FREE {
            return Ok(self.answer[2]);
        }
        let count = self.told(GROUP, "the group's length");
        assert_eq!(self.answer[2], 0, "no node shrinks");
        Err(self.entries.chunks(ENTRY).take(count).map(|e| e.try_into().unwrap()).collect())
    }

    fn grow_all(&mut self, length: usize) {
        self.calls += 1;
        let (b, s, t) = (&mut self.block, &mut self.second, &mut self.scratch);
        let (by, a) = (length as i64, self.answer.as_mut_ptr());
        // SAFETY: as above.
        unsafe { fb_grow_all(b.as_mut_ptr(), b.len(), s.as_mut_ptr(), s.len(), t.as_mut_ptr(), t.len(), by, a, 5) };
        self.told(DONE, "a round");
    }

    fn table(&mut self) -> Vec<i64> {
        let mut list = vec![0; 2 * E];
        call!(self, fb_read_table, list.as_mut_ptr(), list.len());
        self.told(DONE, "read table");
        list
    }
}

#[derive(Clone, Copy, PartialEq)]
enum Match {
    Growing,
    Side,
    With,
}

/// The defects by node: vertex, match and how far each has grown; and the correction so far.
struct Decoder {
    card: Card,
    vertex: Vec<usize>,
    state: Vec<Match>,
    reached: Vec<usize>,
    fixes: Vec<usize>,
    pairs: usize,
    sides: usize,
    cost: usize,
    rounds: usize,
}

fn at(row: usize, col: isize) -> usize {
    if col < 0 {
        LEFT
    } else if col as usize >= COLS {
        RIGHT
    } else {
        row * COLS + col as usize
    }
}

fn to_side(v: usize) -> usize {
    WEIGHT * (v % COLS + 1).min(COLS - v % COLS)
}

impl Decoder {
    /// A path of corrected qubits: along the row, then along the column.
    fn pair(&mut self, n: usize, peer: usize) {
        let (v, w) = (self.vertex[n], self.vertex[peer]);
        let away = WEIGHT * ((v / COLS).abs_diff(w / COLS) + (v % COLS).abs_diff(w % COLS));
        assert_eq!(self.reached[n] + self.reached[peer], away, "a conflict that is no meeting");
        let (mut r, mut c) = (v / COLS, v % COLS);
        while (r, c) != (w / COLS, w % COLS) {
            let here = r * COLS + c;
            if c != w % COLS {
                c = if c < w % COLS { c + 1 } else { c - 1 }
            } else {
                r = if r < w / COLS { r + 1 } else { r - 1 }
            }
            self.fixes[here] += 1;
            self.fixes[r * COLS + c] += 1;
        }
        self.cost += away;
        self.pairs += 1;
        for k in [n, peer] {
            self.state[k] = Match::With;
            self.card.rest(k);
        }
    }

    /// A path to the nearest side.
    fn side(&mut self, n: usize) {
        let (r, mut c) = (self.vertex[n] / COLS, (self.vertex[n] % COLS) as isize);
        let step = if c < COLS as isize - 1 - c { -1 } else { 1 };
        while c >= 0 && c < COLS as isize {
            self.fixes[at(r, c)] += 1;
            self.fixes[at(r, c + step)] += 1;
            c += step;
        }
        self.cost += to_side(self.vertex[n]);
        self.sides += 1;
        self.state[n] = Match::Side;
        self.card.rest(n);
    }

    /// Matches a growing node with what it has met.
    fn settle(&mut self, entry: [usize; ENTRY], before: &[Match]) {
        let [case, first, _, third, _] = entry;
        let n = if case == VIRTUAL { first } else { third };
        if self.state[n] != Match::Growing {
            return;
        }
        match case {
            VIRTUAL => {
                assert_eq!(self.reached[n], to_side(self.vertex[n]), "a side that is not reached");
                self.side(n);
            }
            CONFLICT if self.state[first] == Match::Growing => self.pair(n, first),
            CONFLICT if before[first] != Match::Growing => self.side(n),
            CONFLICT => {} // paired in this round: met again in the next
            _ => panic!("an entry of the group: case {case}, value {first}"),
        }
    }

    /// Either some are matched, or all that still grow do so by the length of the group. Whether any grows.
    fn round(&mut self) -> bool {
        self.rounds += 1;
        match self.card.group() {
            Ok(length) => {
                self.card.grow_all(length);
                for n in (0..self.vertex.len()).filter(|n| self.state[*n] == Match::Growing) {
                    self.reached[n] += length;
                }
            }
            Err(entries) => {
                let before = self.state.clone();
                for entry in entries {
                    self.settle(entry, &before);
                }
            }
        }
        self.state.contains(&Match::Growing)
    }
}

/// The patch as edges, with random flips: how often each stabilizer is touched, and how many qubits flipped.
fn patch(mut seed: u64) -> (Vec<i64>, Vec<usize>, usize) {
    let (mut edges, mut flips, mut flipped) = (Vec::new(), vec![0; V], 0);
    for r in 0..D {
        for c in -1..COLS as isize {
            for down in [false, true] {
                if down && (c < 0 || r + 1 == D) {
                    continue;
                }
                let (a, b) = (at(r, c), if down { at(r + 1, c) } else { at(r, c + 1) });
                edges.extend([a as i64, b as i64, WEIGHT as i64]);
                seed = seed.wrapping_mul(6364136223846793005).wrapping_add(1442695040888963407);
                if (seed >> 33) % 100 < 6 {
                    flips[a] += 1;
                    flips[b] += 1;
                    flipped += 1;
                }
            }
        }
    }
    (edges, flips, flipped)
}

fn main() {
    let (edges, flips, flipped) = patch(std::env::args().nth(1).and_then(|s| s.parse().ok()).unwrap_or(1));
    let vertex: Vec<usize> = (0..LEFT).filter(|v| flips[*v] % 2 == 1).collect();
    let start = Instant::now();
    let card = Card::open(&edges, &[LEFT as i64, RIGHT as i64]);
    let count = vertex.len();
    let mut d = Decoder {
        card,
        vertex,
        state: vec![Match::Growing; count],
        reached: vec![0; count],
        fixes: vec![0; V],
        pairs: 0,
        sides: 0,
        cost: 0,
        rounds: 0,
    };
    for n in 0..count {
        assert_eq!(d.card.insert_defect(d.vertex[n]), n, "a defect's node");
    }
    while count > 0 && d.round() {}
    let table = d.card.table();
    let took = start.elapsed();
    assert!(table.chunks(2).all(|g| g[0] + g[1] <= WEIGHT as i64), "an edge past its weight");
    let wrong = (0..LEFT).filter(|v| (flips[*v] + d.fixes[*v]) % 2 == 1).count();
    let sum: usize = d.reached.iter().sum();
    println!("distance {D}: {V} vertices, {E} edges; {flipped} flipped qubits, {count} defects");
    println!(
        "{} pairs, {} matched with a side, in {} rounds; cost {}, at least {sum} by the dual variables",
        d.pairs, d.sides, d.rounds, d.cost
    );
    println!("defects that the correction leaves: {wrong}");
    println!("Rust: {} calls in {} microseconds", d.card.calls, took.as_micros());
    assert!(wrong == 0 && sum <= d.cost);
}
