//! A fixed sample of streams with their lines, in frames: two little-endian u32, the bytes of records and of lines, then both.
use crate::compare::{differs, flat, port_lines};
use crate::graphs::KINDS;
use crate::records::split;
use crate::streams::{stream, POLICIES};

const MOST: usize = 200_000;

/// Streams from the seed on: for each kind of graph and each way of choosing calls as many as there is space for.
pub fn write(path: &str, seed: u64) {
    let cells = KINDS.len() * POLICIES.len();
    let mut space = vec![(MOST - 1000) / cells; cells];
    let mut out = vec![];
    let mut n = 0;
    for one in seed.wrapping_mul(1_000_003).. {
        if one > seed.wrapping_mul(1_000_003) + 20_000 {
            break;
        }
        let s = stream(one);
        let cell = s.graph * POLICIES.len() + s.policy;
        let records = flat(&s.records);
        let bytes = 8 + records.len() + s.lines.len();
        if s.outside || bytes > space[cell] {
            continue;
        }
        space[cell] -= bytes;
        out.extend((records.len() as u32).to_le_bytes());
        out.extend((s.lines.len() as u32).to_le_bytes());
        out.extend(records);
        out.extend(&s.lines);
        n += 1;
    }
    std::fs::write(path, &out).unwrap();
    println!("{n} streams, {} bytes", out.len());
}

/// The frames of a file through the port and the Rust.
pub fn replay(path: &str) -> bool {
    let b = std::fs::read(path).unwrap();
    let word = |i: usize| u32::from_le_bytes([b[i], b[i + 1], b[i + 2], b[i + 3]]) as usize;
    let (mut i, mut n, mut wrong) = (0, 0, 0);
    while i < b.len() {
        let (r, l) = (word(i), word(i + 4));
        let records = &b[i + 8..i + 8 + r];
        let lines = &b[i + 8 + r..i + 8 + r + l];
        if port_lines(records) != lines || differs(&split(records)).is_some() {
            println!("frame {n} differs");
            wrong += 1;
        }
        i += 8 + r + l;
        n += 1;
    }
    println!("{n} frames, {wrong} different");
    wrong == 0
}
