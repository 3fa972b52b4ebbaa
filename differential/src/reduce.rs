//! The smallest stream that still shows a difference, found by leaving records out.
use crate::compare::differs;
use crate::records::{fields, kind, record, Record};

/// Without the records from i on; the number of edges in the first record follows.
fn without(records: &[Record], i: usize, n: usize) -> Vec<Record> {
    let mut out: Vec<_> = records[..i].iter().chain(&records[(i + n).min(records.len())..]).cloned().collect();
    let gone = records[i..(i + n).min(records.len())].iter().filter(|r| kind(r) == 2).count() as i32;
    if gone > 0 && !out.is_empty() && kind(&out[0]) == 1 {
        let mut a = fields(&out[0]);
        a[1] -= gone;
        out[0] = record(1, &a);
    }
    out
}

pub fn reduce(records: &[Record]) -> Vec<Record> {
    let mut best = records.to_vec();
    let mut n = best.len() / 2;
    while n > 0 {
        let mut i = 1;
        while i < best.len() {
            let next = without(&best, i, n);
            if differs(&next).is_some() { best = next } else { i += n }
        }
        n /= 2;
    }
    best
}
