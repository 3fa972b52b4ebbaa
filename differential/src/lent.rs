//! The exported calls of crate `c_api` on lent memory, and the words of a block.
use crate::records::{fields, kind, Record};

/// include/fusion_blossom.h. A slice goes over as its address and its length.
pub mod c {
    extern "C" {
        pub fn fb_open(
            b: *mut i64, bl: usize, t: *const i64, tl: usize, edges: *const i64, el: usize, virtuals: *const i64,
            vl: usize, v: usize, e: usize, n: usize, l: usize, a: *mut usize, al: usize,
        ) -> usize;
        pub fn fb_insert_defect(
            b: *mut i64, bl: usize, t: *mut i64, tl: usize, vertex: usize, state: usize, a: *mut usize, al: usize,
        ) -> usize;
        pub fn fb_insert_blossom(
            b: *mut i64, bl: usize, t: *mut i64, tl: usize, circle: *const i64, cl: usize, state: usize, a: *mut usize,
            al: usize,
        ) -> usize;
        pub fn fb_set_grow_state(
            b: *mut i64, bl: usize, t: *const i64, tl: usize, node: usize, state: usize, a: *mut usize, al: usize,
        ) -> usize;
        pub fn fb_prepare(
            b: *mut i64, bl: usize, t: *mut i64, tl: usize, node: usize, direction: usize, a: *mut usize, al: usize,
        ) -> usize;
        pub fn fb_max_update_length(
            b: *mut i64, bl: usize, t: *mut i64, tl: usize, node: usize, direction: usize, first: bool, a: *mut usize,
            al: usize,
        ) -> usize;
        pub fn fb_grow(
            b: *mut i64, bl: usize, t: *mut i64, tl: usize, node: usize, length: i64, a: *mut usize, al: usize,
        ) -> usize;
        pub fn fb_advance(b: *mut i64, bl: usize, t: *mut i64, tl: usize, node: usize, a: *mut usize, al: usize) -> usize;
        pub fn fb_clear(b: *mut i64, bl: usize, t: *const i64, tl: usize, a: *mut usize, al: usize) -> usize;
        pub fn fb_representative_vertex(
            b: *const i64, bl: usize, t: *const i64, tl: usize, node: usize, a: *mut usize, al: usize,
        ) -> usize;
        pub fn fb_read_table(
            b: *const i64, bl: usize, t: *const i64, tl: usize, list: *mut i64, ll: usize, a: *mut usize, al: usize,
        ) -> usize;
        pub fn fb_contacts(
            b: *const i64, bl: usize, t: *const i64, tl: usize, list: *mut i64, ll: usize, a: *mut usize, al: usize,
        ) -> usize;
        pub fn fb_calls(
            b: *mut i64, bl: usize, t: *mut i64, tl: usize, calls: *const i64, cl: usize, circles: *const i64, rl: usize,
            answers: *mut usize, sl: usize, a: *mut usize, al: usize,
        ) -> usize;
        /// bench/cores: opens a graph and makes the calls of records, without a test of the memory before each; how
        /// many were not refused
        #[cfg(cores)]
        pub fn core_calls(
            b: *mut i64, bl: usize, t: *mut i64, tl: usize, v: usize, e: usize, n: usize, l: usize, edges: *const i64,
            el: usize, virtuals: *const i64, vl: usize, records: *const u8, rl: usize,
        ) -> usize;
    }
}

/// Memory that is lent, and the last answer.
pub struct Lent {
    pub block: Vec<i64>,
    pub scratch: Vec<i64>,
    pub answer: [usize; 5],
}

/// What the records before the first call give: V, E, N, L, the edges and the virtual vertices.
pub fn given(records: &[Record]) -> ([usize; 4], Vec<i64>, Vec<i64>) {
    let s = fields(&records[0]);
    let of_kind = |k: u16| records.iter().filter(|r| kind(r) == k).flat_map(fields).map(i64::from).collect();
    ([0, 1, 2, 3].map(|i| s[i] as usize), of_kind(2), of_kind(3))
}

pub fn memory([v, e, n, l]: [usize; 4]) -> (Vec<i64>, Vec<i64>) {
    (vec![0; 16 + 4 * v + 12 * e + 8 * n + l], vec![0; 4 * e + v.min(2 * e)])
}

impl Lent {
    /// Opens the graph that the records before the first call give.
    pub fn open(records: &[Record]) -> Self {
        let (sizes, edges, virtuals) = given(records);
        let ([v, e, n, l], (mut block, scratch), mut answer) = (sizes, memory(sizes), [0; 5]);
        unsafe {
            c::fb_open(
                block.as_mut_ptr(), block.len(), scratch.as_ptr(), scratch.len(), edges.as_ptr(), edges.len(),
                virtuals.as_ptr(), virtuals.len(), v, e, n, l, answer.as_mut_ptr(), 5,
            )
        };
        assert_eq!(answer[0], 7, "the opening is refused");
        Lent { block, scratch, answer }
    }

    /// A call; its answer is left in `answer`.
    pub fn ask(&mut self, kind: u16, f: &[i32], circle: &[i64]) -> usize {
        let (b, bl, t, tl) = (self.block.as_mut_ptr(), self.block.len(), self.scratch.as_mut_ptr(), self.scratch.len());
        let (a, al) = (self.answer.as_mut_ptr(), 5);
        let x = |i: usize| f[i] as usize;
        unsafe {
            match kind {
                4 => c::fb_insert_defect(b, bl, t, tl, x(0), x(1), a, al),
                5 => c::fb_insert_blossom(b, bl, t, tl, circle.as_ptr(), circle.len(), x(0), a, al),
                6 => c::fb_set_grow_state(b, bl, t, tl, x(0), x(1), a, al),
                7 => c::fb_prepare(b, bl, t, tl, x(0), x(1), a, al),
                8 => c::fb_max_update_length(b, bl, t, tl, x(0), x(1), f[2] == 1, a, al),
                9 => c::fb_grow(b, bl, t, tl, x(0), f[1] as i64, a, al),
                11 => c::fb_advance(b, bl, t, tl, x(0), a, al),
                _ => c::fb_clear(b, bl, t, tl, a, al),
            }
        };
        self.answer[0]
    }

    /// A list of calls by fb_calls, five numbers of `answers` for each; how many were made, and how often memory was
    /// tested.
    pub fn ask_list(&mut self, calls: &[i64], circles: &[i64], answers: &mut [usize]) -> (usize, usize) {
        let (b, bl, t, tl) = (self.block.as_mut_ptr(), self.block.len(), self.scratch.as_mut_ptr(), self.scratch.len());
        unsafe {
            c::fb_calls(
                b, bl, t, tl, calls.as_ptr(), calls.len(), circles.as_ptr(), circles.len(), answers.as_mut_ptr(),
                answers.len(), self.answer.as_mut_ptr(), 5,
            )
        };
        assert_eq!(self.answer[0], 20, "the list is refused");
        (self.answer[1], self.answer[2])
    }

    /// The words of the line that records would give.
    pub fn line(&self) -> String {
        Self::words(&self.answer)
    }

    /// The words of an answer, or of an entry of the group.
    pub fn words(a: &[usize]) -> String {
        match a[0] {
            0 => format!("free {}{} {}", if a[1] == 1 { "-" } else { "" }, a[2], a[3]),
            1 => format!("free -1 {}", a[1]),
            2 => format!("conflict {} {} {} {}", a[1], a[2], a[3], a[4]),
            3 => format!("virtual {} {} {} 0", a[1], a[2], a[3]),
            4 => format!("expand {}", a[1]),
            5 => format!("stop {}", a[1]),
            6 => format!("stop {} {} {}", a[1], a[2], a[3]),
            7 => "done".to_string(),
            8 => format!("node {}", a[1]),
            9 => format!("prepared {}", a[1]),
            10 => format!("vertex {}", a[1]),
            14 => format!("group {} {}", a[1], a[2]),
            _ => format!("refused {}", a[1]),
        }
    }

    /// The lines of the growth table or of the contacts.
    pub fn lists(&mut self, kind: u16, e: usize) -> Vec<String> {
        let (b, bl, t, tl) = (self.block.as_ptr(), self.block.len(), self.scratch.as_ptr(), self.scratch.len());
        let (a, al) = (self.answer.as_mut_ptr(), 5);
        let mut list = vec![-7; if kind == 10 { 2 * e } else { 3 * e }];
        let (ls, ll) = (list.as_mut_ptr(), list.len());
        unsafe {
            if kind == 10 {
                c::fb_read_table(b, bl, t, tl, ls, ll, a, al)
            } else {
                c::fb_contacts(b, bl, t, tl, ls, ll, a, al)
            }
        };
        if self.answer[0] != 7 {
            vec![self.line()]
        } else if kind == 10 {
            (0..e).map(|i| format!("edge {i} {} {}", list[2 * i], list[2 * i + 1])).collect()
        } else {
            let found = list[..3 * self.answer[1]].chunks(3);
            found.map(|x| format!("contact {} {} {}", x[0], x[1], x[2])).collect()
        }
    }

    /// The representative vertex of a node, if there is the node. Block and scratch are tested before, and nothing is written.
    pub fn representative(&mut self, n: usize) -> Option<usize> {
        let (b, bl, t, tl) = (self.block.as_ptr(), self.block.len(), self.scratch.as_ptr(), self.scratch.len());
        unsafe { c::fb_representative_vertex(b, bl, t, tl, n, self.answer.as_mut_ptr(), 5) };
        (self.answer[0] == 10).then_some(self.answer[1])
    }
}

pub fn circle(kind: u16, a: &[i32]) -> Vec<i64> {
    if kind == 5 { a[1..].iter().map(|&n| n as i64).collect() } else { vec![] }
}

/// A call behind the others of a list for fb_calls, its circle behind the other circles.
pub fn list_call(kind: u16, a: &[i32], circle: &[i64], calls: &mut Vec<i64>, circles: &mut Vec<i64>) {
    let x = |i: usize| a.get(i).map_or(0, |&f| f as i64);
    match kind {
        5 => calls.extend([5, x(0), circles.len() as i64, circle.len() as i64]),
        k => calls.extend([k as i64, x(0), x(1), x(2)]),
    }
    circles.extend(circle);
}

/// The rows of a block (docs/LAYOUT.md).
const ROWS: [&str; 21] = [
    "header", "flags", "vertex holder", "vertex grandson", "first", "end", "growth", "holder", "grandson", "at",
    "weight", "class", "grow state", "parent", "dual", "start", "boundary length", "overgrown length", "store",
    "active list", "original weight",
];

/// The first word that the Rust's state fills and the block has otherwise.
pub fn state_differs(block: &[i64], rust: &[Vec<i64>]) -> Option<String> {
    let [v, e, n, l] = [0, 1, 2, 3].map(|i| block[i] as usize);
    let lengths = [&[16, v, v, v, v][..], &[2 * e; 5], &[e], &[n; 7], &[l, n, e]].concat();
    let mut from = 0;
    for ((name, len), row) in ROWS.iter().zip(lengths).zip(rust) {
        let port = &block[from..from + row.len()];
        if let Some(i) = (0..row.len()).find(|&i| port[i] != row[i]) {
            return Some(format!("{name} {i}: {} | {}", port[i], row[i]));
        }
        from += len;
    }
    None
}
