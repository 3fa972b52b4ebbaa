//! Records in, lines out, on the Rust: the rules of docs/SPECIFICATION.md 10 around `card`.
use super::card::{unreachable_code, Answer, Card, Sizes};
use super::dual_module::*;
use super::util::Weight;
use std::io::Write;
use std::panic::{catch_unwind, AssertUnwindSafe};

/// What one record gave.
#[derive(Clone, Default, Debug)]
pub struct Said {
    pub kind: u16,
    pub refused: u8,
    /// a mended preparation
    pub mended: bool,
    /// the Rust stopped outside the domain: nothing after this is compared
    pub outside: bool,
    /// assertions that are only noted: odd gap 1, empty boundary 2, time stamp 4
    pub notes: u8,
}

pub struct Session {
    straight: bool,
    record: usize,
    sizes: Option<[i32; 4]>,
    edges: Vec<[i32; 3]>,
    virtuals: Vec<i32>,
    pub(super) card: Option<Card>,
    pub ended: bool,
    pub lines: Vec<u8>,
    /// the largest V, E, N and L
    pub limits: [i32; 4],
    fields: Vec<i32>,
}

pub const PROGRAM: [i32; 4] = [64, 128, 32, 2000];

fn fields_fit(kind: u16, n: usize) -> bool {
    match kind {
        1 => n == 4,
        2 | 8 => n == 3,
        4 | 6 | 7 | 9 => n == 2,
        3 | 11 => n == 1,
        5 => n >= 1,
        10 | 12 | 13 => n == 0,
        _ => false,
    }
}

pub fn write_answer(out: &mut Vec<u8>, r: usize, x: &Answer) {
    let i = |p: &DualNodePtr| p.read_recursive().index;
    match x {
        Answer::Node(n) => writeln!(out, "{r} node {n}"),
        Answer::Done => writeln!(out, "{r} done"),
        Answer::Prepared(n) => writeln!(out, "{r} prepared {n}"),
        Answer::Refused(k) => writeln!(out, "{r} refused {k}"),
        Answer::Stopped => Ok(()),
        Answer::Edges(g) => g.iter().enumerate().try_for_each(|(e, g)| writeln!(out, "{r} edge {e} {} {}", g.0, g.1)),
        Answer::Contacts(c) => c.iter().try_for_each(|(e, p, q)| writeln!(out, "{r} contact {e} {p} {q}")),
        Answer::Length(MaxUpdateLength::NonZeroGrow((l, e))) => {
            writeln!(out, "{r} free {} {}", if *l == Weight::MAX { -1 } else { *l }, i32::from(*e))
        }
        Answer::Length(MaxUpdateLength::Conflicting((a, b), (c, d))) => {
            writeln!(out, "{r} conflict {} {} {} {}", i(a), i(b), i(c), i(d))
        }
        Answer::Length(MaxUpdateLength::TouchingVirtual((a, b), (v, m))) => {
            writeln!(out, "{r} virtual {} {} {} {}", i(a), i(b), v, i32::from(*m))
        }
        Answer::Length(MaxUpdateLength::BlossomNeedExpand(a)) => writeln!(out, "{r} expand {}", i(a)),
        Answer::Length(MaxUpdateLength::VertexShrinkStop((a, None))) => writeln!(out, "{r} stop {}", i(a)),
        Answer::Length(MaxUpdateLength::VertexShrinkStop((a, Some((b, c))))) => {
            writeln!(out, "{r} stop {} {} {}", i(a), i(b), i(c))
        }
    }
    .unwrap()
}

/// The length of the record at the front, if the bytes have it whole.
pub fn record_length(input: &[u8]) -> Option<usize> {
    let n = 2 + u16::from_le_bytes([*input.first()?, *input.get(1)?]) as usize;
    (n <= input.len()).then_some(n)
}

impl Session {
    /// `straight` calls the Rust's own methods and constructor; otherwise refusals are worked out and preparation is mended.
    pub fn new(straight: bool) -> Self {
        Session {
            straight,
            record: 0,
            sizes: None,
            edges: vec![],
            virtuals: vec![],
            card: None,
            ended: false,
            lines: vec![],
            limits: PROGRAM,
            fields: vec![],
        }
    }

    fn end(&mut self, kind: u16, k: u8) -> Said {
        write_answer(&mut self.lines, self.record, &Answer::Refused(k));
        self.ended = true;
        Said { kind, refused: k, ..Said::default() }
    }

    /// Reads the next record, or what is left of one. Gives its kind when a call is to be made.
    fn read(&mut self, input: &[u8]) -> Result<u16, Said> {
        self.record += 1;
        if record_length(input) != Some(input.len()) || input.len() < 4 || input.len() % 4 != 0 {
            return Err(self.end(0, 3));
        }
        let kind = u16::from_le_bytes([input[2], input[3]]);
        self.fields.clear();
        self.fields.extend(input[4..].chunks(4).map(|c| i32::from_le_bytes([c[0], c[1], c[2], c[3]])));
        let a = &self.fields;
        let early = kind <= 3 && self.card.is_some();
        if !fields_fit(kind, a.len()) || self.sizes.is_none() != (kind == 1) || early || kind == 8 && a[2] != 0 && a[2] != 1 {
            return Err(self.end(kind, 3));
        }
        match kind {
            1 => self.sizes = Some([a[0], a[1], a[2], a[3]]),
            2 => self.edges.push([a[0], a[1], a[2]]),
            3 => self.virtuals.push(a[0]),
            _ => {
                if self.card.is_none() {
                    if let Some(k) = self.open() {
                        return Err(self.end(kind, k));
                    }
                }
                return Ok(kind);
            }
        }
        Err(Said { kind, ..Said::default() })
    }

    fn open(&mut self) -> Option<u8> {
        let s = self.sizes.unwrap();
        let within = |x: i32, lo: i32, hi: i32| lo <= x && x <= hi;
        let least = [1, 1, 1, 0];
        if (0..4).any(|i| !within(s[i], least[i], self.limits[i])) || self.edges.len() != s[1] as usize {
            return Some(4);
        }
        let vertex = |v: i32| within(v, 0, s[0] - 1);
        if !self.virtuals.iter().all(|&v| vertex(v)) {
            return Some(3);
        }
        if self.edges.iter().any(|e| !vertex(e[0]) || !vertex(e[1]) || e[0] == e[1] || !within(e[2], 0, 1_000_000)) {
            return Some(4);
        }
        let edges: Vec<_> = self.edges.iter().map(|e| (e[0] as usize, e[1] as usize, e[2] as isize)).collect();
        let virtuals: Vec<_> = self.virtuals.iter().map(|&v| v as usize).collect();
        let sz = Sizes { v: s[0] as usize, e: s[1] as usize, n: s[2] as usize, l: s[3] as i64 };
        self.card = Some(Card::open(sz, &edges, &virtuals, self.straight));
        None
    }

    /// One record (or the rest of the input), with refusals worked out and preparation mended.
    pub fn feed(&mut self, input: &[u8]) -> Said {
        let kind = match self.read(input) {
            Ok(k) => k,
            Err(s) => return s,
        };
        let a = std::mem::take(&mut self.fields);
        let card = self.card.as_mut().unwrap();
        let x = card.call(kind, &a);
        let mut said = Said { kind, mended: card.mended, notes: super::notes(), ..Said::default() };
        match &x {
            Answer::Refused(k) => said.refused = *k,
            Answer::Stopped => {
                said.outside = true;
                self.ended = true;
            }
            _ => {}
        }
        write_answer(&mut self.lines, self.record, &x);
        self.fields = a;
        said
    }

    /// One record by the Rust's own methods, told what the other way of calling gave. Ends before a mended preparation.
    pub fn feed_straight(&mut self, input: &[u8], told: &Said) {
        let Ok(kind) = self.read(input) else { return };
        if told.mended || told.outside {
            self.ended = true;
            return;
        }
        let a = std::mem::take(&mut self.fields);
        let card = self.card.as_mut().unwrap();
        let x = match told.refused {
            0 | 13 => catch_unwind(AssertUnwindSafe(|| card.straight(kind, &a))).unwrap_or_else(|why| {
                if unreachable_code(&why) { Answer::Refused(13) } else { Answer::Stopped }
            }),
            k => {
                if k >= 10 {
                    card.prepare_only(kind, &a);
                }
                Answer::Refused(k)
            }
        };
        super::notes();
        if let Answer::Stopped = x {
            writeln!(self.lines, "{} the Rust stops", self.record).unwrap();
            self.ended = true;
        }
        write_answer(&mut self.lines, self.record, &x);
        self.fields = a;
    }

    /// Whether the Rust stops when this call, which the port refuses, is made all the same. The session is spent.
    pub fn stops(&mut self, input: &[u8]) -> bool {
        let Ok(kind) = self.read(input) else { return false };
        let a = std::mem::take(&mut self.fields);
        let card = self.card.as_mut().unwrap();
        self.ended = true;
        catch_unwind(AssertUnwindSafe(|| card.straight(kind, &a))).is_err()
    }

    /// One record of a stream of accepted calls, for timing.
    pub fn run(&mut self, input: &[u8]) {
        let Ok(kind) = self.read(input) else { return };
        let a = std::mem::take(&mut self.fields);
        let x = self.card.as_mut().unwrap().straight(kind, &a);
        write_answer(&mut self.lines, self.record, &x);
        self.fields = a;
    }

    /// The state, as the rows of a block.
    pub fn rows(&self) -> Vec<Vec<i64>> {
        self.card.as_ref().map_or(vec![], Card::rows)
    }

    /// Of every edge whether one node holds both sides, and its weight less its growths.
    pub fn gaps(&self) -> Vec<(bool, isize)> {
        self.card.as_ref().map_or(vec![], Card::gaps)
    }

    /// The representative vertex of every node.
    pub fn representatives(&self) -> Vec<Option<usize>> {
        self.card.as_ref().map_or(vec![], Card::representatives)
    }

    /// A call by its fields, for timing: the case of its answer, as crate `c_api` numbers them.
    pub fn ask(&mut self, kind: u16, a: &[i32]) -> usize {
        match self.card.as_mut().unwrap().straight(kind, a) {
            Answer::Length(MaxUpdateLength::NonZeroGrow((l, _))) => usize::from(l == Weight::MAX),
            Answer::Length(MaxUpdateLength::Conflicting(..)) => 2,
            Answer::Length(MaxUpdateLength::TouchingVirtual(..)) => 3,
            Answer::Length(MaxUpdateLength::BlossomNeedExpand(..)) => 4,
            Answer::Length(MaxUpdateLength::VertexShrinkStop((_, p))) => 5 + usize::from(p.is_some()),
            Answer::Node(_) => 8,
            Answer::Prepared(_) => 9,
            _ => 7,
        }
    }

    /// Whether the Rust's own constructor opened the graph.
    pub fn constructed(&self) -> bool {
        let edges: Vec<_> = self.edges.iter().map(|e| (e[0] as usize, e[1] as usize, e[2] as isize)).collect();
        self.straight && self.card.is_some() && super::card::constructible(&edges)
    }
}
