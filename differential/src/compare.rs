//! One stream through the port and through the Rust, three ways.
use crate::port;
use crate::random::Random;
use crate::records::Record;
use crate::streams::Stream;
use asserting::session::{Said, Session};

/// What a comparison adds to the counts.
#[derive(Default)]
pub struct Found {
    pub difference: Option<String>,
    /// calls that the Rust's own methods answered, in the release build, before the first mended preparation
    pub straight: usize,
    /// the Rust's own constructor opened the graph
    pub constructed: bool,
    /// a refusal 10 or 11 at which the Rust, asked all the same, was seen to stop
    pub confirmed: bool,
    pub not_confirmed: bool,
    /// calls after the first mended preparation, compared with the mended Rust
    pub after_mended: usize,
}

pub fn flat(records: &[Record]) -> Vec<u8> {
    records.concat()
}

/// The lines of the port, with a space that is surely enough.
pub fn port_lines(records: &[u8]) -> Vec<u8> {
    let mut lines = vec![0xa5; 4096 + records.len() * 1024];
    let n = port::cardrun_lines(records, &mut lines);
    lines.truncate(n);
    lines
}

/// The lines of the Rust, mended, on records that are already chosen.
pub fn rust_lines(records: &[Record]) -> (Vec<u8>, Vec<Said>) {
    let mut s = Session::new(false);
    let mut said = vec![];
    for r in records {
        if s.ended {
            break;
        }
        said.push(s.feed(r));
    }
    (s.lines, said)
}

/// The first line in which two texts differ.
pub fn first_difference(a: &[u8], b: &[u8]) -> Option<String> {
    let (a, b) = (String::from_utf8_lossy(a), String::from_utf8_lossy(b));
    let (mut x, mut y) = (a.lines(), b.lines());
    loop {
        match (x.next(), y.next()) {
            (None, None) => return (a != b).then(|| "line ends".to_string()),
            (p, q) if p == q => {}
            (p, q) => return Some(format!("{} | {}", p.unwrap_or("nothing"), q.unwrap_or("nothing"))),
        }
    }
}

fn agree(port: &[u8], rust: &[u8], outside: bool) -> Option<String> {
    let port = if outside { &port[..port.len().min(rust.len())] } else { port };
    if port == rust { None } else { first_difference(port, rust) }
}

/// Whether port and mended Rust differ on these records.
pub fn differs(records: &[Record]) -> Option<String> {
    let (rust, said) = rust_lines(records);
    agree(&port_lines(&flat(records)), &rust, said.iter().any(|s| s.outside))
}

fn straight(s: &Stream, f: &mut Found) -> Option<String> {
    let mut release = release::session::Session::new(true);
    for (rec, said) in s.records.iter().zip(&s.said) {
        if release.ended {
            break;
        }
        let told = release::session::Said {
            kind: said.kind,
            refused: said.refused,
            mended: said.mended,
            outside: said.outside,
            notes: 0,
        };
        release.feed_straight(rec, &told);
        f.straight += usize::from(said.kind > 3 && said.refused == 0 && !release.ended);
    }
    f.constructed = release.constructed();
    let whole = s.lines.get(..release.lines.len());
    if whole == Some(&release.lines[..]) {
        return None;
    }
    first_difference(&s.lines, &release.lines).map(|d| format!("mended | straight: {d}"))
}

/// Makes one of the growths that are refused by 10 or 11, chosen at random before any mended preparation, all the same.
fn confirm(r: &mut Random, s: &Stream, f: &mut Found) {
    let until = s.said.iter().position(|x| x.mended || x.outside).unwrap_or(s.said.len());
    let at: Vec<_> = (0..until).filter(|&i| matches!(s.said[i].refused, 10 | 11)).collect();
    if at.is_empty() {
        return;
    }
    let at = r.pick(&at);
    let mut session = Session::new(true);
    for i in 0..at {
        session.feed_straight(&s.records[i], &s.said[i]);
    }
    if session.stops(&s.records[at]) { f.confirmed = true } else { f.not_confirmed = true }
}

/// With a space that may be too short: the lines that fit, and nothing written behind them.
fn short(r: &mut Random, records: &[u8], lines: &[u8]) -> Option<String> {
    let space = r.below(lines.len() + 2);
    let mut b = vec![0xa5; space];
    let n = port::cardrun_lines(records, &mut b);
    let fit = if space >= lines.len() {
        lines.len()
    } else {
        lines[..space].iter().rposition(|&c| c == b'\n').map_or(0, |i| i + 1)
    };
    let ok = n == fit && b[..n] == lines[..n] && b[n..].iter().all(|&c| c == 0xa5);
    (!ok).then(|| format!("a space of {space} bytes: {n} written, {fit} fit"))
}

pub fn compare(r: &mut Random, s: &Stream) -> Found {
    let mut f = Found::default();
    let bytes = flat(&s.records);
    let port = port_lines(&bytes);
    f.difference = agree(&port, &s.lines, s.outside).or_else(|| short(r, &bytes, &port)).or_else(|| straight(s, &mut f));
    confirm(r, s, &mut f);
    if let Some(i) = s.said.iter().position(|x| x.mended) {
        f.after_mended = s.said[i..].iter().filter(|x| x.kind > 3).count();
    }
    f
}
