//! Records as bytes and in words.
pub type Record = Vec<u8>;

pub fn record(kind: u16, fields: &[i32]) -> Record {
    let mut b = Vec::with_capacity(4 + 4 * fields.len());
    b.extend((2 + 4 * fields.len() as u16).to_le_bytes());
    b.extend(kind.to_le_bytes());
    for f in fields {
        b.extend(f.to_le_bytes());
    }
    b
}

pub fn kind(r: &Record) -> u16 {
    if r.len() < 4 { 0 } else { u16::from_le_bytes([r[2], r[3]]) }
}

pub fn fields(r: &Record) -> Vec<i32> {
    r.get(4..).unwrap_or(&[]).chunks_exact(4).map(|c| i32::from_le_bytes([c[0], c[1], c[2], c[3]])).collect()
}

pub fn split(mut stream: &[u8]) -> Vec<Record> {
    let mut out = vec![];
    while !stream.is_empty() {
        let n = asserting::session::record_length(stream).unwrap_or(stream.len());
        out.push(stream[..n].to_vec());
        stream = &stream[n..];
    }
    out
}

pub fn words(r: &Record) -> String {
    const NAMES: [&str; 14] = [
        "", "graph", "edge", "virtual", "defect", "blossom", "state", "prepare", "length", "grow", "table", "advance",
        "contacts", "clear",
    ];
    let k = kind(r) as usize;
    let whole = asserting::session::record_length(r) == Some(r.len()) && r.len() >= 4 && r.len() % 4 == 0;
    if !whole {
        return format!("bytes {}", r.iter().map(|b| format!("{b:02x}")).collect::<String>());
    }
    let name = NAMES.get(k).filter(|n| !n.is_empty()).map_or(format!("raw {k}"), |n| n.to_string());
    fields(r).iter().fold(name, |s, f| format!("{s} {f}"))
}
