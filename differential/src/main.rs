//! Compares the port with the Rust on random record streams, and measures both. See README.md.
#[cfg(library)]
mod calls_speed;
mod compare;
mod count;
#[cfg(library)]
mod erasures;
#[cfg(library)]
mod gaps;
mod graphs;
#[cfg(library)]
mod lent;
#[cfg(library)]
mod library;
#[cfg(library)]
mod library_speed;
#[cfg(library)]
mod openings;
mod patches;
mod port;
mod random;
mod records;
mod reduce;
#[cfg(library)]
mod rounds;
#[cfg(library)]
mod rounds_speed;
mod sample;
mod speed;
mod streams;
mod timed;

use random::Random;

fn number(a: Option<&String>, default: u64) -> u64 {
    a.map_or(default, |s| s.parse().unwrap_or_else(|_| panic!("{s} is no number")))
}

/// Prints a stream in words with its first difference, and keeps what it reduces to.
fn show(seed: u64, s: &streams::Stream, difference: &str) {
    println!("\nDIFFERENT, seed {seed}: port | Rust: {difference}");
    if compare::differs(&s.records).is_none() {
        return;
    }
    let small = reduce::reduce(&s.records);
    println!("reduced to: {}", small.iter().map(records::words).collect::<Vec<_>>().join("; "));
    println!("port | Rust: {}", compare::differs(&small).unwrap_or_default());
    let dir = std::env::var("FOUND").unwrap_or_else(|_| "found".to_string());
    std::fs::create_dir_all(&dir).and_then(|_| std::fs::write(format!("{dir}/{seed}.records"), compare::flat(&small))).unwrap();
}

fn compare_many(runs: u64, seed: u64) -> bool {
    println!("{runs} streams from seed {seed}");
    let mut counts = count::Counts::default();
    for i in 0..runs {
        let one = seed.wrapping_mul(1_000_003).wrapping_add(i);
        let s = streams::stream(one);
        let f = compare::compare(&mut Random::new(!one), &s);
        counts.add(&s, &f);
        if let Some(d) = &f.difference {
            show(one, &s, d);
        }
    }
    counts.print();
    counts.different == 0
}

fn one(seed: u64) {
    let s = streams::stream(seed);
    for (r, x) in s.records.iter().zip(&s.said) {
        println!("{}{}", records::words(r), if x.mended { "    # mended" } else { "" });
    }
    let port = compare::port_lines(&compare::flat(&s.records));
    println!("\n{}", String::from_utf8_lossy(&port));
    println!("{}", compare::first_difference(&port, &s.lines).unwrap_or("port and Rust agree".to_string()));
}

fn main() {
    let a: Vec<String> = std::env::args().collect();
    // the Rust's stops are answers of the bench, and not told; its own are
    let own = std::panic::take_hook();
    std::panic::set_hook(Box::new(move |p| {
        if p.location().is_some_and(|l| l.file().starts_with("src/")) {
            own(p)
        }
    }));
    let ok = match a.get(1).map(String::as_str) {
        Some("compare") => compare_many(number(a.get(2), 5000), number(a.get(3), 1)),
        Some("one") => {
            one(number(a.get(2), 1));
            true
        }
        Some("sample") => {
            sample::write(a.get(2).expect("a file"), number(a.get(3), 1));
            true
        }
        Some("replay") => sample::replay(a.get(2).expect("a file")),
        Some("patches") => patches::run(a.get(2).expect("a file")),
        #[cfg(library)]
        Some("library") => library::compare(number(a.get(2), 2000), number(a.get(3), 1)),
        #[cfg(library)]
        Some("rounds") => rounds::compare(number(a.get(2), 2000), number(a.get(3), 1)),
        #[cfg(library)]
        Some("openings") => openings::compare(number(a.get(2), 2000), number(a.get(3), 1)),
        #[cfg(library)]
        Some("gaps") => gaps::compare(number(a.get(2), 500), number(a.get(3), 1)),
        #[cfg(library)]
        Some("erasures") => erasures::compare(number(a.get(2), 2000), number(a.get(3), 1)),
        #[cfg(library)]
        Some("rounds-speed") => {
            rounds_speed::table();
            true
        }
        #[cfg(library)]
        Some("calls-speed") => {
            calls_speed::table();
            true
        }
        Some("stream") => {
            speed::stream();
            true
        }
        Some("lines") => {
            speed::program(a.get(2).is_some_and(|x| x == "unlocked"));
            true
        }
        Some("speed") => {
            speed::table();
            #[cfg(library)]
            {
                library_speed::table();
                calls_speed::table();
                rounds_speed::table();
            }
            true
        }
        _ => {
            eprintln!(
                "differential compare [RUNS] [SEED] | one SEED | sample FILE [SEED] | replay FILE | patches FILE \
                 | speed | library [RUNS] [SEED] | rounds [RUNS] [SEED] | openings [RUNS] [SEED] \
                 | gaps [RUNS] [SEED] | erasures [RUNS] [SEED] | rounds-speed | calls-speed | stream | lines [unlocked]"
            );
            false
        }
    };
    std::process::exit(i32::from(!ok));
}
