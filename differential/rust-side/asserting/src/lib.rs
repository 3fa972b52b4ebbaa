//! The three files with every debug_assert! on. The two assertions which the release build decides ("odd gap", "never
//! empty", docs/SPECIFICATION.md 12.1) are noted and passed over, and so is the time stamp check of the pointers
//! stand-in. So a call finishes here exactly when the domain of that section holds it, but for calls noted as 4.
extern crate cfg_if;
extern crate derivative;
extern crate rand_xoshiro;
extern crate serde;
#[macro_use]
extern crate serde_json;

#[macro_use]
#[path = "../../common/quiet.rs"]
mod quiet;
#[allow(unused_macros)]
macro_rules! debug_assert {
    ($c:expr, $m:literal $(, $($a:tt)*)?) => { if !($c) { crate::failed($m) } };
    ($c:expr $(,)?) => { if !($c) { crate::failed(stringify!($c)) } };
}
#[allow(unused_macros)]
macro_rules! debug_assert_eq {
    ($a:expr, $b:expr $(, $($m:tt)*)?) => { assert_eq!($a, $b $(, $($m)*)?) };
}
#[allow(unused_macros)]
macro_rules! debug_assert_ne {
    ($a:expr, $b:expr $(, $($m:tt)*)?) => { assert_ne!($a, $b $(, $($m)*)?) };
}
include!(concat!(env!("OUT_DIR"), "/fb.rs"));

thread_local! { static NOTES: std::cell::Cell<u8> = const { std::cell::Cell::new(0) }; }

#[track_caller]
pub fn failed(m: &str) {
    let note = if m.contains("there is odd gap between two growing nodes") {
        1
    } else if m.contains("the boundary of a dual cluster is never empty") {
        2
    } else if m.contains("bug detected: not dynamically cleared") {
        4
    } else if m.contains("only positive growth is supported") {
        8 // a round of length 0, which renews the active list
    } else {
        panic!("{}", m)
    };
    NOTES.with(|n| n.set(n.get() | note))
}

/// The assertions that were passed over since the last call of this.
pub fn notes() -> u8 {
    NOTES.with(|n| n.take())
}
