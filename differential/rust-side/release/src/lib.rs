//! The three files as a release build has them; crate `unlocked` is this file too, with pointers that take no lock.
extern crate cfg_if;
extern crate derivative;
extern crate rand_xoshiro;
extern crate serde;
#[macro_use]
extern crate serde_json;

#[macro_use]
#[path = "../../common/quiet.rs"]
mod quiet;
include!(concat!(env!("OUT_DIR"), "/fb.rs"));

pub fn notes() -> u8 {
    0
}
