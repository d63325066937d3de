// Crate root (stand-in). `std` below this point is the shim: the real std plus
// the old `std::simd` spelling. `no_std` only keeps rustc from injecting its own
// `extern crate std`; the usual prelude is put back by hand.
#![no_std]
#![feature(prelude_import)]
#![allow(warnings)]

#[macro_use]
extern crate stdshim as std;

#[prelude_import]
use std::prelude::rust_2018::*;

pub mod endgame;
pub mod game;
pub mod prove;
pub mod table;

// minimax.rs's text is taken in unchanged; the module `probe` stands beside it,
// inside the same module, so that it sees the private fields.
pub mod minimax {
    include!("texts/minimax.rs");
    pub mod probe;
}
