//! The library beside independent code, on generated inputs.

#[path = "../../src/ffi.rs"]
#[allow(dead_code)]
mod ffi;

mod answers;
mod binary;
mod cases;
mod deeds;
mod generate;
mod history;
mod kept;
mod layouts;
mod lent;
mod lists;
mod model;
mod moves;
mod rng;
mod sequences;
mod tally;
mod typed;

mod keepers;
mod reading;
mod sessions;
mod stepping;
mod turns;
mod values;
mod writing;
