//! What the benchmark measures the linked order gate by: the gate once more,
//! tuned for speed. `checks` holds it to the linked gate, so that its time is the
//! time of the same answers and words.

#![forbid(unsafe_code)]

pub mod tuned;
