//! The order gate a second time, written from the scope paper (01) and the
//! requests of paper 02 alone, so that its answers and words can be compared
//! with the first implementation's.

#![forbid(unsafe_code)]

pub mod answer;
pub mod auction;
pub mod codes;
pub mod current;
pub mod day;
pub mod encode;
pub mod event;
pub mod gate;
pub mod ladder;
pub mod lone;
pub mod range;
pub mod rules;
pub mod state;
