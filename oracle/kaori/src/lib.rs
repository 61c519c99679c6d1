//! The syntax module of Kaori, compiled from the source documents as they stand, over stubs of what it leans on.
//! `syntax::parser` is the original, with a function beside it that reads a guard. build.rs derives `syntax::counted` from it,
//! which counts openings, and `syntax::recorded`, which also tells `recorder` of each row that it asks for; and the same three of
//! edition 2, whose names begin with `second_`.
#![allow(dead_code)]

pub mod compiler;
pub mod diagnostics;
pub mod recorder;

include!(concat!(env!("OUT_DIR"), "/kaori.rs"));
