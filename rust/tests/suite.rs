//! The tests over the proved library and its program: `cargo test --release`. What takes long has a
//! count that an environment variable raises; `common` names them.

mod closely;
mod common;
mod display;
mod dynamic;
mod examples;
mod files;
mod fractions;
mod large;
mod listed;
mod package;
mod painted;
mod program;
mod reading;
mod refusals;
mod small;
mod spans;
mod stack;
mod text;
mod tools;
mod typed;
