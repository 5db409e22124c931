//! What the operator's tools `market` and `feeder` are made of.

pub mod drawing;
pub mod page;
pub mod report;
pub mod tool;
pub mod tree;
pub mod words;
