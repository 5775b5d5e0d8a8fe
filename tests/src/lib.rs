//! The calls by the proved libraries and by a simple interpreter, the vectors, and what random tests are made of.

pub mod answers;
pub mod both;
pub mod calls;
pub mod foreign;
pub mod generator;
pub mod json;
pub mod model;
pub mod pages;
pub mod programs;
pub mod seeds;
pub mod vectors;
