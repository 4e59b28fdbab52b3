//! The root of the original's crate, with the modules that `fit` reaches. `caching` is supplied; the others are the original's files.
#![allow(dead_code, clippy::all)]
pub mod algorithms;
pub mod bitsets;
pub mod caching;
pub mod common;
pub mod data;
pub mod tree;
