//! The published Rust engine behind document 01's word formats.

pub mod build;
pub mod check;
pub mod coverage;
pub mod crontab;
pub mod decode;
pub mod edges;
pub mod generate;
pub mod house;
pub mod next_start;
pub mod random;
pub mod readback;
pub mod rewrite;
pub mod script;
pub mod short_lists;
pub mod shrink;
pub mod tables;
pub mod telegrams;
pub mod vectors;

pub use dali2rust_rules_model as model;
pub use dali2rust_rules_runtime::runtime::engine::access;
