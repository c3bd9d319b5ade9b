//! `barn`: rules as text, a day as a picture, refusals explained.
//!
//! This program is not proved. What counts is proved below it: the proved `load` judges every image that it makes, the proved `tick` and `run`
//! make every day that it prints. What it must get right by itself, text to words and back and the reasons of refusals, is held to the proved
//! calls by the tests.

pub mod account;
pub mod args;
pub mod command;
pub mod cron;
pub mod day;
pub mod draw;
pub mod effect;
pub mod expect;
pub mod explain;
pub mod fault;
pub mod files;
pub mod flat;
pub mod grammar;
pub mod help;
pub mod image;
pub mod lex;
pub mod light;
pub mod lint;
pub mod log;
pub mod names;
pub mod parse;
pub mod play;
pub mod schema;
pub mod spell;
pub mod state;
pub mod store;
pub mod sun;
pub mod test;
pub mod tree;
pub mod watch;
pub mod written;
