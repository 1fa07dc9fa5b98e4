//! The simulator's own tests; each module names the papers' place.

mod addressing;
mod arithmetic;
mod banks;
mod build;
mod check_order;
mod check_rules;
mod codemap;
mod common;
mod depth;
mod digits;
mod explain;
mod flags_and_bits;
mod flow;
mod generator;
mod least;
mod lists;
mod locate;
mod print;
mod program;
mod proved_set;
mod refusals;
mod registers;
mod stack;
mod stops;
mod vectors;
