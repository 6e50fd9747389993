//! One method for each call of a list, by the groups of `docs/use/CALLS.md`.

mod artifacts;
mod expressions;
mod loops;
mod modules;
mod operators;
mod statements;
mod types;
