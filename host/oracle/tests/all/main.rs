//! The tests of both engines.
mod amounts;
mod class;
mod common;
mod comparison;
mod either_side;
mod judge;
mod library;
mod program;
mod recorded;
mod refusals;
mod tools;
