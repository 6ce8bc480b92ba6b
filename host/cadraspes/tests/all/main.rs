//! The library over its boundary: refusals, lists and words with everything
//! that is lent between guards, and memory that no call left. And the program
//! with its drawings.
mod any_words;
mod bad_memory;
mod common;
mod comparison;
mod draw;
mod draw_read;
mod guarded;
mod header;
mod lists;
mod pages;
mod plans;
mod program;
mod random;
mod readme;
mod recorded;
mod records;
mod refusals;
mod rooms;
mod table;
mod tree;
mod xml;
