//! Histories on the original and on the reading of document 01: running,
//! generating, comparing, shrinking and recording them.
pub mod against;
pub mod amounts;
pub mod check;
pub mod compare;
pub mod coverage;
pub mod domain;
pub mod generate;
pub mod judge;
pub mod library;
pub mod many;
pub mod record;
pub mod shrink;
pub mod texts;
