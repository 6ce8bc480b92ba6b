//! The proved library as a Rust crate: a tree of blocks, its journal and their
//! calls, in memory that the tree owns. Document 01 says what each call does.
//!
//! ```
//! use cadraspes::{Block, Hash, Marks, Plan, Refusal, Terms, Tree};
//! # if !cadraspes::linked() { return Ok(()); }
//!
//! let mut tree = Tree::new(8, 16, 1, 0)?;
//! let (hash, prev) = (Hash([7; 32]), Hash([0; 32]));
//! let amount = || "5".to_string();
//! let block = Block { hash, index: 0, epoch: 0, prev, target: amount(), actual: amount(), marks: Marks::default() };
//! tree.put(0, &block)?;
//! assert_eq!((tree.count(), tree.version()), (1, 1));
//! assert_eq!(tree.effective(hash).map(|block| block.actual), Some(Some(5)));
//! assert_eq!(tree.put(3, &block), Err(Refusal::Kind));
//!
//! assert_eq!(tree.best(), Err(Refusal::Stale));
//! tree.sync();
//! let (tip, work) = tree.best()?.expect("one block is linked");
//! assert_eq!((tip.hash, work.value, work.ok), (hash, 5, true));
//!
//! // No block is canonical, so a plan has nothing to compare the best with.
//! assert_eq!(tree.select(&Terms { floor: None, n: 10, clock: 7 })?, Plan::Scan);
//! # Ok::<(), Refusal>(())
//! ```
//!
//! What a node does with it, after each batch of blocks (these lines stand in
//! README.md, too; a test compares the two):
//!
//! ```
//! # use cadraspes::{Block, Hash, Marks, Plan, Refusal, Terms, Tree};
//! # use std::collections::BTreeMap;
//! # if !cadraspes::linked() { return Ok(()); }
//! # let block = |name: u8, index: u64, actual: &str, canonical: bool| {
//! #     let (hash, prev) = (Hash([name; 32]), Hash([1; 32]));
//! #     let (target, actual) = ("5".to_string(), actual.to_string());
//! #     Block { hash, index, epoch: 0, prev, target, actual, marks: Marks { canonical, ..Marks::default() } }
//! # };
//! # let blocks = [block(1, 0, "5", true), block(2, 1, "5", true), block(3, 1, "6", false)];
//! # let mut records: BTreeMap<Hash, Block<String>> = blocks.into_iter().map(|block| (block.hash, block)).collect();
//! # fn scan(_: &BTreeMap<Hash, Block<String>>) { panic!("this tree can tell") }
//! # let now = 7;
//! let mut tree = Tree::new(1_000, 10_000, 1, 0)?; // room for hashes and journal entries; generation, version
//! records.values().try_for_each(|block| tree.put(0, block))?; // into the active store, in any order
//! tree.sync();
//! println!("best: {:?}", tree.best()?);
//! match tree.select(&Terms { floor: None, n: 10, clock: now })? {
//!     Plan::Scan => scan(&records), // the tree cannot tell: the node looks through its records itself
//!     Plan::Apply { entries, .. } => for entry in entries {
//!         let block = records.get_mut(&entry.hash).expect("an entry is a block that was put");
//!         block.marks = entry.marks; // both flags and the optional three, as they stand after the plan
//!         tree.put(0, block)?; // the plan itself changed nothing
//!     },
//! }
//! # assert_eq!(tree.select(&Terms { floor: None, n: 10, clock: now }), Err(Refusal::Stale));
//! # tree.sync();
//! # assert_eq!(tree.canonical_best()?.map(|(tip, work)| (tip.hash, work.value)), Some((Hash([3; 32]), 11)));
//! # assert_eq!(tree.canonical_count()?, 2);
//! # Ok::<(), Refusal>(())
//! ```
//!
//! No call panics, whatever it is given, but in [`boundary`]: where the library
//! was not there to link (see build.rs; [`linked`] is false then), and where it
//! did not keep a contract that is proved of it.
#![deny(unsafe_code)]
pub mod boundary;
mod comparison;
pub mod draw;
mod refusal;
mod replay;
mod tree;
pub mod words;

pub use boundary::{linked, NOT_LINKED};
pub use comparison::{choose, covers};
pub use history::{Amount, Block, Choice, Entry, Hash, Marks, Plan, Reason, Side, Terms, Work};
pub use refusal::Refusal;
pub use replay::Replay;
pub use tree::{room, Tree};
