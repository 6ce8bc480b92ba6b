//! An independent plain reading of document 01.
//!
//! Every rule is written as plainly as it can be, a file for each of the
//! document's headings, and shares no code with the original. It decides which
//! calls are refused, answers whole histories by itself, and is what the
//! original is compared with.
//!
//! ```
//! let answers = reading::replay(b"start 4 4 1 0\nput 0 a 0 0 0 \"5\" \"5\" c - - -\nbest\nsync\nbest\n");
//! assert_eq!(answers, "0\n0\n12\n0\n0 a 0x5 ok\n");
//! ```
mod adopt;
mod amounts;
mod comparing;
mod holding;
mod numbers;
mod plans;
mod replay;
mod select;
mod standing;

pub use adopt::adopt;
pub use amounts::{meets_target, read_amount};
pub use comparing::{choose, covers};
pub use holding::{Header, Holding, Room};
pub use numbers::{Done, Refusal};
pub use replay::{replay, Reading, Replay};
pub use select::select;
pub use standing::View;

/// A block with its amounts read.
pub type Record = history::Block<history::Amount>;
