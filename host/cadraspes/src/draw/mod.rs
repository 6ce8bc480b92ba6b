//! Drawings of a tree for a class: as text in a terminal, or as SVG.
//!
//! ```
//! use cadraspes::draw::{text, Played};
//! # if !cadraspes::linked() { return; }
//!
//! let mut played = Played::default();
//! for line in ["start 4 4 1 0", "put 0 a 0 0 0 \"5\" \"5\" c - - -", "sync"] {
//!     played.line(line.as_bytes());
//! }
//! let drawn = text(&played.scene());
//! assert!(drawn.contains("\nbest: a, work 0x5, proofs ok\n"));
//! ```
mod layout;
mod scene;
mod svg;
mod text;
mod why;

pub use scene::{Edge, Scene, Shown, Standing, Tip, Whole};
pub use svg::svg;
pub use text::text;
pub use why::Why;

use crate::{Hash, Replay};
use history::{read_line, Answer, Call, Line};
use std::collections::BTreeSet;

/// A history played so far, and the hashes that its loads and puts name: no
/// store can hold another.
#[derive(Default)]
pub struct Played {
    replay: Replay,
    hashes: BTreeSet<Hash>,
}

impl Played {
    /// Plays a line, given without its end; its answer, unless it is passed
    /// over.
    pub fn line(&mut self, line: &[u8]) -> Option<Answer> {
        let call = match read_line(line) {
            Line::Passed => return None,
            Line::NoCall(why) => return Some(Answer::NoCall(why)),
            Line::Call(call) => call,
        };
        if let Call::Load(_, block) | Call::Put(_, block) = &call {
            self.hashes.insert(block.hash);
        }
        Some(self.replay.call(&call))
    }

    /// The tree as it stands now. No later answer is another for it.
    pub fn scene(&mut self) -> Scene {
        match self.replay.tree() {
            Some(tree) => Scene::of(tree, &self.hashes),
            None => Scene::default(),
        }
    }
}
