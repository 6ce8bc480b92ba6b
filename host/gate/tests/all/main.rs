//! The tests of the gate's tools.
mod folder;
mod limbs;
mod replay_input;
mod sources;
mod wrong_answers;
