//! The coverage table: how often each refusal, outcome and plan branch was
//! met.
use history::{Answer, Call, Plan, Reason};
use reading::Reading;
use std::collections::BTreeMap;

/// How often each thing happened.
#[derive(Clone, Default)]
pub struct Coverage(pub BTreeMap<String, u64>);

impl Coverage {
    pub fn count(&mut self, what: impl Into<String>) {
        *self.0.entry(what.into()).or_default() += 1;
    }
}

/// The branches of both plans, by the names that the reading tells. Adopt
/// never compares a tip with itself: ours is canonical, the peer's is not.
pub const PLAN_WAYS: [&str; 57] = [
    "select scan: no best",
    "select scan: no canonical best",
    "select scan: no common ancestor",
    "select demoted off-spine",
    "select nothing off-spine to demote",
    "select with blocks aside",
    "select stop: best is local",
    "select stop: fork under floor",
    "select stop: aside off best's walk",
    "select stop: nomination",
    "select stop: compared",
    "select stop: compared, blocks aside",
    "select switch: adopted, fork is local",
    "select switch: adopted, fork below local",
    "select switch: not adopted, fork is local",
    "select switch: promoted what was demoted",
    "select switch: aside demoted",
    "select compared: same-tip",
    "select compared: neither",
    "select compared: peer-only",
    "select compared: local-only",
    "select compared: peer-work",
    "select compared: local-work",
    "select compared: peer-tip",
    "select compared: local-tip",
    "select compared: peer-hash",
    "select compared: local-hash",
    "adopt scan: no canonical best",
    "adopt scan: canonical count",
    "adopt leaf: no canonical below",
    "adopt leaf: local does not cover",
    "adopt leaf: safe front empty",
    "adopt leaf: safe front empty, would be stale",
    "adopt extends local",
    "adopt compared with none of ours",
    "adopt compared with part of ours",
    "adopt compared with all of ours",
    "adopt refused: floor",
    "adopt refused: compared",
    "adopt refused: compared, partial front",
    "adopt refused, not stale",
    "adopt stale",
    "adopt accepted",
    "adopt accepted, partial front",
    "adopt orphaned ours",
    "adopt orphaned ours, no competing hash",
    "adopt promoted over stale",
    "adopt ended with none accepted",
    "adopt compared: neither",
    "adopt compared: peer-only",
    "adopt compared: local-only",
    "adopt compared: peer-work",
    "adopt compared: local-work",
    "adopt compared: peer-tip",
    "adopt compared: local-tip",
    "adopt compared: peer-hash",
    "adopt compared: local-hash",
];

/// Which way a plan goes on the tree as it stands, by the reading.
pub fn ways(reading: &Reading, call: &Call) -> Vec<&'static str> {
    let mut ways = Vec::new();
    let told = &mut |way| ways.push(way);
    match call {
        Call::Select(terms) => drop(reading::select(&reading.view, terms, told)),
        Call::Adopt(terms) => drop(reading::adopt(&reading.view, terms, told)),
        _ => (),
    }
    ways
}

/// What a plan answered.
pub fn plan_answer(call: &Call, answer: &Answer) -> Option<String> {
    let name = call.name();
    match answer {
        Answer::Plan(Plan::Scan) => Some(format!("{name} answered scan")),
        Answer::Plan(Plan::Apply { changed: changed @ 0..=1, .. }) => Some(format!("{name} answered apply {changed}")),
        Answer::Plan(Plan::Apply { .. }) => Some(format!("{name} answered apply 2 or more")),
        _ => None,
    }
}

/// The outcome of a comparison call.
pub fn outcome(answer: &Answer) -> Option<String> {
    match answer {
        Answer::Chosen(_, reason) => Some(format!("choose {}", reason.kind())),
        _ => None,
    }
}

/// The original's own log lines of a plan, with their numbers left out.
pub fn log(call: &Call, lines: &[String]) -> Vec<String> {
    let shown = |line: &String| {
        let (head, tail) = line.rsplit_once(": ").unwrap_or((line, ""));
        let head = head.split(|c: char| c.is_ascii_digit()).next().unwrap_or("").trim();
        let why = match tail {
            "" | "nomination epoch" => tail,
            _ if tail.starts_with("Refusing") => "floor",
            _ => Reason::from_sentence(tail).map_or("other", |reason| reason.kind()),
        };
        format!("the original's log, {}: {head} {why}", call.name()).trim_end().to_string()
    };
    lines.iter().map(shown).collect()
}
