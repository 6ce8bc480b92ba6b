//! Every drawing against the reading of document 01: all recorded histories and
//! random ones, after each of their lines.
use crate::common::{with_library, Rng};
use crate::recorded::{all, text};
use crate::table::Table;
use crate::xml;
use cadraspes::draw::{self, Played};
use history::{Ask, Hash};
use reading::{Reading, Record, Replay};
use std::collections::BTreeMap;

/// A history drawn after each line.
#[derive(Default)]
struct Both {
    played: Played,
    reading: Replay,
    /// How often each reason was met.
    met: BTreeMap<&'static str, usize>,
}

impl Both {
    fn line(&mut self, line: &[u8]) {
        let told = String::from_utf8_lossy(line).into_owned();
        // Drawings in between change no answer.
        assert_eq!(self.played.line(line), self.reading.line(line), "{told}");
        let Some(reading) = &self.reading.0 else { return };
        let (drawn, svg) = (draw::text(&self.played.scene()), draw::svg(&self.played.scene()));
        let boxes = xml::texts(&svg).unwrap_or_else(|why| panic!("{told}: {why}\n{svg}"));
        assert_eq!(boxes.iter().filter(|(path, _)| path == "svg/g/title").count() as u64, reading.count());
        let table = Table::of(&drawn);
        assert_eq!(table.0.len() as u64, reading.count(), "{told}\n{drawn}");
        for at in 0..table.0.len() {
            let block = Hash::read(table.0[at].cell("hash")).and_then(|hash| reading.effective(hash));
            check(reading, &block.expect("a block that is held"), &table, at, &mut self.met);
        }
        self.tips(&table);
    }

    fn tips(&self, table: &Table) {
        let Some(reading) = self.reading.0.as_ref().filter(|reading| reading.holding.fresh) else { return };
        let tips = [("<- BEST", reading.best()), ("<- CANONICAL BEST", reading.canonical_best())];
        for (word, tip) in tips {
            let marked: Vec<&str> =
                table.0.iter().filter(|row| row.remarks.contains(word)).map(|row| row.cell("hash")).collect();
            assert_eq!(marked, tip.map(|(hash, _)| hash.to_string()).into_iter().collect::<Vec<_>>(), "{word}");
        }
    }
}

/// One row: its cells, its line, its reason.
fn check(reading: &Reading, block: &Record, table: &Table, at: usize, met: &mut BTreeMap<&'static str, usize>) {
    let (row, fresh) = (&table.0[at], reading.holding.fresh);
    let answer = |answer: String| if fresh { answer } else { "?".to_string() };
    let work = |work: Option<history::Work>| work.map_or("-".to_string(), |work| work.to_string());
    let is = |is: bool, word: &str| if is { word } else { "-" }.to_string();
    let expected = [
        ("index", block.index.to_string()),
        ("previous", block.prev.to_string()),
        ("live", is(!block.marks.orphaned, "live")),
        ("canonical", is(block.marks.canonical, "c")),
        ("linked", answer(work(reading.linked(block.hash)))),
        ("clinked", answer(work(reading.canonical_linked(block.hash)))),
        ("leaf", answer(is(reading.leaves().contains(&block.hash), "leaf"))),
    ];
    for (column, cell) in expected {
        assert_eq!(row.cell(column), cell, "{column} of {}", block.hash);
    }
    let named = reading.effective(block.prev).filter(|named| Some(named.index) == block.index.checked_sub(1));
    let parent = fresh && reading.parent(block.hash).is_some();
    assert_eq!(table.led(at), named.map(|named| (named.hash.to_string(), parent)), "the line from {}", block.hash);
    let reasons = row.remarks.split_once("not linked: ").map_or(Vec::new(), |(_, why)| why.split("; ").collect());
    assert_eq!(reasons, missing(reading, block, met), "why {}", block.hash);
    let unseen = fresh && reading.linked(block.hash).is_some() && reading.holding.answer_of(block.hash) == 2;
    assert_eq!(row.remarks.contains("answered ineligible, not seen yet"), unseen, "{}", block.hash);
}

/// The conditions that a block does not meet, in document 01's order.
fn missing(reading: &Reading, block: &Record, met: &mut BTreeMap<&'static str, usize>) -> Vec<String> {
    if !reading.holding.fresh || reading.linked(block.hash).is_some() {
        return Vec::new();
    }
    if let (true, reason) = (block.marks.orphaned, block.marks.reason) {
        *met.entry("orphaned").or_default() += 1;
        return vec![reason.map_or("orphaned".to_string(), |reason| format!("orphaned ({})", reason.kind()))];
    }
    let (above, prev) = (block.index > 0, block.prev);
    let named = reading.effective(prev).filter(|_| above);
    let parent = reading.parent(block.hash);
    let below = parent.and_then(|parent| reading.linked(parent.hash));
    let index = named.map_or(0, |named| named.index);
    let past = below.zip(block.actual).is_some_and(|(below, actual)| below.value.checked_add(actual).is_none());
    let conditions = [
        ("unreadable", block.actual.is_none(), "actual unreadable".to_string()),
        ("ineligible", reading.holding.answer_of(block.hash) == 2, "answered ineligible".to_string()),
        ("there", above && named.is_none(), format!("parent {prev} is not there")),
        (
            "index",
            named.is_some_and(|named| named.index.checked_add(1) != Some(block.index)),
            format!("named block {prev} has another index, {index}"),
        ),
        ("live", named.is_some_and(|named| named.marks.orphaned), format!("parent {prev} not live")),
        ("linked", parent.is_some() && below.is_none(), format!("parent {prev} not linked")),
        ("sum", past, "the sum passes 128 bits".to_string()),
    ];
    let all: Vec<_> = conditions.into_iter().filter(|(_, misses, _)| *misses).collect();
    all.iter().for_each(|(name, ..)| *met.entry(name).or_default() += 1);
    assert!(!all.is_empty(), "{} has a reason", block.hash);
    all.into_iter().map(|(_, _, told)| told).collect()
}

#[test]
fn recorded_histories_are_drawn_as_read() {
    if !with_library() {
        return;
    }
    for file in all() {
        let (mut both, history) = (Both::default(), text(&file));
        history::lines(&history).for_each(|line| both.line(line));
    }
}

const TOP: &str = "340282366920938463463374607431768211455";

/// A call over thirty names, each with its own header: mostly one above a
/// lower name, some of them odd.
fn random(rng: &mut Rng) -> String {
    let name = rng.below(30) + 1;
    let odd = name.is_multiple_of(7);
    let prev = if odd { name * 3 % 31 } else { name / 2 + name % 2 };
    let level = |name: u64| if name < 2 { 0 } else { 64 - u64::from((name - 1).leading_zeros()) };
    let actual = if name % 11 == 9 { ["", TOP][name as usize % 2] } else { ["1", "2"][name as usize % 2] };
    let marks = rng.pick(&["- - - -", "- - - -", "c - - -", "c - - -", "o 5 stale -", "oc - - -"]);
    let store = rng.below(3);
    match rng.below(16) {
        0..=8 => format!("put {store} {name:x} {} 0 {prev:x} \"2\" \"{actual}\" {marks}", level(name)),
        9 | 10 => format!("remove {store} {name:x}"),
        11 => format!("answer {name:x} {}", rng.pick(&[0, 1, 1, 2])),
        _ => "sync".to_string(),
    }
}

#[test]
fn random_histories_are_drawn_as_read() {
    if !with_library() {
        return;
    }
    let (mut rng, mut met) = (Rng(11), BTreeMap::new());
    for _ in 0..60 {
        let mut both = Both { met, ..Both::default() };
        both.line(format!("start 30 {} 1 0", 1 + rng.below(40)).as_bytes());
        for _ in 0..150 {
            both.line(random(&mut rng).as_bytes());
        }
        met = both.met;
    }
    let reasons = ["unreadable", "ineligible", "there", "index", "live", "linked", "sum", "orphaned"];
    assert!(reasons.iter().all(|reason| met.get(reason).is_some_and(|times| *times > 20)), "{met:?}");
}
