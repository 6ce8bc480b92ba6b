//! The library beside the original, on the same scripts in the same run. Rounds
//! of the two take turns. Every plan, every best block and the leaves must be
//! the same on both, once call by call, and again at the end of each round.
use crate::clock;
use crate::rows::{plan_rows, rows};
use crate::script::{Script, Step};
use crate::side::{library, original, Call, Side, Told};
use std::hint::black_box;

const ROUNDS: usize = 9;
/// A plan changes nothing, and some are long.
const PLAN_ROUNDS: usize = 5;

/// The steps that are timed. (A function by itself, so that a profiler can be
/// told to count inside of it alone.)
#[inline(never)]
pub fn timed(side: &mut Side, steps: &[Step]) -> u128 {
    let number = |told| if let Told::Number(number) = told { number } else { 0 };
    steps.iter().fold(0, |sum, step| sum + number(black_box(side(Call::Step(*step)))))
}

/// Gives the nanoseconds of a round, for one of what it is told for.
fn round(side: &mut Side, script: &Script) -> f64 {
    side(Call::Forget);
    timed(side, &script.before);
    let from = clock::now();
    black_box(timed(side, &script.timed));
    (clock::now() - from) / script.per as f64
}

/// Both sides tell the same, on a tree that is synced.
fn same(sides: &mut [Side; 2]) {
    for call in [Call::Tip, Call::Plan { adopt: false }, Call::Plan { adopt: true }, Call::Listed] {
        let [ours, theirs] = sides;
        assert_eq!(ours(call), theirs(call));
    }
}

/// The script once, with what is told compared at each step, and whole plans.
fn check(script: &Script, sides: &mut [Side; 2]) {
    let [ours, theirs] = sides;
    theirs(Call::Forget);
    for step in script.before.iter().chain(&script.timed) {
        let call = match step {
            Step::Select => Call::Plan { adopt: false },
            Step::Adopt => Call::Plan { adopt: true },
            step => Call::Step(*step),
        };
        assert_eq!(ours(call), theirs(call));
        if let Step::Sync = step {
            assert_eq!(ours(Call::Tip), theirs(Call::Tip));
        }
    }
}

/// Nanoseconds of the library and of the original, of each round, least first.
fn times(rounds: usize, script: &Script) -> [Vec<f64>; 2] {
    let mut sides = [library(script), original(script)];
    check(script, &mut sides);
    let mut times = [Vec::new(), Vec::new()];
    for _ in 0..rounds {
        for (side, times) in sides.iter_mut().zip(&mut times) {
            times.push(round(side, script));
        }
        sides.iter_mut().for_each(|side| drop(side(Call::Step(Step::Sync))));
        same(&mut sides);
    }
    times.iter_mut().for_each(|times| times.sort_by(f64::total_cmp));
    times
}

fn row(what: &str, held: usize, goal: &str, [ours, theirs]: [Vec<f64>; 2]) {
    let middle = |times: &[f64]| times[times.len() / 2];
    let (median, least) = (middle(&theirs) / middle(&ours), theirs[0] / ours[0]);
    let shown = |times: &[f64]| format!("{:.0} ({:.0})", middle(times), times[0]);
    println!("| {what} | {held} | {} | {} | {median:.1} | {least:.1} |{goal}", shown(&ours), shown(&theirs));
}

pub fn heading(goal: &str, line: &str) -> bool {
    if !original::at_hand() {
        eprintln!("the original's sources are not at hand: nothing is measured beside it");
        return false;
    }
    println!("| what | blocks held | library, ns | original, ns | times as fast | by the least |{goal}");
    println!("|---|---:|---:|---:|---:|---:|{line}");
    true
}

/// The rows whose word is among those given, or all.
pub fn table(words: &[String]) {
    if !heading(" goal |", "---:|") {
        return;
    }
    for case in rows().iter().filter(|row| words.is_empty() || words.iter().any(|word| word == row.key)) {
        for held in &case.held {
            row(case.what, *held, &format!(" {} |", case.goal), times(ROUNDS, &(case.script)(*held)));
        }
    }
}

pub fn plan_table() {
    if heading("", "") {
        plan_rows().into_iter().for_each(|(what, held, script)| row(&what, held, "", times(PLAN_ROUNDS, &script)));
    }
}

/// One side of a row alone, for a profiler: ROW HELD SIDE.
pub fn alone(words: &[String]) {
    let [key, held, side] = words else { panic!("alone ROW HELD library|original") };
    let row = rows().into_iter().find(|row| row.key == key).expect("the word of a row");
    let script = (row.script)(held.parse().expect("a number"));
    let mut side = if side == "library" { library(&script) } else { original(&script) };
    side(Call::Forget);
    script.before.iter().for_each(|step| drop(side(Call::Step(*step))));
    timed(&mut side, &script.timed);
    println!("{} of {key} were done", script.per);
}
