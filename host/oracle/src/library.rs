//! The library against the original and the reading of document 01: many
//! histories on all three, answer by answer, refusals too.
use crate::against::{told, Against, Tally};
use crate::generate::generate;
use crate::judge::at_hand;
use crate::many::many;
use crate::shrink::shrink;
use cadraspes::Replay;
use history::{lines, read_line, Answer, Line};

pub use crate::against::Player;

pub fn library() -> Player {
    let mut replay = Replay::default();
    Player { call: Box::new(move |call| replay.call(call)), covers: cadraspes::covers }
}

/// A line of a history with the player's answer.
pub struct Given {
    line: usize,
    call: String,
    pub answer: Answer,
}

/// What a player answers to a history.
pub fn given(history: &[u8], mut player: Player) -> Vec<Given> {
    let mut all = Vec::new();
    for (text, line) in lines(history).zip(1..) {
        let answer = match read_line(text) {
            Line::Passed => continue,
            Line::NoCall(why) => Answer::NoCall(why),
            Line::Call(call) => (player.call)(&call),
        };
        all.push(Given { line, call: String::from_utf8_lossy(text).into_owned(), answer });
    }
    all
}

/// The library's answers as a text.
pub fn answers(history: &[u8]) -> String {
    given(history, library()).into_iter().map(|one| format!("{}\n", one.answer)).collect()
}

/// How a player's answer differs from the one expected; none if it does not.
pub fn differs(given: &Given, expected: &str) -> Option<String> {
    let answer = given.answer.to_string();
    let same = answer == expected || (answer.starts_with('?') && expected.starts_with('?'));
    (!same).then(|| told(given.line, &given.call, &answer, expected))
}

/// What a comparison of many histories came to.
#[derive(Default)]
pub struct Compared {
    pub histories: u64,
    pub met: Tally,
    /// A history on which the library differs, made small, with what differs.
    pub difference: Option<String>,
}

impl Compared {
    /// What is told on the way.
    pub fn so_far(&self, count: u64) -> String {
        format!("{} of {count} histories, {} calls: no difference so far", self.histories, self.met.calls)
    }

    pub fn summary(&self) -> String {
        let found = if self.difference.is_some() { "a difference" } else { "no difference" };
        let with = if at_hand() { "the original and the reading" } else { "the reading alone" };
        let Tally { calls, syncs, rebuilt, overrun, applied, scanned, held, refused } = &self.met;
        let refused: Vec<String> = refused.iter().map(|(number, times)| format!("{number}: {times}")).collect();
        let (histories, plans, refused) = (self.histories, applied + scanned, refused.join(", "));
        format!(
            "{histories} histories, {syncs} syncs ({rebuilt} rebuilt, {overrun} of them after an overrun), at most {held} \
             hashes held, {plans} plans ({scanned} scans), {calls} calls answered by the library, compared with {with} \
             (refused {refused}): {found}"
        )
    }
}

/// Runs `count` histories, spread evenly over the profiles, until one differs.
/// `progress` hears of every twentieth part, and of every 500.
pub fn compare(
    count: u64,
    seed: u64,
    profiles: &[&str],
    player: fn() -> Player,
    progress: &dyn Fn(&Compared),
) -> Compared {
    let of = |at: u64| (seed + at / profiles.len() as u64, profiles[(at % profiles.len() as u64) as usize]);
    let step = (count / 20).clamp(1, 500);
    let run = |at: u64| {
        let (seed, profile) = of(at);
        let against = Against::run(generate(seed, profile).expect("a profile").as_bytes(), player());
        (against.difference.is_some() || against.left(), against.tally)
    };
    let (mut compared, mut wrong) = (Compared::default(), None);
    many(count, run, |at, (differs, tally)| {
        compared.histories += 1;
        compared.met.add(tally);
        if compared.histories % step == 0 && !differs {
            progress(&compared);
        }
        wrong = differs.then_some(at);
        !differs
    });
    compared.difference = wrong.map(|at| describe(of(at), player));
    compared
}

/// The history of a seed and profile, on which a player differs, made small,
/// with what differs.
fn describe((seed, profile): (u64, &str), player: fn() -> Player) -> String {
    let from = format!("# from: oracle gen {seed} {profile}\n");
    let history = generate(seed, profile).expect("a profile");
    let whole = Against::run(history.as_bytes(), player());
    if whole.difference.is_none() {
        return from + "# it leaves the domain of the comparison\n";
    }
    // Nothing after the line that differs is needed.
    let history: Vec<u8> = history.split_inclusive('\n').take(whole.line()).collect::<String>().into_bytes();
    let difference = |history: &[u8]| Against::run(history, player()).difference;
    let small = shrink(&history, &|history| difference(history).is_some()).unwrap_or(history);
    format!("{from}{}{}", difference(&small).unwrap_or_default(), String::from_utf8_lossy(&small))
}
