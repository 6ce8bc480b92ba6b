//! Runs calls on both: the reading of document 01 decides refusals, the
//! original answers the rest, and the two answers are compared.
use crate::coverage::{self, Coverage};
use crate::domain::Watched;
use history::{ask, lines, read_line, Answer, Ask, Call, Engine, Hash, Line, Terms};
use reading::{Reading, Refusal};
use std::collections::BTreeSet;

/// True when the original's sources are at hand.
pub fn at_hand() -> bool {
    original::at_hand() && original_journal::at_hand()
}

/// What to say where they are not.
pub const NOT_AT_HAND: &str = "the original's sources are not at hand (set MODALITY_SRC to a checkout of it): \
                               the comparison with the original was not run";

/// Where the original and the reading of document 01 differ.
#[derive(Clone, Debug)]
pub struct Difference {
    pub line: usize,
    pub what: String,
    pub reading: String,
    pub original: String,
}

/// Makes the engine that is judged, from a generation and a journal room.
pub type Start = fn(u64, u64) -> Option<Box<dyn Engine>>;

/// The original: the untouched cache.rs wherever the journal room is its own.
fn start_original(generation: u64, journal_room: u64) -> Option<Box<dyn Engine>> {
    if journal_room == 200_000 {
        original::start(generation, journal_room)
    } else {
        original_journal::start(generation, journal_room)
    }
}

/// A call with its line number and its answer.
pub struct Answered {
    pub number: usize,
    pub line: Vec<u8>,
    pub answer: Answer,
}

pub struct Judge {
    pub watched: Watched,
    start: Start,
    original: Option<Box<dyn Engine>>,
    /// After each sync, ask everything of both without being asked.
    pub sweep: bool,
    pub line: usize,
    pub differences: Vec<Difference>,
    /// The first line that left the domain of the comparison.
    pub outside: Option<usize>,
    /// Which ways calls went, counted unless `counting` is off: it asks the
    /// reading for every plan once more.
    pub coverage: Coverage,
    counting: bool,
    /// Every hash that was put or named as a previous hash.
    known: BTreeSet<Hash>,
}

impl Judge {
    /// Of the original, with nothing counted.
    pub fn of_original() -> Judge {
        Judge { counting: false, ..Judge::new(start_original, false) }
    }

    pub fn new(start: Start, sweep: bool) -> Judge {
        Judge {
            watched: Watched::default(),
            start,
            original: None,
            sweep,
            line: 0,
            differences: Vec::new(),
            outside: None,
            coverage: Coverage::default(),
            counting: true,
            known: BTreeSet::new(),
        }
    }

    /// Runs a whole history on the original.
    pub fn run(history: &[u8], sweep: bool) -> (Judge, Vec<Answered>) {
        Judge::run_on(start_original, history, sweep)
    }

    /// Runs a whole history on any engine in the original's place.
    pub fn run_on(start: Start, history: &[u8], sweep: bool) -> (Judge, Vec<Answered>) {
        let mut judge = Judge::new(start, sweep);
        let mut answered = Vec::new();
        for line in lines(history) {
            judge.line += 1;
            let answer = match read_line(line) {
                Line::Passed => continue,
                Line::Call(call) => judge.call(&call),
                Line::NoCall(why) => Answer::NoCall(why),
            };
            answered.push(Answered { number: judge.line, line: line.to_vec(), answer });
        }
        (judge, answered)
    }

    /// The original's answer, or the reading's where the call is refused or
    /// the original is not at hand.
    pub fn call(&mut self, call: &Call) -> Answer {
        let counted = self.counting && *call == Call::Sync;
        let rebuilds = counted && self.watched.reading().is_some_and(Reading::rebuilds);
        let in_time = self.watched.domain.in_time();
        let mut answer = self.watched.call(call);
        if self.watched.domain.left.is_some() {
            self.outside.get_or_insert(self.line);
        }
        match answer {
            Answer::NoCall(_) => return answer,
            Answer::Refused(number) => {
                self.count(|| format!("refused {number:2} by {}", call.name()));
                if number == Refusal::List.number() {
                    self.compare_questions(std::slice::from_ref(call), "unlent");
                }
                return answer;
            }
            _ => self.count(|| format!("call {}", call.name())),
        }
        shims::take_log();
        if let Some(theirs) = self.mirror(call) {
            if answer != theirs {
                self.differ(&call.to_string(), &answer, &theirs);
            }
            answer = theirs;
        }
        if self.counting {
            self.cover(call, &answer, rebuilds, in_time);
        }
        if self.sweep && *call == Call::Sync {
            self.compare_trees();
        }
        answer
    }

    fn count(&mut self, what: impl FnOnce() -> String) {
        if self.counting {
            self.coverage.count(what());
        }
    }

    /// Makes an accepted call on the original; its answer to a question.
    fn mirror(&mut self, call: &Call) -> Option<Answer> {
        let holding = &self.watched.reading()?.holding;
        if let Call::Start { journal, generation, .. } = call {
            self.original = (self.start)(*generation, *journal);
            self.known.clear();
        }
        if let Call::Load(_, block) | Call::Put(_, block) = call {
            self.known.extend([block.hash, block.prev]);
        }
        let original = self.original.as_mut()?;
        match call {
            Call::Reload { generation, .. } => original.reload(*generation),
            Call::Load(store, block) => original.load(*store, block),
            Call::Put(store, block) => original.put(*store, block),
            Call::Remove(store, hash) => original.remove(*store, *hash),
            Call::Sync => original.sync(&|hash| holding.answer_of(hash)),
            Call::Start { .. } | Call::Answer(..) | Call::Lend(_) => (),
            _ => return ask_original(&**original, call, holding.first_version),
        }
        None
    }

    /// Asks both and compares.
    fn compare_questions(&mut self, calls: &[Call], when: &str) {
        let (Some(reading), Some(original)) = (self.watched.reading(), &self.original) else {
            return;
        };
        let first = reading.holding.first_version;
        let differ = |call: &Call| {
            let (ours, theirs) = (ask(reading, call)?, ask_original(&**original, call, first)?);
            (ours != theirs).then(|| (format!("{when}: {call}"), ours, theirs))
        };
        for (what, ours, theirs) in calls.iter().filter_map(differ).collect::<Vec<_>>() {
            self.differ(&what, &ours, &theirs);
        }
    }

    /// After a sync: every tree question and a sweep of plans on both, and the
    /// reading's incremental tree against its definitions.
    fn compare_trees(&mut self) {
        let mut calls = vec![Call::Best, Call::CanonicalBest, Call::CanonicalCount, Call::LiveCount, Call::Leaves];
        calls.extend([Call::Count, Call::Generation, Call::Version]);
        for hash in &self.known {
            let asks = [Call::Node, Call::Parent, Call::Linked, Call::CanonicalLinked, Call::Effective];
            calls.extend(asks.map(|ask| ask(*hash)));
        }
        for terms in sweep_terms(self.line as u64) {
            calls.extend([Call::Select(terms), Call::Adopt(terms)]);
        }
        self.compare_questions(&calls, "after the sync");
        let Some(reading) = self.watched.reading() else {
            return;
        };
        let same = reading.from_scratch() == reading.view;
        let in_time = self.watched.domain.in_time();
        let told = match (in_time, same) {
            (true, _) => "sync compared from scratch",
            (false, true) => "sync after a late answer, as from scratch all the same",
            (false, false) => "sync after a late answer, not as from scratch",
        };
        self.count(|| told.to_string());
        if in_time && !same {
            let (line, what) = (self.line, "after the sync, in time: the tree".to_string());
            let (reading, original) = ("as from scratch".to_string(), "not so".to_string());
            self.differences.push(Difference { line, what, reading, original });
        }
    }

    /// Keeps a difference, unless the history has left the domain.
    fn differ(&mut self, what: &str, ours: &Answer, theirs: &Answer) {
        if self.outside.is_none() {
            let (line, what) = (self.line, what.to_string());
            self.differences.push(Difference { line, what, reading: ours.to_string(), original: theirs.to_string() });
        }
    }

    /// Counts which way an accepted call went.
    fn cover(&mut self, call: &Call, answer: &Answer, rebuilds: bool, was_in_time: bool) {
        let Some(reading) = self.watched.reading() else {
            return;
        };
        let count = &mut self.coverage;
        match call {
            Call::Start { journal: 200_000, .. } => count.count("journal 200000"),
            Call::Start { .. } => count.count("journal other"),
            Call::Sync => count.count(if rebuilds { "sync rebuild" } else { "sync incremental" }),
            Call::Select(_) | Call::Adopt(_) => {
                coverage::ways(reading, call).into_iter().for_each(|way| count.count(way));
                coverage::plan_answer(call, answer).into_iter().for_each(|way| count.count(way));
                coverage::log(call, &shims::take_log()).into_iter().for_each(|way| count.count(way));
            }
            Call::Choose(..) => coverage::outcome(answer).into_iter().for_each(|way| count.count(way)),
            Call::Answer(..) if was_in_time && !self.watched.domain.in_time() => count.count("answer too late"),
            _ => (),
        }
    }
}

/// The versions of the original start at 0, those of a history at the version
/// that start or reload named.
fn ask_original(original: &dyn Ask, call: &Call, first: u64) -> Option<Answer> {
    match call {
        Call::Version => Some(Answer::Number(first + original.version())),
        Call::Changes { version, .. } if *version < first => Some(Answer::None),
        Call::Changes { generation, version } => {
            ask(original, &Call::Changes { generation: *generation, version: version - first })
        }
        _ => ask(original, call),
    }
}

/// Floors and epochs' lengths for the sweep: both ends, and some in between
/// that turn with the line.
pub fn sweep_terms(turn: u64) -> Vec<Terms> {
    let ends = [(None, 0), (None, 2), (Some(0), 1), (Some(2), 2), (Some(u64::MAX), 10), (Some(4), u64::MAX)];
    let turning = [(Some(turn % 7), turn % 5), (None, turn % 11)];
    let terms = |(floor, n)| Terms { floor, n, clock: -7 };
    ends.into_iter().chain(turning).map(terms).collect()
}
