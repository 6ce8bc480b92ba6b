//! The judge itself: an engine that is wrong is found out, wherever it is.
use history::{Amount, Ask, Block, Choice, Engine, Hash, Plan, Reason, Side, Terms, Work};
use oracle::judge::Judge;

/// Holds nothing, and says so whatever it is told.
struct Empty;

impl Ask for Empty {
    fn effective(&self, _: Hash) -> Option<Block<Amount>> {
        None
    }
    fn count(&self) -> u64 {
        0
    }
    fn generation(&self) -> u64 {
        1
    }
    fn version(&self) -> u64 {
        0
    }
    fn changes(&self, _: u64, _: u64) -> Option<Vec<Hash>> {
        Some(Vec::new())
    }
    fn node(&self, _: Hash) -> Option<Block<Amount>> {
        None
    }
    fn parent(&self, _: Hash) -> Option<Block<Amount>> {
        None
    }
    fn linked(&self, _: Hash) -> Option<Work> {
        None
    }
    fn canonical_linked(&self, _: Hash) -> Option<Work> {
        None
    }
    fn best(&self) -> Option<(Hash, Work)> {
        None
    }
    fn canonical_best(&self) -> Option<(Hash, Work)> {
        None
    }
    fn canonical_count(&self) -> u64 {
        0
    }
    fn live_count(&self) -> u64 {
        0
    }
    fn leaves(&self) -> Vec<Hash> {
        Vec::new()
    }
    fn select(&self, _: &Terms) -> Plan {
        Plan::Scan
    }
    fn adopt(&self, _: &Terms) -> Plan {
        Plan::Scan
    }
    fn choose(&self, local: &Side<String>, _: &Side<String>) -> (Choice, Reason) {
        (Choice::Equal, Reason::SameTip(local.hash))
    }
    fn amount(&self, _: &str) -> Amount {
        None
    }
}

impl Engine for Empty {
    fn reload(&mut self, _: u64) {}
    fn load(&mut self, _: u8, _: &Block<String>) {}
    fn put(&mut self, _: u8, _: &Block<String>) {}
    fn remove(&mut self, _: u8, _: Hash) {}
    fn sync(&mut self, _: &dyn Fn(Hash) -> u8) {}
}

/// The lines on which the empty engine is found to differ.
fn found(history: &str, sweep: bool) -> Vec<usize> {
    let (judge, _) = Judge::run_on(|_, _| Some(Box::new(Empty)), history.as_bytes(), sweep);
    let mut lines: Vec<usize> = judge.differences.iter().map(|one| one.line).collect();
    lines.dedup();
    lines
}

const NONE: [usize; 0] = [];
const CHAIN: &str = "start 8 9 1 0\nput 0 a 0 0 0 \"1\" \"1\" c - - -\nput 0 b 1 0 a \"1\" \"1\" - - - -\nsync\n";

#[test]
fn every_question_is_compared() {
    assert_eq!(found(CHAIN, false), NONE);
    for ask in [
        "node a",
        "parent b",
        "effective a",
        "linked b",
        "clinked a",
        "best",
        "cbest",
        "ccount",
        "live",
        "count",
        "version",
        "leaves",
        "changes 1 0",
        "select - 1 0",
        "adopt - 1 0",
        "choose \"1\" 0 a \"2\" 0 b",
        "amount \"1\"",
    ] {
        assert_eq!(found(&format!("{CHAIN}{ask}\n"), false), [5], "{ask}");
    }
    assert_eq!(found(&format!("{CHAIN}parent a\nnode c\nchanges 1 2\ngeneration\n"), false), NONE);
}

#[test]
fn the_sweep_asks_without_being_asked() {
    assert_eq!(found(CHAIN, true), [4]);
    assert_eq!(found("start 8 9 1 0\nsync\n", true), NONE);
}

#[test]
fn a_list_that_is_refused_for_its_length_is_compared_all_the_same() {
    assert_eq!(found(&format!("{CHAIN}lend 0\nleaves\n"), false), [6]);
}

#[test]
fn nothing_is_compared_outside_the_domain() {
    let left = "answer a 2\nsync\nremove 0 a\nsync\nput 0 a 0 0 0 \"1\" \"1\" c - - -\nsync\n";
    assert_eq!(found(&format!("{CHAIN}{left}best\ncbest\n"), false), NONE);
    assert_eq!(found(&format!("{CHAIN}{}best\ncbest\n", left.replacen("sync\n", "", 2)), false), [10]);
}

/// The answers given are the engine's, not the reading's.
#[test]
fn answers_are_the_engines() {
    let history = format!("{CHAIN}best\nlive\n");
    let (_, answered) = Judge::run_on(|_, _| Some(Box::new(Empty)), history.as_bytes(), false);
    let answers: Vec<String> = answered.iter().map(|one| one.answer.to_string()).collect();
    assert_eq!(answers, ["0", "0", "0", "0", "0 none", "0 0"]);
}
