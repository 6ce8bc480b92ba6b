//! The original against the reading of document 01 over many histories.
use crate::coverage::Coverage;
use crate::generate::{generate, PROFILES};
use crate::judge::Judge;
use crate::many::many;
use crate::shrink::shrink;
use std::collections::BTreeMap;

/// What a comparison of many histories came to.
#[derive(Default)]
pub struct Compared {
    pub histories: u64,
    pub calls: u64,
    pub syncs: u64,
    /// A history on which the two differ, made small, with what differs.
    pub difference: Option<String>,
}

impl Compared {
    /// What is told on the way.
    pub fn so_far(&self, count: u64) -> String {
        format!("{} of {count} histories, {} calls: no difference so far", self.histories, self.calls)
    }

    pub fn summary(&self) -> String {
        let found = if self.difference.is_some() { "a difference" } else { "no difference" };
        format!("{} histories, {} calls, {} syncs: {found}", self.histories, self.calls, self.syncs)
    }
}

/// Runs `count` histories, spread evenly over the profiles, until one differs.
/// `progress` hears of every twentieth part, and of every 500.
pub fn compare(count: u64, seed: u64, profiles: &[&str], progress: &dyn Fn(&Compared)) -> Compared {
    let of = |at: u64| (seed + at / profiles.len() as u64, profiles[(at % profiles.len() as u64) as usize]);
    let step = (count / 20).clamp(1, 500);
    let run = |at: u64| {
        let (seed, profile) = of(at);
        let (judge, answered) = Judge::run(generate(seed, profile).expect("a profile").as_bytes(), true);
        let syncs = judge.coverage.0.get("call sync").copied().unwrap_or(0);
        (!judge.differences.is_empty() || judge.outside.is_some(), answered.len() as u64, syncs)
    };
    let (mut compared, mut wrong) = (Compared::default(), None);
    many(count, run, |at, (differs, calls, syncs)| {
        compared.histories += 1;
        compared.calls += calls;
        compared.syncs += syncs;
        if compared.histories % step == 0 && !differs {
            progress(&compared);
        }
        wrong = differs.then_some(at);
        !differs
    });
    let described = |(seed, profile)| {
        let history = generate(seed, profile).expect("a profile");
        describe(history.as_bytes(), &format!("oracle gen {seed} {profile}"))
    };
    compared.difference = wrong.map(of).map(described);
    compared
}

/// True when the two differ on a history, within the domain.
pub fn differs(history: &[u8]) -> bool {
    !Judge::run(history, true).0.differences.is_empty()
}

/// A history on which the two differ, made small, with what differs.
pub fn describe(history: &[u8], from: &str) -> String {
    let Some(small) = shrink(history, &differs) else {
        return format!("# from: {from}\n# it leaves the domain of the comparison\n");
    };
    let (judge, _) = Judge::run(&small, true);
    let mut out = format!("# from: {from}\n");
    for difference in judge.differences.iter().take(3) {
        let told = format!("line {}: {}", difference.line, difference.what);
        let (ours, theirs) = (difference.reading.replace('\n', "\n# "), difference.original.replace('\n', "\n# "));
        out += &format!("# {told}\n#   document 01:  {ours}\n#   the original: {theirs}\n");
    }
    out + &String::from_utf8_lossy(&small)
}

/// Generates and compares the histories of seeds `from` to `to` - 1, and gives
/// the coverage table by profile, and how many differed.
pub fn cover(from: u64, to: u64, profiles: &[&str]) -> (String, u64) {
    let mut table: BTreeMap<String, Vec<u64>> = BTreeMap::new();
    let mut bad = 0;
    for (place, profile) in profiles.iter().enumerate() {
        for seed in from..to {
            let history = generate(seed, profile).expect("a profile");
            let (judge, answered) = Judge::run(history.as_bytes(), true);
            bad += u64::from(!judge.differences.is_empty() || judge.outside.is_some());
            let Coverage(mut counted) = judge.coverage;
            counted.extend([("histories".to_string(), 1), ("calls".to_string(), answered.len() as u64)]);
            for (what, times) in counted {
                table.entry(what).or_insert_with(|| vec![0; profiles.len()])[place] += times;
            }
        }
    }
    (show_table(&table, profiles, bad), bad)
}

fn show_table(table: &BTreeMap<String, Vec<u64>>, profiles: &[&str], bad: u64) -> String {
    let mut out = format!("| what | {} | all |\n|---|{}\n", profiles.join(" | "), "---:|".repeat(profiles.len() + 1));
    for (what, times) in table {
        let cells: Vec<String> = times.iter().map(u64::to_string).collect();
        out += &format!("| {what} | {} | {} |\n", cells.join(" | "), times.iter().sum::<u64>());
    }
    let missing: Vec<&str> = crate::coverage::PLAN_WAYS.into_iter().filter(|way| !table.contains_key(*way)).collect();
    out += &format!(
        "\nPlan branches never taken: {}.\n",
        if missing.is_empty() { "none".into() } else { missing.join("; ") }
    );
    out + &format!("\nHistories on which the original and document 01 differ: {bad}.\n")
}

/// All profiles, or those named.
pub fn profiles_or_all<'a>(named: &[&'a str]) -> Vec<&'a str> {
    if named.is_empty() {
        PROFILES.to_vec()
    } else {
        named.to_vec()
    }
}
