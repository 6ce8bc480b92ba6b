//! The original against the reading of document 01 on random histories.
use oracle::compare::compare;
use oracle::generate::{generate, overrun, PROFILES};
use oracle::judge::Judge;

#[test]
fn random_histories_of_all_profiles() {
    if crate::common::with_original() {
        let compared = compare(22 * PROFILES.len() as u64, 4_000_000, &PROFILES, &|_| {});
        assert!(compared.difference.is_none(), "{}", compared.difference.unwrap());
        assert!(compared.histories >= 300 && compared.syncs > 3_000, "{}", compared.summary());
    }
}

/// The reading's incremental tree is what its definitions give from scratch,
/// and histories stay in the domain, with or without the original.
#[test]
fn histories_keep_to_the_domain() {
    for profile in PROFILES {
        for seed in 0..4 {
            let history = generate(seed, profile).unwrap();
            assert_eq!(history, generate(seed, profile).unwrap(), "the same seed gives the same history");
            let (judge, answered) = Judge::run(history.as_bytes(), true);
            assert_eq!(judge.outside, None, "oracle gen {seed} {profile}");
            assert!(judge.differences.is_empty(), "oracle gen {seed} {profile}: {:?}", judge.differences);
            assert!(answered.iter().all(|one| !one.answer.to_string().starts_with('?')));
        }
    }
}

/// A final answer that is not given again leaves the domain: there, and only
/// there, document 01 expects the two to differ.
#[test]
fn outside_the_domain_differences_are_told_apart() {
    let history = b"start 8 200000 1 0\nput 0 a 0 0 0 \"5\" \"5\" - - - -\nanswer a 2\nsync\nremove 0 a\nsync\n\
        put 0 a 0 0 0 \"5\" \"5\" - - - -\nsync\nlinked a\n";
    let (judge, answered) = Judge::run(history, true);
    assert_eq!(judge.outside, Some(8));
    assert!(judge.differences.is_empty());
    let by_reading = reading::replay(history);
    assert!(by_reading.ends_with("0\n0 0x5 ok\n"));
    if crate::common::with_original() {
        assert_eq!(answered.last().unwrap().answer.to_string(), "0 none");
    }
}

/// The untouched journal of 200,000 entries runs over, and the sync after it
/// rebuilds.
#[test]
fn the_untouched_journal_runs_over() {
    let (judge, answered) = Judge::run(overrun().as_bytes(), true);
    assert!(judge.differences.is_empty(), "{:?}", judge.differences);
    assert_eq!(judge.coverage.0.get("sync rebuild"), Some(&2));
    assert_eq!(judge.coverage.0.get("sync incremental"), Some(&1));
    let none = answered.iter().filter(|one| one.answer.to_string() == "0 none").count();
    assert!(none > 5, "changes that are not to be had: {none}");
}
