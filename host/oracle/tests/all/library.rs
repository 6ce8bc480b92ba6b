//! The library against the original and the reading of document 01: recorded
//! histories and random ones.
use crate::common::with_original;
use crate::recorded::{all, text};
use history::{Answer, Call, Hash};
use oracle::against::Against;
use oracle::generate::{generate, HOLDINGS, PROFILES};
use oracle::library::{compare, differs, given, library, Compared, Player};
use std::io::Write;
use std::sync::Once;

static TOLD: Once = Once::new();

fn with_library() -> bool {
    if !cadraspes::linked() {
        TOLD.call_once(|| drop(writeln!(std::io::stderr(), "{}", cadraspes::NOT_LINKED)));
    }
    cadraspes::linked()
}

/// The answers of a recorded text, entries of lists with their heads.
fn recorded_answers(text: &str) -> Vec<String> {
    let mut answers: Vec<String> = Vec::new();
    for line in text.lines() {
        match answers.last_mut().filter(|_| line.starts_with("  ")) {
            Some(last) => *last += &format!("\n{line}"),
            None => answers.push(line.to_string()),
        }
    }
    answers
}

/// Every recorded history.
#[test]
fn the_library_gives_the_recorded_answers() {
    if !with_library() {
        return;
    }
    let (mut files, mut calls) = (0, 0);
    for file in all() {
        let expected = recorded_answers(&text(&file.with_extension("answers")));
        let given = given(text(&file).as_bytes(), library());
        for (one, expected) in given.iter().zip(&expected) {
            let difference = differs(one, expected);
            assert!(difference.is_none(), "{}: {}", file.display(), difference.unwrap());
        }
        assert_eq!(given.len(), expected.len(), "{}", file.display());
        files += 1;
        calls += given.len();
    }
    assert!(files >= 140 && calls >= 1_600, "{files} histories, {calls} calls");
}

#[test]
fn random_histories_of_the_holdings() {
    with_original();
    if with_library() {
        let compared = compare(4_000, 5_000_000, &[HOLDINGS], library, &|_| {});
        assert!(compared.difference.is_none(), "{}", compared.difference.unwrap());
        assert!(compared.met.calls > 200 * compared.histories, "{}", compared.summary());
        let often = compared.met.refused.iter().filter(|(_, times)| **times > 100).map(|(number, _)| *number);
        assert!(often.eq([1, 2, 3, 4, 5, 6, 7, 8, 9, 10, 11, 13]), "{}", compared.summary());
    }
}

/// The other profiles too, late answers among them: whole histories, with every
/// question after each sync.
#[test]
fn random_histories_of_all_profiles() {
    if with_library() {
        let compared = compare(150 * PROFILES.len() as u64, 6_000_000, &PROFILES, library, &|_| {});
        assert!(compared.difference.is_none(), "{}", compared.difference.unwrap());
        assert!(compared.met.syncs > 5 * compared.histories, "{}", compared.summary());
        assert!((1..=13).all(|number| compared.met.refused.contains_key(&number)), "{}", compared.summary());
    }
}

#[test]
fn histories_of_the_holdings_ask_the_library_only() {
    let known = "start reload load put remove answer effective count generation version changes lend amount";
    let known: Vec<&str> = known.split(' ').collect();
    for seed in 0..20 {
        for line in generate(seed, HOLDINGS).unwrap().lines().skip(1) {
            assert!(known.contains(&line.split(' ').next().unwrap()), "{line}");
        }
    }
}

/// Players that are wrong in one call each.
fn wrong(call: &'static str, from: &'static str, to: &'static str) -> Player {
    let Player { call: mut right, covers } = library();
    let answered = move |asked: &Call| {
        let answer = right(asked);
        let there = asked.name() == call && answer.to_string().starts_with(from);
        if there {
            Answer::Number(to.parse().expect("a number"))
        } else {
            answer
        }
    };
    Player { call: Box::new(answered), covers }
}

/// A player that does not add one to the index.
fn wrong_in_covering() -> Player {
    Player { covers: |index, epoch, n| cadraspes::covers(index.saturating_sub(1), epoch, n), ..library() }
}

#[test]
fn a_wrong_library_is_found_and_its_history_made_small() {
    if !with_library() {
        return;
    }
    let players: [fn() -> Player; 4] = [
        || wrong("put", "4", "0"),
        || wrong("changes", "0 none", "0"),
        || wrong("version", "0 3", "4"),
        || wrong("answer", "11", "9"),
    ];
    for player in players {
        small(compare(500, 7_000_000, &[HOLDINGS], player, &|_| {}), 6);
    }
    let trees: [fn() -> Player; 10] = [
        || wrong("select", "0 apply 1", "1"),
        || wrong("adopt", "0 scan", "0"),
        || wrong("adopt", "0 apply 0 1", "1"),
        wrong_in_covering,
        || wrong("choose", "0 remote peer-tip", "1"),
        || wrong("best", "0 ", "0"),
        || wrong("linked", "0 0x2 no", "0"),
        || wrong("leaves", "0 2", "2"),
        || wrong("parent", "0 none", "0"),
        || wrong("live", "12", "0"),
    ];
    for player in trees {
        small(compare(500, 8_000_000, &PROFILES, player, &|_| {}), 6);
    }
}

/// A player that removes another hash from the canon store than it is told to:
/// no answer is changed on its way, what it holds is wrong.
fn forgetful() -> Player {
    let Player { call: mut right, covers } = library();
    let answered = move |asked: &Call| match asked {
        Call::Remove(2, _) => right(&Call::Remove(2, Hash([0xee; 32]))),
        _ => right(asked),
    };
    Player { call: Box::new(answered), covers }
}

#[test]
fn what_is_held_wrongly_is_found_and_its_history_made_small() {
    if !with_library() {
        return;
    }
    let difference = compare(500, 9_000_000, &PROFILES, forgetful, &|_| {}).difference.expect("it is wrong");
    let calls: Vec<&str> = difference.lines().filter(|line| !line.starts_with('#')).collect();
    let names: Vec<&str> = calls.iter().map(|call| call.split(' ').next().unwrap()).collect();
    assert!(matches!(names[..], ["start", "put" | "load", "remove", _]), "{difference}");
    assert!(calls[2].starts_with("remove 2 "), "{difference}");
    assert!(difference.starts_with("# from: oracle gen 9000"), "{difference}");
    let again = Against::run(difference.as_bytes(), forgetful());
    assert!(again.difference.is_some() && !again.left(), "what is printed is such a history itself");
    assert!(Against::run(difference.as_bytes(), library()).difference.is_none());
}

/// Where a history leaves the domain, the library must not be as the original
/// is; nothing is compared from there on.
#[test]
fn nothing_is_compared_outside_the_domain() {
    if !with_library() {
        return;
    }
    let history = "start 8 200000 1 0\nput 0 a 0 0 0 \"5\" \"5\" - - - -\nanswer a 2\nsync\nremove 0 a\nsync\n\
        put 0 a 0 0 0 \"5\" \"5\" - - - -\nsync\nlinked a\n";
    let against = Against::run(history.as_bytes(), library());
    assert!(against.left() && against.difference.is_none() && against.line() == 8);
    let given_again = history.replace("sync\nlinked", "answer a 2\nsync\nlinked");
    let against = Against::run(given_again.as_bytes(), library());
    assert!(!against.left() && against.difference.is_none() && against.line() == 10);
}

fn small(compared: Compared, calls: usize) {
    let difference = compared.difference.expect("it is wrong");
    let left = difference.lines().filter(|line| !line.starts_with('#')).count();
    assert!(difference.contains("the library: 0") && left <= calls, "{difference}");
}
