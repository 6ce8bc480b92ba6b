//! Checking answers, making histories small, and running many of them.
use oracle::check::first_difference;
use oracle::compare::{describe, differs};
use oracle::judge::Judge;
use oracle::many::many;
use oracle::shrink::{shrink, shrink_within};

const HISTORY: &str = "frob\nstart 4 9 1 0\n# a remark\nput 0 a 0 0 0 \"1\" \"1\" c - - -\nsync\nleaves\nversion\n";
const ANSWERS: &str = "? it is no call\n0\n0\n0\n0 1\n  a\n0 1\n";

fn difference(answers: &str) -> Option<String> {
    first_difference(&Judge::run(HISTORY.as_bytes(), false).1, answers.as_bytes())
}

#[test]
fn the_same_answers_but_for_the_words_after_the_question_mark() {
    assert_eq!(difference(ANSWERS), None);
    assert_eq!(difference(&ANSWERS.replace("? it is no call", "?")), None);
}

#[test]
fn another_answer_is_told_by_its_lines() {
    let told = difference(&ANSWERS.replace("  a", "  b")).unwrap();
    assert!(told.starts_with("history line 6, answers line 5: leaves\n"), "{told}");
    let told = difference(&ANSWERS.replace("0 1\n  a\n", "0 0\n")).unwrap();
    assert!(told.starts_with("history line 6, "), "{told}");
}

#[test]
fn missing_and_extra_answers_are_told() {
    let told = difference(ANSWERS.strip_suffix("0 1\n").unwrap()).unwrap();
    assert!(told.starts_with("history line 7, "), "{told}");
    let told = difference(&(ANSWERS.to_string() + "0\n")).unwrap();
    assert!(told.starts_with("answers line 8: "), "{told}");
}

/// True when the last answer of the reading ends so.
fn ends(history: &[u8], answer: &str) -> bool {
    reading::replay(history).ends_with(answer)
}

#[test]
fn a_history_is_made_small() {
    let history =
        b"# long\nstart 64 200000 1 0\nput 1 b 7 3 9 \"5\" \"9\" o 5 stale a\nput 2 a 0 1 9 \"5\" \"9\" c - - -\n\
        put 0 c 1 0 a \"4\" \"2\" - - - -\nput 0 d 2 0 c \"4\" \"2\" - - - -\nsync\nbest\nleaves\nlinked d\n";
    let small = shrink(history, &|history| ends(history, " no\n")).unwrap();
    let small = String::from_utf8(small).unwrap();
    let expected =
        "start 16 200000 1 0\nput 0 c 0 0 0 \"1\" \"1\" - - - -\nput 0 d 1 0 c \"2\" \"1\" - - - -\nsync\nlinked d\n";
    assert!(small.lines().count() <= 5, "{small}");
    assert_eq!(small.replace("best", "linked d"), expected);
    assert_eq!(shrink(history, &|history| ends(history, "nothing of the kind\n")), None);
}

#[test]
fn a_history_without_a_difference_is_none_to_describe() {
    assert!(!differs(HISTORY.as_bytes()));
    assert!(describe(HISTORY.as_bytes(), "here").contains("leaves the domain"));
}

/// With few bytes to be tried the history is left larger, and still holds.
#[test]
fn making_small_ends_where_no_more_may_be_tried() {
    let history: String = (0..2000).map(|at| format!("version {at}\n")).collect();
    let holds = |history: &[u8]| String::from_utf8_lossy(history).contains("version 1234\n");
    let lines = |bytes| {
        let small = shrink_within(bytes, history.as_bytes(), &holds).expect("it holds");
        assert!(holds(&small));
        small.iter().filter(|byte| **byte == b'\n').count()
    };
    let whole = history.len();
    assert_eq!([0, whole / 4, whole, 10 * whole].map(lines), [2000, 2000, 1000, 1]);
    assert!(lines(2 * whole) < 1000);
}

#[test]
fn many_are_handed_on_in_their_order_up_to_the_last_that_is_wanted() {
    // The first of each ten takes longest.
    let run = |at: u64| (0..if at.is_multiple_of(10) { 200_000 } else { 1 }).fold(at, |sum, one| sum ^ one ^ one);
    for last in [0, 1, 37, 99] {
        let mut seen = Vec::new();
        many(100, run, |at, result| {
            seen.push((at, result));
            at < last
        });
        assert!(seen.into_iter().eq((0..=last).map(|at| (at, at))), "up to {last}");
    }
    many(0, run, |_, _| panic!("there is none"));
}
