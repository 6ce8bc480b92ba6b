//! Random calls on the guarded library, with the numbers and answers of the
//! reading of document 01.
use crate::common::{with_library, Rng};
use crate::guarded::Library;
use history::Call;

const TEXTS: [&str; 8] = [
    "1",
    "01",
    "+1",
    "2",
    "",
    "x",
    "340282366920938463463374607431768211455",
    "340282366920938463463374607431768211456",
];

/// A call over few names and numbers from both ends, so that all refusals are
/// met.
fn random(rng: &mut Rng, version: u64) -> String {
    let name = rng.pick(&["0", "1", "2", "a", "f0", "ffffffffffffffff0000000000000000"]);
    let store = rng.pick(&[0, 0, 1, 1, 2, 2, 3, 255]);
    let index = rng.pick(&[0, 0, 0, 1, u64::MAX - 1, u64::MAX]);
    let (target, actual) = (rng.pick(&TEXTS[..4]), rng.pick(&TEXTS));
    let marks = rng.pick(&["- - - -", "o 5 - a", "c -1 stale -", "oc - peer-work:0x2:0x1 0"]);
    let back = version.saturating_sub(rng.below(5));
    let prev = rng.pick(&["1", "1", "1", "1", "2"]);
    match rng.below(32) {
        20..=25 => "sync".to_string(),
        26 | 27 => rng.pick(&["best", "cbest", "ccount", "live"]).to_string(),
        28 | 29 => format!("{} {name}", rng.pick(&["node", "parent", "linked", "clinked"])),
        30 | 31 => "leaves".to_string(),
        0 => format!("reload {} {}", rng.below(12), rng.pick(&[0, 3, u64::MAX - 2])),
        1 | 2 => format!("load {store} {name} {index} 0 {prev} \"{target}\" \"{actual}\" {marks}"),
        3..=7 => format!("put {store} {name} {index} 0 {prev} \"{target}\" \"{actual}\" {marks}"),
        8..=10 => format!("remove {store} {name}"),
        11 | 12 => format!("answer {name} {}", rng.below(4)),
        13 => format!("effective {name}"),
        14 => rng.pick(&["count", "generation", "version"]).to_string(),
        17 => {
            let (plan, floor) = (rng.pick(&["select", "adopt"]), rng.pick(&["-", "-", "0", "1"]));
            format!("{plan} {floor} {} {}", rng.below(3), rng.pick(&[0, -1, i64::MAX]))
        }
        15 => format!("lend {}", rng.pick(&["-", "0", "1", "2"])),
        16 if rng.below(3) > 0 => comparison(rng),
        16 => format!("amount \"{actual}\""),
        _ => format!("changes {} {}", rng.below(3), rng.pick(&[back, back, version, version.wrapping_add(1)])),
    }
}

fn comparison(rng: &mut Rng) -> String {
    let mut side = || {
        let work = rng.pick(&["?", "\"1\"", "\"2\"", "\"+1\"", "\"18446744073709551616\"", "\"\""]);
        let tip = rng.pick(&["1", "2", "10000000000000000", "ff000000000000000000000000000000000000000000000001"]);
        format!("{work} {} {tip}", rng.pick(&[0, 1, u64::MAX]))
    };
    format!("choose {} {}", side(), side())
}

#[test]
fn random_calls_are_answered_as_document_01_is_read() {
    if !with_library() {
        return;
    }
    let mut rng = Rng(6);
    let (mut refused, mut shown) = ([0; 14], 0);
    for _ in 0..2500 {
        let (mut library, mut replay) = (Library::default(), reading::Replay::default());
        let version = rng.pick(&[0, 0, u64::MAX - 6]);
        let start = format!("start {} {} 1 {version}", 1 + rng.below(6), 1 + rng.below(4));
        for turn in 0..80 {
            let now = replay.0.as_ref().map_or(0, |reading| reading.holding.version);
            let line = if turn == 0 { start.clone() } else { random(&mut rng, now) };
            let call = Call::read(&line).expect("a call");
            let answer = replay.call(&call);
            assert_eq!(library.call(&call), answer, "{line}");
            shown += u32::from(line.starts_with("leaves") && answer.length() > 1);
            if let history::Answer::Refused(number) = answer {
                refused[number as usize] += 1;
            }
        }
    }
    let met: Vec<usize> = (1..14).filter(|number| refused[*number] > 0).collect();
    assert_eq!(met, [2, 3, 4, 5, 6, 7, 8, 9, 10, 11, 12, 13], "{refused:?}");
    assert!(shown > 100, "{shown} lists of several leaves");
}

/// Thousands of hashes, some with their last eight bytes alike, and a journal
/// that runs over again and again.
#[test]
fn many_hashes_are_held_as_document_01_is_read() {
    if !with_library() {
        return;
    }
    let mut rng = Rng(8);
    let (mut library, mut replay) = (cadraspes::Replay::default(), reading::Replay::default());
    let names: Vec<String> =
        (0..3_100).map(|at| format!("{:x}{:016x}", rng.next(), rng.below(1 << (at % 40)))).collect();
    let mut call = |line: String| {
        let call = Call::read(&line).expect("a call");
        assert_eq!(library.call(&call), replay.call(&call), "{line}");
        replay.0.as_ref().map_or(0, |reading| reading.holding.version)
    };
    let mut version = call("start 3000 500 1 0".to_string());
    for turn in 0..40_000 {
        let (at, store) = (rng.below(3_100), rng.below(3));
        let (name, index, prev) = (&names[at as usize], 64 - at.leading_zeros(), &names[at as usize / 2]);
        let flags = rng.pick(&["-", "c", "c", "c", "o"]);
        if turn % 800 == 799 {
            for line in ["sync", "best", "cbest", "leaves", "live", "ccount"] {
                call(line.to_string());
            }
        }
        version = match rng.below(16) {
            0..=5 if turn < 700 => call(format!("load {store} {name} {index} 0 {prev} \"1\" \"{at}\" c - - -")),
            0..=7 => call(format!("put {store} {name} {index} 0 {prev} \"1\" \"{at}\" {flags} {turn} - {name}")),
            8..=10 => call(format!("remove {store} {name}")),
            11 => call(format!("answer {name} {}", rng.pick(&[0, 0, 0, 0, 0, 0, 0, 1, 1, 2]))),
            12..=14 => call(format!("effective {name}")),
            _ if turn % 20 > 0 => call(format!("changes 1 {}", version.saturating_sub(rng.below(40)))),
            _ => call(format!("changes 1 {}", version.saturating_sub(rng.below(600)))),
        };
    }
    call("count".to_string());
    call("version".to_string());
}
