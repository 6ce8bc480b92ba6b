//! The text format, each fine point as its own case.
use history::{lines, read_line, show_amount, Answer, Block, Call, Hash, Line, Marks, Reason, Terms, Work};

const TOP: &str = "18446744073709551615";

fn call(line: &str) -> Call {
    Call::read(line).unwrap_or_else(|why| panic!("{line}: {why}"))
}

fn no_call(line: &str) {
    assert!(matches!(read_line(line.as_bytes()), Line::NoCall(_)), "{line} was read as a call");
}

fn hash(word: &str) -> Hash {
    Hash::read(word).unwrap()
}

#[test]
fn every_call_is_written_back_as_it_was() {
    let block = "c0ffee 7 2 b1 \"007\" \"\" oc -5 peer-work:0x9:0x0 a";
    for line in [
        "start 1 2 3 4",
        "reload 5 6",
        &format!("load 0 {block}"),
        &format!("put 255 {block}"),
        "remove 2 a",
        "answer a 9",
        "sync",
        "node a",
        "parent a",
        "effective a",
        "linked a",
        "clinked a",
        "best",
        "cbest",
        "ccount",
        "live",
        "count",
        "generation",
        "version",
        "leaves",
        "changes 1 2",
        "select - 10 -3",
        "adopt 4 0 9223372036854775807",
        "choose \"5\" 1 a ? 2 b",
        "amount \"1,000\"",
        "lend 0",
        "lend -",
    ] {
        assert_eq!(call(line).to_string(), line);
    }
}

#[test]
fn empty_lines_and_remarks_are_passed_over() {
    for line in ["", "#", "# start 1 1 1 0", "#?"] {
        assert_eq!(read_line(line.as_bytes()), Line::Passed, "{line:?}");
    }
}

#[test]
fn words_are_separated_by_one_space() {
    for line in ["remove  0 a", "remove 0  a", "remove 0 a ", " remove 0 a", "sync ", " ", "remove\t0 a", "sync\r"] {
        no_call(line);
    }
}

#[test]
fn a_call_has_its_words_and_no_more() {
    for line in ["remove 0", "remove 0 a b", "sync now", "start 1 1 1", "start 1 1 1 0 0", "frob", "Sync", "lend"] {
        no_call(line);
    }
}

#[test]
fn hashes_are_filled_with_zeros_on_the_left() {
    assert_eq!(hash("a").0[31], 10);
    assert_eq!(hash("b1").0[31], 0xb1);
    assert_eq!(hash("c0ffee").0[29..], [0xc0, 0xff, 0xee]);
    assert_eq!(hash("00a"), hash("a"));
    assert_eq!(hash(&"0".repeat(64)).to_string(), "0");
    assert_eq!(hash(&"f".repeat(64)).to_string(), "f".repeat(64));
    assert_eq!(hash("0a0").to_string(), "a0");
    assert_eq!(hash("a").hex(), format!("{}a", "0".repeat(63)));
}

#[test]
fn a_hash_is_1_to_64_lowercase_hex_digits() {
    for word in ["", "A", "g", "0xa", "-", "a b", &"0".repeat(65), "é"] {
        assert_eq!(Hash::read(word), None, "{word:?}");
    }
}

#[test]
fn the_order_of_hashes_is_that_of_their_hex() {
    let mut words: Vec<String> = ["0", "1", "9", "a", "f", "10", "1f", "f0"].map(|word| hash(word).hex()).to_vec();
    words.push("f".repeat(64));
    for (one, other) in words.iter().zip(&words[1..]) {
        assert_eq!(hash(one) < hash(other), one < other);
        assert!(one < other);
    }
}

#[test]
fn numbers_may_have_leading_zeros() {
    assert_eq!(call("changes 007 0000000000000000000000000000018"), call("changes 7 18"));
    assert_eq!(call(&format!("changes 0 {TOP}")), Call::Changes { generation: 0, version: u64::MAX });
}

#[test]
fn numbers_are_digits_of_at_most_64_bits() {
    for word in ["18446744073709551616", "+1", "-1", "", "0x1", "1.0", "١"] {
        no_call(&format!("changes 1 {word}"));
    }
}

#[test]
fn a_store_must_fit_a_byte() {
    assert_eq!(call("remove 255 a"), Call::Remove(255, hash("a")));
    assert_eq!(call("remove 000255 a"), Call::Remove(255, hash("a")));
    no_call("remove 256 a");
    no_call(&format!("remove {TOP} a"));
}

#[test]
fn an_answer_takes_any_number() {
    assert_eq!(call(&format!("answer a {TOP}")), Call::Answer(hash("a"), u64::MAX));
    no_call("answer a -1");
}

#[test]
fn times_have_a_minus_sign_and_no_plus_sign() {
    let terms = |clock| Call::Select(Terms { floor: None, n: 1, clock });
    assert_eq!(call("select - 1 -9223372036854775808"), terms(i64::MIN));
    assert_eq!(call("select - 1 9223372036854775807"), terms(i64::MAX));
    assert_eq!(call("select - 1 -007"), terms(-7));
    for word in ["+1", "-", "9223372036854775808", "", "--1", "1-"] {
        no_call(&format!("select - 1 {word}"));
    }
}

#[test]
fn a_floor_is_a_dash_or_a_number() {
    assert_eq!(call("adopt 0 1 2"), Call::Adopt(Terms { floor: Some(0), n: 1, clock: 2 }));
    no_call("adopt -1 1 2");
    no_call("adopt ? 1 2");
}

#[test]
fn texts_hold_any_bytes_but_the_quote() {
    for text in ["", " ", "a b", "#", "0x7", "\t", "\u{fe0f}7"] {
        assert_eq!(call(&format!("amount \"{text}\"")), Call::Amount(text.to_string()));
    }
    for line in ["amount 7", "amount \"7", "amount 7\"", "amount \"7\"\"", "amount \"7\" ", "amount \"7\"8", "amount"] {
        no_call(line);
    }
}

#[test]
fn a_text_that_is_not_utf8_is_kept_as_some_unreadable_text() {
    let Line::Call(Call::Amount(text)) = read_line(b"amount \"7\xff\"") else { panic!() };
    assert!(text.parse::<u128>().is_err());
    assert!(matches!(read_line(b"node \xff"), Line::NoCall(_)));
}

#[test]
fn flags_are_one_of_four() {
    let marks = |word: &str| match call(&format!("put 0 a 0 0 0 \"\" \"\" {word} - - -")) {
        Call::Put(_, block) => (block.marks.orphaned, block.marks.canonical),
        _ => panic!(),
    };
    assert_eq!(["-", "o", "c", "oc"].map(marks), [(false, false), (true, false), (false, true), (true, true)]);
    for word in ["co", "x", "oo", "0"] {
        no_call(&format!("put 0 a 0 0 0 \"\" \"\" {word} - - -"));
    }
}

const REASONS: [(&str, &str); 13] = [
    ("same-tip:a", "Same tip hash 000000000000000000000000000000000000000000000000000000000000000a, equal work"),
    ("neither", "Neither chain's work reaches its anchor"),
    ("peer-only:0x10", "Peer work 16 is linked and local work stopped at a hole"),
    ("local-only:0x0", "Local work 0 is linked and peer work stopped at a hole"),
    ("peer-work:0x9:0x3", "Peer linked work 9 is higher than local 3"),
    (
        "local-work:0xffffffffffffffffffffffffffffffff:0x1",
        "Local linked work 340282366920938463463374607431768211455 is higher than peer 1",
    ),
    ("peer-tip:5:4", "Equal linked work, peer tip 5 is higher than 4"),
    ("local-tip:18446744073709551615:0", "Equal linked work, local tip 18446744073709551615 is higher than 0"),
    ("peer-hash", "Equal linked work and tip, peer hash is lower"),
    ("local-hash", "Equal linked work and tip, local hash is lower"),
    ("off-spine", "Off the verified spine"),
    ("competing", "Competing fork"),
    ("stale", "Stale fork 2 epochs under the tip"),
];

#[test]
fn every_reason_has_its_word_and_its_sentence() {
    for (word, sentence) in REASONS {
        let reason = Reason::read(word).unwrap_or_else(|| panic!("{word}"));
        assert_eq!(reason.to_string(), word);
        assert_eq!(reason.kind(), word.split(':').next().unwrap());
        assert_eq!(reason.sentence(), sentence);
        assert_eq!(Reason::from_sentence(sentence), Some(reason));
    }
}

#[test]
fn another_sentence_is_no_reason() {
    for sentence in [
        "",
        "Competing fork ",
        "Stale fork 3 epochs under the tip",
        "Peer work 016 is linked and local work stopped at a hole",
        "Same tip hash a, equal work",
        "Equal linked work, peer tip 18446744073709551616 is higher than 4",
        "Chains have equal linked work, tip, and hash",
    ] {
        assert_eq!(Reason::from_sentence(sentence), None, "{sentence:?}");
    }
}

#[test]
fn amounts_of_a_reason_are_as_they_would_be_answered() {
    for word in ["0x00", "0x01", "0X1", "1", "?", "0xA", "0x", "+0x1", "0x+1", "0x100000000000000000000000000000000"] {
        assert_eq!(Reason::read(&format!("peer-only:{word}")), None, "{word}");
    }
    for word in ["peer-only", "peer-only:0x1:0x1", "neither:", "stale:0x1", "peer-work:0x1", "peer-tip:0x1:2", ""] {
        assert_eq!(Reason::read(word), None, "{word}");
    }
    assert_eq!(Reason::read("peer-tip:007:0"), Some(Reason::PeerTip(7, 0)));
}

#[test]
fn answers_are_written_as_the_page_says() {
    let marks = Marks { canonical: true, time: Some(-3), reason: Some(Reason::Stale), ..Marks::default() };
    let block = Block { hash: hash("0b"), index: 1, epoch: 2, prev: hash("0"), target: None, actual: Some(16), marks };
    let work = Work { value: 8, ok: true };
    for (answer, text) in [
        (Answer::Refused(12), "12"),
        (Answer::Done, "0"),
        (Answer::None, "0 none"),
        (Answer::Block(block), "0 b 1 2 0 ? 0x10 c -3 stale -"),
        (Answer::Work(work), "0 0x8 ok"),
        (Answer::Tip(hash("a"), Work { ok: false, ..work }), "0 a 0x8 no"),
        (Answer::Number(u64::MAX), "0 18446744073709551615"),
        (Answer::Hashes(vec![]), "0 0"),
        (Answer::Hashes(vec![hash("a"), hash("b")]), "0 2\n  a\n  b"),
        (Answer::Plan(history::Plan::Scan), "0 scan"),
        (Answer::Plan(history::Plan::Apply { changed: 0, entries: vec![] }), "0 apply 0 0"),
        (Answer::Chosen(history::Choice::Remote, Reason::PeerHash), "0 remote peer-hash"),
        (Answer::Chosen(history::Choice::Local, Reason::LocalOnly(3)), "0 local local-only:0x3"),
        (Answer::Chosen(history::Choice::Equal, Reason::SameTip(hash("0"))), "0 equal same-tip:0"),
        (Answer::Amount(None), "0 ?"),
        (Answer::Amount(Some(0)), "0 0x0"),
    ] {
        assert_eq!(answer.to_string(), text);
    }
    let entries = vec![history::Entry { hash: hash("a"), marks }];
    let plan = Answer::Plan(history::Plan::Apply { changed: 1, entries });
    assert_eq!(plan.to_string(), "0 apply 1 1\n  a c -3 stale -");
    assert_eq!(show_amount(Some(u128::MAX)), format!("0x{}", "f".repeat(32)));
}

#[test]
fn the_last_line_may_lack_its_end() {
    let split = |text: &str| lines(text.as_bytes()).map(<[u8]>::to_vec).collect::<Vec<_>>();
    assert_eq!(split("a\nb"), split("a\nb\n"));
    assert_eq!(split("a\n\nb\n").len(), 3);
    assert_eq!(split("\n").len(), 1);
    assert_eq!(split("").len(), 0);
}
