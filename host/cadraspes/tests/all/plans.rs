//! The two plans over the boundary, with the answers that document 01 gives,
//! written by hand: refusals and the list, and either side of two lines.
use crate::common::{expect, with_library};
use crate::guarded::{Library, Memory};
use cadraspes::boundary;
use cadraspes::words::{entry_of, entry_words};
use cadraspes::{Entry, Hash, Marks, Reason, Terms};
use history::Call;

const TREE: &str = r#"
    start 8 16 1 0 => 0
    load 0 a 0 0 0 "5" "5" c - - - => 0
    put 0 b1 1 0 a "3" "3" - 9 - ff => 0
    put 0 b2 1 0 a "4" "3" - - - - => 0
"#;

/// 12, then 13 below the live count, also where a scan needs no place.
#[test]
fn refusals_and_the_list() {
    expect(&format!(
        r#"{TREE}
        lend 2 => 0
        select - 10 7 => 12
        adopt - 10 7 => 12
        sync => 0
        select - 10 7 => 13
        adopt - 10 7 => 13
        lend 3 => 0
        select - 10 7 => 0 apply 1 1 | b1 c 9 - ff
        adopt - 10 7 => 0 apply 1 1 | b1 c 9 - ff
        lend 0 => 0
        select - 10 7 => 13
        remove 0 b1 => 0
        adopt - 10 7 => 12
        start 8 16 1 0 => 0
        sync => 0
        lend 0 => 0
        select - 10 7 => 0 scan
        adopt - 10 7 => 0 scan
        put 0 d 0 0 0 "5" "5" - - - - => 0
        sync => 0
        select - 10 7 => 13
        adopt - 10 7 => 13
        lend 1 => 0
        select - 10 7 => 0 scan
        adopt - 10 7 => 0 scan
        "#
    ));
}

/// A plan changes nothing that the tree stands for, so it can be asked again,
/// and put.
#[test]
fn a_plan_is_asked_again_and_then_put() {
    let fresh = r#"
        best => 0 b1 0x8 ok
        cbest => 0 a 0x5 ok
        leaves => 0 2 | b1 | b2
        node b1 => 0 b1 1 0 a 0x3 0x3 - 9 - ff
        version => 0 2
        changes 1 0 => 0 2 | b1 | b2
    "#;
    let plan = "select - 10 7 => 0 apply 1 1 | b1 c 9 - ff\n adopt 0 0 7 => 0 apply 1 1 | b1 c 9 - ff\n";
    expect(&format!(
        r#"{TREE}
        sync => 0
        {plan}{fresh}{plan}{fresh}
        put 0 b1 1 0 a "3" "3" c 9 - ff => 0
        select - 10 7 => 12
        sync => 0
        cbest => 0 b1 0x8 ok
        select - 10 7 => 0 apply 0 0
        adopt - 10 7 => 0 apply 0 0
        "#
    ));
}

/// A canonical line of blocks of work 2, from index 0 to `top`.
fn line(top: u64) -> String {
    let block = |index: u64| {
        let prev = if index == 0 { "0".to_string() } else { format!("a{}", index - 1) };
        format!("put 0 a{index} {index} 0 {prev} \"2\" \"2\" c - - - => 0\n")
    };
    "start 64 64 1 0 => 0\n".to_string() + &(0..=top).map(block).collect::<String>()
}

/// Document 01's table: n = 10, epoch 2, index 9 covers and 8 does not; local
/// index 25, bottom 5 is stale and 6 is not.
#[test]
fn either_side_of_a_line() {
    expect(&(line(7) + "put 0 b8 8 2 a7 \"2\" \"2\" - - - - => 0\nsync => 0\nadopt - 10 5 => 0 apply 0 0"));
    expect(
        &(line(8) + "put 0 b9 9 2 a8 \"2\" \"2\" - - - - => 0\nsync => 0\nadopt - 10 5 => 0 apply 1 1 | b9 c - - -"),
    );
    let forks = "put 0 b5 5 0 a4 \"1\" \"1\" - - - - => 0\nput 0 b6 6 0 a5 \"1\" \"1\" - - - - => 0\nsync => 0\n";
    expect(&(line(25) + forks + "adopt - 10 77 => 0 apply 0 1 | b5 o 77 stale -"));
    expect(&(line(25) + forks + "adopt - 10 -9223372036854775808 => 0 apply 0 1 | b5 o -9223372036854775808 stale -"));
}

#[test]
fn an_entrys_words_are_told_back() {
    let hash = Hash(std::array::from_fn(|at| 7 * at as u8));
    let reason = Some(Reason::PeerWork(1 << 64, 3));
    let marks = Marks { orphaned: true, canonical: false, time: Some(-5), reason, other: Some(Hash([2; 32])) };
    let words = entry_words(&Entry { hash, marks });
    assert_eq!(
        words[..4],
        [0x0007_0e15_1c23_2a31, 0x383f_464d_545b_6269, 0x7077_7e85_8c93_9aa1, 0xa8af_b6bd_c4cb_d2d9]
    );
    assert_eq!(words[4..12], [6, 2, 4, 5, 0, 1, 3, 0]);
    assert_eq!(words[12..], [0x0202_0202_0202_0202; 4]);
    assert_eq!(entry_of(&words), Entry { hash, marks });
}

/// What crosses: a floor that is not given is not looked at, and a list longer
/// than needed keeps its last places.
#[test]
fn words_as_they_cross() {
    if !with_library() {
        return;
    }
    let mut library = Library::default();
    for line in TREE.lines().map(str::trim).filter(|line| !line.is_empty()) {
        let call = line.split_once(" => ").expect("a call and its answer").0;
        library.call(&Call::read(call).expect("a call"));
    }
    library.call(&Call::Sync);
    let mut memory: Memory = library.memory.expect("a start was accepted");
    let terms = Terms { floor: None, n: 10, clock: 7 };
    for plan in [boundary::select, boundary::adopt] {
        let (asked, entries) = memory.plan(plan, &terms, 20);
        assert_eq!((asked.number, &asked.words[..]), (0, &[1, 1, 1][..]));
        assert_eq!(entries[0][..8], [0, 0, 0, 0xb1, 7, 1, 9, 0]);
        assert_eq!(entries[0][8..], [0, 0, 0, 0, 0, 0, 0, 0xff]);
    }
}
