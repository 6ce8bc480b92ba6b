//! The calls that are lent no memory, on words and bytes of any kind; and that
//! no call of the header is left out where faults are put in.
use crate::common::{with_library, Rng};
use crate::guarded::{amount_of, chosen_of};
use crate::header::declared;
use cadraspes::words::choice_of;
use cadraspes::{boundary, Hash, Side};
use std::collections::BTreeSet;

/// Sides of random words are compared as document 01 is read: work is known
/// where the first word is 1, and is the two words after it, the lower first.
#[test]
fn sides_of_any_words() {
    if !with_library() {
        return;
    }
    let (mut rng, mut kinds) = (Rng(11), BTreeSet::new());
    for _ in 0..100_000 {
        let shift = rng.pick(&[0, 61, 63]);
        let sides = [0; 2].map(|_| {
            let mut words: [u64; 4] = std::array::from_fn(|_| rng.next() >> shift);
            words[0] = rng.pick(&[1, 1, 1, words[0]]);
            (words, Hash([rng.below(3) as u8; 32]))
        });
        let read = sides.map(|(words, hash)| {
            let work = u128::from(words[2]) << 64 | u128::from(words[1]);
            Side { work: (words[0] == 1).then_some(work), index: words[3], hash }
        });
        let asked = chosen_of(sides);
        let chosen = choice_of(asked.words[..].try_into().expect("six words"));
        assert_eq!((asked.number, chosen), (0, reading::choose(&read[0], &read[1])), "{sides:?}");
        assert!(asked.words[0] <= 2);
        kinds.insert(asked.words[1]);
    }
    assert!(kinds.into_iter().eq(1..=10), "every outcome");
}

/// Bytes of any kind are read as Rust reads them, which is the original's way.
#[test]
fn amounts_of_any_bytes() {
    if !with_library() {
        return;
    }
    let (mut rng, mut readable) = (Rng(12), 0);
    for _ in 0..200_000 {
        let (length, odd) = (rng.below(45), rng.pick(&[0, 0, 1, 30]));
        let digit = |rng: &mut Rng| b'0' + rng.below(10) as u8;
        let byte = |rng: &mut Rng| if rng.below(100) < odd { rng.next() as u8 } else { digit(rng) };
        let mut text: Vec<u8> = (0..length).map(|_| byte(&mut rng)).collect();
        if rng.below(8) == 0 {
            text.insert(0, b'+');
        }
        let expected = std::str::from_utf8(&text).ok().and_then(|text| text.parse::<u128>().ok());
        let words = expected.map_or([0; 3], |value| [1, value as u64, (value >> 64) as u64]);
        let asked = amount_of(&text);
        assert_eq!((asked.number, &asked.words[..]), (0, &words[..]), "{text:?}");
        readable += u32::from(expected.is_some());
    }
    assert!((50_000..190_000).contains(&readable), "{readable} were readable");
}

#[test]
fn covering_gives_0_or_1_for_any_numbers() {
    if with_library() {
        let mut rng = Rng(13);
        for _ in 0..100_000 {
            let [index, epoch, n] = [0; 3].map(|_| rng.next() >> rng.pick(&[0, 1, 32, 60, 63]));
            assert!(boundary::covers(index, epoch, n) <= 1, "{index} {epoch} {n}");
        }
    }
}

/// Every call is made between guards, those with a memory also on one that no
/// call left, and all of them beside pages that cannot be read.
#[test]
fn no_call_of_the_header_is_left_out() {
    let (guarded, bad_memory) = (include_str!("guarded.rs"), include_str!("bad_memory.rs"));
    let (pages, here) = (include_str!("pages.rs"), include_str!("any_words.rs"));
    for (name, arguments) in declared() {
        let name = name.strip_prefix("cadraspes_").expect("its name");
        let call = format!("boundary::{}", if name == "linked" { "linked_value" } else { name });
        let made = |text: &str| text.match_indices(&call).any(|(at, _)| !text[at + call.len()..].starts_with('_'));
        let over_guards = |text: &str| made(text) || text.contains(&format!("memory.{name}("));
        let memory = arguments.iter().any(|argument| argument.ends_with("*mem"));
        assert!(made(pages), "{name} beside pages");
        assert!(if memory { made(guarded) } else { made(guarded) || made(here) }, "{name} between guards");
        assert!(!memory || over_guards(bad_memory), "{name} on a memory that no call left");
    }
}
