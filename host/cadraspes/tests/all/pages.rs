//! Reads outside of what is lent: here everything that is lent ends where a
//! page ends, and neither the page behind it nor the page before can be read
//! or written. A call that looks past an end ends the test program.
#![allow(unsafe_code)]
use crate::bad_memory::{forked, linked, name, sound};
use crate::common::{with_library, Rng};
use cadraspes::boundary::{self, Record};
use cadraspes::Terms;
use std::ffi::c_void;

extern "C" {
    fn mmap(at: *mut c_void, length: usize, may: i32, flags: i32, file: i32, offset: i64) -> *mut c_void;
    fn mprotect(at: *mut c_void, length: usize, may: i32) -> i32;
    fn munmap(at: *mut c_void, length: usize) -> i32;
}

/// Of Linux: read and write; private and of no file. A page is at most 64 KiB.
const READ_WRITE: i32 = 3;
const PRIVATE_ANONYMOUS: i32 = 0x22;
const PAGE: usize = 1 << 16;

/// Bytes in pages of their own.
struct Lent {
    base: *mut u8,
    pages: usize,
    length: usize,
}

impl Lent {
    fn new(bytes: &[u8]) -> Lent {
        let pages = bytes.len().div_ceil(PAGE).max(1) + 2;
        let base = unsafe {
            let base = mmap(std::ptr::null_mut(), pages * PAGE, 0, PRIVATE_ANONYMOUS, -1, 0).cast::<u8>();
            assert!(base as isize != -1, "no pages");
            assert_eq!(mprotect(base.add(PAGE).cast(), (pages - 2) * PAGE, READ_WRITE), 0);
            base
        };
        let mut lent = Lent { base, pages, length: bytes.len() };
        lent.bytes().copy_from_slice(bytes);
        lent
    }

    fn words(words: &[u64]) -> Lent {
        Lent::new(&words.iter().flat_map(|word| word.to_ne_bytes()).collect::<Vec<u8>>())
    }

    /// The last bytes before the page that cannot be read.
    fn bytes(&mut self) -> &mut [u8] {
        unsafe { std::slice::from_raw_parts_mut(self.base.add((self.pages - 1) * PAGE - self.length), self.length) }
    }

    fn as_words(&mut self) -> &mut [u64] {
        let bytes = self.bytes();
        assert!(bytes.len().is_multiple_of(8) && (bytes.as_ptr() as usize).is_multiple_of(8));
        unsafe { std::slice::from_raw_parts_mut(bytes.as_mut_ptr().cast(), bytes.len() / 8) }
    }
}

impl Drop for Lent {
    fn drop(&mut self) {
        assert_eq!(unsafe { munmap(self.base.cast(), self.pages * PAGE) }, 0);
    }
}

/// Every call that is lent a memory, one after the other on the same; gives how many were accepted.
fn every_call(memory: &[u64], rng: &mut Rng) -> usize {
    let mut memory = Lent::words(memory);
    let mut hash = Lent::new(&name(rng.below(9)).0);
    let shift = rng.pick(&[0, 60, 61]);
    let any: [u64; 12] = std::array::from_fn(|_| rng.next() >> shift);
    let (mut prev, mut copy) = (Lent::new(&name(1).0), Lent::words(&any));
    let (mut target, mut actual) = (Lent::new(b"1"), Lent::new(b"00000000000000000000000000000000000000001"));
    let (mut shown, mut number, mut two) = (Lent::words(&[0; 29]), Lent::words(&[0]), Lent::words(&[0; 2]));
    let (mut three, mut list) = (Lent::words(&[0; 3]), Lent::new(&vec![0; rng.below(300) as usize]));
    let three: &mut [u64; 3] = three.as_words().try_into().expect("3 words");
    let two: &mut [u64; 2] = two.as_words().try_into().expect("2 words");
    let mem = memory.as_words();
    let hash: &[u8; 32] = (&*hash.bytes()).try_into().expect("32 bytes");
    let (prev, copy) = ((&*prev.bytes()).try_into().expect("32"), (&*copy.as_words()).try_into().expect("12"));
    let record = Record { hash, index: 0, epoch: 0, prev, target: target.bytes(), actual: actual.bytes(), copy };
    let mut entries = Lent::words(&vec![0; 16 * rng.below(9) as usize]);
    let entries = entries.as_words().as_chunks_mut::<16>().0;
    let terms = Terms { floor: Some(rng.below(3)), n: rng.below(4), clock: i64::MIN };
    let number = &mut number.as_words()[0];
    let shown: &mut [u64; 29] = shown.as_words().try_into().expect("29 words");
    let asked = [boundary::version(mem, number), boundary::generation(mem, number)];
    let version = number.wrapping_sub(rng.below(6));
    let numbers = [
        boundary::effective_count(mem, number),
        boundary::load(mem, rng.below(4), &record),
        boundary::put(mem, rng.below(4), &record),
        boundary::effective(mem, hash, shown),
        boundary::changes(mem, 1, version, list.bytes(), two),
        boundary::answer(mem, hash, rng.below(3)),
        boundary::remove(mem, rng.below(3), hash),
        boundary::select(mem, &terms, entries, three),
        boundary::sync(mem),
        boundary::node(mem, hash, shown),
        boundary::parent(mem, hash, shown),
        boundary::linked_value(mem, hash, three),
        boundary::canonical_linked(mem, hash, three),
        boundary::best(mem, shown, three),
        boundary::canonical_best(mem, shown, three),
        boundary::canonical_count(mem, number),
        boundary::live_count(mem, number),
        boundary::leaves(mem, list.bytes(), two),
        boundary::select(mem, &terms, entries, three),
        boundary::adopt(mem, &terms, entries, three),
        boundary::reload(mem, 1 + rng.below(3), 0),
        boundary::start(mem, 1 + rng.below(8), 1 + rng.below(8), 1, 0),
    ];
    asked.into_iter().chain(numbers).filter(|number| *number == 0).count()
}

/// The calls that are lent no memory; gives how many were accepted.
fn without_memory(rng: &mut Rng) -> usize {
    let (mut hash, mut other) = (Lent::new(&name(rng.below(3)).0), Lent::new(&name(1).0));
    let (hash, other) = ((&*hash.bytes()).try_into().expect("32"), (&*other.bytes()).try_into().expect("32"));
    let mut sides = [0; 2].map(|_| Lent::words(&[rng.below(3), 5, rng.below(2), 6 + rng.below(3)]));
    let [local, peer] = sides.each_mut().map(|side| <&[u64; 4]>::try_from(&*side.as_words()).expect("4 words"));
    let (mut three, mut six) = (Lent::words(&[0; 3]), Lent::words(&[0; 6]));
    let three: &mut [u64; 3] = three.as_words().try_into().expect("3 words");
    let six: &mut [u64; 6] = six.as_words().try_into().expect("6 words");
    let mut text = Lent::new(&(0..rng.below(60)).map(|_| b'0' + rng.below(11) as u8).collect::<Vec<u8>>());
    assert!(boundary::covers(rng.next(), rng.next(), rng.next()) <= 1);
    let numbers = [
        boundary::amount(text.bytes(), three),
        boundary::choose(local, hash, peer, other, six),
        boundary::choose(local, hash, local, hash, six),
    ];
    numbers.into_iter().filter(|number| *number == 0).count()
}

#[test]
fn nothing_outside_is_read() {
    if !with_library() {
        return;
    }
    let (sounds, mut rng) = ([sound(), linked(), forked()], Rng(7));
    let mut accepted = 0;
    for turn in 0..3600 {
        let mut words = sounds[turn % 3].0.shown().to_vec();
        for _ in 0..turn / 3 % 4 {
            let at = rng.below(words.len() as u64) as usize;
            words[at] = rng.next() >> rng.pick(&[0, 1, 32, 61, 62]);
        }
        accepted += every_call(&words, &mut rng);
        assert_eq!(without_memory(&mut rng), 3, "never refused");
    }
    assert!(accepted > 35_000, "{accepted} calls were accepted");
    for words in 0..200 {
        every_call(&vec![rng.pick(&[0, 1, u64::MAX]); words], &mut rng);
    }
}

/// Run by the test below in a program of its own, which it ends.
#[test]
#[ignore = "it ends the test program, as it must"]
fn a_word_past_the_end() {
    let mut lent = Lent::words(&[1, 2, 3]);
    let words = lent.as_words();
    println!("{}", unsafe { words.as_ptr().add(words.len()).read_volatile() });
}

#[test]
fn a_read_past_the_end_is_noticed() {
    let program = std::env::current_exe().expect("this program has a path");
    let arguments = ["--ignored", "--exact", "pages::a_word_past_the_end"];
    let status = std::process::Command::new(program).args(arguments).output().expect("it can be run").status;
    assert_eq!(status.code(), None, "ended by a signal");
}
