//! oracle: histories on the original and on the reading of document 01.
use oracle::check::{before, first_difference, program_differs};
use oracle::compare::{compare, cover, describe, differs, profiles_or_all, Compared};
use oracle::generate::{generate, overrun, FULL, HOLDINGS, PROFILES};
use oracle::judge::{at_hand, Answered, Judge, NOT_AT_HAND};
use oracle::library;
use oracle::shrink::shrink;
use std::io::{Read, Write};

const USAGE: &str = "oracle run [--sweep | --library] < history > answers
oracle gen SEED [PROFILE] > history
oracle check HISTORY ANSWERS
oracle shrink HISTORY [PROGRAM ARGS..] > smaller history
oracle fuzz FROM TO PROGRAM [ARGS..]
oracle compare [--library] --histories N --seed S [--profile P]
oracle cover FROM TO [PROFILE..]
oracle record FOLDER
oracle sources
oracle texts > texts
oracle amounts < texts > amounts";

fn main() {
    let args: Vec<String> = std::env::args().skip(1).collect();
    let args: Vec<&str> = args.iter().map(String::as_str).collect();
    let ok = match args[..] {
        ["run"] => run(false),
        ["run", "--sweep"] => run(true),
        ["run", "--library"] => run_library(),
        ["gen", _, "overrun"] => print_all(&overrun()),
        ["gen", seed] => print_history(seed, "mixed"),
        ["gen", seed, profile] => print_history(seed, profile),
        ["check", history, answers] => check(&read_file(history), &read_file(answers)),
        ["shrink", history, ref program @ ..] => print_small(&read_file(history), program),
        ["fuzz", from, to, ref program @ ..] if !program.is_empty() => fuzz(number(from), number(to), program),
        ["compare", "--library", ref options @ ..] => print_library(options),
        ["compare", ref options @ ..] => print_compared(options),
        ["cover", from, to, ref profiles @ ..] => print_cover(number(from), number(to), profiles),
        ["record", folder] => print_recorded(folder),
        ["sources"] => print_all(&original::sources().map_or(String::new(), |folder| format!("{folder}\n"))),
        ["texts"] => std::io::stdout().write_all(&oracle::texts::texts()).is_ok(),
        ["amounts"] => print_all(&oracle::amounts::amounts(&read_input())),
        _ => usage(),
    };
    std::process::exit(if ok { 0 } else { 1 });
}

fn usage() -> ! {
    eprintln!("{USAGE}\nprofiles: {} {HOLDINGS} {FULL} (default mixed), overrun", PROFILES.join(" "));
    std::process::exit(2)
}

fn number(word: &str) -> u64 {
    word.parse().unwrap_or_else(|_| usage())
}

fn read_file(path: &str) -> Vec<u8> {
    std::fs::read(path).unwrap_or_else(|error| {
        eprintln!("{path}: {error}");
        std::process::exit(2)
    })
}

fn read_input() -> Vec<u8> {
    let mut input = Vec::new();
    std::io::stdin().read_to_end(&mut input).expect("standard input can be read");
    input
}

fn print_all(text: &str) -> bool {
    std::io::stdout().write_all(text.as_bytes()).is_ok()
}

fn print_history(seed: &str, profile: &str) -> bool {
    print_all(&generate(number(seed), profile).unwrap_or_else(|| usage()))
}

/// The answers, and on stderr what is not as it should be.
fn run(sweep: bool) -> bool {
    let (judge, answered) = Judge::run(&read_input(), sweep);
    let answers: String = answered.iter().map(|one| format!("{}\n", one.answer)).collect();
    print_all(&answers) && tell(&judge, &answered)
}

/// The library's answers.
fn run_library() -> bool {
    if !cadraspes::linked() {
        eprintln!("{}", cadraspes::NOT_LINKED);
        return false;
    }
    print_all(&library::answers(&read_input()))
}

fn tell(judge: &Judge, answered: &[Answered]) -> bool {
    if !at_hand() {
        eprintln!("{NOT_AT_HAND}");
    }
    if let (Some(line), Some(hash)) = (judge.outside, judge.watched.domain.left) {
        eprintln!("line {line}: outside the domain from here: the final answer of {hash} was not given again");
    }
    for one in judge.differences.iter().take(5) {
        eprintln!("line {}: {}\n  document 01:  {}\n  the original: {}", one.line, one.what, one.reading, one.original);
        let end = answered.iter().position(|call| call.number > one.line).unwrap_or(answered.len());
        eprint!("{}", before(&answered[..end]));
    }
    judge.differences.is_empty()
}

fn check(history: &[u8], answers: &[u8]) -> bool {
    let (judge, answered) = Judge::run(history, false);
    let difference = first_difference(&answered, answers);
    if let Some(difference) = &difference {
        eprintln!("{difference}");
    }
    tell(&judge, &answered) && difference.is_none()
}

fn print_small(history: &[u8], program: &[&str]) -> bool {
    let small = match program {
        [] if differs(history) => Some(describe(history, "the history given").into_bytes()),
        [] => None,
        _ => shrink(history, &|history| program_differs(program, history)),
    };
    match small {
        Some(small) => print_all(&String::from_utf8_lossy(&small)),
        None => {
            eprintln!("no difference");
            false
        }
    }
}

/// Tries a program on generated histories; the first it gets wrong is made
/// small and printed.
fn fuzz(from: u64, to: u64, program: &[&str]) -> bool {
    for seed in from..to {
        for profile in PROFILES {
            let history = generate(seed, profile).expect("a profile");
            if let Some(small) = shrink(history.as_bytes(), &|history| program_differs(program, history)) {
                println!("# from: oracle gen {seed} {profile}");
                print_all(&String::from_utf8_lossy(&small));
                return false;
            }
        }
    }
    true
}

/// How many histories, from which seed, of which profiles.
fn compare_options<'a>(options: &[&'a str], beside: &[&str]) -> (u64, u64, Vec<&'a str>) {
    let (mut histories, mut seed, mut profiles) = (1000, 0, Vec::new());
    for option in options.chunks(2) {
        match option {
            ["--histories", count] => histories = number(count),
            ["--seed", from] => seed = number(from),
            ["--profile", profile] if PROFILES.contains(profile) || beside.contains(profile) => profiles.push(*profile),
            _ => usage(),
        }
    }
    (histories, seed, profiles)
}

/// The original against the reading, which asks everything after every sync:
/// too much for full size.
fn print_compared(options: &[&str]) -> bool {
    let (histories, seed, profiles) = compare_options(options, &[HOLDINGS]);
    if !at_hand() {
        return print_all(&format!("{NOT_AT_HAND}\n"));
    }
    let progress = |so_far: &Compared| eprintln!("{}", so_far.so_far(histories));
    let compared = compare(histories, seed, &profiles_or_all(&profiles), &progress);
    println!("{}", compared.summary());
    print_all(compared.difference.as_deref().unwrap_or("")) && compared.difference.is_none()
}

/// The library against the original and the reading.
fn print_library(options: &[&str]) -> bool {
    let (histories, seed, profiles) = compare_options(options, &[HOLDINGS, FULL]);
    if !cadraspes::linked() {
        return print_all(&format!("{}\n", cadraspes::NOT_LINKED));
    }
    if !at_hand() {
        eprintln!("{NOT_AT_HAND}");
    }
    let profiles = if profiles.is_empty() { [&PROFILES[..], &[HOLDINGS]].concat() } else { profiles };
    let progress = |so_far: &library::Compared| eprintln!("{}", so_far.so_far(histories));
    let compared = library::compare(histories, seed, &profiles, library::library, &progress);
    println!("{}", compared.summary());
    print_all(compared.difference.as_deref().unwrap_or("")) && compared.difference.is_none()
}

fn print_cover(from: u64, to: u64, profiles: &[&str]) -> bool {
    if !profiles.iter().all(|profile| PROFILES.contains(profile)) {
        usage();
    }
    let (table, bad) = cover(from, to, &profiles_or_all(profiles));
    if !at_hand() {
        eprintln!("{NOT_AT_HAND}");
    }
    print_all(&table) && bad == 0
}

fn print_recorded(folder: &str) -> bool {
    if !at_hand() {
        eprintln!("{NOT_AT_HAND}: nothing is recorded without it");
        return false;
    }
    match oracle::record::record(std::path::Path::new(folder)) {
        Ok(count) => print_all(&format!("{count} histories recorded\n")),
        Err(error) => {
            eprintln!("{folder}: {error}");
            false
        }
    }
}
