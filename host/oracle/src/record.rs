//! Recorded histories: finds a small one for each plan branch, and writes the
//! original's answers beside every history of a folder.
use crate::coverage::{ways, PLAN_WAYS};
use crate::domain::Watched;
use crate::generate::{generate, PROFILES};
use crate::judge::Judge;
use crate::shrink::shrink;
use history::{lines, read_line, Answer, Call, Hash, Line};
use std::collections::{BTreeMap, BTreeSet};
use std::path::{Path, PathBuf};
use std::{fs, io};

/// Seeds that are searched, of every profile.
const SEEDS: u64 = 300;
/// Places that are made small for each branch; the smallest is kept.
const TRIED: usize = 6;

/// A place where a plan takes a branch: the calls of a generated history up to
/// a line.
#[derive(Clone)]
struct Found {
    profile: &'static str,
    seed: u64,
    line: usize,
}

/// Writes the histories of the plan branches, the answers of all and the list
/// of files in README.md. Gives how many histories there are.
pub fn record(folder: &Path) -> io::Result<usize> {
    let found = search();
    for way in PLAN_WAYS {
        let places = found.get(way).cloned().unwrap_or_default();
        let Some((place, history)) = smallest(way, &places) else {
            return Err(io::Error::other(format!("no history found for: {way}")));
        };
        let (plan, branch) = way.split_once(' ').unwrap_or((way, ""));
        let text = format!("# {way}\n# oracle gen {} {}, made small\n{history}", place.seed, place.profile);
        fs::create_dir_all(folder.join(plan))?;
        fs::write(folder.join(plan).join(slug(branch)).with_extension("txt"), text)?;
        eprintln!("{way}: {} calls, from {} {}", lines(history.as_bytes()).count(), place.seed, place.profile);
    }
    let files = histories(folder)?;
    for file in &files {
        fs::write(file.with_extension("answers"), answers(file)?)?;
    }
    list_files(folder, &files)?;
    Ok(files.len())
}

/// The places where each branch is taken soonest.
fn search() -> BTreeMap<&'static str, Vec<Found>> {
    let mut found: BTreeMap<&str, Vec<Found>> = BTreeMap::new();
    for seed in 0..SEEDS {
        for profile in PROFILES {
            let history = generate(seed, profile).expect("a profile");
            for (way, line) in first_ways(history.as_bytes()) {
                let places = found.entry(way).or_default();
                places.push(Found { profile, seed, line });
                places.sort_by_key(|place| place.line);
                places.truncate(TRIED);
            }
        }
    }
    found
}

/// The first line of a history at which each branch is taken.
fn first_ways(history: &[u8]) -> BTreeMap<&'static str, usize> {
    let mut first = BTreeMap::new();
    let mut watched = Watched::default();
    for (line, number) in lines(history).zip(1..) {
        let Line::Call(call) = read_line(line) else {
            continue;
        };
        if let (Answer::Plan(_), Some(reading)) = (watched.call(&call), watched.reading()) {
            for way in ways(reading, &call) {
                first.entry(way).or_insert(number);
            }
        }
    }
    first
}

/// True when a history ends in a plan that takes the branch, with no call
/// refused and within the domain.
fn takes(history: &[u8], way: &str) -> bool {
    let mut watched = Watched::default();
    let mut taken = false;
    for line in lines(history) {
        let Line::Call(call) = read_line(line) else {
            return false;
        };
        let answer = watched.call(&call);
        if matches!(answer, Answer::Refused(_) | Answer::NoCall(_)) || watched.domain.left.is_some() {
            return false;
        }
        taken = watched.reading().is_some_and(|reading| ways(reading, &call).contains(&way));
    }
    taken
}

/// The calls of a generated history up to a line, without those refused.
fn up_to(place: &Found) -> String {
    let history = generate(place.seed, place.profile).expect("a profile");
    let mut watched = Watched::default();
    let mut kept = String::new();
    for line in lines(history.as_bytes()).take(place.line) {
        if let Line::Call(call) = read_line(line) {
            if !matches!(watched.call(&call), Answer::Refused(_)) {
                kept += &format!("{call}\n");
            }
        }
    }
    kept
}

/// The smallest history that is made of one of the places.
fn smallest(way: &str, places: &[Found]) -> Option<(Found, String)> {
    let small = |place: &Found| {
        let history = shrink(up_to(place).as_bytes(), &|history| takes(history, way))?;
        let history = String::from_utf8_lossy(&history).into_owned();
        let renamed = rename(&history);
        Some((place.clone(), if takes(renamed.as_bytes(), way) { renamed } else { history }))
    };
    places.iter().filter_map(small).min_by_key(|(_, history)| (lines(history.as_bytes()).count(), history.len()))
}

/// The history with its blocks called a, b, c and so on, in the order of their
/// hashes.
fn rename(history: &str) -> String {
    let calls: Vec<Call> = history.lines().filter_map(|line| Call::read(line).ok()).collect();
    let blocks = calls.iter().filter_map(|call| match call {
        Call::Load(_, block) | Call::Put(_, block) => Some(block),
        _ => None,
    });
    let nothing = Hash([0; 32]);
    let mut old: BTreeSet<Hash> = blocks.clone().flat_map(|block| [block.hash, block.prev]).collect();
    if !blocks.clone().any(|block| block.hash == nothing) {
        old.remove(&nothing);
    }
    let letters = |zeros| ["a", "b", "c", "d", "e", "f"].map(|letter| letter.to_string() + &"0".repeat(zeros));
    let names = (0..).flat_map(letters).map(|name| Hash::read(&name).expect("hex digits"));
    let new: BTreeMap<Hash, Hash> = old.into_iter().zip(names).collect();
    let name = |hash: &mut Hash| *hash = new.get(hash).copied().unwrap_or(*hash);
    calls.into_iter().map(|call| format!("{}\n", renamed(call, &name))).collect()
}

fn renamed(mut call: Call, name: &dyn Fn(&mut Hash)) -> Call {
    match &mut call {
        Call::Load(_, block) | Call::Put(_, block) => {
            name(&mut block.hash);
            name(&mut block.prev);
            block.marks.other.iter_mut().for_each(name);
        }
        Call::Remove(_, hash) | Call::Answer(hash, _) => name(hash),
        _ => (),
    }
    call
}

/// A branch's name as a file's.
fn slug(branch: &str) -> String {
    let plain = branch.replace('\'', "");
    let words: Vec<&str> = plain.split(|c: char| !c.is_ascii_alphanumeric()).filter(|word| !word.is_empty()).collect();
    words.join("-")
}

/// All histories in the folders of a folder, in order.
pub fn histories(folder: &Path) -> io::Result<Vec<PathBuf>> {
    let mut files = Vec::new();
    for inner in fs::read_dir(folder)? {
        let inner = inner?.path();
        if inner.is_dir() {
            for file in fs::read_dir(inner)? {
                files.push(file?.path());
            }
        }
    }
    files.retain(|file| file.extension().is_some_and(|end| end == "txt"));
    files.sort();
    Ok(files)
}

/// The original's answers to a history; an error if document 01 differs, or
/// the history leaves the domain of the comparison.
fn answers(file: &Path) -> io::Result<String> {
    let (judge, answered) = Judge::run(&fs::read(file)?, true);
    if !judge.differences.is_empty() || judge.outside.is_some() {
        return Err(io::Error::other(format!("{}: {:?}", file.display(), judge.differences)));
    }
    Ok(answered.iter().map(|one| format!("{}\n", one.answer)).collect())
}

const MARK: &str = "<!-- files: written by `oracle record` -->\n";

/// Writes the list of files at the end of README.md, a line for each, with the
/// history's first remark.
fn list_files(folder: &Path, files: &[PathBuf]) -> io::Result<()> {
    let readme = folder.join("README.md");
    let text = fs::read_to_string(&readme)?;
    let head = text.split(MARK).next().unwrap_or("");
    let mut list = String::new();
    let mut last = String::new();
    for file in files {
        let name = file.strip_prefix(folder).unwrap_or(file).display().to_string();
        let inner = name.split('/').next().unwrap_or("").to_string();
        if inner != last {
            list += &format!("\n## {inner}/\n\n");
            last = inner;
        }
        let history = fs::read_to_string(file)?;
        let told = history.lines().next().unwrap_or("").trim_start_matches("# ").to_string();
        list += &format!("- `{name}`: {told}\n");
    }
    fs::write(readme, format!("{head}{MARK}{list}"))
}
