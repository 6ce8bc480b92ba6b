//! wrong-answers: whether each wrong answer is refused for a fact of its own.
use gate::kit::Repository;
use gate::passed::Passed;
use gate::{crates, look};
use std::collections::BTreeMap;
use std::path::Path;

const USAGE: &str = "wrong-answers [CRATE | CRATE/EDIT ..], in the folder of a repository";

fn main() {
    let named: Vec<String> = std::env::args().skip(1).collect();
    if named.iter().any(|name| name.starts_with('-')) {
        eprintln!("{USAGE}");
        std::process::exit(2);
    }
    let faults = run(named).unwrap_or_else(|error| {
        eprintln!("wrong-answers: {error}");
        std::process::exit(2)
    });
    std::process::exit(if faults == 0 { 0 } else { 1 });
}

fn run(named: Vec<String>) -> std::io::Result<usize> {
    let root = Path::new(".").canonicalize()?;
    let names = if named.is_empty() { crates(&root)? } else { named };
    let passed = Passed::new(&root)?;
    let (mut edits, mut wrong, mut faults, mut keys, mut left) = (0, 0, 0, BTreeMap::new(), Vec::new());
    for name in names {
        // an edit that is named by itself is always tried
        if name.contains('/') {
            left.push(name);
            continue;
        }
        let key = passed.key(&name)?;
        match passed.told(&key) {
            Some((in_edits, answers)) => {
                println!("{name}: {answers} wrong answers in {in_edits} edits, which an earlier run judged (0 s)");
                edits += in_edits;
                wrong += answers;
            }
            None => {
                keys.insert(name.clone(), key);
                left.push(name);
            }
        }
    }
    for report in look(&Repository::new(&root, &left)?, &left)? {
        report.faults.iter().for_each(|fault| println!("wrong-answers: {fault}"));
        println!("{}: {} wrong answers in {} edits ({:.0} s)", report.name, report.wrong, report.edits, report.seconds);
        edits += report.edits;
        wrong += report.wrong;
        faults += report.faults.len();
        // nothing is kept of sources that changed meanwhile
        if let Some(key) = keys.get(&report.name).filter(|_| report.faults.is_empty()) {
            if passed.key(&report.name)? == *key {
                passed.keep(key, report.edits, report.wrong)?;
            }
        }
    }
    println!("wrong answers: {wrong} in {edits} edits; faults: {faults}");
    if faults > 0 {
        println!("what the prover said is in target/wrong-answers/CRATE/EDIT.log");
    }
    Ok(faults)
}
