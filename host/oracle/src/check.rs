//! Answers of a file or of another program against those of a run.
use crate::judge::{Answered, Judge};
use std::io::Write;
use std::process::{Command, Stdio};

/// The words after `? ` are free.
fn fixed(line: &str) -> &str {
    if line.starts_with('?') {
        "?"
    } else {
        line
    }
}

/// The first call whose answer in a text is another, as a message; none if all
/// are the same.
pub fn first_difference(answered: &[Answered], text: &[u8]) -> Option<String> {
    let text = String::from_utf8_lossy(text);
    let mut lines = text.lines().enumerate().peekable();
    for (place, one) in answered.iter().enumerate() {
        let at = lines.peek().map_or(text.lines().count(), |(place, _)| *place) + 1;
        let ours = one.answer.to_string();
        let theirs: Vec<&str> = ours.lines().map_while(|_| lines.next().map(|(_, line)| line)).collect();
        if !ours.lines().map(fixed).eq(theirs.iter().copied().map(fixed)) {
            let call = String::from_utf8_lossy(&one.line);
            let before = before(&answered[..=place]);
            return Some(format!(
                "history line {}, answers line {at}: {call}\n  expected: {}\n  found:    {}\nup to it:\n{before}",
                one.number,
                ours.replace('\n', "\n            "),
                theirs.join("\n            "),
            ));
        }
    }
    let (place, line) = lines.next()?;
    Some(format!("answers line {}: more than the history's calls: {line}", place + 1))
}

/// The last calls with their answers.
pub fn before(answered: &[Answered]) -> String {
    let shown = |one: &Answered| {
        let (line, answer) = (String::from_utf8_lossy(&one.line), one.answer.to_string());
        format!("{:6}  {line}\n        -> {}\n", one.number, answer.replace('\n', "\n        "))
    };
    answered[answered.len().saturating_sub(8)..].iter().map(shown).collect()
}

/// What a program answers to a history on its standard input.
pub fn program_answers(program: &[&str], history: &[u8]) -> Vec<u8> {
    let mut child = Command::new(program[0])
        .args(&program[1..])
        .stdin(Stdio::piped())
        .stdout(Stdio::piped())
        .spawn()
        .unwrap_or_else(|error| panic!("{}: {error}", program[0]));
    let mut input = child.stdin.take().expect("piped above");
    let history = history.to_vec();
    let feeder = std::thread::spawn(move || drop(input.write_all(&history)));
    let output = child.wait_with_output().expect("the program was started");
    feeder.join().expect("the feeder only writes");
    output.stdout
}

/// The program's answers are not those of the run, within the domain.
pub fn program_differs(program: &[&str], history: &[u8]) -> bool {
    let (judge, answered) = Judge::run(history, false);
    judge.outside.is_none() && first_difference(&answered, &program_answers(program, history)).is_some()
}
