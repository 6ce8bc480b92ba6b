//! cadraspes: histories answered by the library, and its tree drawn.
#![forbid(unsafe_code)]
use cadraspes::draw::{svg, text, Played, Scene};
use cadraspes::{Refusal, Replay};
use history::Answer;
use std::ffi::{OsStr, OsString};
use std::fs::File;
use std::io::{self, BufRead, BufReader, BufWriter, ErrorKind, Write};

const USAGE: &str = "cadraspes replay FILE        the library's answers to a history
cadraspes draw FILE          the tree at its end, as text
cadraspes draw --svg FILE    the same as SVG
FILE may be - for standard input";

/// What went wrong, and where.
enum Failure {
    Usage,
    NotLinked,
    Read(io::Error),
    Write(io::Error),
}

fn main() {
    let args: Vec<OsString> = std::env::args_os().skip(1).collect();
    let file = args.last().map_or(OsStr::new(""), OsString::as_os_str);
    let status = match run(&args, file) {
        Ok(()) => 0,
        // Whoever reads has seen enough.
        Err(Failure::Write(error)) if error.kind() == ErrorKind::BrokenPipe => 0,
        Err(Failure::Write(error)) => told(1, &format!("standard output: {error}")),
        Err(Failure::Read(error)) => told(1, &format!("{}: {error}", file.to_string_lossy())),
        Err(Failure::NotLinked) => told(1, cadraspes::NOT_LINKED),
        Err(Failure::Usage) => told(2, USAGE),
    };
    std::process::exit(status)
}

/// Says it on standard error, if there is one.
fn told(status: i32, what: &str) -> i32 {
    let _ = writeln!(io::stderr(), "{what}");
    status
}

fn run(args: &[OsString], file: &OsStr) -> Result<(), Failure> {
    let words: Vec<&str> = args.iter().map(|word| word.to_str().unwrap_or("")).collect();
    let verb: fn(&mut dyn BufRead) -> Result<(), Failure> = match words[..] {
        ["replay", file] if !file.starts_with("--") => replay,
        ["draw", "--svg", _] => |input| draw(input, svg),
        ["draw", file] if !file.starts_with("--") => |input| draw(input, text),
        _ => return Err(Failure::Usage),
    };
    if !cadraspes::linked() {
        return Err(Failure::NotLinked);
    }
    if file == "-" {
        return verb(&mut io::stdin().lock());
    }
    verb(&mut BufReader::new(File::open(file).map_err(Failure::Read)?))
}

/// Hands over each line without its end, however long the history.
fn each_line(input: &mut dyn BufRead, mut line: impl FnMut(&[u8]) -> Result<(), Failure>) -> Result<(), Failure> {
    let mut bytes = Vec::new();
    while input.read_until(b'\n', &mut bytes).map_err(Failure::Read)? > 0 {
        line(bytes.strip_suffix(b"\n").unwrap_or(&bytes))?;
        bytes.clear();
    }
    Ok(())
}

/// The answers, written while the history is still read.
fn replay(input: &mut dyn BufRead) -> Result<(), Failure> {
    let (mut replay, mut output) = (Replay::default(), BufWriter::new(io::stdout().lock()));
    each_line(input, |line| match replay.line(line) {
        Some(answer) => writeln!(output, "{answer}").map_err(Failure::Write),
        None => Ok(()),
    })?;
    output.flush().map_err(Failure::Write)
}

/// What a drawing would leave out without a word: a line that is no call, and
/// a call that is refused. (With 12 and 13 only questions and plans are.)
fn left_out(answer: Answer) -> Option<String> {
    match answer {
        Answer::NoCall(_) => Some(answer.to_string()),
        Answer::Refused(number @ ..12) => Some(format!("refused, {}", Refusal::of(number.into())?)),
        _ => None,
    }
}

/// The tree at the end of a history.
fn draw(input: &mut dyn BufRead, drawn: fn(&Scene) -> String) -> Result<(), Failure> {
    let (mut played, mut number) = (Played::default(), 0);
    each_line(input, |line| {
        number += 1;
        if let Some(what) = played.line(line).and_then(left_out) {
            told(0, &format!("line {number}: {what}"));
        }
        Ok(())
    })?;
    let mut output = io::stdout().lock();
    output.write_all(drawn(&played.scene()).as_bytes()).and_then(|()| output.flush()).map_err(Failure::Write)
}
