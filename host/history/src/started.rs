//! A program that is given its input and heard out, for tests of programs.
use std::io::{self, Write};
use std::process::{Command, Output, Stdio};

/// What a program prints, and how it exits, on an input.
pub fn heard(program: &str, args: &[&str], input: &[u8]) -> io::Result<Output> {
    let mut child =
        Command::new(program).args(args).stdin(Stdio::piped()).stdout(Stdio::piped()).stderr(Stdio::piped()).spawn()?;
    // A program that fails before it reads closes its end.
    if let Some(mut end) = child.stdin.take() {
        let _ = end.write_all(input);
    }
    child.wait_with_output()
}
