//! The time of the library's calls, alone and beside the original's, and what
//! both hold: the tables of docs/SPEED.md.
mod beside;
mod blocks;
mod calls;
mod clock;
mod memory;
mod rows;
mod script;
mod side;

const USAGE: &str = "bench [calls | rows [ROW..] | plans | memory | alone ROW HELD library|original]";

fn main() {
    if !cadraspes::linked() {
        eprintln!("{}", cadraspes::NOT_LINKED);
        std::process::exit(1);
    }
    let words: Vec<String> = std::env::args().skip(1).collect();
    match words.first().map(String::as_str) {
        None => {
            calls::table();
            println!();
            beside::table(&[]);
            println!();
            memory::table();
            println!();
            beside::plan_table();
        }
        Some("calls") => calls::table(),
        Some("rows") => beside::table(&words[1..]),
        Some("plans") => beside::plan_table(),
        Some("memory") => memory::table(),
        Some("alone") => beside::alone(&words[1..]),
        Some(_) => {
            eprintln!("{USAGE}");
            std::process::exit(2);
        }
    }
}
