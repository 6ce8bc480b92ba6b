//! include/cadraspes.h: a program of C and of C++ that includes it is compiled,
//! linked and run; and what it declares is what the boundary calls and the
//! library exports.
use crate::common::with_library;
use cadraspes::words::copy_words;
use cadraspes::{Hash, Marks, Reason, Refusal};
use std::collections::{BTreeMap, BTreeSet};
use std::io::{ErrorKind, Write};
use std::path::{Path, PathBuf};
use std::process::Command;

const ARCHIVE: &str = env!("CADRASPES_ARCHIVE");

fn root() -> PathBuf {
    Path::new(env!("CARGO_MANIFEST_DIR")).join("../..")
}

fn text(file: &str) -> String {
    let file = root().join(file);
    std::fs::read_to_string(&file).unwrap_or_else(|error| panic!("{}: {error}", file.display()))
}

fn header() -> String {
    text("include/cadraspes.h")
}

/// Compiles the program with no warning let pass, and runs it.
fn compile_and_run(compiler: &str, language: &[&str], name: &str) {
    if !with_library() {
        return;
    }
    let program = Path::new(env!("CARGO_TARGET_TMPDIR")).join(name);
    let compiled = Command::new(compiler)
        .args(["-Wall", "-Wextra", "-pedantic", "-Werror", "-I"])
        .arg(root().join("include"))
        .args(language)
        .arg(root().join("host/cadraspes/tests/c/first.c"))
        .args(["-x", "none", ARCHIVE, "-o"])
        .arg(&program)
        .output();
    let compiled = match compiled {
        Err(error) if error.kind() == ErrorKind::NotFound => {
            drop(writeln!(std::io::stderr(), "{compiler} is not at hand: the header was not tried with it"));
            return;
        }
        compiled => compiled.expect("the compiler was started"),
    };
    assert!(compiled.status.success(), "{}", String::from_utf8_lossy(&compiled.stderr));
    let run = Command::new(&program).output().expect("the program was made");
    assert_eq!((String::from_utf8_lossy(&run.stdout).as_ref(), run.status.code()), ("0 wrong\n", Some(0)));
}

#[test]
fn a_program_of_c_has_the_answers() {
    compile_and_run("cc", &["-std=c99"], "first-c");
}

#[test]
fn a_program_of_cpp_has_them_too() {
    compile_and_run("c++", &["-std=c++11", "-x", "c++"], "first-cpp");
}

/// The functions of a text, each name with what stands between its brackets,
/// where names come behind these words.
fn functions(text: &str, before: &str) -> BTreeMap<String, Vec<String>> {
    let mut found = BTreeMap::new();
    for part in text.split(before).skip(1).filter(|part| part.starts_with("cadraspes_")) {
        let (name, rest) = part.split_once('(').expect("a bracket opens");
        let arguments = rest.split_once(')').expect("a bracket closes").0;
        let arguments = arguments.split(',').map(|argument| argument.split_whitespace().collect::<Vec<_>>().join(" "));
        let twice = found.insert(name.to_string(), arguments.filter(|argument| !argument.is_empty()).collect());
        assert_eq!(twice, None, "{name} twice");
    }
    found
}

/// The type of an argument of C, without its name: `const uint8_t hash[32]` is
/// `const uint8_t[32]`.
fn type_in_c(argument: &str) -> String {
    let name = argument.rfind([' ', '*']).expect("a type and a name") + 1;
    let length = argument.find('[').unwrap_or(argument.len());
    argument[..name].trim_end().to_string() + &argument[length..]
}

/// The type in C of an argument of the boundary, `name: type`.
fn type_as_c(argument: &str) -> &'static str {
    match argument.split_once(": ").expect("a name and a type").1 {
        "u64" => "uint64_t",
        "i64" => "int64_t",
        "usize" => "size_t",
        "*mut u64" | "&mut u64" => "uint64_t *",
        "*const u64" => "const uint64_t *",
        "*mut u8" => "uint8_t *",
        "*const u8" => "const uint8_t *",
        "*mut EntryWords" => "struct cadraspes_entry *",
        "&[u8; 32]" => "const uint8_t[32]",
        "&CopyWords" => "const uint64_t[12]",
        "&SideWords" => "const uint64_t[4]",
        "&mut ShownWords" => "uint64_t[29]",
        "&mut ChoiceWords" => "uint64_t[6]",
        "&mut ValueWords" | "&mut PlannedWords" | "&mut [u64; 3]" => "uint64_t[3]",
        "&mut [u64; 2]" => "uint64_t[2]",
        other => panic!("what is {other} in C?"),
    }
}

/// The functions that the header declares, with their arguments.
pub fn declared() -> BTreeMap<String, Vec<String>> {
    functions(&header(), "\nuint64_t ")
}

#[test]
fn the_boundary_calls_what_the_header_declares() {
    let in_c = declared();
    let boundary = functions(&text("host/cadraspes/src/boundary.rs"), "    fn ");
    assert_eq!(in_c.keys().collect::<Vec<_>>(), boundary.keys().collect::<Vec<_>>());
    for (name, arguments) in &in_c {
        let declared: Vec<String> = arguments.iter().map(|argument| type_in_c(argument)).collect();
        let called: Vec<&str> = boundary[name].iter().map(|argument| type_as_c(argument)).collect();
        assert_eq!(declared, called, "{name}");
    }
}

#[test]
fn the_library_exports_what_the_header_declares() {
    let exported = functions(&text("crates/cadraspes_c/src/lib.rt"), "\npub extern \"C\" fn ");
    let in_c = declared();
    assert!(!in_c.is_empty());
    assert_eq!(in_c.keys().collect::<BTreeSet<_>>(), exported.keys().collect::<BTreeSet<_>>());
}

/// Each function of a text with all that stands before its body, arguments and
/// clauses.
fn heads<'a>(text: &'a str, before: &str) -> BTreeMap<&'a str, String> {
    let head = |part: &'a str| Some((part.split_once('(')?.0, part.split_once("\n{\n")?.0));
    let all = text.split(before).skip(1).filter_map(head).filter(|(name, _)| name.starts_with("cadraspes_"));
    // how lines are broken says nothing
    all.map(|(name, head)| (name, head.split_whitespace().collect::<String>().replace(",)", ")"))).collect()
}

#[test]
fn the_library_promises_what_its_calls_do() {
    let (calls, exports) = (text("crates/cadraspes/src/lib.rt"), text("crates/cadraspes_c/src/lib.rt"));
    let exports = heads(&exports, "\npub extern \"C\" fn ");
    assert_eq!(exports, heads(&calls, "\npub fn "));
    assert!(exports.len() > 1 && exports.values().all(|head| head.contains("ensures")));
}

/// The constants of an enum, by their numbers, from the one of this name on.
fn constants(header: &str, first: &str) -> Vec<(String, u64)> {
    let from = header.find(&format!("CADRASPES_{first} =")).expect("the first constant");
    let inside = header[from..].split('}').next().expect("an enum ends");
    let lines = inside.split("CADRASPES_").skip(1).filter_map(|part| part.split_once(" = "));
    let number = |rest: &str| rest.chars().take_while(char::is_ascii_digit).collect::<String>().parse();
    lines.map(|(name, rest)| (name.to_string(), number(rest).expect("a number"))).collect()
}

#[test]
fn refusals_have_their_numbers_and_names() {
    let mut expected = vec![("DONE".to_string(), 0)];
    expected.extend((1..).map_while(Refusal::of).map(|one| (one.name().to_string(), one.number().into())));
    assert_eq!(expected.len(), 14);
    assert_eq!(constants(&header(), "DONE"), expected);
}

#[test]
fn reasons_have_the_numbers_that_cross() {
    let reasons = [
        ("SAME_TIP", Reason::SameTip(Hash([7; 32]))),
        ("NEITHER", Reason::Neither),
        ("PEER_ONLY", Reason::PeerOnly(1)),
        ("LOCAL_ONLY", Reason::LocalOnly(1)),
        ("PEER_WORK", Reason::PeerWork(2, 1)),
        ("LOCAL_WORK", Reason::LocalWork(2, 1)),
        ("PEER_TIP", Reason::PeerTip(2, 1)),
        ("LOCAL_TIP", Reason::LocalTip(2, 1)),
        ("PEER_HASH", Reason::PeerHash),
        ("LOCAL_HASH", Reason::LocalHash),
        ("OFF_SPINE", Reason::OffSpine),
        ("COMPETING", Reason::Competing),
        ("STALE_FORK", Reason::Stale),
    ];
    let kind = |reason| copy_words(&Marks { reason: Some(reason), ..Marks::default() })[3];
    let expected: Vec<(String, u64)> = reasons.iter().map(|(name, one)| (name.to_string(), kind(*one))).collect();
    assert_eq!(constants(&header(), "SAME_TIP"), expected);
}
