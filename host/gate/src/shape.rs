//! The shape of a function: what the prover asks of it, in order. Functions of
//! one shape differ in values and comparisons alone, so that what a proof of
//! one speaks of is there in the other too.
use std::collections::{BTreeMap, BTreeSet};
use std::fs;
use std::io;
use std::path::Path;

/// A function as the compiler lowers it.
#[derive(PartialEq)]
pub struct Lowered {
    code: Node,
    /// Branches, loops, calls and returns, and the operations that must be
    /// shown to be safe.
    pub shape: Vec<String>,
    /// The same with every other step: a proof by hand goes through all.
    pub steps: Vec<String>,
    pub calls: BTreeSet<String>,
}

/// A term of lowered code: a word, or a list in parentheses.
#[derive(Clone, PartialEq)]
enum Node {
    Word(String),
    List(Vec<Node>),
}

impl Node {
    fn parts(&self) -> &[Node] {
        match self {
            Node::Word(_) => std::slice::from_ref(self),
            Node::List(parts) => parts,
        }
    }

    /// The word, or the first one of the list.
    fn head(&self) -> &str {
        match self {
            Node::Word(word) => word,
            Node::List(parts) => parts.first().map_or("", Node::head),
        }
    }

    /// Adds what is asked, in order, or every step. A branch or a loop is shown
    /// with its end.
    fn asks(&self, every: bool, all: &mut Vec<String>) {
        let parts = self.parts();
        let mut inside = |word: &str, bodies: &[Node]| {
            all.push(word.into());
            for body in bodies {
                body.asks(every, all);
                all.push("end".into());
            }
        };
        match (self.head(), parts.len()) {
            ("seq", _) => parts[1..].iter().for_each(|part| part.asks(every, all)),
            ("assign", 3) if every => all.push(format!("{} {}", parts[2].head(), parts[2].size())),
            ("assign", 3) => all.extend(parts[2].operation()),
            ("call", 4) => all.push(format!("call {}", parts[1].words())),
            ("skip", _) => {}
            ("exit", 2) => all.push(format!("exit {}", parts[1].head())),
            ("cond", 4) => inside("if", &parts[2..]),
            ("switch", 3) => inside("switch", &parts[2..]),
            // its keys, its body, and the arms after it
            ("arm", 4) => inside("arm", &parts[2..]),
            (word @ ("loop" | "block" | "default"), 2) => inside(word, &parts[1..]),
            (word, _) => all.push(word.into()),
        }
    }

    /// An operation that must be shown to be safe: a sum, difference or product
    /// fits, a cast loses nothing, an offset stays inside, and what is divided
    /// by is not 0, unless it is a number.
    fn operation(&self) -> Option<String> {
        let parts = self.parts();
        let word = match self.head() {
            "op1" | "op2" => parts.get(1)?.head(),
            _ => return None,
        };
        let free = match word {
            "lt" | "le" | "eq" | "ne" | "bit_not" | "bit_and" | "bit_or" | "bit_xor" => true,
            "div" | "rem" => ["int", "int_big"].contains(&parts.get(3)?.head()),
            _ => false,
        };
        (!free).then(|| word.to_string())
    }

    /// How many parts there are, with those of a list that is one of them.
    fn size(&self) -> usize {
        match self {
            Node::Word(_) => 1,
            Node::List(parts) => {
                let length = |part: &Node| if part.head() == "∷" { part.size() } else { 1 };
                parts.iter().map(length).sum()
            }
        }
    }

    fn words(&self) -> String {
        match self {
            Node::Word(word) => word.clone(),
            Node::List(parts) => parts.iter().map(Node::words).collect::<Vec<String>>().join(" "),
        }
    }

    fn calls(&self, all: &mut BTreeSet<String>) {
        if let Node::List(parts) = self {
            if self.head() == "call" {
                all.extend(parts.get(1).map(Node::words));
            }
            parts.iter().for_each(|part| part.calls(all));
        }
    }
}

/// The kit's text of one function's code: definitions, each of a term that may
/// name earlier ones.
struct Text {
    terms: BTreeMap<String, Node>,
    /// The functions that are called, by the names of their symbols.
    symbols: BTreeMap<String, String>,
}

impl Text {
    fn new(text: &str) -> Self {
        let mut made = Text { terms: BTreeMap::new(), symbols: BTreeMap::new() };
        for line in text.lines().filter_map(|line| line.strip_prefix("use Rattle.")) {
            let (path, alias) = line.split_once(" as ").unwrap_or((line, "Symbol"));
            if let Some((library, function)) = path.strip_suffix(".Symbol").and_then(|path| path.split_once(".proofs."))
            {
                made.symbols.insert(format!("{alias}.name"), format!("{library}/{}", function.replace('.', "/")));
            }
        }
        for block in text.split("\n\n") {
            let name = block.strip_prefix("abbrev pub ").and_then(|block| block.split_whitespace().next());
            let term = name.and_then(|name| block.split_once(&format!("\n{name} =")));
            if let (Some(name), Some((_, term))) = (name, term) {
                made.terms.insert(name.into(), made.read(term));
            }
        }
        made
    }

    fn read(&self, term: &str) -> Node {
        let mut open = vec![Vec::new()];
        let apart = "(){},;".chars().fold(term.to_string(), |text, c| text.replace(c, &format!(" {c} ")));
        for word in apart.split_whitespace() {
            match word {
                "(" => open.push(Vec::new()),
                ")" if open.len() > 1 => {
                    let list = open.pop().map(one).expect("two or more");
                    open.last_mut().expect("one or more").push(list);
                }
                word => open.last_mut().expect("one or more").push(self.word(word)),
            }
        }
        one(open.swap_remove(0))
    }

    fn word(&self, word: &str) -> Node {
        let plain = word.strip_prefix("Syntax.").or(word.strip_prefix("List.")).unwrap_or(word);
        let plain = if plain == "◌∷◌" { "∷" } else { plain };
        Node::Word(self.symbols.get(word).map_or(plain, String::as_str).into())
    }

    /// The term with all that it names put in its place.
    fn whole(&self, term: &Node) -> Node {
        match term {
            Node::Word(word) => self.terms.get(word).map_or_else(|| term.clone(), |term| self.whole(term)),
            Node::List(parts) => Node::List(parts.iter().map(|part| self.whole(part)).collect()),
        }
    }
}

/// A list of one term is that term.
fn one(mut parts: Vec<Node>) -> Node {
    if parts.len() == 1 {
        parts.swap_remove(0)
    } else {
        Node::List(parts)
    }
}

/// A function, by the folder in which the kit wrote what it makes of it.
pub fn lowered(folder: &Path) -> io::Result<Lowered> {
    let text = Text::new(&fs::read_to_string(folder.join("Code/Mir.antt"))?);
    let lacks = || io::Error::other(format!("{} has no code of a function", folder.display()));
    // `record { .. body = TERM; }`: where types have names, under the first of these, and the second spells them out
    let function = text.terms.get("by_name").or(text.terms.get("function")).ok_or_else(lacks)?;
    let at = function.parts().iter().position(|part| part.head() == "body").ok_or_else(lacks)?;
    let body = function.parts()[at..].iter().skip(2).take_while(|part| part.head() != ";").cloned().collect();
    let (body, code) = (text.whole(&one(body)), text.whole(function));
    let ([mut shape, mut steps], mut calls) = ([Vec::new(), Vec::new()], BTreeSet::new());
    body.asks(false, &mut shape);
    body.asks(true, &mut steps);
    body.calls(&mut calls);
    Ok(Lowered { code, shape, steps, calls })
}
