//! The words of a line, read one after the other.
use crate::{Block, Hash, Marks, Reason, Side, Terms};

/// What was expected and did not come.
pub(crate) type Read<T> = Result<T, String>;

/// A NUMBER: decimal digits, leading zeros allowed.
pub(crate) fn number(word: &str) -> Option<u64> {
    word.bytes().all(|byte| byte.is_ascii_digit()).then(|| word.parse().ok())?
}

/// A TIME or CLOCK: a decimal i64 without a plus sign.
fn time(word: &str) -> Option<i64> {
    (!word.starts_with('+')).then(|| word.parse().ok())?
}

/// The words of a line, separated by one space. A TEXT stays one word and
/// keeps its quotes.
fn split(line: &str) -> Option<Vec<&str>> {
    let mut words = Vec::new();
    let mut rest = line;
    loop {
        let end = match rest.strip_prefix('"') {
            Some(text) => text.find('"')? + 2,
            None => rest.find(' ').unwrap_or(rest.len()),
        };
        words.push(&rest[..end]);
        rest = &rest[end..];
        if rest.is_empty() {
            return Some(words);
        }
        rest = rest.strip_prefix(' ')?;
    }
}

pub(crate) struct Words<'a>(std::vec::IntoIter<&'a str>);

impl<'a> Words<'a> {
    pub fn new(line: &'a str) -> Read<Words<'a>> {
        Ok(Words(split(line).ok_or("the quotes don't match")?.into_iter()))
    }

    pub fn word(&mut self, what: &str) -> Read<&'a str> {
        self.0.next().ok_or(format!("{what} missing"))
    }

    pub fn end(&mut self) -> Read<()> {
        self.0.next().map_or(Ok(()), |word| Err(format!("{word} is left over")))
    }

    fn read<T>(&mut self, what: &str, read: impl Fn(&'a str) -> Option<T>) -> Read<T> {
        let word = self.word(what)?;
        read(word).ok_or(format!("{word} is no {what}"))
    }

    fn optional<T>(&mut self, what: &str, read: impl Fn(&'a str) -> Option<T>) -> Read<Option<T>> {
        self.read(what, |word| if word == "-" { Some(None) } else { read(word).map(Some) })
    }

    pub fn number(&mut self) -> Read<u64> {
        self.read("NUMBER", number)
    }

    pub fn optional_number(&mut self) -> Read<Option<u64>> {
        self.optional("NUMBER", number)
    }

    pub fn store(&mut self) -> Read<u8> {
        self.read("STORE", |word| number(word)?.try_into().ok())
    }

    pub fn hash(&mut self) -> Read<Hash> {
        self.read("HASH", Hash::read)
    }

    pub fn text(&mut self) -> Read<String> {
        self.read("TEXT", |word| Some(word.strip_prefix('"')?.strip_suffix('"')?.to_string()))
    }

    pub fn block(&mut self) -> Read<Block<String>> {
        let (hash, index, epoch, prev) = (self.hash()?, self.number()?, self.number()?, self.hash()?);
        let (target, actual) = (self.text()?, self.text()?);
        Ok(Block { hash, index, epoch, prev, target, actual, marks: self.marks()? })
    }

    fn marks(&mut self) -> Read<Marks> {
        let flags = ["-", "o", "c", "oc"];
        let flags = self.read("FLAGS", |word| flags.iter().position(|known| *known == word))?;
        let time = self.optional("TIME", time)?;
        let reason = self.optional("REASON", Reason::read)?;
        let other = self.optional("OTHER", Hash::read)?;
        Ok(Marks { orphaned: flags & 1 > 0, canonical: flags & 2 > 0, time, reason, other })
    }

    pub fn terms(&mut self) -> Read<Terms> {
        Ok(Terms { floor: self.optional("FLOOR", number)?, n: self.number()?, clock: self.read("CLOCK", time)? })
    }

    pub fn side(&mut self) -> Read<Side<String>> {
        let work = match self.0.as_slice().first() {
            Some(&"?") => self.word("").map(|_| None)?,
            _ => Some(self.text()?),
        };
        Ok(Side { work, index: self.number()?, hash: self.hash()? })
    }
}
