//! Calls: reading a line, and writing it back.
use crate::block::or_dash;
use crate::words::{Read, Words};
use crate::{Block, Hash, Side, Terms};
use std::fmt;

/// A call of a history.
#[derive(Clone, Debug, PartialEq)]
pub enum Call {
    Start { hashes: u64, journal: u64, generation: u64, version: u64 },
    Reload { generation: u64, version: u64 },
    Load(u8, Block<String>),
    Put(u8, Block<String>),
    Remove(u8, Hash),
    Answer(Hash, u64),
    Sync,
    Node(Hash),
    Parent(Hash),
    Effective(Hash),
    Linked(Hash),
    CanonicalLinked(Hash),
    Best,
    CanonicalBest,
    CanonicalCount,
    LiveCount,
    Count,
    Generation,
    Version,
    Leaves,
    Changes { generation: u64, version: u64 },
    Select(Terms),
    Adopt(Terms),
    Choose(Side<String>, Side<String>),
    Amount(String),
    Lend(Option<u64>),
}

/// What a line of a history is.
#[allow(clippy::large_enum_variant)] // one at a time, never kept
#[derive(Clone, Debug, PartialEq)]
pub enum Line {
    /// An empty line or a remark, which answers nothing.
    Passed,
    Call(Call),
    /// No call, and why. It answers `? ` and changes nothing.
    NoCall(String),
}

/// Reads one line, given without its end. Bytes that are not UTF-8 can only
/// stand in a TEXT, which they make unreadable: another unreadable text is
/// kept in its place.
pub fn read_line(line: &[u8]) -> Line {
    if line.is_empty() || line[0] == b'#' {
        return Line::Passed;
    }
    match Call::read(&String::from_utf8_lossy(line)) {
        Ok(call) => Line::Call(call),
        Err(why) => Line::NoCall(why),
    }
}

impl Call {
    /// Reads a call, or says why the line is none.
    pub fn read(line: &str) -> Result<Call, String> {
        let mut words = Words::new(line)?;
        let name = words.word("call")?;
        let call = Call::read_named(name, &mut words)?;
        words.end()?;
        Ok(call)
    }

    fn read_named(name: &str, w: &mut Words) -> Read<Call> {
        Ok(match name {
            "start" => {
                Call::Start { hashes: w.number()?, journal: w.number()?, generation: w.number()?, version: w.number()? }
            }
            "reload" => Call::Reload { generation: w.number()?, version: w.number()? },
            "load" => Call::Load(w.store()?, w.block()?),
            "put" => Call::Put(w.store()?, w.block()?),
            "remove" => Call::Remove(w.store()?, w.hash()?),
            "answer" => Call::Answer(w.hash()?, w.number()?),
            "sync" => Call::Sync,
            "node" => Call::Node(w.hash()?),
            "parent" => Call::Parent(w.hash()?),
            "effective" => Call::Effective(w.hash()?),
            "linked" => Call::Linked(w.hash()?),
            "clinked" => Call::CanonicalLinked(w.hash()?),
            "best" => Call::Best,
            "cbest" => Call::CanonicalBest,
            "ccount" => Call::CanonicalCount,
            "live" => Call::LiveCount,
            "count" => Call::Count,
            "generation" => Call::Generation,
            "version" => Call::Version,
            "leaves" => Call::Leaves,
            "changes" => Call::Changes { generation: w.number()?, version: w.number()? },
            "select" => Call::Select(w.terms()?),
            "adopt" => Call::Adopt(w.terms()?),
            "choose" => Call::Choose(w.side()?, w.side()?),
            "amount" => Call::Amount(w.text()?),
            "lend" => Call::Lend(w.optional_number()?),
            _ => return Err(format!("{name} is no call")),
        })
    }

    /// The first word of the call.
    pub fn name(&self) -> &'static str {
        match self {
            Call::Start { .. } => "start",
            Call::Reload { .. } => "reload",
            Call::Load(..) => "load",
            Call::Put(..) => "put",
            Call::Remove(..) => "remove",
            Call::Answer(..) => "answer",
            Call::Sync => "sync",
            Call::Node(_) => "node",
            Call::Parent(_) => "parent",
            Call::Effective(_) => "effective",
            Call::Linked(_) => "linked",
            Call::CanonicalLinked(_) => "clinked",
            Call::Best => "best",
            Call::CanonicalBest => "cbest",
            Call::CanonicalCount => "ccount",
            Call::LiveCount => "live",
            Call::Count => "count",
            Call::Generation => "generation",
            Call::Version => "version",
            Call::Leaves => "leaves",
            Call::Changes { .. } => "changes",
            Call::Select(_) => "select",
            Call::Adopt(_) => "adopt",
            Call::Choose(..) => "choose",
            Call::Amount(_) => "amount",
            Call::Lend(_) => "lend",
        }
    }
}

/// The line that [`Call::read`] reads as this call.
impl fmt::Display for Call {
    fn fmt(&self, f: &mut fmt::Formatter) -> fmt::Result {
        f.write_str(self.name())?;
        match self {
            Call::Start { hashes, journal, generation, version } => {
                write!(f, " {hashes} {journal} {generation} {version}")
            }
            Call::Reload { generation, version } | Call::Changes { generation, version } => {
                write!(f, " {generation} {version}")
            }
            Call::Load(store, block) | Call::Put(store, block) => write!(f, " {store} {block}"),
            Call::Remove(store, hash) => write!(f, " {store} {hash}"),
            Call::Answer(hash, value) => write!(f, " {hash} {value}"),
            Call::Node(hash)
            | Call::Parent(hash)
            | Call::Effective(hash)
            | Call::Linked(hash)
            | Call::CanonicalLinked(hash) => write!(f, " {hash}"),
            Call::Select(terms) | Call::Adopt(terms) => write!(f, " {terms}"),
            Call::Choose(local, remote) => write!(f, " {local} {remote}"),
            Call::Amount(text) => write!(f, " \"{text}\""),
            Call::Lend(length) => write!(f, " {}", or_dash(*length)),
            _ => Ok(()),
        }
    }
}
