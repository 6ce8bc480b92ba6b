//! The original's sentence for each reason, and back.
use crate::{Hash, Reason};

impl Reason {
    /// The sentence that the original writes for this reason.
    pub fn sentence(&self) -> String {
        match self {
            Reason::SameTip(hash) => format!("Same tip hash {}, equal work", hash.hex()),
            Reason::Neither => "Neither chain's work reaches its anchor".to_string(),
            Reason::PeerOnly(work) => format!("Peer work {work} is linked and local work stopped at a hole"),
            Reason::LocalOnly(work) => format!("Local work {work} is linked and peer work stopped at a hole"),
            Reason::PeerWork(remote, local) => format!("Peer linked work {remote} is higher than local {local}"),
            Reason::LocalWork(local, remote) => format!("Local linked work {local} is higher than peer {remote}"),
            Reason::PeerTip(remote, local) => format!("Equal linked work, peer tip {remote} is higher than {local}"),
            Reason::LocalTip(local, remote) => format!("Equal linked work, local tip {local} is higher than {remote}"),
            Reason::PeerHash => "Equal linked work and tip, peer hash is lower".to_string(),
            Reason::LocalHash => "Equal linked work and tip, local hash is lower".to_string(),
            Reason::OffSpine => "Off the verified spine".to_string(),
            Reason::Competing => "Competing fork".to_string(),
            Reason::Stale => "Stale fork 2 epochs under the tip".to_string(),
        }
    }

    /// The reason whose sentence this is, to the letter.
    pub fn from_sentence(sentence: &str) -> Option<Reason> {
        use Reason::*;
        let plain = [Neither, PeerHash, LocalHash, OffSpine, Competing, Stale];
        // Words that are no numbers: what is left are the numbers printed.
        let numbers: Vec<&str> = sentence.split([' ', ',']).filter(|word| word.parse::<u128>().is_ok()).collect();
        let work = |place: usize| numbers.get(place)?.parse::<u128>().ok();
        let tip = |place: usize| numbers.get(place)?.parse::<u64>().ok();
        let hash = sentence.strip_prefix("Same tip hash ").and_then(|rest| Hash::read(rest.get(..64)?));
        let numbered = [
            hash.map(SameTip),
            work(0).map(PeerOnly),
            work(0).map(LocalOnly),
            work(0).zip(work(1)).map(|(one, other)| PeerWork(one, other)),
            work(0).zip(work(1)).map(|(one, other)| LocalWork(one, other)),
            tip(0).zip(tip(1)).map(|(one, other)| PeerTip(one, other)),
            tip(0).zip(tip(1)).map(|(one, other)| LocalTip(one, other)),
        ];
        plain.into_iter().chain(numbered.into_iter().flatten()).find(|reason| reason.sentence() == sentence)
    }
}
