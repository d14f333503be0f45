//! Why there is no answer.

use std::error::Error;
use std::fmt;

/// The first rule of the format that bytes break, and where. What there is nothing to say of is 0.
#[derive(Clone, Debug, PartialEq, Eq)]
pub struct Fault {
    /// The number of its kind, from 1 on.
    pub number: u8,
    /// The name of its kind, as `BlockTrailer`.
    pub kind: String,
    /// The version of a file, or the number of its encoding, of `Version` and `Encoded`.
    pub value: Option<u64>,
    /// The place in the file.
    pub at: u64,
    /// The identifier of the block or page.
    pub bid: u64,
    /// The identifier of the node.
    pub nid: u32,
}

impl Fault {
    /// Whether it says that the file is damaged, where it is told of the file ([`Refusal::Fault`]). `Version`, `Encoded` and
    /// `MapsInvalid` say only that it is outside of what is checked.
    pub fn damage(&self) -> bool {
        !matches!(self.number, 3 | 4 | 7)
    }

    /// Whether a store may be whole of which these words get it. `props` and `value` tell kinds 17 and 21 to 24 also of a node that a
    /// path names by itself and that is no property context, as a table. Of the nodes that are one in every store (the store itself,
    /// the name map, folders, search folders and messages) it is the file's. With `--whole` it is the file's only where nothing of that
    /// is looked at.
    fn is_of_node<W: AsRef<str>>(&self, words: &[W]) -> bool {
        let command = words.first().map(AsRef::as_ref);
        if !matches!(command, Some("props" | "value")) {
            return false;
        }
        if words.iter().any(|it| it.as_ref() == "--whole") {
            return !matches!(self.number, 1..=4);
        }
        matches!(self.number, 17 | 21..=24)
            && !matches!(self.nid, 0x21 | 0x61)
            && !matches!(self.nid % 32, 2..=4 | 8)
            && words
                .iter()
                .any(|it| node_of(it.as_ref()) == Some(self.nid))
    }

    /// What a line `no: 14 BlockTrailer at 0x4c40 bid 0x8 nid 0x0` says.
    fn of(line: &str) -> Option<Fault> {
        let mut words = line.strip_prefix("no: ")?.split(' ');
        let number = words.next()?.parse().ok()?;
        let (kind, value) = kind_of(words.next()?)?;
        Some(Fault {
            number,
            kind,
            value,
            at: place_of("at", &mut words)?,
            bid: place_of("bid", &mut words)?,
            nid: place_of("nid", &mut words)?.try_into().ok()?,
        })
    }
}

/// A kind as `Encoded(1)` or `Short`.
fn kind_of(word: &str) -> Option<(String, Option<u64>)> {
    match word.split_once('(') {
        Some((kind, value)) => {
            let value = value.strip_suffix(')')?.parse().ok()?;
            Some((kind.to_string(), Some(value)))
        }
        None => Some((word.to_string(), None)),
    }
}

/// The node of a path that is one node, as `0x12D`.
fn node_of(word: &str) -> Option<u32> {
    u32::from_str_radix(word.strip_prefix("0x")?, 16).ok()
}

/// The hexadecimal number behind a word.
fn place_of<'a>(word: &str, words: &mut impl Iterator<Item = &'a str>) -> Option<u64> {
    if words.next()? != word {
        return None;
    }
    u64::from_str_radix(words.next()?.strip_prefix("0x")?, 16).ok()
}

impl fmt::Display for Fault {
    fn fmt(&self, f: &mut fmt::Formatter<'_>) -> fmt::Result {
        write!(f, "no: {} {}", self.number, self.kind)?;
        if let Some(value) = self.value {
            write!(f, "({value})")?;
        }
        write!(
            f,
            " at 0x{:x} bid 0x{:x} nid 0x{:x}",
            self.at, self.bid, self.nid
        )
    }
}

/// Why there is no answer.
#[derive(Clone, Debug, PartialEq, Eq)]
pub enum Refusal {
    /// The bytes break a rule of the format.
    Fault(Fault),
    /// Of `props` and `value`: what is told may be of the node alone that a path names. It is no property context, for this reason,
    /// as a table is none, and the bytes may be a store all the same: [`check`](crate::check) says whether they are. Where what is whole
    /// is asked for: the node is broken, or lies behind a broken page.
    Node(Fault),
    /// The store has no such folder, node or property, as the line says.
    Missing(String),
    /// The words are refused, as the line says.
    Words(String),
    /// The bytes are more than 17,179,869,184.
    TooLong,
    /// Memory was refused.
    Memory,
}

impl Refusal {
    /// What a status and a line say of these words.
    pub(crate) fn of<W: AsRef<str>>(words: &[W], status: u8, line: &[u8]) -> Refusal {
        let text = String::from_utf8_lossy(line);
        let text = text.trim_end_matches('\n');
        match status {
            1 => match Fault::of(text) {
                Some(fault) if fault.is_of_node(words) => Refusal::Node(fault),
                Some(fault) => Refusal::Fault(fault),
                None => Refusal::Missing(text.to_string()),
            },
            2 => Refusal::Words(text.to_string()),
            3 => Refusal::TooLong,
            _ => Refusal::Memory,
        }
    }

    /// The status with which the program ends.
    pub fn status(&self) -> u8 {
        match self {
            Refusal::Fault(_) | Refusal::Node(_) | Refusal::Missing(_) => 1,
            Refusal::Words(_) => 2,
            Refusal::TooLong => 3,
            Refusal::Memory => 4,
        }
    }
}

impl fmt::Display for Refusal {
    fn fmt(&self, f: &mut fmt::Formatter<'_>) -> fmt::Result {
        match self {
            Refusal::Fault(fault) | Refusal::Node(fault) => write!(f, "{fault}"),
            Refusal::Missing(line) | Refusal::Words(line) => write!(f, "{line}"),
            Refusal::TooLong => write!(f, "the bytes are more than 17179869184"),
            Refusal::Memory => write!(f, "out of memory"),
        }
    }
}

impl Error for Refusal {}
