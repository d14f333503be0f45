//! A store, and what it answers.

use crate::call::{answer, Block};
use crate::refusal::Refusal;
use crate::values::{all, maybe, string, Node};
use serde_json::Value as Json;

/// Bytes that the allocation maps mark as used, and that nothing uses.
#[derive(Clone, Copy, Debug, PartialEq, Eq)]
pub struct Lost {
    /// Where they begin.
    pub at: u64,
    /// How many they are.
    pub len: u64,
}

/// What a check counted. docs/JSON.md, "check", has each of them.
#[derive(Clone, Debug, PartialEq, Eq)]
pub struct Report {
    /// The blocks.
    pub blocks: u64,
    /// The folders and search folders.
    pub folders: u64,
    /// The messages and associated messages.
    pub messages: u64,
    /// The nodes.
    pub nodes: u64,
    /// The pages of both B-trees.
    pub pages: u64,
    /// Which bit of a byte of the maps comes first: `high` or `low`.
    pub order: String,
    /// Lost runs, in order of their places.
    pub lost: Vec<Lost>,
}

/// A folder. Of what is whole of a damaged store `subfolders`, `messages` and `associated` are None where its table of these is not
/// whole.
#[derive(Clone, Debug, PartialEq, Eq)]
pub struct Folder {
    /// Its identifier.
    pub nid: String,
    /// Its name.
    pub name: Option<String>,
    /// From the root folder down to it; None where that does not reach it.
    pub path: Option<Vec<String>>,
    /// The folders in it.
    pub subfolders: Option<Vec<String>>,
    /// How many messages it lists.
    pub messages: Option<u64>,
    /// How many associated messages it lists.
    pub associated: Option<u64>,
}

/// A message.
#[derive(Clone, Debug, PartialEq, Eq)]
pub struct Message {
    /// Its identifier.
    pub nid: String,
    /// Its class, as `IPM.Note`.
    pub class: Option<String>,
    /// Its subject, as the store has it.
    pub subject: Option<String>,
    /// The name of its sender.
    pub sender: Option<String>,
    /// When it was sent, as `2019-04-17T18:40:00.0000000Z`.
    pub sent: Option<String>,
    /// When it was received.
    pub received: Option<String>,
    /// Its size, as Outlook wrote it.
    pub size: Option<i64>,
    /// The folders that list it.
    pub folders: Vec<String>,
    /// How many recipients it has.
    pub recipients: u64,
    /// How many attachments it has.
    pub attachments: u64,
}

impl Message {
    /// Its subject without the two characters in front that say how long its prefix is.
    pub fn title(&self) -> &str {
        let subject = self.subject.as_deref().unwrap_or_default();
        match subject.strip_prefix('\u{1}') {
            Some(rest) => {
                let mut rest = rest.chars();
                rest.next();
                rest.as_str()
            }
            None => subject,
        }
    }
}

/// Whether bytes are a store, and what is counted in it.
pub fn check(bytes: &[u8]) -> Result<Report, Refusal> {
    Store::new(bytes).report()
}

/// A store, over its bytes. Each answer is of one check of all of them.
#[derive(Clone, Copy, Debug)]
pub struct Store<'a> {
    bytes: &'a [u8],
    flags: &'static [&'static str],
}

impl<'a> Store<'a> {
    /// Nothing is checked yet. An encoded file is to be decoded before ([`decode`](crate::decode)).
    pub fn new(bytes: &'a [u8]) -> Store<'a> {
        Store { bytes, flags: &[] }
    }

    /// The same bytes, which need not be a store: folders, messages, properties and values are answered of what is whole of them
    /// (docs/JSON.md, "--whole"). Encoded bytes are refused, since their pieces would be encoded: of such a file that is damaged
    /// [`answer`](crate::answer) answers, with the words `--whole` and `--decode`.
    ///
    /// ```
    /// use pst_verify::Store;
    ///
    /// let mut bytes = std::fs::read("../../samples/mail.pst")?;
    /// bytes[22473] ^= 1;
    /// assert!(Store::new(&bytes).messages().is_err());
    /// assert_eq!(Store::new(&bytes).whole().messages()?.len(), 3);
    /// # Ok::<(), Box<dyn std::error::Error>>(())
    /// ```
    pub fn whole(self) -> Store<'a> {
        Store {
            flags: &["--whole"],
            ..self
        }
    }

    /// What the program writes for these words, with `-` in FILE's place, or what it says instead. A strict check is refused as
    /// [`Refusal::Missing`] where space is lost. What `damage` tells is given where something is broken, too.
    pub fn answer<W: AsRef<str>>(&self, words: &[W]) -> Result<Block, Refusal> {
        let answer = answer(words, self.bytes);
        let is_damage = words.first().is_some_and(|word| word.as_ref() == "damage");
        match answer.status {
            0 => Ok(answer.text),
            1 if is_damage && answer.line.is_empty() => Ok(answer.text),
            status => Err(Refusal::of(words, status, &answer.line)),
        }
    }

    /// The same of a command that takes `--whole`.
    fn shown(&self, command: &str, words: &[&str]) -> Result<Block, Refusal> {
        self.answer(&[&[command], self.flags, words].concat())
    }

    /// The counts of the check.
    pub fn report(&self) -> Result<Report, Refusal> {
        let told = json(&self.answer(&["check", "-"])?);
        Ok(Report {
            blocks: number(&told["blocks"]),
            folders: number(&told["folders"]),
            messages: number(&told["messages"]),
            nodes: number(&told["nodes"]),
            pages: number(&told["pages"]),
            order: string(&told["order"]),
            lost: all(&told["lost"], |it| Lost {
                at: number(&it["at"]),
                len: number(&it["len"]),
            }),
        })
    }

    /// The folders: first those that the root folder reaches, each in order of their identifiers.
    pub fn folders(&self) -> Result<Vec<Folder>, Refusal> {
        let told = json(&self.shown("folders", &["-"])?);
        Ok(all(&told["folders"], |it| Folder {
            nid: string(&it["nid"]),
            name: maybe(&it["name"]),
            path: it["path"].is_array().then(|| all(&it["path"], string)),
            subfolders: it["subfolders"]
                .is_array()
                .then(|| all(&it["subfolders"], string)),
            messages: it["messages"].as_u64(),
            associated: it["associated"].as_u64(),
        }))
    }

    /// All messages, in order of their identifiers; those that are embedded in others are not among them.
    pub fn messages(&self) -> Result<Vec<Message>, Refusal> {
        let text = self.shown("messages", &["-"])?;
        Ok(lines(&text).map(|line| message(&json(line))).collect())
    }

    /// The properties of what a path leads to, as `0x122` or `0x400024/0x8045/0x200024`. A node that is something else, as a table,
    /// is refused as [`Refusal::Node`], and the bytes may be a store all the same.
    pub fn props(&self, path: &str) -> Result<Node<'a>, Refusal> {
        let text = self.shown("props", &["--places", "-", path])?;
        Ok(Node::of(path, &json(&text), self.bytes))
    }

    /// The same of several paths, after one check.
    pub fn all_props<P: AsRef<str>>(&self, paths: &[P]) -> Result<Vec<Node<'a>>, Refusal> {
        if paths.is_empty() {
            return Ok(Vec::new());
        }
        let mut words = vec!["--places", "-"];
        words.extend(paths.iter().map(AsRef::as_ref));
        let text = self.shown("props", &words)?;
        let told = paths.iter().zip(lines(&text));
        Ok(told
            .map(|(path, line)| Node::of(path.as_ref(), &json(line), self.bytes))
            .collect())
    }

    /// The bytes of the value of a property, copied.
    pub fn value(&self, path: &str, id: &str) -> Result<Block, Refusal> {
        self.shown("value", &["-", path, id])
    }
}

/// The lines of a text.
fn lines(text: &[u8]) -> impl Iterator<Item = &[u8]> {
    text.split(|b| *b == b'\n').filter(|line| !line.is_empty())
}

/// A document of the library, which is right JSON.
fn json(text: &[u8]) -> Json {
    serde_json::from_slice(text).unwrap_or_default()
}

fn number(told: &Json) -> u64 {
    told.as_u64().unwrap_or_default()
}

fn message(told: &Json) -> Message {
    Message {
        nid: string(&told["nid"]),
        class: maybe(&told["class"]),
        subject: maybe(&told["subject"]),
        sender: maybe(&told["sender"]),
        sent: maybe(&told["sent"]),
        received: maybe(&told["received"]),
        size: told["size"].as_i64(),
        folders: all(&told["folders"], string),
        recipients: number(&told["recipients"]),
        attachments: number(&told["attachments"]),
    }
}
