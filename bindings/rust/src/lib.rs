//! Proved answers about Outlook stores (.pst), over bytes in memory: the program pst_show as a library.
//!
//! [`check`] says whether bytes are a store, and [`Store`] what is in it. Values are not copied: they are [`Pieces`] of the bytes.
//! docs/LIBRARY.md of the repository says what is proved of an answer, and what the caller owes.
//!
//! ```
//! use pst_verify::{check, Store};
//!
//! let bytes = std::fs::read("../../samples/mail.pst")?;
//! assert_eq!(check(&bytes)?.messages, 4);
//!
//! let store = Store::new(&bytes);
//! let message = store.props("0x400004")?;
//! let sender = message.get("0C1F").expect("it has one");
//! assert_eq!(sender.value, "s0@example.org");
//! // UTF-16, where it lies in the file.
//! assert_eq!(sender.pieces.as_slice().map(<[u8]>::len), Some(28));
//! # Ok::<(), Box<dyn std::error::Error>>(())
//! ```
//!
//! Bytes that are no store are refused with the first rule that they break, and the place:
//!
//! ```
//! let refusal = pst_verify::check(b"").unwrap_err();
//! assert_eq!(refusal.to_string(), "no: 1 Short at 0x0 bid 0x0 nid 0x0");
//! ```
//!
//! Such a line of the properties of a node may be of the node alone, in bytes that are a store: [`Refusal::Node`].

mod call;
mod refusal;
mod store;
mod values;

pub use call::{answer, decode, Answer, Block};
pub use refusal::{Fault, Refusal};
pub use store::{check, Folder, Lost, Message, Report, Store};
pub use values::{Attachment, Cell, Node, Pieces, Property, Recipient};
