//! Paumelu for Rust: the items of a GraphQL text, as spans that are proved right to the byte.
//!
//! The reader is the proved library that `host/library` writes; this crate calls its C interface and looks at the tape. No rule
//! of GraphQL stands here, and nothing is tested here that the library refuses by a number.
//!
//! ```
//! let text = b"{ chapter(text: \"Once\") { words } }";
//! let mut tape = paumelu::tape_for(text);
//! let (answer, items) = paumelu::read_items(text, u64::MAX, &mut tape);
//! assert_eq!(answer.number, paumelu::DONE);
//! let string = items.iter().find(|item| item.kind() == paumelu::Kind::StringValue).unwrap();
//! assert_eq!(string.part(text), b"\"Once\"");
//! ```
mod items;
mod kind;
mod read;

pub use items::{Item, Items, ENTRY};
pub use kind::Kind;
pub use read::{read, read_items, tape_for, Answer, DONE, LIMIT, LONGEST, NOT_UTF8, NO_ENTRY, TAPE_FULL, TOO_LONG};
