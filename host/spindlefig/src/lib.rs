//! A caption relay for 3GPP timed text, RFC 4396 units in RTP payloads: it reads the units of up to
//! eight desks, joins samples that came in parts, keeps each desk's style descriptions and hands
//! whole captions out; and it writes such payloads.
//!
//! Every call goes to a library that is proved to answer as the rule book says: document 01, with
//! requests 1, 2, 3 and 6 of document 02. Nothing has to be checked beforehand: what is wrong is
//! refused by its number, a [`Refusal`].
//!
//! ```
//! use spindlefig::{Caption, Relay, Writer};
//!
//! let string = "Good evening.".as_bytes();
//! let caption = Caption { u: 0, sidx: 128, sdur: 90000, string, modifiers: b"" };
//! let mut relay = Relay::set_up(2)?;
//! let mut shown = Vec::new();
//! for payload in Writer::new(20).payloads(&caption)? {
//!     for heard in relay.units(0, 1000, &payload) {
//!         if let Some(facts) = heard.answer.outcome.facts() {
//!             shown.push(String::from_utf8_lossy(&heard.sample[..facts.string]).into_owned());
//!         }
//!     }
//! }
//! assert_eq!(shown, ["Good evening."]);
//! # Ok::<(), spindlefig::Refusal>(())
//! ```

#![deny(missing_docs)]

mod answer;
mod book;
mod boxes;
mod refusal;
mod relay;
mod sys;
mod writer;

pub use answer::{Answer, Facts, Outcome};
pub use book::{check_book, BadRecord};
pub use boxes::{boxes, step, Boxes, ModifierBox, Step};
pub use refusal::Refusal;
pub use relay::{Counts, Heard, Lent, Relay, Units, DESCRIPTION, DESKS, OUTPUT};
pub use writer::{Caption, Writer, Written, LIMIT};

/// The length of the character of UTF-8 (u is 0) or UTF-16 (u is 1) at a place, and 0 where none is
/// well-formed.
///
/// ```
/// use spindlefig::character;
///
/// assert_eq!(character(0, "né".as_bytes(), 1), 2);
/// assert_eq!(character(0, "né".as_bytes(), 2), 0);
/// assert_eq!(character(1, &[0xd8, 0x3d, 0xde, 0x00], 0), 4);
/// ```
pub fn character(u: usize, s: &[u8], at: usize) -> usize {
    sys::character(u, s, at)
}

/// Whether all of a string is well-formed UTF-8 (u is 0) or UTF-16 (u is 1).
///
/// ```
/// use spindlefig::well_formed;
///
/// assert!(well_formed(0, "né".as_bytes()));
/// assert!(!well_formed(0, &[0xed, 0xa0, 0x80]));
/// assert!(!well_formed(1, &[0xd8, 0x3d, 0x00, 0x41]));
/// ```
pub fn well_formed(u: usize, s: &[u8]) -> bool {
    sys::well_formed(u, s)
}
