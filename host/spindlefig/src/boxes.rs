use crate::{sys, Refusal};

/// The bytes of a box before its contents: size and type.
const HEADER: usize = 8;

/// What stands at a place of the modifiers.
#[derive(Debug, Clone, Copy, PartialEq, Eq)]
pub enum Step<'a> {
    /// The modifiers end there.
    End,
    /// A box.
    Box {
        /// The four bytes of its type, as a big-endian number.
        kind: u32,
        /// What follows its header.
        contents: &'a [u8],
        /// The place of the next box.
        next: usize,
    },
    /// Refusal 15: no box, and not the end.
    Refused(Refusal),
}

/// Reads the box at a place of the modifiers.
///
/// ```
/// use spindlefig::{step, Refusal, Step};
///
/// let modifiers = b"\x00\x00\x00\x0cblnk\x00\x00\x00\x01";
/// let blink = Step::Box {
///     kind: u32::from_be_bytes(*b"blnk"),
///     contents: &[0, 0, 0, 1],
///     next: 12,
/// };
/// assert_eq!(step(modifiers, 0), blink);
/// assert_eq!(step(modifiers, 12), Step::End);
/// assert_eq!(step(modifiers, 13), Step::Refused(Refusal::Box));
/// ```
pub fn step(modifiers: &[u8], at: usize) -> Step<'_> {
    let row = sys::step(modifiers, at);
    let next = row[0] as usize;
    match row[1] {
        0 => Step::End,
        1 => Step::Box {
            kind: row[2] as u32,
            contents: &modifiers[at + HEADER..next],
            next,
        },
        _ => Step::Refused(Refusal::told(row[2])),
    }
}

/// A box of the modifiers.
#[derive(Debug, Clone, Copy, PartialEq, Eq)]
pub struct ModifierBox<'a> {
    /// Where it begins.
    pub at: usize,
    /// The four bytes of its type, as a big-endian number.
    pub kind: u32,
    /// What follows its header.
    pub contents: &'a [u8],
}

/// The boxes of the modifiers; see [`boxes`].
#[derive(Debug, Clone, PartialEq, Eq)]
pub struct Boxes<'a> {
    modifiers: &'a [u8],
    at: usize,
    stopped: bool,
}

/// Goes through the boxes of the modifiers; a refusal is the last item.
///
/// ```
/// use spindlefig::{boxes, Refusal};
///
/// let modifiers = b"\x00\x00\x00\x0cblnk\x00\x00\x00\x01\x00\x00\x00\x07hlit";
/// let mut walk = boxes(modifiers);
/// let blink = walk.next().expect("a box")?;
/// assert_eq!(blink.kind.to_be_bytes(), *b"blnk");
/// assert_eq!(blink.contents, [0, 0, 0, 1]);
/// assert_eq!(walk.next(), Some(Err(Refusal::Box)));
/// assert_eq!(walk.next(), None);
/// # Ok::<(), Refusal>(())
/// ```
pub fn boxes(modifiers: &[u8]) -> Boxes<'_> {
    Boxes {
        modifiers,
        at: 0,
        stopped: false,
    }
}

impl<'a> Iterator for Boxes<'a> {
    type Item = Result<ModifierBox<'a>, Refusal>;

    fn next(&mut self) -> Option<Self::Item> {
        if self.stopped {
            return None;
        }
        let at = self.at;
        match step(self.modifiers, at) {
            Step::End => None,
            Step::Box {
                kind,
                contents,
                next,
            } => {
                self.at = next;
                Some(Ok(ModifierBox { at, kind, contents }))
            }
            Step::Refused(refusal) => {
                self.stopped = true;
                Some(Err(refusal))
            }
        }
    }
}
