use crate::sys::{self, Row};
use crate::Refusal;

/// The largest size limit that the writer takes.
pub const LIMIT: usize = 1400;

/// A caption that is to be sent.
#[derive(Debug, Clone, Copy, PartialEq, Eq)]
pub struct Caption<'a> {
    /// 0 for UTF-8, 1 for UTF-16 big-endian.
    pub u: usize,
    /// The index of its style, 0 to 254.
    pub sidx: usize,
    /// How long it lasts, below 2 to the 24th; 0 where that is not known yet.
    pub sdur: usize,
    /// Its text.
    pub string: &'a [u8],
    /// The boxes that follow the text.
    pub modifiers: &'a [u8],
}

/// A payload that was written.
#[derive(Debug, Clone, Copy, PartialEq, Eq)]
pub struct Written {
    /// Its length; so many bytes at the front of the output are the payload.
    pub len: usize,
    /// How many payloads there are in all.
    pub count: usize,
}

/// Cuts captions into payloads no longer than a size limit.
///
/// Eight letters for a limit of 14 go in two parts of four, and for a limit of 17 in one unit
/// (document 01, case 11):
///
/// ```
/// use spindlefig::{Caption, Outcome, Refusal, Relay, Writer};
///
/// let caption = Caption { u: 0, sidx: 128, sdur: 100, string: b"Go away!", modifiers: b"" };
/// let payloads = Writer::new(14).payloads(&caption)?;
/// assert_eq!(payloads.len(), 2);
/// assert_eq!(payloads[0], b"\x02\x00\x0d\x21\x00\x00\x64\x80\x00\x08Go a");
/// assert_eq!(Writer::new(17).payloads(&caption)?.len(), 1);
/// assert_eq!(Writer::new(13).payloads(&caption), Err(Refusal::Writer));
///
/// let mut relay = Relay::set_up(1)?;
/// let second: Vec<_> = relay.units(0, 0, &payloads[1]).collect();
/// assert_eq!(second[0].answer.outcome, Outcome::Kept(1));
/// let first: Vec<_> = relay.units(0, 0, &payloads[0]).collect();
/// assert_eq!(first[0].sample, b"Go away!");
/// # Ok::<(), Refusal>(())
/// ```
#[derive(Debug, Clone, Copy, PartialEq, Eq)]
pub struct Writer {
    limit: usize,
}

fn written(row: &Row) -> Result<Written, Refusal> {
    match row[0] {
        0 => Ok(Written {
            len: row[1] as usize,
            count: row[2] as usize,
        }),
        number => Err(Refusal::told(number)),
    }
}

impl Writer {
    /// A writer for a size limit, 14 to 1,400; another is refused when something is written.
    pub fn new(limit: usize) -> Writer {
        Writer { limit }
    }

    /// Writes payload k, counted from 1, to the front of an output that is no shorter than the size
    /// limit.
    pub fn write(&self, caption: &Caption, k: usize, out: &mut [u8]) -> Result<Written, Refusal> {
        written(&sys::write(caption, self.limit, k, out))
    }

    /// Writes the one payload (k is 1) that describes a style: an index of 0 to 127, and 1 to 256
    /// bytes.
    ///
    /// ```
    /// use spindlefig::{Refusal, Writer};
    ///
    /// let mut out = [0; 20];
    /// let written = Writer::new(20).describe(7, b"green", 1, &mut out)?;
    /// assert_eq!(&out[..written.len], b"\x05\x00\x08\x07green");
    /// assert_eq!(Writer::new(20).describe(7, b"green", 2, &mut out), Err(Refusal::Payload));
    /// # Ok::<(), Refusal>(())
    /// ```
    pub fn describe(
        &self,
        sidx: usize,
        d: &[u8],
        k: usize,
        out: &mut [u8],
    ) -> Result<Written, Refusal> {
        written(&sys::describe(sidx, d, self.limit, k, out))
    }

    /// All payloads of a caption, in their order.
    pub fn payloads(&self, caption: &Caption) -> Result<Vec<Vec<u8>>, Refusal> {
        let mut out = [0; LIMIT];
        let mut payloads = Vec::new();
        loop {
            let written = self.write(caption, payloads.len() + 1, &mut out)?;
            payloads.push(out[..written.len].to_vec());
            if payloads.len() == written.count {
                return Ok(payloads);
            }
        }
    }
}
