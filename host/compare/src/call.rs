//! A run of calls, and how each call is written in a log.

use crate::opinion::Caption;
use second::Lent;
use std::fmt::{self, Display, Formatter};

/// The least output that every call takes.
const ENOUGH_FOR_A_SAMPLE: usize = 1024;
const ENOUGH_FOR_A_PAYLOAD: usize = 1400;

/// The calls that follow a set-up of `n` desks.
#[derive(Debug)]
pub struct Run {
    pub n: usize,
    pub calls: Vec<Call>,
}

/// One call; `output` is the length of the lent output.
#[derive(Debug)]
pub enum Call {
    /// Each unit of the payload in turn, from a running time that may be unknown.
    Receive {
        desk: usize,
        time: Option<u32>,
        payload: Vec<u8>,
        output: usize,
    },
    GiveUp {
        desk: usize,
        time: u32,
    },
    Look {
        desk: usize,
        index: usize,
        book: Vec<u8>,
    },
    Write {
        caption: Caption,
        m: usize,
        k: usize,
        output: usize,
    },
    Describe {
        sidx: usize,
        d: Vec<u8>,
        m: usize,
        k: usize,
        output: usize,
    },
    Check {
        book: Vec<u8>,
    },
    Walk {
        modifiers: Vec<u8>,
        at: usize,
    },
    /// A receive, give-up or look with other memory than set-up left.
    Lent {
        lent: Lent,
        call: Box<Call>,
    },
}

impl Call {
    /// The desk and the memory that this call has, where it is lent no more than it takes: give-up
    /// takes no stores, and look takes marks and stores only.
    pub fn takes(&self, lent: Lent) -> Option<(usize, Lent)> {
        let any = usize::MAX;
        match self {
            Call::Receive { desk, .. } => Some((*desk, lent)),
            Call::GiveUp { desk, .. } => Some((
                *desk,
                Lent {
                    stores: any,
                    ..lent
                },
            )),
            Call::Look { desk, .. } => {
                let (places, rows) = (any, any);
                Some((
                    *desk,
                    Lent {
                        places,
                        rows,
                        ..lent
                    },
                ))
            }
            _ => None,
        }
    }

    /// The length of the output, where the call is refused for it.
    pub fn short_output(&self) -> Option<usize> {
        let (output, enough) = match self {
            Call::Receive { output, .. } => (*output, ENOUGH_FOR_A_SAMPLE),
            Call::Write { m, output, .. } | Call::Describe { m, output, .. } => {
                (*output, ENOUGH_FOR_A_PAYLOAD.min(*m))
            }
            _ => return None,
        };
        (output < enough).then_some(output)
    }
}

/// A running time, `?` where it is unknown.
pub struct Time(pub Option<u32>);

impl Display for Time {
    fn fmt(&self, f: &mut Formatter<'_>) -> fmt::Result {
        match self.0 {
            Some(time) => time.fmt(f),
            None => f.write_str("?"),
        }
    }
}

/// Bytes as hexadecimal digits, `-` for none.
struct Hex<'a>(&'a [u8]);

impl Display for Hex<'_> {
    fn fmt(&self, f: &mut Formatter<'_>) -> fmt::Result {
        if self.0.is_empty() {
            return f.write_str("-");
        }
        self.0.iter().try_for_each(|byte| write!(f, "{byte:02x}"))
    }
}

impl Display for Call {
    fn fmt(&self, f: &mut Formatter<'_>) -> fmt::Result {
        match self {
            Call::Receive {
                desk,
                time,
                payload,
                ..
            } => write!(f, "receive {desk} {} {}", Time(*time), Hex(payload)),
            Call::GiveUp { desk, time } => write!(f, "give-up {desk} {time}"),
            Call::Look { desk, index, book } => write!(f, "look {desk} {index} {}", Hex(book)),
            Call::Write { caption, m, k, .. } => {
                write!(f, "write {} {} ", caption.u, caption.sidx)?;
                write!(f, "{} {} ", caption.sdur, Hex(&caption.string))?;
                write!(f, "{} {m} {k}", Hex(&caption.modifiers))
            }
            Call::Describe { sidx, d, m, k, .. } => {
                write!(f, "describe {sidx} {} {m} {k}", Hex(d))
            }
            Call::Check { book } => write!(f, "book {}", Hex(book)),
            Call::Walk { modifiers, at } => write!(f, "walk {} {at}", Hex(modifiers)),
            Call::Lent { call, .. } => call.fmt(f),
        }
    }
}
