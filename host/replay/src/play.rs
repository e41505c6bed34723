//! A call played on the relay.

use spindlefig::{
    check_book, step, BadRecord, Caption, Counts, Heard, Refusal, Relay, Step, Writer, Written,
    OUTPUT,
};

use crate::parse::{Call, Text};

/// An answer, with what a reader needs of its call.
pub enum Event<'a> {
    SetUp(Result<usize, Refusal>),
    Heard {
        desk: usize,
        payload: &'a [u8],
        heard: Heard,
    },
    GivenUp {
        desk: usize,
        time: u32,
        result: Result<(), Refusal>,
    },
    Shown {
        desk: usize,
        index: usize,
        description: Vec<u8>,
    },
    /// How many samples each desk has open, and the common use.
    Counted {
        open: Vec<usize>,
        common: usize,
    },
    Written(Result<Payload, Refusal>),
    Checked(Result<usize, BadRecord>),
    Walked(Step<'a>),
}

pub struct Payload {
    pub bytes: Vec<u8>,
    pub count: usize,
}

/// The largest size limit for which an output is lent; all that are taken lie far below.
const LENT_MOST: usize = 65535;

/// Plays calls, one after the other.
#[derive(Default)]
pub struct Player {
    relay: Option<Relay>,
}

impl Player {
    /// The answers to a call: one, or one for each unit of a payload.
    pub fn play<'a>(&mut self, call: &'a Call) -> Result<Vec<Event<'a>>, &'static str> {
        let event = match call {
            Call::SetUp { desks } => Event::SetUp(self.set_up(*desks)),
            Call::Receive {
                desk,
                time,
                payload,
            } => return Ok(receive(self.relay()?, *desk, *time, payload)),
            Call::GiveUp { desk, time } => Event::GivenUp {
                desk: *desk,
                time: *time,
                result: self.relay()?.give_up(*desk, *time),
            },
            Call::Look { desk, index, book } => Event::Shown {
                desk: *desk,
                index: *index,
                description: self.relay()?.lookup(*desk, *index, book),
            },
            Call::Counts => counted(self.relay()?),
            Call::Write { text, m, k } => Event::Written(lend(*m, |out| {
                Writer::new(*m).write(&caption(text), *k, out)
            })),
            Call::Describe {
                sidx,
                description,
                m,
                k,
            } => Event::Written(lend(*m, |out| {
                Writer::new(*m).describe(*sidx, description, *k, out)
            })),
            Call::Book { book } => Event::Checked(check_book(book)),
            Call::Walk { modifiers, place } => Event::Walked(step(modifiers, *place)),
        };
        Ok(vec![event])
    }

    /// A refused set-up leaves the relay that stood.
    fn set_up(&mut self, desks: usize) -> Result<usize, Refusal> {
        self.relay = Some(Relay::set_up(desks)?);
        Ok(desks)
    }

    fn relay(&mut self) -> Result<&mut Relay, &'static str> {
        self.relay.as_mut().ok_or("no set-up before this call")
    }
}

fn receive<'a>(
    relay: &mut Relay,
    desk: usize,
    time: Option<u32>,
    payload: &'a [u8],
) -> Vec<Event<'a>> {
    let heard: Vec<Heard> = match payload {
        [] => vec![Heard {
            at: 0,
            time,
            answer: relay.receive(desk, time, payload, &mut [0; OUTPUT]),
            sample: Vec::new(),
        }],
        _ => relay.units_from(desk, time, payload).collect(),
    };
    let event = |heard| Event::Heard {
        desk,
        payload,
        heard,
    };
    heard.into_iter().map(event).collect()
}

fn counted(relay: &Relay) -> Event<'static> {
    let Counts { open, common } = relay.counts();
    Event::Counted {
        open: open[..relay.desks()].to_vec(),
        common,
    }
}

fn caption(text: &Text) -> Caption<'_> {
    Caption {
        u: text.u,
        sidx: text.sidx,
        sdur: text.sdur,
        string: &text.string,
        modifiers: &text.modifiers,
    }
}

/// Lends an output of m bytes to a writer.
fn lend(
    m: usize,
    write: impl FnOnce(&mut [u8]) -> Result<Written, Refusal>,
) -> Result<Payload, Refusal> {
    let room = if m <= LENT_MOST { m } else { 0 };
    let mut bytes = vec![0; room];
    let Written { len, count } = write(&mut bytes)?;
    bytes.truncate(len);
    Ok(Payload { bytes, count })
}
