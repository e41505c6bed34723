//! How much stack one call takes: the stack below it is painted, and after the call the deepest
//! byte that changed is looked for.
//!
//! It is counted from where the call enters. Stack that a function reserves below its deepest
//! written byte is not seen; there is little of it, since what a function calls writes at the bottom.

use crate::compiled::Compiled;
use crate::enter;
use crate::library::{Calls, Library};
use std::hint::black_box;
use std::thread;

/// Painted below the caller: far more than any call takes.
const PAINTED: usize = 64 * 1024;

/// Left unpainted, for what the painting itself has on the stack.
const GAP: usize = 1024;

/// The stack of the thread that calls.
const THREAD: usize = 1024 * 1024;

const DESKS: usize = 8;
const TIME: u32 = 1000;
const KNOWN: Option<u32> = Some(TIME);

/// A call whose stack is measured.
#[derive(Clone, Copy)]
pub enum Case {
    Whole,
    Opens,
    Joins,
    GivesUp,
}

pub const CASES: [(Case, &str); 4] = [
    (Case::Whole, "receive: whole"),
    (Case::Opens, "receive: part that opens"),
    (Case::Joins, "receive: part that joins"),
    (Case::GivesUp, "give-up"),
];

const WHOLE: &[u8] = b"\x01\x00\x0a\x80\x01\x5f\x90\x00\x02Hi";
const FIRST: &[u8] = b"\x02\x00\x0b\x21\x00\x00\x64\x80\x00\x0eHi";
const LAST: &[u8] = b"\x03\x00\x12\x22\x00\x00\x64\x00\x00\x00\x0cblnk\x00\x00\x00\x01";

/// The bytes of stack that the call takes, or `None` where they are too few to be seen.
pub fn taken(library: &Library, case: Case) -> Option<usize> {
    thread::scope(|scope| {
        let call = || {
            let entry = deepest(library, case, Some(entering(library.calls)), 0).0;
            // A byte that is written as it was painted is not seen: two patterns.
            let deepest = [0x5a, 0xa5].map(|pattern| deepest(library, case, None, pattern).1);
            Some(entry.next_multiple_of(8) - deepest.into_iter().flatten().min()?)
        };
        let thread = thread::Builder::new().stack_size(THREAD);
        let thread = thread.spawn_scoped(scope, call).expect("a thread starts");
        thread.join().expect("the call ends")
    })
}

/// What the call answers, and the lowest address where it left another byte than was painted. With
/// `calls` these are called in place of the library's, from the same depth.
#[inline(never)]
fn deepest(
    library: &Library,
    case: Case,
    calls: Option<Calls>,
    pattern: u8,
) -> (usize, Option<usize>) {
    let mut relay = Compiled::fresh(library, DESKS);
    let mut out = vec![0; 1024];
    if matches!(case, Case::Joins | Case::GivesUp) {
        relay.receive(0, KNOWN, FIRST, &mut out);
    }
    relay.calls = calls.unwrap_or(relay.calls);
    let here = black_box(&relay) as *const Compiled as usize;
    let painted = (here - GAP - PAINTED) as *mut u8;
    // SAFETY: this is the thread's own stack, below all that is in use and far above its end.
    unsafe { painted.write_bytes(pattern, PAINTED) };
    let answer = match case {
        Case::Whole => relay.receive(0, KNOWN, WHOLE, &mut out),
        Case::Opens => relay.receive(0, KNOWN, FIRST, &mut out),
        Case::Joins => relay.receive(0, KNOWN, LAST, &mut out),
        Case::GivesUp => relay.give_up(0, TIME),
    };
    // SAFETY: as above; every byte was written.
    let stack = unsafe { std::slice::from_raw_parts(black_box(painted), PAINTED) };
    let changed = stack.iter().position(|byte| *byte != pattern);
    (answer, changed.map(|place| painted as usize + place))
}

/// Functions of the same types that answer where they were entered.
fn entering(calls: Calls) -> Calls {
    match calls {
        Calls::Now(..) => Calls::Now(enter::receive, enter::give_up),
        Calls::Timed(..) => Calls::Timed(enter::receive_timed, enter::give_up),
        Calls::WithDesks(..) => Calls::WithDesks(enter::receive_for, enter::give_up_for),
    }
}

#[cfg(test)]
mod tests {
    use super::*;

    const ROOM: usize = 20_000;

    /// Takes a known room on the stack, and a little more.
    #[allow(clippy::too_many_arguments)]
    unsafe extern "C" fn roomy(
        _: *mut u64,
        _: usize,
        _: *mut u32,
        _: usize,
        _: *mut u32,
        _: usize,
        _: *mut u8,
        _: usize,
        _: usize,
        _: usize,
        _: u32,
        _: *const u8,
        len: usize,
        _: *mut u8,
        _: usize,
        _: *mut u64,
        _: usize,
    ) -> usize {
        let room = black_box([len as u8; ROOM]);
        usize::from(room[len])
    }

    #[test]
    fn a_known_room_is_found() {
        let calls = Calls::Now(roomy, enter::give_up);
        let library = Library {
            calls,
            ..Library::linked()
        };
        let taken = taken(&library, Case::Whole).expect("it is seen");
        assert!((ROOM..3 * ROOM).contains(&taken), "{taken}");
    }

    #[test]
    fn what_the_relay_takes_is_well_within_what_is_painted() {
        for (case, name) in CASES {
            let taken = taken(&Library::linked(), case);
            assert!(taken.is_none_or(|bytes| bytes < PAINTED / 2), "{name}");
        }
    }
}
