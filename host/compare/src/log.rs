//! The log of a run, one call a line, as the replaying program reads it.

use crate::call::{Call, Run};
use crate::player::Difference;

/// The calls of the run up to the one that made the difference.
pub fn text(run: &Run, difference: &Difference) -> String {
    let mut lines = vec![format!("set-up {}", run.n)];
    lines.extend(run.calls.iter().take(difference.calls).map(line));
    lines.push(format!("# {}", difference.what));
    lines.join("\n") + "\n"
}

/// The replaying program lends all the memory and enough output, so a call with less is a comment.
pub fn line(call: &Call) -> String {
    if let Call::Lent { lent: l, call } = call {
        let lengths = [l.places, l.rows, l.marks, l.stores];
        return format!("# head {}, memory of {lengths:?}: {call}", l.head);
    }
    match call.short_output() {
        Some(output) => format!("# output of {output} bytes: {call}"),
        None => call.to_string(),
    }
}
