//! The walk over modifier boxes.

/// What stands at a place of the modifiers.
#[derive(Debug, Clone, PartialEq, Eq)]
pub enum Step<'a> {
    End,
    Box {
        kind: u32,
        contents: &'a [u8],
        next: usize,
    },
    /// Refusal 15.
    Refused,
}

/// Reads the box that begins at `at`.
pub fn step(modifiers: &[u8], at: usize) -> Step<'_> {
    if at == modifiers.len() {
        return Step::End;
    }
    read(modifiers, at).unwrap_or(Step::Refused)
}

fn read(modifiers: &[u8], at: usize) -> Option<Step<'_>> {
    let left = modifiers.get(at..)?;
    let (size, after) = left.split_first_chunk::<4>()?;
    let (kind, _) = after.split_first_chunk::<4>()?;
    let size = u32::from_be_bytes(*size) as usize;
    let contents = left.get(8..size)?;
    Some(Step::Box {
        kind: u32::from_be_bytes(*kind),
        contents,
        next: at + size,
    })
}
