//! Which clauses of the rule a block does not keep.
use cathar_host::stored::{is_allowed, word, Version, HEAD, ROW, WORD};

/// A clause that a block does not keep.
#[derive(Clone, Copy, Debug, PartialEq, Eq)]
pub enum Fault {
    /// Something follows the last body, or it is not all there.
    Longer,
    Shorter,
    /// How many parts there are.
    Parts,
    /// The number, the offset, the length and the setting of this part.
    Number(usize),
    Offset(usize),
    Length(usize),
    Setting(usize),
}

/// The clauses that a block does not keep, if it is to be of this version. Of one that is cut short, those are told whose
/// words are there.
pub fn faults(version: Version, block: &[u8]) -> Vec<Fault> {
    let (parts, bytes) = (version.settings(), version.bytes());
    let differs = |at: usize, right: usize| word(block, at).map_or(false, |word| word as usize != right);
    let mut faults = Vec::new();
    let mut note = |fault: Fault, is_broken: bool| faults.extend(is_broken.then_some(fault));
    note(Fault::Longer, block.len() > bytes);
    note(Fault::Shorter, block.len() < bytes);
    note(Fault::Parts, differs(WORD, parts));
    for part in 1..=parts {
        let (row, body) = (HEAD + ROW * (part - 1), bytes - WORD * (parts + 1 - part));
        note(Fault::Number(part), differs(row, part));
        note(Fault::Offset(part), differs(row + WORD, body));
        note(Fault::Length(part), differs(row + 2 * WORD, WORD));
        note(Fault::Setting(part), word(block, body).map_or(false, |word| !is_allowed(part, word)));
    }
    faults
}
