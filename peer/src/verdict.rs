//! What a call gives back (document 01, section 7).

/// A number of section 7's table with its place; success is 0 at place 0.
#[derive(Clone, Copy, Debug, PartialEq, Eq)]
pub struct Verdict {
    pub code: u8,
    pub place: usize,
}

pub const SUCCESS: Verdict = Verdict { code: 0, place: 0 };

/// What a check answers: nothing, or the refusal that ends the call.
pub type Checked = Result<(), Verdict>;

/// Refuses with `code` at `place`.
pub fn refuse(code: u8, place: usize) -> Checked {
    Err(Verdict { code, place })
}

/// Refuses with `code` at `place` unless `holds`.
pub fn demand(holds: bool, code: u8, place: usize) -> Checked {
    if holds {
        Ok(())
    } else {
        refuse(code, place)
    }
}

/// Refuses at the place that was found to fail, if one was.
pub fn refuse_at(found: Option<usize>, code: u8) -> Checked {
    match found {
        Some(place) => refuse(code, place),
        None => Ok(()),
    }
}

/// The exact lengths that a call asks of the buffers of one kind, as (lent, wanted) in section 5's
/// order. The first wrong one is named by its number, which counts from 1.
pub fn demand_lengths(code: u8, lengths: &[(usize, usize)]) -> Checked {
    let wrong = lengths.iter().position(|(lent, wanted)| lent != wanted);
    refuse_at(wrong.map(|index| index + 1), code)
}

/// The verdict of a call that checks, and writes only where every check passed.
pub fn verdict(checked: Checked, write: impl FnOnce()) -> Verdict {
    match checked {
        Ok(()) => {
            write();
            SUCCESS
        }
        Err(refusal) => refusal,
    }
}
