//! A refusal and how a condition is tried (01, Turned down, by number).

/// A refusal is its number and a place.
#[derive(Clone, Copy, Debug, PartialEq, Eq)]
pub struct Refused {
    /// The number of the condition that holds, 1 to 21, 25, 26, 29 or 30.
    pub number: u8,
    /// The place that 01 or 02 names behind the condition.
    pub place: u64,
}

impl Refused {
    /// The refusal of that number at that place.
    pub fn new(number: u8, place: usize) -> Refused {
        let place = place as u64;
        Refused { number, place }
    }
}

/// Tries one condition: where it `holds`, the answer is refusal `number` at `place`.
pub fn refuse_if(holds: bool, number: u8, place: usize) -> Result<(), Refused> {
    if holds {
        return Err(Refused::new(number, place));
    }
    Ok(())
}
