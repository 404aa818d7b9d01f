//! The refusals of the paper's table, "Codes for jobs that can't run", and those that document 02 adds.

/// One row of the table; a stray field also gives its record's number.
#[derive(Clone, Copy, Debug, PartialEq, Eq)]
pub enum Refusal {
    Length,
    Shape,
    Scale,
    Loss,
    Box,
    Start,
    Stray(usize),
    Table,
    Answer,
    Short,
    Beacon,
    OffGrid,
    Rounds,
    Bounds,
    Order,
    Clash,
    Window,
    Jobs,
}

impl Refusal {
    /// The first column of the table.
    pub fn number(self) -> u8 {
        match self {
            Refusal::Length => 1,
            Refusal::Shape => 2,
            Refusal::Scale => 3,
            Refusal::Loss => 4,
            Refusal::Box => 5,
            Refusal::Start => 6,
            Refusal::Stray(_) => 7,
            Refusal::Table => 8,
            Refusal::Answer => 9,
            Refusal::Short => 10,
            Refusal::Beacon => 11,
            Refusal::OffGrid => 12,
            Refusal::Rounds => 13,
            Refusal::Bounds => 14,
            Refusal::Order => 15,
            Refusal::Clash => 16,
            Refusal::Window => 17,
            Refusal::Jobs => 18,
        }
    }
}

/// A check passes or refuses: `refuse_if(wrong, Refusal::Scale)?`.
pub fn refuse_if(wrong: bool, refusal: Refusal) -> Result<(), Refusal> {
    if wrong {
        Err(refusal)
    } else {
        Ok(())
    }
}
