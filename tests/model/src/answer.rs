//! The answer of a call: six numbers.

#[derive(Clone, Copy, Debug, PartialEq)]
pub struct Answer {
    pub number: u64,
    pub index: u64,
    pub items: u64,
    pub bytes: u64,
    pub position: u64,
    pub context: u64,
}

impl Answer {
    /// The answer of a call that gives a number alone: the others are 0.
    pub fn alone(number: u64) -> Answer {
        Answer::refusal(number, 0, 0, 0)
    }

    /// The answer of opening a session: its place stands where the index does.
    pub fn opened(number: u64, place: u64) -> Answer {
        Answer::refusal(number, place, 0, 0)
    }

    /// A refusal: 0 items, 0 bytes, the cursor as given.
    pub fn refusal(number: u64, index: u64, position: u64, context: u64) -> Answer {
        Answer {
            number,
            index,
            items: 0,
            bytes: 0,
            position,
            context,
        }
    }
}
