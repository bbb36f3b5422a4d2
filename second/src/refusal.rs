//! The refusals of records and writers, with the numbers of documents 01 and 02.

/// Why a record or a writer's request is refused.
#[derive(Clone, Copy, Debug, PartialEq, Eq, PartialOrd, Ord)]
pub enum Refusal {
    /// Fewer than two bytes, or an unknown tag.
    Tag = 1,
    /// Not the tag's length.
    Length = 2,
    /// A reserved byte that is not 0.
    Reserved = 3,
    /// Parameters outside the bounds.
    Bounds = 4,
    /// A party number 0 or above n.
    Party = 5,
    /// A scalar of q or more.
    Scalar = 6,
    /// A group number that is not an element.
    Element = 7,
    /// A mask bit above bit n-1.
    Mask = 8,
    /// A writer's buffer not exactly of the record's length.
    Buffer = 9,
    /// A writer's list not of its length.
    List = 10,
    /// The stage does not take the tag.
    Stage = 11,
    /// The sender already has an accepted record of this tag.
    Again = 12,
    /// A blamed dealer has no accepted dealing, or its share is valid.
    FalseBlame = 13,
    /// The sender is not in HOLD.
    Outsider = 14,
    /// A response number does not pass.
    Response = 15,
    /// A key that is the identity: S is 1, or the SU writer's s is 0.
    IdentityKey = 16,
    /// GO before n-t dealings are accepted.
    Early = 17,
}

impl Refusal {
    pub fn number(self) -> u8 {
        self as u8
    }
}

/// 0 for acceptance, else the refusal's number.
pub fn answer_number(answer: Result<(), Refusal>) -> u8 {
    answer.map_or_else(Refusal::number, |()| 0)
}
