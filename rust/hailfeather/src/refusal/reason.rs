//! What the numbers of refusals stand for.

/// What a refusal's number stands for, whichever entry gave it. Later versions may have more.
#[derive(Clone, Copy, Debug, PartialEq, Eq, Hash)]
#[non_exhaustive]
pub enum Reason {
    /// 1: a session that is giving was asked to take, or a generator that was never seeded to draw.
    WrongState = 1,
    /// 2: a key has a length that it may not have.
    BadKeyLength = 2,
    /// 3: a name, customisation, IV, additional input or personalisation is too long.
    StringTooLong = 3,
    /// 4: the name belongs to the standard's own function.
    ReservedName = 4,
    /// 5: a message, text with label, seed or plan is too long.
    InputTooLong = 5,
    /// 6: an output has a length that it may not have.
    BadOutputLength = 6,
    /// 7: a tag is too short or too long.
    BadTagLength = 7,
    /// 8: the tag does not match.
    TagMismatch = 8,
    /// 9: a plan is malformed, rows or halls cannot be written as one, or a buffer or a list has another length than a plan needs.
    MalformedPlan = 9,
    /// 10: the plan has no such chute.
    NoSuchChute = 10,
}

/// Every reason, the one with number n at n - 1.
pub(super) const REASONS: [Reason; 10] = [
    Reason::WrongState,
    Reason::BadKeyLength,
    Reason::StringTooLong,
    Reason::ReservedName,
    Reason::InputTooLong,
    Reason::BadOutputLength,
    Reason::BadTagLength,
    Reason::TagMismatch,
    Reason::MalformedPlan,
    Reason::NoSuchChute,
];
