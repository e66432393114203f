//! The rows of the refusal table.
use std::error::Error;
use std::fmt;

/// Why a call is refused. A refused call has changed nothing.
#[derive(Clone, Copy, Debug, PartialEq, Eq, Hash)]
#[repr(u8)]
pub enum Refusal {
    Malformed = 1,
    AboveLimit,
    AlreadyThere,
    NotThere,
    FlowAdded,
    NotOpen,
    SessionFull,
    NotConflicting,
    VersionsSpent,
    NoSuchFlow,
    OutOfReach,
    NoPermission,
    Changed,
    Linkable,
    Mandated,
}

/// In the order of their numbers, from 1 on.
const ROWS: [Refusal; 15] = [
    Refusal::Malformed,
    Refusal::AboveLimit,
    Refusal::AlreadyThere,
    Refusal::NotThere,
    Refusal::FlowAdded,
    Refusal::NotOpen,
    Refusal::SessionFull,
    Refusal::NotConflicting,
    Refusal::VersionsSpent,
    Refusal::NoSuchFlow,
    Refusal::OutOfReach,
    Refusal::NoPermission,
    Refusal::Changed,
    Refusal::Linkable,
    Refusal::Mandated,
];

const WORDS: [&str; 15] = [
    "malformed",
    "a number above its limit",
    "there already",
    "not there",
    "a flow has been added in either product, so forwarding is closed",
    "the session isn't open",
    "the session has eight flows",
    "a chosen role isn't conflicting",
    "the versions are used up",
    "no such flow",
    "the database isn't in the flow's reach",
    "no role of the user may read the database",
    "the user's rights have changed since the flow was added",
    "linkable: the user could put two flows side by side",
    "a mandate is on the permission, so it stays",
];

impl Refusal {
    /// The number of the row, 1 to 15; in the answer to a frame it stands in hexadecimal.
    pub fn number(self) -> u8 {
        self as u8
    }

    /// The value where the number is 0, else the row. The archive gives no number above 15.
    pub(crate) fn or<T>(number: u64, value: T) -> Result<T, Refusal> {
        match number {
            0 => Ok(value),
            n => Err(ROWS[n as usize - 1]),
        }
    }
}

impl fmt::Display for Refusal {
    fn fmt(&self, f: &mut fmt::Formatter<'_>) -> fmt::Result {
        f.write_str(WORDS[self.number() as usize - 1])
    }
}

impl Error for Refusal {}

#[cfg(test)]
mod tests {
    use super::*;

    #[test]
    fn rows_have_their_numbers() {
        for (i, row) in ROWS.iter().enumerate() {
            assert_eq!(row.number() as usize, i + 1);
            assert_eq!(Refusal::or(i as u64 + 1, ()), Err(*row));
        }
        assert_eq!(Refusal::or(0, 7), Ok(7));
    }
}
