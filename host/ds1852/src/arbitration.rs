//! Who survives when two hosts start together.

/// The host that survives on the line, or both.
#[derive(Clone, Copy, Debug, PartialEq, Eq, Hash)]
pub enum Winner {
    /// The first host, whose first differing byte is smaller.
    First,
    /// The second host, whose first differing byte is smaller.
    Second,
    /// Both: their messages are equal, and count as one.
    Both,
}

impl Winner {
    /// Who survives, by a number that the library gave.
    pub(crate) fn from_number(number: u32) -> Winner {
        match number {
            1 => Winner::First,
            2 => Winner::Second,
            3 => Winner::Both,
            _ => unreachable!("the library is proved to tell who survives by 1, 2 or 3, not {number}"),
        }
    }
}
