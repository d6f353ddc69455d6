//! The refusals, one case for each number.

use std::fmt;

/// The numbers of the table of refusals by name, as the library answers them; `ACCEPTED` where nothing was refused.
pub mod number {
    pub const ACCEPTED: u32 = 0;
    pub const NO_HEAD: u32 = 1;
    pub const THREADS: u32 = 2;
    pub const KEYS: u32 = 3;
    pub const TABLE_CUT_SHORT: u32 = 4;
    pub const OFFSET: u32 = 5;
    pub const TOO_MANY_OPERATIONS: u32 = 6;
    pub const TOO_MANY_STEPS: u32 = 7;
    pub const LENGTH: u32 = 8;
    pub const KEY_TOO_LARGE: u32 = 9;
    pub const STEP: u32 = 10;
    pub const TOO_SMALL: u32 = 11;
    pub const LISTS: u32 = 12;
    pub const KEY_NOT_BELOW_K: u32 = 13;
    pub const SIZE_WITH_KEY: u32 = 14;
}

/// Why a file or the writer's lists were refused. A place is a position in the file, or in the writer's list.
#[derive(Debug, Clone, Copy, PartialEq, Eq, Hash)]
pub enum Refusal {
    /// 1: fewer than 2 bytes
    NoHead,
    /// 2: there are 0 threads or more than 8
    Threads,
    /// 3: there are 0 keys or more than 16
    Keys,
    /// 4: the contents table is cut short
    TableCutShort,
    /// 5: the offset of the entry at this place is not where the bodies before it end
    Offset(usize),
    /// 6: more than 64 operations
    TooManyOperations,
    /// 7: more than 4,096 steps
    TooManySteps,
    /// 8: the file does not end with the schedule
    Length,
    /// 9: the insert, delete or contains at this place has a key of 16 or more, which no file has
    KeyTooLarge(usize),
    /// 10: the schedule byte at this place names no thread
    Step(usize),
    /// 11: a lent output is too small
    TooSmall,
    /// 12: the writer's lists disagree
    Lists,
    /// 13: the insert, delete or contains at this place has a key below 16 that is not below K
    KeyNotBelowK(usize),
    /// 14: the byte at this place has the kind bits of a size and is not 192
    SizeWithKey(usize),
}

impl Refusal {
    /// An error if the number is one of a refusal.
    pub(crate) fn unless(number: u32, place: usize) -> Result<(), Refusal> {
        Err(match number {
            number::ACCEPTED => return Ok(()),
            number::NO_HEAD => Refusal::NoHead,
            number::THREADS => Refusal::Threads,
            number::KEYS => Refusal::Keys,
            number::TABLE_CUT_SHORT => Refusal::TableCutShort,
            number::OFFSET => Refusal::Offset(place),
            number::TOO_MANY_OPERATIONS => Refusal::TooManyOperations,
            number::TOO_MANY_STEPS => Refusal::TooManySteps,
            number::LENGTH => Refusal::Length,
            number::KEY_TOO_LARGE => Refusal::KeyTooLarge(place),
            number::STEP => Refusal::Step(place),
            number::TOO_SMALL => Refusal::TooSmall,
            number::LISTS => Refusal::Lists,
            number::KEY_NOT_BELOW_K => Refusal::KeyNotBelowK(place),
            number::SIZE_WITH_KEY => Refusal::SizeWithKey(place),
            other => unreachable!("the library is proved to give no number {other}"),
        })
    }

    /// The number of the document's table.
    pub fn number(self) -> u32 {
        match self {
            Refusal::NoHead => number::NO_HEAD,
            Refusal::Threads => number::THREADS,
            Refusal::Keys => number::KEYS,
            Refusal::TableCutShort => number::TABLE_CUT_SHORT,
            Refusal::Offset(_) => number::OFFSET,
            Refusal::TooManyOperations => number::TOO_MANY_OPERATIONS,
            Refusal::TooManySteps => number::TOO_MANY_STEPS,
            Refusal::Length => number::LENGTH,
            Refusal::KeyTooLarge(_) => number::KEY_TOO_LARGE,
            Refusal::Step(_) => number::STEP,
            Refusal::TooSmall => number::TOO_SMALL,
            Refusal::Lists => number::LISTS,
            Refusal::KeyNotBelowK(_) => number::KEY_NOT_BELOW_K,
            Refusal::SizeWithKey(_) => number::SIZE_WITH_KEY,
        }
    }

    /// The place told with it, 0 where none is.
    pub fn place(self) -> usize {
        match self {
            Refusal::Offset(place)
            | Refusal::KeyTooLarge(place)
            | Refusal::Step(place)
            | Refusal::KeyNotBelowK(place)
            | Refusal::SizeWithKey(place) => place,
            _ => 0,
        }
    }
}

impl fmt::Display for Refusal {
    fn fmt(&self, f: &mut fmt::Formatter) -> fmt::Result {
        let why = match self {
            Refusal::NoHead => "there are fewer than 2 bytes",
            Refusal::Threads => "there are not 1 to 8 threads",
            Refusal::Keys => "there are not 1 to 16 keys",
            Refusal::TableCutShort => "the contents table is cut short",
            Refusal::Offset(_) => "an entry's offset is not the sum required",
            Refusal::TooManyOperations => "there are more than 64 operations",
            Refusal::TooManySteps => "there are more than 4,096 steps",
            Refusal::Length => "the file does not end with the schedule",
            Refusal::KeyTooLarge(_) => "the key of an insert, delete or contains is 16 or more: look at its low six bits",
            Refusal::Step(_) => "a schedule byte names no thread",
            Refusal::TooSmall => "a lent output is too small",
            Refusal::Lists => "the lists' lengths disagree",
            Refusal::KeyNotBelowK(_) => "the key of an insert, delete or contains is not below K: look at the key and at K, byte 1",
            Refusal::SizeWithKey(_) => "a size has a key, and is not 192: look at the two kind bits",
        };
        write!(f, "refused {} at {}: {why}", self.number(), self.place())
    }
}

impl std::error::Error for Refusal {}

#[cfg(test)]
mod tests {
    use super::*;

    #[test]
    fn each_number_has_its_case() {
        assert_eq!(Refusal::unless(number::ACCEPTED, 7), Ok(()));
        for n in number::NO_HEAD..=number::SIZE_WITH_KEY {
            assert_eq!(Refusal::unless(n, 7).map_err(Refusal::number), Err(n));
        }
    }
}
