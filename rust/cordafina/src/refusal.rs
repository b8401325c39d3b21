//! Why a call was turned down.

use core::{error, fmt};

/// Why a call was turned down. The names and numbers are those of the header
/// for C, `include/cordafina.h`, and the names are those of the proved code.
///
/// Each function says which of them it gives. More are added with later
/// versions.
#[derive(Clone, Copy, Debug, PartialEq, Eq, Hash)]
#[non_exhaustive]
pub enum Refusal {
    /// A message of 0 or over 4,096 bytes.
    MessageUnfit = 1,
    /// A table that is not of its count's words, not 64 blocks, or either not sound.
    TableUnsound = 2,
    /// A reply buffer under 16,640 bytes.
    ReplyTooShort = 3,
    /// A gateway's own mId that is not an mId, or over 64 bytes.
    MidUnfit = 4,
    /// A room that is not of its size, or not sound.
    RoomUnsound = 5,
    /// A digit map that is malformed or too large.
    BadMap = 6,
    /// A dialled string of over 32 symbols, or with a foreign one.
    BadString = 7,
    /// A count of lines outside 1 to 16.
    LinesUnfit = 8,
    /// A packet of an ephemeral that does not exist, or outside 1 to 64.
    EphemeralAbsent = 9,
    /// Bytes that are not a sound table's row with that count of lines.
    RowUnfit = 10,
    /// An output under 8,192 bytes.
    OutputTooShort = 11,
}

impl Refusal {
    /// The number, as C has it.
    #[must_use]
    pub const fn number(self) -> u32 {
        self as u32
    }

    /// The refusal with this number.
    ///
    /// # Panics
    /// Where there is none: the archive that is linked is not this library.
    pub(crate) fn of_number(number: u32) -> Self {
        match number {
            1 => Refusal::MessageUnfit,
            2 => Refusal::TableUnsound,
            3 => Refusal::ReplyTooShort,
            4 => Refusal::MidUnfit,
            5 => Refusal::RoomUnsound,
            6 => Refusal::BadMap,
            7 => Refusal::BadString,
            8 => Refusal::LinesUnfit,
            9 => Refusal::EphemeralAbsent,
            10 => Refusal::RowUnfit,
            11 => Refusal::OutputTooShort,
            _ => panic!("refusal {number}: the archive is not this library"),
        }
    }

    /// A result that is 0 or the refusal.
    pub(crate) fn or_done(number: u32) -> Result<(), Self> {
        match number {
            0 => Ok(()),
            number => Err(Refusal::of_number(number)),
        }
    }

    /// A result of 64 bits taken apart: the length in the low 32, the refusal or
    /// 0 in the high ones.
    pub(crate) fn or_length(word: u64) -> Result<usize, Self> {
        match (word >> 32) as u32 {
            0 => Ok(word as u32 as usize),
            number => Err(Refusal::of_number(number)),
        }
    }
}

impl fmt::Display for Refusal {
    fn fmt(&self, f: &mut fmt::Formatter) -> fmt::Result {
        f.write_str(match self {
            Refusal::MessageUnfit => "message of 0 or over 4,096 bytes",
            Refusal::TableUnsound => {
                "table not of its count's words, not 64 blocks, or either not sound"
            }
            Refusal::ReplyTooShort => "reply buffer under 16,640 bytes",
            Refusal::MidUnfit => "own mId not an mId, or over 64 bytes",
            Refusal::RoomUnsound => "room not of 64 words and 33,920 bytes, or not sound",
            Refusal::BadMap => "digit map malformed or too large",
            Refusal::BadString => "dialled string over 32 symbols, or with a foreign one",
            Refusal::LinesUnfit => "count of lines outside 1 to 16",
            Refusal::EphemeralAbsent => "packet of an ephemeral that does not exist",
            Refusal::RowUnfit => "not a sound table's row with that count of lines",
            Refusal::OutputTooShort => "output under 8,192 bytes",
        })
    }
}

impl error::Error for Refusal {}
