//! Terminations by name, and what a table holds of them.

use core::{error, fmt, str};

use crate::layout::{line_terminations, CHANNELS, EPHEMERALS};

/// A termination: a channel of a line, or an RTP ephemeral.
///
/// ```
/// use cordafina::Termination;
///
/// assert_eq!("L/1/5".parse(), Ok(Termination::Line(1, 5)));
/// assert_eq!("r/64".parse(), Ok(Termination::Ephemeral(64)));
/// assert_eq!(Termination::Line(16, 31).to_string(), "L/16/31");
/// assert!("L/01/5".parse::<Termination>().is_err());
/// ```
#[derive(Clone, Copy, Debug, PartialEq, Eq, PartialOrd, Ord, Hash)]
pub enum Termination {
    /// `L/l/s`: the line l, 1 to 16, and its channel s, 1 to 31.
    Line(u32, u32),
    /// `R/n`: the number n, 1 to 64.
    Ephemeral(u32),
}

impl Termination {
    /// The number in a table of so many lines, if that has the termination.
    pub(crate) const fn number(self, lines: u32) -> Option<usize> {
        match self {
            Termination::Line(line, channel) => {
                if line == 0 || line > lines || channel == 0 || channel > CHANNELS {
                    return None;
                }
                Some(line_terminations(line - 1) + channel as usize - 1)
            }
            Termination::Ephemeral(number) => {
                if number == 0 || number as usize > EPHEMERALS {
                    return None;
                }
                Some(line_terminations(lines) + number as usize - 1)
            }
        }
    }

    /// The termination with this number in a table of so many lines.
    pub(crate) fn at(lines: u32, number: usize) -> Self {
        let number = number as u32;
        match number.checked_sub(CHANNELS * lines) {
            Some(ephemeral) => Termination::Ephemeral(ephemeral + 1),
            None => Termination::Line(number / CHANNELS + 1, number % CHANNELS + 1),
        }
    }
}

impl fmt::Display for Termination {
    /// The full name, as a reply has it.
    fn fmt(&self, f: &mut fmt::Formatter) -> fmt::Result {
        match self {
            Termination::Line(line, channel) => write!(f, "L/{line}/{channel}"),
            Termination::Ephemeral(number) => write!(f, "R/{number}"),
        }
    }
}

/// A text that is no termination's name: neither `L/l/s`, l 1 to 16 and s 1 to
/// 31, nor `R/n`, n 1 to 64, in either letter case and without leading zeros.
#[derive(Clone, Copy, Debug, PartialEq, Eq)]
pub struct UnknownName;

impl fmt::Display for UnknownName {
    fn fmt(&self, f: &mut fmt::Formatter) -> fmt::Result {
        f.write_str("neither L/l/s, l 1 to 16 and s 1 to 31, nor R/n, n 1 to 64")
    }
}

impl error::Error for UnknownName {}

impl str::FromStr for Termination {
    type Err = UnknownName;

    /// Reads a name as a message's is read.
    ///
    /// # Errors
    /// `UnknownName` where no shelf has a termination of that name.
    fn from_str(name: &str) -> Result<Self, UnknownName> {
        let mut parts = name.split('/');
        let termination = match (parts.next(), parts.next(), parts.next(), parts.next()) {
            (Some("L" | "l"), Some(line), Some(channel), None) => {
                Termination::Line(number(line)?, number(channel)?)
            }
            (Some("R" | "r"), Some(ephemeral), None, None) => {
                Termination::Ephemeral(number(ephemeral)?)
            }
            _ => return Err(UnknownName),
        };
        match termination.number(crate::layout::MOST_LINES) {
            Some(_) => Ok(termination),
            None => Err(UnknownName),
        }
    }
}

/// One or two digits, the first not 0.
fn number(text: &str) -> Result<u32, UnknownName> {
    match text.as_bytes() {
        [b'1'..=b'9'] | [b'1'..=b'9', b'0'..=b'9'] => text.parse().map_err(|_| UnknownName),
        _ => Err(UnknownName),
    }
}

/// A termination's mode.
#[derive(Clone, Copy, Debug, PartialEq, Eq, Hash)]
pub enum Mode {
    /// `IN`
    Inactive = 0,
    /// `SO`
    SendOnly = 1,
    /// `RC`
    ReceiveOnly = 2,
    /// `SR`
    SendReceive = 3,
    /// `LB`
    Loopback = 4,
}

impl Mode {
    /// Of a property word; a sound table has no other modes.
    pub(crate) const fn of(word: u32) -> Self {
        match word % 8 {
            0 => Mode::Inactive,
            1 => Mode::SendOnly,
            2 => Mode::ReceiveOnly,
            3 => Mode::SendReceive,
            _ => Mode::Loopback,
        }
    }
}

/// A termination's service state.
#[derive(Clone, Copy, Debug, PartialEq, Eq, Hash)]
pub enum ServiceState {
    /// `IV`
    InService = 0,
    /// `OS`
    OutOfService = 1,
    /// `TE`
    Test = 2,
}

impl ServiceState {
    /// Of a property word; a sound table has no other states.
    pub(crate) const fn of(word: u32) -> Self {
        match word / 8 {
            0 => ServiceState::InService,
            1 => ServiceState::OutOfService,
            _ => ServiceState::Test,
        }
    }
}
