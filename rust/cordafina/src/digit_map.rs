//! Digit maps (CR 8): a map is loaded once, and strings are dialled on it.
//!
//! ```
//! use cordafina::digit_map::{Dialled, DigitMap, Progress, Timer, ZeroStart};
//!
//! let map = DigitMap::load(b"(0| 00|[1-7]xxx|9011x.)", 30, ZeroStart::Waits)?;
//! let answer = map.dial(b"0")?;
//! assert_eq!(answer.progress, Progress::MorePossible);
//! assert_eq!(answer.timer, Timer::Short);
//! assert_eq!(map.dial(b""), Ok(Dialled { progress: Progress::MoreNeeded, timer: Timer::Start }));
//! # Ok::<(), cordafina::Refusal>(())
//! ```
//!
//! A refused map or string is [`Refusal::BadMap`] or [`Refusal::BadString`].
//! `docs/DIGITS.md` says what a map is and what the answers mean.

use core::fmt;

use crate::{archive, Refusal};

/// Words that hold a loaded map.
pub(crate) const CELLS: usize = 1_040;

/// A start timer of zero, before any symbol.
#[derive(Clone, Copy, Debug, PartialEq, Eq)]
pub enum ZeroStart {
    /// Waits without end: no timer.
    Waits,
    /// Runs out at once.
    RunsOut,
}

/// How far a dialled string has come.
#[derive(Clone, Copy, Debug, PartialEq, Eq)]
pub enum Progress {
    /// Neither the string nor any longer one that begins with it is matched.
    NoMatch = 0,
    /// It is not matched, but some longer one is.
    MoreNeeded = 1,
    /// It is matched, and so is some longer one.
    MorePossible = 2,
    /// It is matched, and no longer one is.
    Closed = 3,
}

/// The timer that goes with an answer.
#[derive(Clone, Copy, Debug, PartialEq, Eq)]
pub enum Timer {
    /// No timer runs.
    None = 0,
    /// Until the first symbol.
    Start = 1,
    /// More symbols are needed.
    Long = 2,
    /// It is matched, and more symbols are possible.
    Short = 3,
    /// The start timer of zero has run out.
    RunOut = 4,
}

/// The answer to a dialled string.
#[derive(Clone, Copy, Debug, PartialEq, Eq)]
pub struct Dialled {
    /// How far it has come.
    pub progress: Progress,
    /// The timer to run now.
    pub timer: Timer,
}

/// A map that was loaded: some 4,200 bytes, in place.
#[derive(Clone)]
pub struct DigitMap {
    head: u32,
    cells: [u32; CELLS],
}

impl DigitMap {
    /// Reads a map's text. The start timer counts only before any symbol, and
    /// there only whether it is zero.
    ///
    /// # Errors
    /// `BadMap` where the text is malformed or too large.
    pub fn load(text: &[u8], start: u32, zero: ZeroStart) -> Result<Self, Refusal> {
        let mut cells = [0; CELLS];
        // SAFETY: the text is a slice with its length, the cells are as many
        // as the callee writes, and neither is kept.
        let head = unsafe {
            archive::cordafina_load_map(
                text.as_ptr(),
                text.len(),
                start,
                zero_number(zero),
                &mut cells,
            )
        };
        match head {
            0 => Err(Refusal::BadMap),
            _ => Ok(DigitMap { head, cells }),
        }
    }

    /// Answers a dialled string. The work grows with the map's size times the
    /// string's length.
    ///
    /// # Errors
    /// `BadString` where it has over 32 symbols, or a byte that is none.
    ///
    /// # Panics
    /// Where the archive that is linked gives an answer that there is not, so
    /// is not this library.
    pub fn dial(&self, dialled: &[u8]) -> Result<Dialled, Refusal> {
        // SAFETY: as above; both are only read.
        let word = unsafe {
            archive::cordafina_dial_map(self.head, &self.cells, dialled.as_ptr(), dialled.len())
        };
        answer_of(word)
    }
}

impl fmt::Debug for DigitMap {
    fn fmt(&self, f: &mut fmt::Formatter) -> fmt::Result {
        f.debug_struct("DigitMap").finish_non_exhaustive()
    }
}

/// The call as C has it: loads and dials at once. The answer in bits 0 to 7,
/// the timer in bits 8 to 15, the refusal in bits 16 to 31.
#[must_use]
pub fn dial_word(map: &[u8], start: u32, zero: u32, dialled: &[u8]) -> u32 {
    // SAFETY: each pointer is a slice's own, with its length; both are only
    // read, and neither is kept.
    unsafe {
        archive::cordafina_dial(
            map.as_ptr(),
            map.len(),
            start,
            zero,
            dialled.as_ptr(),
            dialled.len(),
        )
    }
}

/// The same by the plain matcher (CR 9), which tries each way through repeated
/// selectors: the same result on every map and string. On some maps it does not
/// come back in any useful time, as `docs/DIGITS.md` says; not for calls.
#[must_use]
pub fn dial_plain_word(map: &[u8], start: u32, zero: u32, dialled: &[u8]) -> u32 {
    // SAFETY: as in `dial_word`.
    unsafe {
        archive::cordafina_dial_plain(
            map.as_ptr(),
            map.len(),
            start,
            zero,
            dialled.as_ptr(),
            dialled.len(),
        )
    }
}

fn zero_number(zero: ZeroStart) -> u32 {
    match zero {
        ZeroStart::Waits => 0,
        ZeroStart::RunsOut => 1,
    }
}

fn answer_of(word: u32) -> Result<Dialled, Refusal> {
    let progress = match word & 0xFF {
        0 => Progress::NoMatch,
        1 => Progress::MoreNeeded,
        2 => Progress::MorePossible,
        3 => Progress::Closed,
        number => panic!("answer {number}: the archive is not this library"),
    };
    let timer = match word >> 8 & 0xFF {
        0 => Timer::None,
        1 => Timer::Start,
        2 => Timer::Long,
        3 => Timer::Short,
        4 => Timer::RunOut,
        number => panic!("timer {number}: the archive is not this library"),
    };
    match word >> 16 {
        0 => Ok(Dialled { progress, timer }),
        number => Err(Refusal::of_number(number)),
    }
}
