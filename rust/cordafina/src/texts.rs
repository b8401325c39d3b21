//! The texts of Local and Remote in a message (CR 11).

use crate::archive;

/// Which of the two holds a text.
#[derive(Clone, Copy, Debug, PartialEq, Eq, Hash)]
pub enum Side {
    /// `Local`, `L`
    Local = 1,
    /// `Remote`, `R`
    Remote = 2,
}

/// A text in the braces of Local or Remote, and whose it is. Both parts are the
/// message's own bytes.
#[derive(Clone, Copy, Debug, PartialEq, Eq)]
pub struct Text<'message> {
    /// Local or Remote.
    pub side: Side,
    /// The name of its command's termination, as written: `$`, or with `*` in it,
    /// where the message says so.
    pub name: &'message [u8],
    /// The text, up to the closing brace; it may be empty.
    pub text: &'message [u8],
}

/// The text number k of a message, in reading order and from 0; `None` where it
/// has no more than k, does not read, or is longer than a call takes.
///
/// The message alone is asked: a text of a command that failed is given too, and
/// what was taken is read from the [`Table`](crate::Table).
///
/// # Panics
/// Where the archive that is linked is not this library.
#[must_use]
pub fn text(message: &[u8], k: usize) -> Option<Text<'_>> {
    let (bytes, length) = (message.as_ptr(), message.len());
    // SAFETY: the pointer is a slice's own, with its length, and so not null. The
    // callees read within it and keep nothing.
    let [side, name, text] = unsafe {
        [
            u64::from(archive::cordafina_text_side(bytes, length, k)),
            archive::cordafina_text_name(bytes, length, k),
            archive::cordafina_text(bytes, length, k),
        ]
    };
    let side = match side {
        0 => return None,
        1 => Side::Local,
        2 => Side::Remote,
        _ => panic!("side {side}: the archive is not this library"),
    };
    Some(Text {
        side,
        name: part(message, name),
        text: part(message, text),
    })
}

/// The texts of a message, in reading order.
///
/// # Panics
/// As [`text`].
pub fn texts(message: &[u8]) -> impl Iterator<Item = Text<'_>> {
    (0..).map_while(move |k| text(message, k))
}

/// A part of a message: its place in the high 32 bits, its length in the low
/// ones.
fn part(message: &[u8], number: u64) -> &[u8] {
    let (place, length) = ((number >> 32) as usize, number as u32 as usize);
    &message[place..place + length]
}
