//! "our SDP subset (RFC 2327)": the text of Local and Remote.

use crate::table::Session;

/// The session that a text describes; none for "text outside the subset". Three
/// lines count, "each once and in that order", the others are skipped.
pub fn session(text: &[u8]) -> Option<Session> {
    // "a line ends at CR, LF, both or the text's end": between CR and LF there is
    // an empty line, which is skipped.
    let lines = text.split(|byte| matches!(byte, b'\r' | b'\n'));
    let mut lines = lines.filter(|line| !is_skipped(line));
    if lines.next()? != b"v=0" {
        return None;
    }
    let address = address(lines.next()?.strip_prefix(b"c=IN IP4 ")?)?;
    let (port, payload_type) = media(lines.next()?.strip_prefix(b"m=audio ")?)?;
    let session = Session {
        address,
        port,
        payload_type,
    };
    lines.next().is_none().then_some(session)
}

/// "lines empty or of spaces and tabs, and lines of another letter and `=`";
/// "letter case counting", `V`, `C` and `M` are others.
fn is_skipped(line: &[u8]) -> bool {
    match line {
        [b'v' | b'c' | b'm', ..] => false,
        [letter, b'=', ..] if letter.is_ascii_alphabetic() => true,
        _ => line.iter().all(|byte| matches!(byte, b' ' | b'\t')),
    }
}

/// "an mId's dotted numbers", the first one highest.
fn address(text: &[u8]) -> Option<u32> {
    let numbers: Option<Vec<u32>> = text
        .split(|&byte| byte == b'.')
        .map(|digits| number(digits, 3, 255))
        .collect();
    match numbers?[..] {
        [a, b, c, d] => Some(a << 24 | b << 16 | c << 8 | d),
        _ => None,
    }
}

/// "port 0..65535 (1 to 5 digits) `RTP/AVP` and one payload type 0..127 (1 to
/// 3), single spaces"
fn media(text: &[u8]) -> Option<(u32, u32)> {
    let parts: Vec<&[u8]> = text.split(|&byte| byte == b' ').collect();
    match parts[..] {
        [port, b"RTP/AVP", payload_type] => {
            Some((number(port, 5, 65_535)?, number(payload_type, 3, 127)?))
        }
        _ => None,
    }
}

/// A number up to `most`, of 1 to so many digits.
fn number(digits: &[u8], count: usize, most: u32) -> Option<u32> {
    let fits = (1..=count).contains(&digits.len()) && digits.iter().all(u8::is_ascii_digit);
    let number = || {
        digits
            .iter()
            .fold(0, |sum, byte| 10 * sum + u32::from(byte - b'0'))
    };
    fits.then(number).filter(|&number| number <= most)
}
