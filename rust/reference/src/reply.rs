//! The reply: "`!/1 `, own mId, one space, one `P=id{..}` per transaction,
//! nothing between".
//!
//! It is put together apart from the caller's buffer, since a transaction's
//! part that grows too long is taken back and the bytes past the reply's
//! length must stay.

use crate::run::Kind;
use crate::table::{write_name, write_number, Lines, Record, MODES, STATES};
use crate::text::ContextId;

/// "If `P=id{..}` would pass 2,048 bytes it becomes `P=id{ER=533{}}`"
const TRANSACTION_BYTES: usize = 2_048;

pub struct Reply {
    /// The lines that are fitted, by which terminations have their names.
    lines: Lines,
    bytes: Vec<u8>,
    /// Where the open transaction's part starts.
    start: usize,
    /// The open transaction's part passed its limit; no more of it is kept.
    over: bool,
}

impl Reply {
    pub fn new(lines: Lines, own: &[u8]) -> Self {
        let mut bytes = Vec::with_capacity(512);
        bytes.extend_from_slice(b"!/1 ");
        bytes.extend_from_slice(own);
        bytes.push(b' ');
        Reply {
            lines,
            bytes,
            start: 0,
            over: false,
        }
    }

    pub fn bytes(&self) -> &[u8] {
        &self.bytes
    }

    /// `ER=400{}` or `ER=406{}` in place of all transactions.
    pub fn message_error(&mut self, code: u32) {
        self.error(code);
    }

    /// `P=id{ER=code{}}`
    pub fn transaction_error(&mut self, id: u32, code: u32) {
        self.open_transaction(id);
        self.error(code);
        self.bytes.push(b'}');
    }

    pub fn open_transaction(&mut self, id: u32) {
        self.start = self.bytes.len();
        self.over = false;
        self.bytes.extend_from_slice(b"P=");
        write_number(id, &mut self.bytes);
        self.bytes.push(b'{');
    }

    pub fn close_transaction(&mut self, id: u32) {
        self.bytes.push(b'}');
        self.measure();
        if self.over {
            self.bytes.truncate(self.start);
            self.transaction_error(id, 533);
        }
    }

    /// The last transaction's `P=id{..}`.
    pub fn last(&self) -> &[u8] {
        &self.bytes[self.start..]
    }

    /// The reply of a transaction that is kept: "the same bytes".
    pub fn again(&mut self, kept: &[u8]) {
        self.start = self.bytes.len();
        self.bytes.extend_from_slice(kept);
    }

    /// `C=id{`; gives the place of the id, for [`Reply::close_action`].
    pub fn open_action(&mut self, context: ContextId) -> usize {
        self.comma();
        self.bytes.extend_from_slice(b"C=");
        let place = self.bytes.len();
        match context {
            ContextId::Number(number) => write_number(number, &mut self.bytes),
            ContextId::Null => self.bytes.push(b'-'),
            ContextId::Choose => self.bytes.push(b'$'),
            ContextId::All => self.bytes.push(b'*'),
        }
        self.bytes.push(b'{');
        place
    }

    /// Closes an action. `chosen` is the number that a `$` turned into: "`$`
    /// not turned into a number stays `$`".
    pub fn close_action(&mut self, place: usize, chosen: Option<usize>) {
        if let (Some(number), false) = (chosen, self.over) {
            let mut digits = Vec::with_capacity(3);
            write_number(number as u32, &mut digits);
            self.bytes.splice(place..=place, digits);
        }
        self.bytes.push(b'}');
        self.measure();
    }

    /// An attempt that succeeded: "the short keyword, `=` and name", and the
    /// state and the mode where they were audited.
    pub fn done(&mut self, kind: Kind, termination: usize, held: Option<(u32, u32)>) {
        if self.open_attempt(kind) {
            write_name(self.lines, termination, &mut self.bytes);
            if let Some((state, mode)) = held {
                self.bytes.extend_from_slice(b"{M{TS{SI=");
                self.bytes.extend_from_slice(STATES[state as usize].1);
                self.bytes.extend_from_slice(b"},O{MO=");
                self.bytes.extend_from_slice(MODES[mode as usize].1);
                self.bytes.extend_from_slice(b"}}}");
            }
            self.measure();
        }
    }

    /// "Subtract of an ephemeral returns `S=R/1{SA{rtp/pr=n,rtp/jit=n}}`", with
    /// "floor(J / 16)".
    pub fn gone(&mut self, termination: usize, packets: u32, jitter: u64) {
        if self.open_attempt(Kind::Subtract) {
            write_name(self.lines, termination, &mut self.bytes);
            let figures = format!("{{SA{{rtp/pr={packets},rtp/jit={}}}}}", jitter / 16);
            self.bytes.extend_from_slice(figures.as_bytes());
            self.measure();
        }
    }

    /// A Modify or an AuditValue of ROOT that succeeded.
    pub fn done_root(&mut self, kind: Kind) {
        if self.open_attempt(kind) {
            self.bytes.extend_from_slice(b"ROOT");
            self.measure();
        }
    }

    /// A failed attempt of a wildcard, which "bears the full name with capital
    /// letters".
    pub fn failed_match(&mut self, kind: Kind, termination: usize, code: u32) {
        if self.open_attempt(kind) {
            write_name(self.lines, termination, &mut self.bytes);
            self.close_failed(code);
        }
    }

    /// Another failed attempt, which bears "the bytes received".
    pub fn failed(&mut self, kind: Kind, received: &[u8], code: u32) {
        if self.open_attempt(kind) {
            self.bytes.extend_from_slice(received);
            self.close_failed(code);
        }
    }

    /// "An action error stands last, as `ER=code{}`."
    pub fn action_error(&mut self, code: u32) {
        if !self.over {
            self.comma();
            self.error(code);
            self.measure();
        }
    }

    /// "An action of properties alone reports its context's `PR=n`, then `,EG`
    /// if set."
    pub fn properties(&mut self, record: Record) {
        if !self.over {
            self.bytes.extend_from_slice(b"PR=");
            write_number(record.priority, &mut self.bytes);
            if record.emergency {
                self.bytes.extend_from_slice(b",EG");
            }
            self.measure();
        }
    }

    /// Writes the keyword of an attempt, unless no more is kept.
    fn open_attempt(&mut self, kind: Kind) -> bool {
        if self.over {
            return false;
        }
        self.comma();
        self.bytes.extend_from_slice(kind.short());
        self.bytes.push(b'=');
        true
    }

    fn close_failed(&mut self, code: u32) {
        self.bytes.push(b'{');
        self.error(code);
        self.bytes.push(b'}');
        self.measure();
    }

    fn error(&mut self, code: u32) {
        self.bytes.extend_from_slice(b"ER=");
        write_number(code, &mut self.bytes);
        self.bytes.extend_from_slice(b"{}");
    }

    /// "All are joined by commas": one before each but the first in its braces.
    fn comma(&mut self) {
        if self.bytes.last() != Some(&b'{') {
            self.bytes.push(b',');
        }
    }

    fn measure(&mut self) {
        self.over |= self.bytes.len() - self.start > TRANSACTION_BYTES;
    }
}
