//! The gateway's memory.

use core::{fmt, str};

use crate::layout::{flows_start, line_terminations, map_start, records_start, speech_start};
use crate::layout::{table_words, terminations, CONTEXTS, MEMBERS, MOST_LINES, OUTPUT_BYTES};
use crate::{contexts_word, in_use, lowest_absent, read_row_word, write_row_word};
use crate::{Mode, Refusal, ServiceState, Termination};

/// The gateway's memory, for a count of lines: which context each termination
/// stands in, its mode and state, and the contexts with who hears whom in each.
/// It is always sound: made so, and calls keep it so.
///
/// ```
/// use cordafina::{Gateway, Mode, ServiceState, Termination};
///
/// let mut gateway = Gateway::new(b"[10.0.0.9]")?;
/// gateway.answer(b"!/1 [10.0.0.1] T=1{C=${PR=4,EG,A=L/1/5{M{O{MO=SR}}},A=$}}")?;
/// let table = gateway.table();
///
/// let line = Termination::Line(1, 5);
/// assert_eq!(table.context_of(line), Some(1));
/// assert_eq!(table.mode_of(line), Some(Mode::SendReceive));
/// assert_eq!(table.state_of(line), Some(ServiceState::InService));
///
/// let context = table.context(1).unwrap();
/// assert_eq!((context.priority(), context.emergency()), (4, true));
/// assert!(context.members().eq([line, Termination::Ephemeral(1)]));
/// assert_eq!(table.to_string(), "contexts 1\n1 4 1 L/1/5 R/1\n");
/// # Ok::<(), cordafina::Refusal>(())
/// ```
#[derive(Clone, PartialEq, Eq)]
pub struct Table {
    /// 1 to 16.
    lines: u32,
    /// The words of the count; those past them are 0 and never lent.
    words: [u32; table_words(MOST_LINES)],
}

impl Table {
    /// Eight lines: no context, no ephemeral, every line in null.
    #[must_use]
    pub const fn fresh() -> Self {
        Table {
            lines: 8,
            words: [0; table_words(MOST_LINES)],
        }
    }

    /// The same for so many lines.
    ///
    /// # Errors
    /// `LinesUnfit` if they are not 1 to 16.
    pub const fn with_lines(lines: u32) -> Result<Self, Refusal> {
        if lines == 0 || lines > MOST_LINES {
            return Err(Refusal::LinesUnfit);
        }
        let mut table = Table::fresh();
        table.lines = lines;
        Ok(table)
    }

    /// A table of these words, as [`words`](Self::words) gave them.
    ///
    /// # Errors
    /// `LinesUnfit` if the count is not 1 to 16; `TableUnsound` if the words are
    /// not as many as the count has, or not sound.
    pub fn from_words(lines: u32, words: &[u32]) -> Result<Self, Refusal> {
        let mut table = Table::with_lines(lines)?;
        Refusal::or_length(contexts_word(lines, words, &mut [0; OUTPUT_BYTES]))?;
        table.words[..words.len()].copy_from_slice(words);
        Ok(table)
    }

    /// The table that [`write_row`](Self::write_row) wrote, for a spare.
    ///
    /// # Errors
    /// `LinesUnfit` if the count is not 1 to 16; `RowUnfit` if the bytes are not a
    /// sound table's row with that count.
    pub fn from_row(lines: u32, row: &[u8]) -> Result<Self, Refusal> {
        let mut table = Table::with_lines(lines)?;
        Refusal::or_done(read_row_word(lines, row, table.lent()))?;
        Ok(table)
    }

    /// The table as a row of numbers, of at most 4,369 bytes, from the start of the
    /// output on.
    ///
    /// ```
    /// use cordafina::{Gateway, Table};
    ///
    /// let mut gateway = Gateway::new(b"[10.0.0.9]")?;
    /// gateway.answer(b"!/1 [10.0.0.1] T=1{C=${A=L/1/5,A=$}}")?;
    /// let mut out = [0; 8192];
    /// let row = gateway.table().write_row(&mut out)?;
    /// assert!(Table::from_row(8, row)? == *gateway.table());
    /// # Ok::<(), cordafina::Refusal>(())
    /// ```
    ///
    /// # Errors
    /// `OutputTooShort` if the output has under 8,192 bytes.
    pub fn write_row<'out>(&self, out: &'out mut [u8]) -> Result<&'out [u8], Refusal> {
        let length = Refusal::or_length(write_row_word(self.lines, self.words(), out))?;
        Ok(&out[..length])
    }

    /// The count of lines.
    #[must_use]
    pub const fn lines(&self) -> u32 {
        self.lines
    }

    /// The words, to be stored: `include/cordafina.h` says what each is.
    #[must_use]
    pub fn words(&self) -> &[u32] {
        &self.words[..table_words(self.lines)]
    }

    /// The same, to be lent to a call.
    pub(crate) fn lent(&mut self) -> &mut [u32] {
        &mut self.words[..table_words(self.lines)]
    }

    // ---- terminations

    /// Whether the termination exists: a channel of a line that is fitted
    /// always does, an ephemeral while it is in a context.
    #[must_use]
    pub fn exists(&self, termination: Termination) -> bool {
        self.number_of(termination).is_some()
    }

    /// The number of the context that the termination stands in; `None` if it
    /// is in null, or does not exist.
    #[must_use]
    pub fn context_of(&self, termination: Termination) -> Option<u32> {
        let context = self.words[self.number_of(termination)?];
        (context != 0).then_some(context)
    }

    /// The termination's mode; `None` if it does not exist.
    #[must_use]
    pub fn mode_of(&self, termination: Termination) -> Option<Mode> {
        self.properties_of(termination).map(Mode::of)
    }

    /// The termination's service state; `None` if it does not exist.
    #[must_use]
    pub fn state_of(&self, termination: Termination) -> Option<ServiceState> {
        self.properties_of(termination).map(ServiceState::of)
    }

    /// The terminations that exist, ascending: the lines' channels, then the
    /// ephemerals in use.
    pub fn terminations(&self) -> impl Iterator<Item = Termination> + '_ {
        (0..terminations(self.lines))
            .filter(|&number| number < line_terminations(self.lines) || self.words[number] != 0)
            .map(|number| Termination::at(self.lines, number))
    }

    fn number_of(&self, termination: Termination) -> Option<usize> {
        let number = termination.number(self.lines)?;
        let exists = number < line_terminations(self.lines) || self.words[number] != 0;
        exists.then_some(number)
    }

    fn properties_of(&self, termination: Termination) -> Option<u32> {
        let number = self.number_of(termination)?;
        Some(self.words[terminations(self.lines) + number])
    }

    /// Where the ephemeral's Local says that speech goes; `None` if it says
    /// nothing, or for a line.
    #[must_use]
    pub fn local_of(&self, termination: Termination) -> Option<Session> {
        self.side_of(termination, 0)
    }

    /// The same of its Remote.
    #[must_use]
    pub fn remote_of(&self, termination: Termination) -> Option<Session> {
        self.side_of(termination, 4)
    }

    fn side_of(&self, termination: Termination, side: usize) -> Option<Session> {
        let number = self.number_of(termination)?;
        let place = number.checked_sub(line_terminations(self.lines))?;
        let first = speech_start(self.lines) + 8 * place + side;
        let [flag, address, port, payload_type] = [0, 1, 2, 3].map(|j| self.words[first + j]);
        (flag != 0).then_some(Session {
            address: address.to_be_bytes(),
            port: port as u16,
            payload_type: payload_type as u8,
        })
    }

    // ---- contexts

    /// The contexts that exist, ascending.
    pub fn contexts(&self) -> impl Iterator<Item = Context<'_>> {
        (1..=CONTEXTS as u32).filter_map(|number| self.context(number))
    }

    /// The context with this number, if it exists.
    #[must_use]
    pub fn context(&self, number: u32) -> Option<Context<'_>> {
        let place = (number as usize).checked_sub(1)?;
        if place >= CONTEXTS {
            return None;
        }
        let record = self.words[records_start(self.lines) + place];
        (record != 0).then_some(Context {
            table: self,
            number,
            record,
        })
    }

    /// The contexts as text, as the listing program prints them: `contexts` and
    /// their count, then a line for each. `to_string` gives the same.
    ///
    /// # Errors
    /// `OutputTooShort` if the output has under 8,192 bytes.
    ///
    /// # Panics
    /// Where the archive that is linked is not this library.
    pub fn report<'out>(&self, out: &'out mut [u8]) -> Result<&'out str, Refusal> {
        let length = Refusal::or_length(contexts_word(self.lines, self.words(), out))?;
        Ok(str::from_utf8(&out[..length]).expect("the archive is not this library"))
    }

    // ---- ephemerals

    /// The map of the ephemerals: bit n - 1 is set exactly when `R/n` exists.
    #[must_use]
    pub const fn map(&self) -> u64 {
        let start = map_start(self.lines);
        self.words[start] as u64 | (self.words[start + 1] as u64) << 32
    }

    /// The n of the lowest absent ephemeral `R/n`, 0 if there is none.
    #[must_use]
    pub fn lowest_absent(&self) -> u32 {
        lowest_absent(self.map())
    }

    /// How many ephemerals are in use.
    #[must_use]
    pub fn in_use(&self) -> u32 {
        in_use(self.map())
    }
}

impl TryFrom<&[u32]> for Table {
    type Error = Refusal;

    /// A table of these words; their number gives the count of lines.
    ///
    /// # Errors
    /// `TableUnsound` if no count has so many words, or if they are not sound.
    fn try_from(words: &[u32]) -> Result<Self, Refusal> {
        match (1..=MOST_LINES).find(|&lines| table_words(lines) == words.len()) {
            Some(lines) => Table::from_words(lines, words),
            None => Err(Refusal::TableUnsound),
        }
    }
}

impl Default for Table {
    fn default() -> Self {
        Table::fresh()
    }
}

impl fmt::Display for Table {
    /// The contexts, as [`report`](Table::report) gives them.
    fn fmt(&self, f: &mut fmt::Formatter) -> fmt::Result {
        let mut out = [0; OUTPUT_BYTES];
        f.write_str(self.report(&mut out).map_err(|_| fmt::Error)?)
    }
}

impl fmt::Debug for Table {
    /// The count of lines, and the words that are not 0.
    fn fmt(&self, f: &mut fmt::Formatter) -> fmt::Result {
        let words = self.words.iter().enumerate();
        f.debug_map()
            .entry(&"lines", &self.lines)
            .entries(words.filter(|(_, word)| **word != 0))
            .finish()
    }
}

/// Where speech goes: an address, a port and a payload type of RTP.
#[derive(Clone, Copy, Debug, PartialEq, Eq)]
pub struct Session {
    /// The four numbers of the address, in the order written.
    pub address: [u8; 4],
    /// The port.
    pub port: u16,
    /// 0 to 127.
    pub payload_type: u8,
}

/// A context of a table.
#[derive(Clone, Copy, Debug)]
pub struct Context<'table> {
    table: &'table Table,
    number: u32,
    /// Not 0.
    record: u32,
}

impl<'table> Context<'table> {
    /// 1 to 128.
    #[must_use]
    pub const fn number(&self) -> u32 {
        self.number
    }

    /// 0 to 15.
    #[must_use]
    pub const fn priority(&self) -> u32 {
        (self.record - 1) % 16
    }

    /// Whether it is an emergency call.
    #[must_use]
    pub const fn emergency(&self) -> bool {
        self.record > 16
    }

    /// The terminations in it, 1 to 8, ascending.
    pub fn members(&self) -> impl Iterator<Item = Termination> + 'table {
        let (table, context) = (self.table, self.number);
        (0..terminations(table.lines))
            .filter(move |&number| table.words[number] == context)
            .map(|number| Termination::at(table.lines, number))
    }

    /// Who flows to whom: `flows()[i][j]` is whether member i flows to member j,
    /// so that j hears i, both counted from 0 in the order of
    /// [`members`](Self::members). No member flows to itself, and none where
    /// there is no such member.
    #[must_use]
    pub fn flows(&self) -> [[bool; MEMBERS]; MEMBERS] {
        let start = flows_start(self.table.lines) + 2 * (self.number as usize - 1);
        let [low, high] = [0, 1].map(|half| u64::from(self.table.words[start + half]));
        let square = low | high << 32;
        let mut flows = [[false; MEMBERS]; MEMBERS];
        for (from, row) in flows.iter_mut().enumerate() {
            for (to, flow) in row.iter_mut().enumerate() {
                *flow = square >> (8 * from + to) & 1 == 1;
            }
        }
        flows
    }

    /// Whether the listener hears the speaker: both are members, and the speaker
    /// flows to the listener. None hears itself.
    #[must_use]
    pub fn hears(&self, listener: Termination, speaker: Termination) -> bool {
        let place = |one| self.members().position(|member| member == one);
        match (place(speaker), place(listener)) {
            (Some(from), Some(to)) => self.flows()[from][to],
            _ => false,
        }
    }
}
