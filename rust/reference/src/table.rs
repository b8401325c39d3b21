//! The lent table: its words, its soundness, and the names of terminations.
//!
//! First "the context of each termination, 0 for null", then of each "its
//! properties, mode + 8 × state", then "contexts 1..128, 0 if absent, else
//! 1 + priority + 16 × emergency", then the map of the ephemerals, then of each
//! context its square of flows. Where each part starts follows from the count
//! of lines that are fitted; with eight of them the first three are document
//! 01's words 0..311, 312..623 and 624..751, the map is in words 752 and 753,
//! the flows are in words 754..1009, and where the speech of the ephemerals goes
//! in words 1010..1521.

use std::ops::Range;

use crate::text::keyword;

pub const CHANNELS: usize = 31;
pub const EPHEMERALS: usize = 64;
pub const CONTEXTS: usize = 128;
/// "at most 8 terminations in each non-null context"
pub const MEMBERS: u16 = 8;

/// "States: 0 InService/IV, 1 OutOfService/OS, 2 Test/TE."
pub const OUT_OF_SERVICE: u32 = 1;

/// How many lines are fitted, 1 to 16. "Table size follows from the count."
#[derive(Clone, Copy, Debug, PartialEq, Eq)]
pub struct Lines(usize);

impl Lines {
    pub const MOST: Lines = Lines(16);
    /// Document 01's gateway.
    pub const EIGHT: Lines = Lines(8);

    /// None "for a count outside 1..16".
    pub fn fitted(count: u32) -> Option<Self> {
        let all = 1..=Lines::MOST.0 as u32;
        all.contains(&count).then_some(Lines(count as usize))
    }

    pub const fn count(self) -> u32 {
        self.0 as u32
    }

    /// The line terminations have the numbers under it: "Ephemerals come after
    /// the last fitted line".
    pub const fn line_terminations(self) -> usize {
        CHANNELS * self.0
    }

    /// All terminations, existing or not, have the numbers under it.
    pub const fn terminations(self) -> usize {
        self.line_terminations() + EPHEMERALS
    }

    /// Where the properties start.
    pub const fn properties(self) -> usize {
        self.terminations()
    }

    /// Where the contexts' records start.
    pub const fn records(self) -> usize {
        self.properties() + self.terminations()
    }

    /// Where the map starts: "two words at its end, low half first".
    pub const fn map(self) -> usize {
        self.records() + CONTEXTS
    }

    /// Where the flows start: "256 words at the table's end, two per context,
    /// low half first".
    pub const fn flows(self) -> usize {
        self.map() + 2
    }

    /// Where the words of the ephemerals' speech start: "Per ephemeral 1,
    /// address (first number highest), port and type are kept, for Local and
    /// then for Remote, or four zeros, in 512 words at the table's end".
    pub const fn speech(self) -> usize {
        self.flows() + 2 * CONTEXTS
    }

    /// The words of a table.
    pub const fn words(self) -> usize {
        self.speech() + 8 * EPHEMERALS
    }
}

/// A context's priority and emergency.
#[derive(Clone, Copy, Debug, Default, PartialEq, Eq)]
pub struct Record {
    pub priority: u32,
    pub emergency: bool,
}

impl Record {
    fn from_word(word: u32) -> Self {
        Record {
            priority: (word - 1) % 16,
            emergency: word > 16,
        }
    }

    fn word(self) -> u32 {
        1 + self.priority + 16 * u32::from(self.emergency)
    }
}

/// Where speech goes.
#[derive(Clone, Copy, Debug, PartialEq, Eq)]
pub struct Session {
    /// "first number highest"
    pub address: u32,
    pub port: u32,
    pub payload_type: u32,
}

/// The property values a command gives; of Local and Remote a session, or that
/// "empty text releases it".
#[derive(Clone, Copy, Debug, Default, PartialEq, Eq)]
pub struct Values {
    pub mode: Option<u32>,
    pub state: Option<u32>,
    pub local: Option<Option<Session>>,
    pub remote: Option<Option<Session>>,
}

/// A sound table, with counts of what stands in it.
pub struct Table<'t> {
    words: &'t mut [u32],
    lines: Lines,
    /// How many terminations stand in each context; place 0 is the null one.
    members: [u16; CONTEXTS + 1],
    /// Bit c - 1 is set for a context c that exists.
    contexts: u128,
    /// "bit n − 1 set exactly when R/n exists"
    ephemerals: u64,
}

/// The two words of a map, or of a square.
fn halves(map: u64) -> [u32; 2] {
    [map as u32, (map >> 32) as u32]
}

/// "bit 8i + j set when member i flows to member j, both from 0"
fn flow(from: usize, to: usize) -> u64 {
    1 << (8 * from + to)
}

/// The square of so many members in which the flows are those that the test
/// gives; "the diagonal and unused places 0".
fn square(members: usize, flows: impl Fn(usize, usize) -> bool) -> u64 {
    let mut all = 0;
    for from in 0..members {
        for to in (0..members).filter(|&to| to != from) {
            if flows(from, to) {
                all |= flow(from, to);
            }
        }
    }
    all
}

impl<'t> Table<'t> {
    /// Takes the table if it has the words of so many lines and is sound.
    pub fn sound(lines: Lines, words: &'t mut [u32]) -> Option<Self> {
        if words.len() != lines.words() {
            return None;
        }
        let mut members = [0; CONTEXTS + 1];
        let mut contexts = 0;
        let mut ephemerals = 0;

        let (stands_in, rest) = words.split_at(lines.properties());
        let (properties, rest) = rest.split_at(lines.terminations());
        let (records, rest) = rest.split_at(CONTEXTS);
        let (map, rest) = rest.split_at(2);
        let (squares, speech) = rest.split_at(2 * CONTEXTS);
        for (termination, (&context, &property)) in stands_in.iter().zip(properties).enumerate() {
            // "each context word at most 128"
            *members.get_mut(context as usize)? += 1;
            // "each property one of the 15 values"
            if property > 20 || property % 8 > 4 {
                return None;
            }
            if termination >= lines.line_terminations() {
                if context != 0 {
                    ephemerals |= 1 << (termination - lines.line_terminations());
                } else if property != 0 {
                    // "an absent ephemeral's property 0"
                    return None;
                }
            }
        }
        // "a context's record at most 32, and not 0 exactly when some
        // termination stands in that context; at most 8 terminations"
        for (place, (&record, &count)) in records.iter().zip(&members[1..]).enumerate() {
            if record > 32 || (record != 0) != (count != 0) || count > MEMBERS {
                return None;
            }
            contexts |= u128::from(count != 0) << place;
            // "the diagonal and unused places 0"
            let held = u64::from(squares[2 * place]) | u64::from(squares[2 * place + 1]) << 32;
            if held & !square(usize::from(count), |_, _| true) != 0 {
                return None;
            }
        }
        // "sound only so, absent ones zero"
        for (place, side) in speech.chunks(4).enumerate() {
            let exists = stands_in[lines.line_terminations() + place / 2] != 0;
            let sound = match *side {
                [1, _, port, payload_type] => exists && port <= 65_535 && payload_type <= 127,
                _ => side.iter().all(|&word| word == 0),
            };
            if !sound {
                return None;
            }
        }
        // "2 also when map and words disagree"
        if map != halves(ephemerals) {
            return None;
        }
        Some(Table {
            words,
            lines,
            members,
            contexts,
            ephemerals,
        })
    }

    /// The lines that are fitted.
    pub fn lines(&self) -> Lines {
        self.lines
    }

    /// The context a termination stands in, 0 for null.
    pub fn context_of(&self, termination: usize) -> usize {
        self.words[termination] as usize
    }

    /// The contexts of all terminations in a range of numbers.
    pub fn contexts_of(&self, terminations: Range<usize>) -> &[u32] {
        &self.words[terminations]
    }

    /// "It always exists", or for an ephemeral: "exactly when its context word
    /// is not 0".
    pub fn exists(&self, termination: usize) -> bool {
        termination < self.lines.line_terminations() || self.words[termination] != 0
    }

    /// How many terminations stand in a context; 0 exactly if it is absent.
    pub fn members(&self, context: usize) -> u16 {
        self.members[context]
    }

    /// The context of that number, if it exists: "0 and numbers over 128 never
    /// do".
    pub fn context(&self, number: u32) -> Option<usize> {
        let context = number as usize;
        let exists = (1..=CONTEXTS).contains(&context) && self.members[context] != 0;
        exists.then_some(context)
    }

    pub fn lowest_absent_context(&self) -> Option<usize> {
        let context = self.contexts.trailing_ones() as usize + 1;
        (context <= CONTEXTS).then_some(context)
    }

    /// The termination number of the lowest absent ephemeral.
    pub fn lowest_absent_ephemeral(&self) -> Option<usize> {
        let place = self.ephemerals.trailing_ones() as usize;
        (place < EPHEMERALS).then_some(self.lines.line_terminations() + place)
    }

    /// The record of a context that exists.
    pub fn record(&self, context: usize) -> Record {
        Record::from_word(self.words[self.lines.records() + context - 1])
    }

    pub fn set_record(&mut self, context: usize, record: Record) {
        self.words[self.lines.records() + context - 1] = record.word();
    }

    /// Puts a termination that stands in null into a context; an ephemeral
    /// comes to be by it.
    pub fn enter(&mut self, termination: usize, context: usize) {
        // "a termination that joins is bothway with every other"
        let (held, own) = (self.square(context), self.place(context, termination));
        let before = |place: usize| place - usize::from(place > own);
        self.set_square(
            context,
            square(usize::from(self.members[context]) + 1, |from, to| {
                from == own || to == own || held & flow(before(from), before(to)) != 0
            }),
        );
        self.words[termination] = context as u32;
        self.members[0] -= 1;
        self.members[context] += 1;
        self.contexts |= 1 << (context - 1);
        if let Some(bit) = self.bit(termination) {
            self.set_map(self.ephemerals | bit);
        }
    }

    /// Takes a termination out of its context to null; an ephemeral is gone by
    /// it. "A context ends with its last termination, and its number and
    /// properties are free again."
    pub fn leave(&mut self, termination: usize) {
        let context = self.context_of(termination);
        // "one that leaves takes its pairs with it"
        let (held, own) = (self.square(context), self.place(context, termination));
        let before = |place: usize| place + usize::from(place >= own);
        self.set_square(
            context,
            square(usize::from(self.members[context]) - 1, |from, to| {
                held & flow(before(from), before(to)) != 0
            }),
        );
        self.words[termination] = 0;
        self.members[0] += 1;
        self.members[context] -= 1;
        if self.members[context] == 0 {
            self.contexts &= !(1 << (context - 1));
            self.words[self.lines.records() + context - 1] = 0;
        }
        if let Some(bit) = self.bit(termination) {
            self.set_map(self.ephemerals & !bit);
        }
    }

    /// The place of an ephemeral in the map.
    fn bit(&self, termination: usize) -> Option<u64> {
        let place = termination.checked_sub(self.lines.line_terminations())?;
        Some(1 << place)
    }

    fn set_map(&mut self, map: u64) {
        self.ephemerals = map;
        self.words[self.lines.map()..][..2].copy_from_slice(&halves(map));
    }

    /// "its places being the members in ascending number": how many members of
    /// a context have a lower number.
    pub fn place(&self, context: usize, termination: usize) -> usize {
        let lower = self.words[..termination].iter();
        lower.filter(|&&word| word as usize == context).count()
    }

    fn square(&self, context: usize) -> u64 {
        let first = self.lines.flows() + 2 * (context - 1);
        u64::from(self.words[first]) | u64::from(self.words[first + 1]) << 32
    }

    fn set_square(&mut self, context: usize, square: u64) {
        let first = self.lines.flows() + 2 * (context - 1);
        self.words[first..][..2].copy_from_slice(&halves(square));
    }

    /// Sets whether the member at one place of a context flows to the one at
    /// another.
    pub fn set_flow(&mut self, context: usize, from: usize, to: usize, flows: bool) {
        let held = self.square(context) & !flow(from, to);
        self.set_square(context, held | if flows { flow(from, to) } else { 0 });
    }

    /// The service state held.
    pub fn state_of(&self, termination: usize) -> u32 {
        self.words[self.lines.properties() + termination] / 8
    }

    /// The service state and the mode held.
    pub fn values_of(&self, termination: usize) -> (u32, u32) {
        let property = self.words[self.lines.properties() + termination];
        (property / 8, property % 8)
    }

    /// Sets the property values given and keeps the others.
    pub fn set_values(&mut self, termination: usize, values: Values) {
        let property = &mut self.words[self.lines.properties() + termination];
        let mode = values.mode.unwrap_or(*property % 8);
        let state = values.state.unwrap_or(*property / 8);
        *property = mode + 8 * state;
        for (side, given) in [values.local, values.remote].into_iter().enumerate() {
            if let Some(session) = given {
                self.set_side(termination, side, session);
            }
        }
    }

    /// Sets where an ephemeral's speech goes, Local (0) or Remote (1).
    fn set_side(&mut self, termination: usize, side: usize, session: Option<Session>) {
        let ephemeral = termination - self.lines.line_terminations();
        let first = self.lines.speech() + 8 * ephemeral + 4 * side;
        let words = session.map_or([0; 4], |it| [1, it.address, it.port, it.payload_type]);
        self.words[first..][..4].copy_from_slice(&words);
    }

    /// "Subtract removes an ephemeral; a line returns to null with mode 0, its
    /// state kept."
    pub fn subtract(&mut self, termination: usize) {
        self.leave(termination);
        let property = &mut self.words[self.lines.properties() + termination];
        *property = if termination < self.lines.line_terminations() {
            *property / 8 * 8
        } else {
            0
        };
        // "Subtract forgets them"
        if termination >= self.lines.line_terminations() {
            self.set_side(termination, 0, None);
            self.set_side(termination, 1, None);
        }
    }
}

/// The long and the short form of each mode, by its number.
pub const MODES: [(&[u8], &[u8]); 5] = [
    (b"Inactive", b"IN"),
    (b"SendOnly", b"SO"),
    (b"ReceiveOnly", b"RC"),
    (b"SendReceive", b"SR"),
    (b"Loopback", b"LB"),
];

/// The long and the short form of each service state, by its number.
pub const STATES: [(&[u8], &[u8]); 3] = [
    (b"InService", b"IV"),
    (b"OutOfService", b"OS"),
    (b"Test", b"TE"),
];

/// The mode a value names.
pub fn mode(value: &[u8]) -> Option<u32> {
    place(value, &MODES)
}

/// The service state a value names.
pub fn state(value: &[u8]) -> Option<u32> {
    place(value, &STATES)
}

fn place(value: &[u8], words: &[(&[u8], &[u8])]) -> Option<u32> {
    words
        .iter()
        .position(|(long, short)| keyword(value, long, short))
        .map(|place| place as u32)
}

/// What a name received in a command stands for.
#[derive(Clone, Debug, PartialEq, Eq)]
pub enum Name {
    Root,
    /// `$` or `R/$`
    Choose,
    /// another name with `$`
    BadChoose,
    /// `*`, `L/*`, `L/l/*`, `R/*`: the numbers to match among
    Wildcard(Range<usize>),
    /// another name with `*` and no `$`
    BadWildcard,
    /// a line or an ephemeral, existing or not
    Termination(usize),
    /// any other name
    Unknown,
}

impl Name {
    /// "The name reader is told how many are fitted."
    pub fn of(lines: Lines, name: &[u8]) -> Self {
        let ephemerals = lines.line_terminations();
        if name.contains(&b'$') {
            match name {
                b"$" | b"R/$" | b"r/$" => Name::Choose,
                _ => Name::BadChoose,
            }
        } else if name.contains(&b'*') {
            match name {
                b"*" => Name::Wildcard(0..lines.terminations()),
                b"L/*" | b"l/*" => Name::Wildcard(0..ephemerals),
                b"R/*" | b"r/*" => Name::Wildcard(ephemerals..lines.terminations()),
                [b'L' | b'l', b'/', line @ .., b'/', b'*'] => match up_to(line, lines.0) {
                    Some(line) => Name::Wildcard(CHANNELS * (line - 1)..CHANNELS * line),
                    None => Name::BadWildcard,
                },
                _ => Name::BadWildcard,
            }
        } else if name.eq_ignore_ascii_case(b"ROOT") {
            Name::Root
        } else {
            match number(lines, name) {
                Some(termination) => Name::Termination(termination),
                None => Name::Unknown,
            }
        }
    }
}

/// "Termination `L/l/s`, .. s 1..31, is number 31 × (l − 1) + (s − 1)", where l
/// is a line that is fitted; "Ephemeral `R/n`, n 1..64," comes after the last
/// fitted line.
fn number(lines: Lines, name: &[u8]) -> Option<usize> {
    match name {
        [b'L' | b'l', b'/', rest @ ..] => {
            let slash = rest.iter().position(|&byte| byte == b'/')?;
            let line = up_to(&rest[..slash], lines.0)?;
            let channel = up_to(&rest[slash + 1..], CHANNELS)?;
            Some(CHANNELS * (line - 1) + channel - 1)
        }
        [b'R' | b'r', b'/', ephemeral @ ..] => {
            Some(lines.line_terminations() + up_to(ephemeral, EPHEMERALS)? - 1)
        }
        _ => None,
    }
}

/// A number 1..most of at most two digits; "leading zeros are unknown".
fn up_to(digits: &[u8], most: usize) -> Option<usize> {
    let value = match *digits {
        [one @ b'1'..=b'9'] => usize::from(one - b'0'),
        [ten @ b'1'..=b'9', one @ b'0'..=b'9'] => {
            10 * usize::from(ten - b'0') + usize::from(one - b'0')
        }
        _ => return None,
    };
    (value <= most).then_some(value)
}

/// Writes the full name of a termination with capital letters.
pub fn write_name(lines: Lines, termination: usize, out: &mut Vec<u8>) {
    match termination.checked_sub(lines.line_terminations()) {
        None => {
            out.extend_from_slice(b"L/");
            write_number((termination / CHANNELS) as u32 + 1, out);
            out.push(b'/');
            write_number((termination % CHANNELS) as u32 + 1, out);
        }
        Some(ephemeral) => {
            out.extend_from_slice(b"R/");
            write_number(ephemeral as u32 + 1, out);
        }
    }
}

/// "Numbers have no leading zeros."
pub fn write_number(number: u32, out: &mut Vec<u8>) {
    let mut digits = [0; 10];
    let mut first = digits.len();
    let mut rest = number;
    loop {
        first -= 1;
        digits[first] = b'0' + (rest % 10) as u8;
        rest /= 10;
        if rest == 0 {
            break;
        }
    }
    out.extend_from_slice(&digits[first..]);
}
