//! Messages that read well: "Annex B.2, profiled", with every command, item,
//! text and name, acknowledgements, keywords long and short in any letter case, and white space in
//! odd places.

use reference::table::{write_name, write_number, Lines, CONTEXTS, OUT_OF_SERVICE};
use reference::text::is_mid;

use crate::numbers::Numbers;
use crate::{speech, tables};

const LETTERS: &[u8] = b"ABCDEFGHIJKLMNOPQRSTUVWXYZabcdefghijklmnopqrstuvwxyz";
const WORD: &[u8] = b"ABCLMORSTXZabclmorstxz0123456789_";
const NAME: &[u8] = b"ABCLMORSTXZabclmorstxz0123456789_/*$";
const SAFE: &[u8] = b"abcXYZ0123456789!$%&'()*+-./?@\\^_`|~";
const QUOTED: &[u8] = b"abcXYZ019!$%&'()*+-./?@\\^_`|~#,:;<=>[]{} \t";
const DOMAIN: &[u8] = b"abcXYZ0123456789-.";

type Forms = (&'static [u8], &'static [u8]);

const COMMANDS: [Forms; 5] = [
    (b"Add", b"A"),
    (b"Modify", b"MF"),
    (b"Subtract", b"S"),
    (b"Move", b"MV"),
    (b"AuditValue", b"AV"),
];
/// Places in `COMMANDS`.
const ADD: usize = 0;
const MODIFY: usize = 1;
const SUBTRACT: usize = 2;
const MOVE: usize = 3;
const AUDIT_VALUE: usize = 4;
const AUDIT: Forms = (b"Audit", b"AT");
const MEDIA: Forms = (b"Media", b"M");
const LOCAL_CONTROL: Forms = (b"LocalControl", b"O");
const TERMINATION_STATE: Forms = (b"TerminationState", b"TS");
const LOCAL: Forms = (b"Local", b"L");
const REMOTE: Forms = (b"Remote", b"R");
const MODE: Forms = (b"Mode", b"MO");
const SERVICE_STATES: Forms = (b"ServiceStates", b"SI");
const VALUES: [Forms; 8] = [
    (b"Inactive", b"IN"),
    (b"SendOnly", b"SO"),
    (b"ReceiveOnly", b"RC"),
    (b"SendReceive", b"SR"),
    (b"Loopback", b"LB"),
    (b"InService", b"IV"),
    (b"OutOfService", b"OS"),
    (b"Test", b"TE"),
];
/// The values of Mode and of ServiceStates, as parts of `VALUES`.
const MODES: &[Forms] = VALUES.split_at(5).0;
const STATES: &[Forms] = VALUES.split_at(5).1;

/// The directions of a triple.
const DIRECTIONS: [Forms; 3] = [(b"Isolate", b"IS"), (b"Oneway", b"OW"), (b"Bothway", b"BW")];

/// Words that stand in the wrong place now and then.
const OTHERS: [Forms; 11] = [
    MEDIA,
    LOCAL_CONTROL,
    TERMINATION_STATE,
    MODE,
    SERVICE_STATES,
    AUDIT,
    (b"Signals", b"SG"),
    (b"AuditValue", b"AV"),
    (b"Notify", b"N"),
    (b"Context", b"C"),
    (b"MediaX", b"M_"),
];

/// Names that are no termination's, without `*` and `$`.
const UNKNOWN: [&[u8]; 24] = [
    b"L/01/5", b"L/1/05", b"L/0/5", b"L/010/1", b"L/1/0", b"L/1/32", b"L/1/311", b"L/100/1",
    b"R/0", b"R/65", b"R/01", b"R/100", b"L/1", b"L", b"R", b"R/", b"L//1", b"L/1/5/", b"X/1",
    b"Add", b"ROOT/1", b"ROOTS", b"L1/1", b"R/6_",
];
/// Lines that one count has and another has not, and none has.
const LINES: [u32; 12] = [1, 2, 7, 8, 9, 10, 11, 15, 16, 17, 18, 99];
/// Names with `*` or `$`, of good and of other forms.
const WILD: [&[u8]; 28] = [
    b"*", b"*", b"*", b"L/*", b"R/*", b"R/*", b"L/1/*", b"L/8/*", b"$", b"$", b"$", b"$", b"R/$",
    b"R/$", b"L/$", b"L/1/$", b"R/1$", b"L/*/$", b"*L/1", b"*R/*", b"L/*/5", b"L/16/*", b"L/01/*",
    b"L/0/*", b"L/1/5*", b"R/**", b"L*", b"*ROOT",
];

/// What the messages name.
pub struct Scope {
    /// The lines that are fitted.
    pub lines: Lines,
    /// Numbers of contexts.
    pub contexts: Vec<u32>,
    /// Numbers of terminations.
    pub terminations: Vec<usize>,
    /// "every context by number or as the null one, and every termination
    /// without `*` or `$`"
    pub plain: bool,
    /// The senders and identifiers of kept replies.
    pub kept: Vec<(Vec<u8>, u32)>,
}

impl Scope {
    /// All terminations, the contexts of the table and some more.
    pub fn whole(numbers: &mut Numbers, lines: Lines, table: &[u32]) -> Self {
        let mut contexts = tables::contexts(lines, table);
        for _ in 0..1 + contexts.len() / 8 {
            contexts.push(numbers.within(1..=CONTEXTS) as u32);
        }
        Scope {
            lines,
            contexts,
            terminations: (0..lines.terminations()).collect(),
            plain: false,
            kept: Vec::new(),
        }
    }
}

/// Writes the text of messages.
pub struct Writer<'a> {
    pub numbers: &'a mut Numbers,
    table: &'a [u32],
    scope: &'a Scope,
    pub bytes: Vec<u8>,
    /// White space stands at one of so many places where it may; 0 for none.
    white: usize,
    /// One of so many items is not what it should be; 0 for none.
    faults: usize,
    any_case: bool,
    /// No more is begun past this length.
    room: usize,
    /// The running action's context, 0 for any but a number.
    context: u32,
    /// The running action's context is the null one.
    null: bool,
}

impl<'a> Writer<'a> {
    pub fn new(numbers: &'a mut Numbers, table: &'a [u32], scope: &'a Scope) -> Self {
        let white = numbers.pick(&[0, 0, 20, 4]);
        let faults = numbers.pick(&[0, 30, 6]);
        let any_case = numbers.one_in(2);
        let room = match numbers.under(16) {
            0..=9 => numbers.within(20..=160),
            10..=14 => numbers.within(100..=700),
            _ => numbers.within(700..=4_000),
        };
        Writer {
            numbers,
            table,
            scope,
            bytes: Vec::with_capacity(512),
            white,
            faults,
            any_case,
            room,
            context: 0,
            null: false,
        }
    }

    /// A whole message.
    pub fn message(mut self) -> Vec<u8> {
        self.header();
        self.part(16);
        let most = self.numbers.pick(&[1, 1, 2, 8]);
        for _ in 1..most {
            if self.bytes.len() < self.room {
                self.part(6);
            }
        }
        self.bytes
    }

    /// A transaction, or once in so many an acknowledgement.
    fn part(&mut self, many: usize) {
        match self.numbers.one_in(many) {
            true => self.acknowledgement(),
            false => self.transaction(),
        }
    }

    // ---- small pieces

    pub fn put(&mut self, bytes: &[u8]) {
        self.bytes.extend_from_slice(bytes);
    }

    /// Letters that ignore their case.
    pub fn letters(&mut self, letters: &[u8]) {
        if self.any_case {
            for &byte in letters {
                let byte = match self.numbers.under(3) {
                    0 => byte.to_ascii_uppercase(),
                    1 => byte.to_ascii_lowercase(),
                    _ => byte,
                };
                self.bytes.push(byte);
            }
        } else {
            self.put(letters);
        }
    }

    pub fn keyword(&mut self, (long, short): Forms) {
        let long_one = self.numbers.one_in(3);
        self.letters(if long_one { long } else { short });
    }

    /// A number with up to so many leading zeros as digits are allowed.
    pub fn number(&mut self, number: u32, digits: usize) {
        let start = self.bytes.len();
        write_number(number, &mut self.bytes);
        if self.numbers.one_in(16) {
            let written = self.bytes.len() - start;
            let zeros = self.numbers.under(digits - written + 1);
            self.bytes.splice(start..start, vec![b'0'; zeros]);
        }
    }

    /// White space where it may stand.
    pub fn white(&mut self) {
        if self.white > 0 && self.numbers.one_in(self.white) {
            self.space();
        }
    }

    /// White space where it must stand: one piece or more.
    pub fn space(&mut self) {
        let plain = self.white == 0;
        let pieces = if plain { 1 } else { self.numbers.within(1..=3) };
        for _ in 0..pieces {
            let piece: &[u8] = match self.numbers.under(9) {
                _ if plain => b" ",
                0..=2 => b" ",
                3 => b"\t",
                4 => b"\r",
                5 => b"\n",
                6 => b"\r\n",
                7 => b";\r",
                _ => b"; T=1{ \"},\t~\n",
            };
            self.put(piece);
        }
    }

    /// A sign with white space around it.
    pub fn sign(&mut self, sign: u8) {
        self.white();
        self.bytes.push(sign);
        self.white();
    }

    pub fn word(&mut self, length: usize) {
        let first = self.numbers.pick(LETTERS);
        self.bytes.push(first);
        let rest = self.numbers.bytes(WORD, length - 1);
        self.put(&rest);
    }

    /// A path name of that length.
    pub fn path_name(&mut self, length: usize) {
        let plain = self.scope.plain;
        let star = !plain && length > 1 && self.numbers.one_in(4);
        if star {
            self.bytes.push(b'*');
        }
        let first = self.numbers.pick(LETTERS);
        self.bytes.push(first);
        let from = &NAME[..NAME.len() - 2 * usize::from(plain)];
        let rest = self.numbers.bytes(from, length - 1 - usize::from(star));
        self.put(&rest);
    }

    pub fn plain_value(&mut self, length: usize) {
        let value = self.numbers.bytes(SAFE, length);
        self.put(&value);
    }

    pub fn quoted_value(&mut self, length: usize) {
        let value = self.numbers.bytes(QUOTED, length);
        self.bytes.push(b'"');
        self.put(&value);
        self.bytes.push(b'"');
    }

    pub fn domain(&mut self, length: usize) {
        self.bytes.push(b'<');
        let first = self.numbers.pick(b"aZ09");
        self.bytes.push(first);
        let rest = self.numbers.bytes(DOMAIN, length - 1);
        self.put(&rest);
        self.bytes.push(b'>');
    }

    // ---- the message's parts

    pub fn header(&mut self) {
        self.white();
        self.keyword((b"MEGACO", b"!"));
        let version = match self.numbers.under(64) {
            0 => self.numbers.pick(&["0", "00", "2", "02", "10", "99"]),
            1 => "01",
            _ => "1",
        };
        self.bytes.push(b'/');
        self.put(version.as_bytes());
        self.space();
        self.sender();
        self.space();
    }

    /// The sender's mId: now and then that of a kept reply, or nearly that.
    pub fn sender(&mut self) {
        if self.scope.kept.is_empty() || !self.numbers.one_in(3) {
            return self.mid();
        }
        let place = self.numbers.under(self.scope.kept.len());
        let (mid, _) = &self.scope.kept[place];
        let mut mid = mid.clone();
        if self.numbers.one_in(6) {
            mid.iter_mut().for_each(|byte| match *byte {
                b'a'..=b'z' => *byte = byte.to_ascii_uppercase(),
                _ => *byte = byte.to_ascii_lowercase(),
            });
        }
        // Bytes are kept that are no mId.
        match is_mid(&mid) {
            true => self.put(&mid),
            false => self.mid(),
        }
    }

    pub fn mid(&mut self) {
        match self.numbers.under(8) {
            0..=4 => self.put(b"[10.0.0.1]"),
            5 => {
                self.bytes.push(b'[');
                for place in 0..4 {
                    if place > 0 {
                        self.bytes.push(b'.');
                    }
                    let number = self.numbers.under(256) as u32;
                    self.number(number, 3);
                }
                self.bytes.push(b']');
                self.port();
            }
            6 => {
                let length = self.numbers.within(1..=64);
                self.domain(length);
                self.port();
            }
            _ => {
                let length = self.numbers.within(1..=64);
                self.path_name(length);
            }
        }
    }

    fn port(&mut self) {
        if self.numbers.one_in(2) {
            let port = self.numbers.under(65_536) as u32;
            self.bytes.push(b':');
            self.number(port, 5);
        }
    }

    /// `T=id{`
    pub fn open_transaction(&mut self) {
        let id = self.id(6);
        self.keyword((b"Transaction", b"T"));
        self.sign(b'=');
        self.number(id, 10);
        self.sign(b'{');
    }

    /// An identifier: once in so many that of a kept reply.
    fn id(&mut self, many: usize) -> u32 {
        if !self.scope.kept.is_empty() && self.numbers.one_in(many) {
            let place = self.numbers.under(self.scope.kept.len());
            return self.scope.kept[place].1.max(1);
        }
        match self.numbers.under(8) {
            0 => 1 + self.numbers.word() as u32 / 2,
            _ => self.numbers.within(1..=999) as u32,
        }
    }

    /// `K{..}`: identifiers and ranges, of kept replies for the most part.
    pub fn acknowledgement(&mut self) {
        self.keyword((b"TransactionResponseAck", b"K"));
        self.sign(b'{');
        let most = self.numbers.pick(&[1, 1, 2, 3, 8]);
        for place in 0..most {
            if place > 0 {
                self.sign(b',');
            }
            let first = self.id(1);
            self.number(first, 10);
            if self.numbers.one_in(3) {
                let other = self.id(1);
                let last = match self.numbers.under(4) {
                    0 => first,
                    1 => u32::MAX,
                    2 => first.saturating_add(self.numbers.under(4) as u32),
                    _ => first.max(other),
                };
                self.bytes.push(b'-');
                self.number(last, 10);
            }
        }
        self.sign(b'}');
    }

    pub fn transaction(&mut self) {
        self.open_transaction();
        self.action();
        let most = self.numbers.pick(&[1, 1, 1, 3, 16]);
        for _ in 1..most {
            if self.bytes.len() < self.room {
                self.sign(b',');
                self.action();
            }
        }
        self.sign(b'}');
    }

    /// `C=id{`
    pub fn open_action(&mut self) {
        self.keyword((b"Context", b"C"));
        self.sign(b'=');
        (self.context, self.null) = (0, false);
        let mut context = self.numbers.pick(&self.scope.contexts);
        // Rather one in which somebody hears somebody.
        let stands_in = self.table.iter().take(self.scope.lines.terminations());
        if stands_in.filter(|&&word| word == context).count() < 2 {
            context = self.numbers.pick(&self.scope.contexts);
        }
        let absent = !tables::has_context(self.scope.lines, self.table, context);
        match self.numbers.under(32) {
            0 if !self.scope.plain => self.bytes.push(b'*'),
            1..=6 if !self.scope.plain => self.bytes.push(b'$'),
            7..=20 if !self.scope.plain && absent => self.bytes.push(b'$'),
            21..=23 => {
                self.null = true;
                self.bytes.push(b'-');
            }
            _ => {
                self.context = context;
                self.number(context, 10);
            }
        }
        self.sign(b'{');
    }

    fn action(&mut self) {
        self.open_action();
        let properties = match self.numbers.under(5) {
            0 => self.numbers.within(1..=3),
            _ => 0,
        };
        let topologies = self.numbers.one_in(3);
        for place in 0..properties {
            if place > 0 {
                self.sign(b',');
            }
            match topologies {
                true => self.topology(),
                false => self.property(),
            }
        }
        if properties == 0 || self.numbers.one_in(2) {
            if properties > 0 {
                self.sign(b',');
            }
            self.commands();
        }
        self.sign(b'}');
    }

    fn commands(&mut self) {
        self.command();
        let most = self.numbers.pick(&[1, 2, 3, 6, 64]);
        for _ in 1..most {
            if self.bytes.len() < self.room {
                self.sign(b',');
                self.command();
            }
        }
    }

    pub fn property(&mut self) {
        if self.numbers.one_in(3) {
            return self.topology();
        }
        if self.numbers.one_in(3) {
            return self.keyword((b"Emergency", b"EG"));
        }
        let priority = match self.numbers.under(20) {
            0 => self.numbers.pick(&[16, 17, 99, 65_536, 99_999]),
            _ => self.numbers.under(16) as u32,
        };
        self.keyword((b"Priority", b"PR"));
        self.sign(b'=');
        self.number(priority, 5);
    }

    /// `TP{..}`, of members of the action's context for the most part.
    fn topology(&mut self) {
        self.keyword((b"Topology", b"TP"));
        self.sign(b'{');
        let triples = self.numbers.pick(&[1, 1, 2, 3, 8]);
        let faults = self.numbers.one_in(3);
        for place in 0..triples {
            if place > 0 {
                self.sign(b',');
            }
            self.pair(faults);
            let direction = self.numbers.pick(&DIRECTIONS);
            self.keyword(direction);
        }
        self.sign(b'}');
    }

    /// Two names and the commas behind them: two members of the action's
    /// context, or now and then one of them or both at fault.
    fn pair(&mut self, faults: bool) {
        let member = self.suited(MODIFY);
        let other = self.one_that(|writer, termination, context| {
            context == writer.context && termination != member
        });
        let (foreign, second) = (self.suited(MOVE), self.numbers.one_in(2));
        let fault = self.numbers.under(12);
        for place in [second, !second] {
            match fault {
                _ if !faults => self.name(if place { member } else { other }),
                0 if place => self.termination(MODIFY),
                1 if place => self.name(foreign),
                // One with another fault beside it, so that their order shows.
                2 if place => self.name(foreign),
                2 => {
                    let name = self.numbers.pick(&UNKNOWN);
                    self.letters(name);
                }
                3 if place => self.termination(MODIFY),
                3 => self.name(foreign),
                // A name twice.
                4 => self.name(member),
                _ => self.name(if place { member } else { other }),
            }
            self.sign(b',');
        }
    }

    pub fn command(&mut self) {
        if self.numbers.one_in(2) {
            self.letters(b"O-");
        }
        if self.numbers.one_in(150) {
            self.letters(b"W-");
        }
        // In null only a Modify and an AuditValue are no action error.
        let kind = match self.null && !self.numbers.one_in(8) {
            true if self.numbers.one_in(3) => AUDIT_VALUE,
            true => MODIFY,
            false => self.numbers.under(COMMANDS.len()),
        };
        if self.numbers.one_in(80) {
            let other = self.numbers.pick(&OTHERS);
            self.keyword(other);
        } else {
            self.keyword(COMMANDS[kind]);
        }
        self.sign(b'=');
        // Items do not suit a Subtract or, but for Audit, an AuditValue.
        let speaks = match kind {
            SUBTRACT | AUDIT_VALUE => self.numbers.one_in(16),
            _ => self.numbers.one_in(4),
        };
        match speaks && !self.numbers.one_in(4) {
            true => self.ephemeral(kind),
            false => self.termination(kind),
        }
        match self.numbers.under(32) {
            _ if speaks => self.speech(),
            0 => {
                self.sign(b'{');
                self.items(1);
                self.sign(b'}');
            }
            1 => self.media(),
            2..=30 if kind == AUDIT_VALUE => self.audit(),
            // Items do not suit a Subtract.
            2 => self.audit(),
            3..=9 if kind != SUBTRACT => self.media(),
            10..=24 if kind == MODIFY => self.media(),
            10..=22 if kind == MOVE => self.media(),
            _ => {}
        }
    }

    // ---- terminations

    fn termination(&mut self, kind: usize) {
        let plain = self.scope.plain;
        match self.numbers.under(32) {
            0..=4 if !plain => {
                let name = self.numbers.pick(&WILD);
                self.letters(name);
            }
            5 if !plain => {
                let line = self.edge_line();
                self.letters(format!("L/{line}/*").as_bytes());
            }
            6 if !plain && kind == ADD => self.letters(b"R/$"),
            7 => self.letters(b"ROOT"),
            8 | 9 => {
                let name = self.numbers.pick(&UNKNOWN);
                self.letters(name);
            }
            10 => {
                let length = self.numbers.within(1..=64);
                self.path_name(length);
            }
            11 => {
                let line = self.edge_line();
                let channel = self.numbers.pick(&[1, 5, 30, 31, 32]);
                self.letters(format!("L/{line}/{channel}").as_bytes());
            }
            12..=15 => {
                let termination = self.numbers.pick(&self.scope.terminations);
                self.name(termination);
            }
            // One that already is where it is to be moved.
            16 if kind == MOVE => {
                let termination = self.suited(MODIFY);
                self.name(termination);
            }
            // The same, and one that is elsewhere, out of service.
            17 if kind == MOVE => {
                let termination = self.one_that(|writer, termination, context| {
                    context == writer.context && writer.out_of_service(termination)
                });
                self.name(termination);
            }
            18..=23 if kind == MOVE => {
                let termination = self.one_that(|writer, termination, context| {
                    context != 0 && context != writer.context && writer.out_of_service(termination)
                });
                self.name(termination);
            }
            _ => {
                let termination = self.suited(kind);
                self.name(termination);
            }
        }
    }

    /// A line about the last one that is fitted, or about some count's last.
    fn edge_line(&mut self) -> u32 {
        let fitted = self.scope.lines.count();
        match self.numbers.under(5) {
            0 => fitted,
            1 => fitted + 1,
            2 => self.numbers.under(20) as u32,
            _ => self.numbers.pick(&LINES),
        }
    }

    fn name(&mut self, termination: usize) {
        let mut name = Vec::with_capacity(8);
        write_name(self.scope.lines, termination, &mut name);
        self.letters(&name);
    }

    /// A termination that the command can succeed with, if there is one: Add
    /// one in null, Modify, Subtract and AuditValue one of the action's context,
    /// Move one of another context.
    fn suited(&mut self, kind: usize) -> usize {
        self.one_that(|writer, _, context| writer.suits(kind, context))
    }

    fn suits(&self, kind: usize, context: u32) -> bool {
        match kind {
            ADD => context == 0,
            MODIFY | SUBTRACT | AUDIT_VALUE => context == self.context,
            _ => context != 0 && context != self.context,
        }
    }

    /// An ephemeral that the command can succeed with, if there is one; of an Add
    /// the one that it makes.
    fn ephemeral(&mut self, kind: usize) {
        if kind == ADD && !self.scope.plain {
            let name = self.numbers.pick(&[b"$" as &[u8], b"R/$"]);
            return self.letters(name);
        }
        let first = self.scope.lines.line_terminations();
        let termination = self.one_that(|writer, termination, context| {
            termination >= first && writer.suits(kind, context)
        });
        self.name(termination);
    }

    /// A termination that fits, by its number and its context, if there is one.
    fn one_that(&mut self, fits: impl Fn(&Self, usize, u32) -> bool) -> usize {
        let start = self.numbers.under(self.scope.terminations.len());
        let (before, after) = self.scope.terminations.split_at(start);
        let fitting = |termination: &&usize| {
            let stands_in = self.table.get(**termination).copied().unwrap_or(0);
            fits(self, **termination, stands_in)
        };
        let found = after.iter().chain(before).find(fitting);
        found.copied().unwrap_or(after[0])
    }

    fn out_of_service(&self, termination: usize) -> bool {
        let property = self.scope.lines.properties() + termination;
        let word = self.table.get(property).copied().unwrap_or(0);
        word / 8 == OUT_OF_SERVICE
    }

    // ---- items

    /// Whether this piece is to be at fault.
    fn off(&mut self) -> bool {
        self.faults > 0 && self.numbers.one_in(self.faults)
    }

    /// The keyword of an item, or another in its place. Whether it is the keyword and no `/` stands behind it.
    fn item_word(&mut self, forms: Forms) -> bool {
        let other = self.off();
        let forms = if other {
            self.numbers.pick(&OTHERS)
        } else {
            forms
        };
        self.keyword(forms);
        let second = self.off();
        if second {
            self.bytes.push(b'/');
            self.word(2);
        }
        !other && !second
    }

    /// `{..}` with Media.
    fn media(&mut self) {
        self.sign(b'{');
        self.descriptor(MEDIA, |writer| {
            let both = writer.numbers.one_in(3);
            let first = writer.numbers.one_in(2);
            writer.inside_media(first);
            if both || writer.off() {
                let second = first == writer.off();
                writer.sign(b',');
                writer.inside_media(second);
            }
        });
        if self.off() {
            self.sign(b',');
            self.item_word(MEDIA);
        }
        self.sign(b'}');
    }

    /// `{..}` with Media that holds Local, Remote or both, and others beside them;
    /// or now and then with these words where no text stands.
    fn speech(&mut self) {
        self.sign(b'{');
        if self.numbers.one_in(24) {
            let items: [&[u8]; 5] = [
                b"L{a}",
                b"AT{M{R{a}}}",
                b"X{M{L{a}}}",
                b"M{O{L{a}}}",
                b"M{L/x{a}}",
            ];
            let items = self.numbers.pick(&items);
            self.put(items);
            return self.sign(b'}');
        }
        let media = self.item_word(MEDIA);
        if self.off() {
            self.sign(b'=');
            self.plain_value(1);
        }
        if !self.off() {
            self.sign(b'{');
            if self.numbers.one_in(6) {
                let local_control = self.numbers.one_in(2);
                self.inside_media(local_control);
                self.sign(b',');
            }
            let local = self.numbers.one_in(2);
            self.session(local, media);
            if self.numbers.one_in(3) {
                self.sign(b',');
                let again = self.off();
                self.session(local == again, media);
            }
            if self.numbers.one_in(6) {
                let local_control = self.numbers.one_in(2);
                self.sign(b',');
                self.inside_media(local_control);
            }
            self.sign(b'}');
        }
        self.sign(b'}');
    }

    /// Local or Remote with its text, or with an item where no text stands.
    fn session(&mut self, local: bool, media: bool) {
        let named = self.item_word(if local { LOCAL } else { REMOTE });
        let value = self.off();
        if value {
            self.sign(b'=');
            self.plain_value(1);
        }
        if self.off() {
            return;
        }
        self.sign(b'{');
        let text = match media && named && !value {
            true => speech::text(self.numbers),
            false => b"a".to_vec(),
        };
        self.put(&text);
        // White space before the brace would be of the text.
        self.put(b"}");
        self.white();
    }

    /// A command on an ephemeral, with items about the places where a text stands or
    /// with something put into a text; it may not read.
    pub fn odd_speech(&mut self) {
        let kind = self
            .numbers
            .pick(&[ADD, MODIFY, MODIFY, SUBTRACT, MOVE, AUDIT_VALUE]);
        self.put(b"O-");
        self.keyword(COMMANDS[kind]);
        self.put(b"=");
        self.ephemeral(kind);
        self.put(b"{");
        if self.numbers.one_in(2) {
            let items = self.numbers.pick(&speech::SHAPES);
            self.put(items);
        } else {
            let mut text = speech::text(self.numbers);
            let place = match self.numbers.one_in(2) {
                true => text.len(),
                false => self.numbers.under(text.len() + 1),
            };
            text.insert(place, self.numbers.pick(b"\0\\} \t\r;,"));
            self.put(b"M{L{");
            self.put(&text);
            self.put(b"}}");
        }
        self.put(b"}");
    }

    /// `{..}` with Audit, which is empty or holds Media.
    fn audit(&mut self) {
        self.sign(b'{');
        // Empty braces read behind Audit alone.
        let may_be_empty = self.item_word(AUDIT);
        if self.off() {
            self.sign(b'=');
            self.value();
        }
        if !self.off() {
            self.sign(b'{');
            if !may_be_empty || self.numbers.one_in(2) {
                self.item_word(MEDIA);
                if self.off() {
                    self.sign(b'=');
                    self.value();
                }
                if self.off() {
                    self.sign(b',');
                    self.item_word(MEDIA);
                }
            }
            self.sign(b'}');
        }
        if self.off() {
            self.sign(b',');
            self.item_word(AUDIT);
        }
        self.sign(b'}');
    }

    /// LocalControl, or TerminationState.
    fn inside_media(&mut self, local_control: bool) {
        let (forms, property, values) = if local_control {
            (LOCAL_CONTROL, MODE, MODES)
        } else {
            (TERMINATION_STATE, SERVICE_STATES, STATES)
        };
        self.descriptor(forms, |writer| {
            writer.value_property(property, values);
            if writer.off() {
                writer.sign(b',');
                writer.value_property(property, values);
            }
        });
    }

    /// A descriptor: "braces and no value".
    fn descriptor(&mut self, forms: Forms, inside: impl FnOnce(&mut Self)) {
        self.item_word(forms);
        if self.off() {
            self.sign(b'=');
            self.plain_value(1);
        }
        if !self.off() {
            self.sign(b'{');
            inside(self);
            self.sign(b'}');
        }
    }

    /// A property: "a value and no braces".
    fn value_property(&mut self, forms: Forms, values: &[Forms]) {
        self.item_word(forms);
        if !self.off() {
            self.sign(b'=');
            let good = self.numbers.pick(values);
            if self.off() {
                self.value();
            } else if self.off() {
                // The right word in quotes.
                self.bytes.push(b'"');
                self.keyword(good);
                self.bytes.push(b'"');
            } else {
                self.keyword(good);
            }
        }
        if self.off() {
            self.sign(b'{');
            self.item_word(MODE);
            self.sign(b'}');
        }
    }

    fn value(&mut self) {
        match self.numbers.under(4) {
            0 => {
                let value = self.numbers.pick(&VALUES);
                self.keyword(value);
            }
            1 => {
                let length = self.numbers.within(0..=64);
                self.quoted_value(length);
            }
            _ => {
                let length = self.numbers.within(1..=64);
                self.plain_value(length);
            }
        }
    }

    /// Any items, of this level and below.
    fn items(&mut self, level: usize) {
        let count = self.numbers.pick(&[1, 1, 2]);
        for place in 0..count {
            if place > 0 {
                self.sign(b',');
            }
            if self.numbers.one_in(2) {
                let word = self.numbers.pick(&OTHERS);
                self.keyword(word);
            } else {
                let length = self.numbers.within(1..=8);
                self.word(length);
            }
            if self.numbers.one_in(6) {
                self.bytes.push(b'/');
                let length = self.numbers.within(1..=8);
                self.word(length);
            }
            if self.numbers.one_in(3) {
                self.sign(b'=');
                self.value();
            }
            if level < 8 && self.numbers.one_in(2) {
                self.sign(b'{');
                self.items(level + 1);
                self.sign(b'}');
            }
        }
    }
}
