//! Demand 3 on the compiled library: two transactions that are apart end alike
//! in both orders.

use std::fmt;

use reference::room::SLOTS;
use reference::table::{Lines, Name, CONTEXTS};
use reference::text::{read, ContextId, Part, Property};
use reference::{MESSAGE_BYTES, REPLY_BYTES};

use crate::calls::Call;
use crate::messages::{Scope, Writer};
use crate::numbers::Numbers;
use crate::rooms::{self, Kept, Room};
use crate::tables;

/// The senders of the two: the same one, or not.
const SENDERS: [[&str; 2]; 4] = [
    ["[10.0.0.1]", "[10.0.0.1]"],
    ["[10.0.0.1]", "[10.0.0.1]"],
    ["[10.0.0.1]", "[10.0.0.2]"],
    ["gw/A", "gw/a"],
];
const OWN: &[u8] = b"[10.0.0.9]";

/// A sound table of a count of lines, a sound room, and the texts of two
/// transactions with their senders.
pub struct Pair {
    lines: Lines,
    table: Vec<u32>,
    room: Room,
    blocks: Vec<u32>,
    senders: [&'static str; 2],
    one: Vec<u8>,
    two: Vec<u8>,
}

/// What both transactions of a pair change, one after the other.
pub struct BothChange {
    pub table: bool,
    /// The map, whose words the ephemerals share.
    pub map: bool,
    /// The flows.
    pub flows: bool,
    /// Where speech goes.
    pub speech: bool,
    /// The kept replies, an old one going for each.
    pub oldest: bool,
}

/// What calls leave beside the replies.
#[derive(Clone)]
struct Left {
    table: Vec<u32>,
    room: Room,
}

impl Pair {
    /// A pair of which most meet the conditions: contexts and terminations are
    /// shared out between the two, and sometimes not cleanly.
    pub fn new(numbers: &mut Numbers) -> Self {
        let lines = tables::lines(numbers);
        let table = loop {
            let table = match numbers.one_in(3) {
                true => tables::lowest(numbers, lines),
                false => tables::sound(numbers, lines),
            };
            if !tables::contexts(lines, &table).is_empty() {
                break table;
            }
        };
        let [mut one, mut two] = shared_out(numbers, lines, &table);
        if numbers.one_in(8) {
            match numbers.under(3) {
                0 => one.contexts.extend_from_slice(&two.contexts),
                1 => one.terminations.extend_from_slice(&two.terminations),
                _ => two.plain = false,
            }
        }
        let room = rooms::sound(numbers);
        let senders = numbers.pick(&SENDERS);
        if numbers.one_in(8) {
            // It may be a repeat.
            let kept = room.kept().into_iter();
            one.kept = kept.map(|(sender, id, _)| (sender, id)).collect();
        }
        let text = |numbers: &mut Numbers, scope: &Scope| {
            let mut writer = Writer::new(numbers, &table, scope);
            writer.transaction();
            writer.bytes
        };
        let one = text(numbers, &one);
        if let (Some(named), true) = (named(lines, &one), numbers.one_in(4)) {
            // The other may have the same identifier.
            two.kept = vec![(Vec::new(), named.id)];
        }
        let two = text(numbers, &two);
        Pair {
            lines,
            table,
            room,
            blocks: tables::sound_blocks(numbers),
            senders,
            one,
            two,
        }
    }

    /// Whether the conditions of demand 3 hold, sentence by sentence.
    pub fn is_apart(&self) -> bool {
        self.names_are_apart() && self.keys_are_apart()
    }

    /// Whether the conditions on what the two name hold.
    pub fn names_are_apart(&self) -> bool {
        let Some([one, two]) = self.named() else {
            return false;
        };
        // "Say that no termination is named by both."
        let mut shared = one.terminations.iter();
        if shared.any(|termination| two.terminations.contains(termination)) {
            return false;
        }
        // "the numbered contexts each names, with the numbered ones its
        // terminations stand in at the start, are apart from the other's"
        let (one, two) = (one.reached(&self.table), two.reached(&self.table));
        !one.iter().any(|context| two.contains(context))
    }

    /// "the two pairs differ and neither is kept at the start"
    pub fn keys_are_apart(&self) -> bool {
        let Some([one, two]) = self.named() else {
            return false;
        };
        let keys = [(self.senders[0], one.id), (self.senders[1], two.id)];
        let kept = self.room.kept();
        let is_kept = |&(sender, id): &(&str, u32)| {
            let mut kept = kept.iter();
            kept.any(|(of, kept_id, _)| of == sender.as_bytes() && *kept_id == id)
        };
        keys[0] != keys[1] && !keys.iter().any(is_kept)
    }

    fn named(&self) -> Option<[Named; 2]> {
        let named = |transaction| named(self.lines, transaction);
        Some([named(&self.one)?, named(&self.two)?])
    }

    /// Runs both orders, each as two messages and, from one sender, as one. Gives
    /// what both transactions change, or what ends unlike.
    pub fn run(&self, call: Call) -> Result<BothChange, String> {
        let (one, two) = ((self.senders[0], &self.one), (self.senders[1], &self.two));
        // "they end with the same blocks": those of the start.
        let replied = |left: &mut Left, (sender, text): (&str, &[u8])| {
            let mut blocks = self.blocks.clone();
            let reply = replied(call, self.lines, left, &mut blocks, sender, text);
            match self.blocks == blocks {
                true => reply,
                false => Err("blocks are changed".to_string()),
            }
        };
        let start = Left {
            table: self.table.clone(),
            room: self.room.clone(),
        };
        let mut left = start.clone();
        let first = replied(&mut left, (one.0, one.1))?;
        let between = left.clone();
        let second = replied(&mut left, (two.0, two.1))?;
        let both = |part: std::ops::Range<usize>| {
            between.table[part.clone()] != start.table[part.clone()]
                && left.table[part.clone()] != between.table[part]
        };
        let both_change = BothChange {
            table: both(0..self.lines.words()),
            map: both(self.lines.map()..self.lines.flows()),
            flows: both(self.lines.flows()..self.lines.speech()),
            speech: both(self.lines.speech()..self.lines.words()),
            oldest: self.room.held().len() == SLOTS && left.room.words != between.room.words,
        };

        let mut other = start.clone();
        let second_first = replied(&mut other, (two.0, two.1))?;
        let first_second = replied(&mut other, (one.0, one.1))?;
        same("table", &left.table, &other.table)?;
        same("first transaction's reply", &first, &first_second)?;
        same("second transaction's reply", &second, &second_first)?;
        // "the kept replies are then the same set, their age may differ"
        same(
            "kept replies",
            &left.room.kept_set(),
            &other.room.kept_set(),
        )?;

        let length = 5 + one.0.len() + one.1.len() + two.1.len();
        if one.0 == two.0 && length <= MESSAGE_BYTES {
            for (texts, replies) in [
                ([one.1, two.1], [&first, &second]),
                ([two.1, one.1], [&second, &first]),
            ] {
                let mut together = start.clone();
                let text = texts.map(|text| &text[..]).concat();
                let reply = replied(&mut together, (one.0, &text))?;
                same("table after one message", &left.table, &together.table)?;
                same(
                    "kept replies after one message",
                    &left.room.kept_set(),
                    &together.room.kept_set(),
                )?;
                same(
                    "reply to one message",
                    &replies.map(|reply| &reply[..]).concat(),
                    &reply,
                )?;
            }
        }
        Ok(both_change)
    }
}

impl fmt::Display for Pair {
    fn fmt(&self, f: &mut fmt::Formatter) -> fmt::Result {
        writeln!(f, "lines  {}", self.lines.count())?;
        writeln!(f, "table  {}", tables::shown(&self.table))?;
        writeln!(f, "room   {}", rooms::shown(&self.room))?;
        let [first, second] = self.senders;
        writeln!(f, "first  {first} {}", self.one.escape_ascii())?;
        write!(f, "second {second} {}", self.two.escape_ascii())
    }
}

/// Shares contexts and terminations out: a termination goes with the context
/// that it stands in, those in null go either way.
fn shared_out(numbers: &mut Numbers, lines: Lines, table: &[u32]) -> [Scope; 2] {
    let sides = [numbers.word(), numbers.word()];
    let side = |context: u32| (sides[context as usize / 64 % 2] >> (context % 64) & 1) as usize;
    let mut scopes = [0, 1].map(|_| Scope {
        lines,
        contexts: Vec::new(),
        terminations: Vec::new(),
        plain: true,
        kept: Vec::new(),
    });
    for (termination, &context) in table[..lines.terminations()].iter().enumerate() {
        let side = match context {
            0 => numbers.under(2),
            context => side(context),
        };
        scopes[side].terminations.push(termination);
    }
    // Most of the contexts exist, a few never do.
    let standing = tables::contexts(lines, table);
    for _ in 0..numbers.within(2..=12) {
        let context = match numbers.under(16) {
            0 => numbers.pick(&[129, 130, 1_000, 1_001, u32::MAX - 1, u32::MAX]),
            1 | 2 => numbers.within(1..=CONTEXTS) as u32,
            _ => numbers.pick(&standing),
        };
        scopes[side(context)].contexts.push(context);
    }
    for scope in &mut scopes {
        if scope.contexts.is_empty() {
            scope.contexts.push(0);
        }
        if scope.terminations.is_empty() {
            // Every one stands in a context of the other.
            scope.terminations.push(0);
        }
    }
    scopes
}

/// What a transaction names, and its identifier.
struct Named {
    id: u32,
    contexts: Vec<u32>,
    terminations: Vec<usize>,
}

impl Named {
    /// The numbered contexts named, "with the numbered ones its terminations
    /// stand in"; 0 is none.
    fn reached(self, table: &[u32]) -> Vec<u32> {
        let mut reached = self.contexts;
        reached.extend(self.terminations.iter().map(|&number| table[number]));
        reached.retain(|&context| context != 0);
        reached
    }
}

/// What a well-formed transaction names, if it names "every context by number
/// or as the null one, and every termination without `*` or `$`".
fn named(lines: Lines, transaction: &[u8]) -> Option<Named> {
    let message = [b"!/1 [10.0.0.1] ", transaction].concat();
    let read = read(&message).ok()?;
    // "both are T, a K is no transaction there"
    let [Part::Transaction(transaction)] = &read.parts[..] else {
        return None;
    };
    let mut named = Named {
        id: transaction.id,
        contexts: Vec::new(),
        terminations: Vec::new(),
    };
    for action in &transaction.actions {
        match action.context {
            ContextId::Number(number) => named.contexts.push(number),
            ContextId::Null => {}
            ContextId::Choose | ContextId::All => return None,
        }
        // "there a name in a triple counts as written as a termination"
        let triples = action
            .properties
            .iter()
            .flat_map(|property| match property {
                Property::Topology(triples) => &triples[..],
                _ => &[],
            });
        let in_triples = triples.flat_map(|triple| triple.names);
        let in_commands = action.commands.iter().map(|command| command.termination);
        for name in in_triples.chain(in_commands) {
            match Name::of(lines, name) {
                Name::Termination(number) => named.terminations.push(number),
                Name::Root | Name::Unknown => {}
                _ => return None,
            }
        }
    }
    (message.len() <= MESSAGE_BYTES).then_some(named)
}

/// The reply without its header, of a sender's message with these transactions.
fn replied(
    call: Call,
    lines: Lines,
    left: &mut Left,
    blocks: &mut [u32],
    sender: &str,
    transactions: &[u8],
) -> Result<Vec<u8>, String> {
    let message = [b"!/1 ", sender.as_bytes(), b" ", transactions].concat();
    let mut reply = [0; REPLY_BYTES];
    let word = call(
        lines.count(),
        &message,
        &mut left.table,
        &mut left.room.lent(),
        blocks,
        OWN,
        &mut reply,
    );
    if word >> 32 != 0 {
        return Err(format!("refusal {}", word >> 32));
    }
    Ok(reply[5 + OWN.len()..word as u32 as usize].to_vec())
}

fn same<T: PartialEq + Shown + ?Sized>(what: &str, one: &T, other: &T) -> Result<(), String> {
    if one == other {
        return Ok(());
    }
    Err(format!("{what}: {} and {}", one.shown(), other.shown()))
}

/// Words and bytes as a report shows them.
trait Shown {
    fn shown(&self) -> String;
}

impl Shown for Vec<u32> {
    fn shown(&self) -> String {
        tables::shown(self)
    }
}

impl Shown for Vec<u8> {
    fn shown(&self) -> String {
        self.escape_ascii().to_string()
    }
}

impl Shown for Vec<Kept> {
    fn shown(&self) -> String {
        let kept = self
            .iter()
            .map(|(sender, id, _)| (sender.escape_ascii(), id));
        let kept: Vec<String> = kept.map(|(sender, id)| format!("{sender} {id}")).collect();
        kept.join(", ")
    }
}
