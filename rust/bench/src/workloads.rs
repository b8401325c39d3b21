//! What is measured: single requests, a mix, and calls that do nothing but
//! judge the table.

use differential::calls::{reference_word, Call};
use differential::numbers::Numbers;
use differential::rooms::Room;
use differential::tables;
use reference::blocks::BLOCK_WORDS;
use reference::room::{ROOM_WORDS, SLOTS};
use reference::table::Lines;
use reference::REPLY_BYTES;

pub const OWN: &[u8] = b"[10.0.0.9]";

/// Messages that are answered one after the other, from a table, each in the same
/// room: no message is a repeat of one before it.
pub struct Workload {
    pub name: &'static str,
    pub lines: Lines,
    pub messages: Vec<Vec<u8>>,
    pub table: Vec<u32>,
    pub room: Room,
    /// The words that all messages together change; they are put back.
    changed: Vec<usize>,
}

impl Workload {
    fn new(name: &'static str, lines: Lines, messages: Vec<Vec<u8>>, table: Vec<u32>) -> Self {
        let mut after = table.clone();
        let mut touched = vec![false; table.len()];
        let mut blocks = [0; BLOCK_WORDS];
        let mut reply = [0; REPLY_BYTES];
        for message in &messages {
            let count = lines.count();
            let mut empty = Room::empty();
            let room = &mut empty.lent();
            reference_word(
                count,
                message,
                &mut after,
                room,
                &mut blocks,
                OWN,
                &mut reply,
            );
            for place in 0..table.len() {
                touched[place] |= after[place] != table[place];
            }
        }
        let changed = (0..table.len()).filter(|&place| touched[place]).collect();
        Workload {
            name,
            lines,
            messages,
            table,
            room: Room::empty(),
            changed,
        }
    }

    /// The same in another room.
    fn within(mut self, room: Room) -> Self {
        self.room = room;
        self
    }

    /// One message on eight lines.
    fn request(name: &'static str, message: &str, table: Vec<u32>) -> Self {
        Workload::new(name, Lines::EIGHT, vec![message.as_bytes().to_vec()], table)
    }

    pub fn bytes(&self) -> usize {
        self.messages.iter().map(Vec::len).sum()
    }

    /// Lets a side answer all messages so many times.
    pub fn run(&self, call: Call, rounds: usize) {
        let lines = self.lines.count();
        let mut table = self.table.clone();
        let mut blocks = [0; BLOCK_WORDS];
        let mut reply = [0; REPLY_BYTES];
        let mut room = self.room.clone();
        // Of a room that keeps nothing the row is enough; else what the slots hold is
        // put back too, but for bytes.
        let kept = match self.room.held().is_empty() {
            true => SLOTS,
            false => ROOM_WORDS,
        };
        for _ in 0..rounds {
            for message in &self.messages {
                std::hint::black_box(call(
                    lines,
                    message,
                    &mut table,
                    &mut room.lent(),
                    &mut blocks,
                    OWN,
                    &mut reply,
                ));
                room.words[..kept].copy_from_slice(&self.room.words[..kept]);
            }
            for &place in &self.changed {
                table[place] = self.table[place];
            }
        }
    }
}

/// A fresh table of eight lines.
fn fresh() -> Vec<u32> {
    tables::fresh(Lines::EIGHT)
}

const SET_UP: &str = "MEGACO/1 [10.0.0.1]
Transaction = 998 {
  Context = $ {
    Add = L/1/5 { Media {
      LocalControl { Mode = SendReceive },
      TerminationState { ServiceStates = InService } } },
    Add = $ { Media { LocalControl { Mode = ReceiveOnly } } }
  }
}
";

/// Requests of 36, 58, 251 and 4,081 bytes, and a mix of 2,000, on eight lines.
pub fn requests() -> Vec<Workload> {
    let mut context_2 = fresh();
    context_2[4] = 2;
    context_2[625] = 1;
    vec![
        Workload::request(
            "a new context of two",
            "!/1 [10.0.0.1] T=7{C=${A=L/1/5,A=$}}",
            fresh(),
        ),
        Workload::request(
            "a failure and a Modify",
            "!/1 [10.0.0.1] T=11{C=2{O-S=L/8/31,MF=L/1/5{M{O{MO=SR}}}}}",
            context_2,
        ),
        Workload::request("long keywords, white space", SET_UP, fresh()),
        Workload::request("64 new contexts of two", &long_request(), fresh()),
        mix(),
    ]
}

/// Eight transactions of eight actions.
fn long_request() -> String {
    let media = "{M{O{MO=SR},TS{SI=IV}}}";
    let mut message = "!/1 [10.0.0.1] ".to_string();
    for line in 1..=8 {
        let action = |channel| format!("C=${{A=L/{line}/{channel}{media},A=${media}}}");
        let actions: Vec<String> = (1..=8).map(action).collect();
        message += &format!("T={}{{{}}}", line + 3, actions.join(","));
    }
    message
}

/// 2,000 messages of the differential test's kinds, a quarter of them damaged,
/// each made for the table that the one before left. They are kept in a file,
/// so that they stay the same when the generator changes: for each its length
/// in four digits, a space, its bytes and a line end.
fn mix() -> Workload {
    let mut file: &[u8] = include_bytes!("../mix");
    let mut messages = Vec::new();
    while let Some((digits, rest)) = file.split_at_checked(4) {
        let digits = std::str::from_utf8(digits).expect("four digits");
        let length: usize = digits.parse().expect("four digits");
        messages.push(rest[1..1 + length].to_vec());
        file = &rest[length + 2..];
    }
    Workload::new("mix of 2,000 messages", Lines::EIGHT, messages, fresh())
}

/// Calls that are turned down for their message, after the table and the own
/// mId were judged: on a fresh table, and on one with all 128 contexts.
pub fn fixed() -> [Workload; 2] {
    let mut numbers = Numbers::new(1);
    let full = loop {
        let table = tables::sound(&mut numbers, Lines::EIGHT);
        if tables::contexts(Lines::EIGHT, &table).len() == 128 {
            break table;
        }
    };
    [("fresh table", fresh()), ("table of 128 contexts", full)]
        .map(|(name, table)| Workload::request(name, "", table))
}

/// The same three calls on one, eight and sixteen lines, from a fresh table; then
/// three in a context of seven or eight members that all hear each other.
pub fn counts() -> Vec<Workload> {
    const CALLS: [(&str, &str); 3] = [
        ("turned down", ""),
        (
            "a new context of two",
            "!/1 [10.0.0.1] T=7{C=${A=L/1/5,A=$}}",
        ),
        ("every line modified", "!/1 [10.0.0.1] T=1{C=-{MF=*}}"),
    ];
    let mut all = Vec::new();
    for (name, message) in CALLS {
        for lines in [1, 8, 16].map(|count| Lines::fitted(count).expect("1 to 16")) {
            let messages = vec![message.as_bytes().to_vec()];
            all.push(Workload::new(name, lines, messages, tables::fresh(lines)));
        }
    }
    const IN_CONTEXT: [(&str, usize, &str); 3] = [
        ("an eighth member added", 7, "A=L/1/8"),
        ("the eighth subtracted", 8, "S=L/1/8"),
        ("the eighth modified", 8, "MF=L/1/8"),
    ];
    for (name, members, command) in IN_CONTEXT {
        let message = format!("!/1 [10.0.0.1] T=7{{C=2{{{command}}}}}");
        all.push(Workload::request(name, &message, context_of(members)));
    }
    all
}

/// Eight lines with channels 1 and on of the first in context 2, each heard by each.
fn context_of(members: usize) -> Vec<u32> {
    let mut table = fresh();
    table[..members].fill(2);
    table[Lines::EIGHT.records() + 1] = 1;
    let row = (1u64 << members) - 1;
    let flows = (0..members).fold(0, |flows, i| flows | (row & !(1 << i)) << (8 * i));
    let start = Lines::EIGHT.flows() + 2;
    table[start] = flows as u32;
    table[start + 1] = (flows >> 32) as u32;
    table
}

/// Rooms and repeats, on a fresh table of eight lines: a call turned down with an
/// empty and with a full room; a request that runs, in an empty and in a full room,
/// and beside each the same as a repeat, its reply the oldest of those kept.
pub fn rooms() -> Vec<Workload> {
    let small = "!/1 [10.0.0.1] T=7{C=${A=L/1/5,A=$}}".to_string();
    let long = "!/1 [10.0.0.1] T=7{C=-{MF=L/1/*,MF=L/2/*,MF=L/3/*}}".to_string();
    let full = |message: &str| {
        let mut room = Room::empty();
        if !message.is_empty() {
            answered(message, &mut room);
        }
        // The others are of the same sender, with the same reply.
        for id in (100..).take(SLOTS - room.held().len()) {
            answered(&small.replace("T=7", &format!("T={id}")), &mut room);
        }
        room
    };
    let alone = |message: &str| {
        let mut room = Room::empty();
        answered(message, &mut room);
        room
    };
    let request = |name, message, room| Workload::request(name, message, fresh()).within(room);
    vec![
        request("turned down, empty room", "", Room::empty()),
        request("turned down, 16 kept", "", full("")),
        request("a new context, empty room", &small, Room::empty()),
        request("a new context, 16 kept", &small, full("")),
        request("its repeat, 1 kept", &small, alone(&small)),
        request("its repeat, 16 kept", &small, full(&small)),
        request("93 lines, empty room", &long, Room::empty()),
        request("93 lines, 16 kept", &long, full("")),
        request("its repeat, 1 kept", &long, alone(&long)),
        request("its repeat, 16 kept", &long, full(&long)),
        request(
            "K of all, 16 kept",
            "!/1 [10.0.0.1] K{1-4294967295}",
            full(""),
        ),
        request("turned down, 16 of one id", "", one_id()),
    ]
}

/// A room whose pairs are the dearest to tell apart: one identifier, and mIds of 72
/// bytes that differ in the last ones.
fn one_id() -> Room {
    let mut room = Room::empty();
    for port in (65_501..).take(SLOTS) {
        let sender = format!("<{}>:{port}", "g".repeat(64));
        answered(&format!("!/1 {sender} T=7{{C=-{{MF=ROOT}}}}"), &mut room);
    }
    room
}

/// Keeps the reply of a request on a fresh table.
fn answered(message: &str, room: &mut Room) {
    let (mut table, mut reply) = (fresh(), [0; REPLY_BYTES]);
    let (message, blocks) = (message.as_bytes(), &mut [0; BLOCK_WORDS]);
    let lines = Lines::EIGHT.count();
    let word = reference_word(
        lines,
        message,
        &mut table,
        &mut room.lent(),
        blocks,
        OWN,
        &mut reply,
    );
    assert_eq!(word >> 32, 0);
}
