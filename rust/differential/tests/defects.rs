//! The test can fail: each of these callees is the reference with one defect,
//! and each is found.

use std::ops::RangeInclusive;
use std::sync::atomic::{AtomicU32, Ordering::Relaxed};

use differential::calls::{compare, reference_word, shortened, Call, Cases, GUARD};
use differential::contexts;
use differential::maps::{ask, Questions, REFERENCE};
use differential::numbers::Numbers;
use differential::pairs::{BothChange, Pair};
use differential::rooms::Room;
use differential::speech::texts;
use differential::tables;
use reference::room::{Lent, ROOM_BYTES, ROOM_WORDS, SLOTS};
use reference::table::{Lines, Name, CONTEXTS};
use reference::text::{
    is_mid, keyword, read, Action, Command, ContextId, Direction, Item, Part, Property, Triple,
    Value,
};
use reference::MESSAGE_BYTES;

fn length(word: u64) -> usize {
    word as u32 as usize
}

fn has(reply: &[u8], text: &[u8]) -> bool {
    reply.windows(text.len()).any(|window| window == text)
}

/// Sets the first byte after each `L/` by that and the next byte.
fn each_line(text: &mut [u8], byte: impl Fn(u8, u8) -> u8) {
    for start in 0..text.len().saturating_sub(3) {
        if let [b'L' | b'l', b'/', digit, next, ..] = &mut text[start..] {
            *digit = byte(*digit, *next);
        }
    }
}

/// Something is kept between calls.
fn keeps_state(
    lines: u32,
    message: &[u8],
    table: &mut [u32],
    room: &mut Lent,
    blocks: &mut [u32],
    own: &[u8],
    reply: &mut [u8],
) -> u64 {
    static CALLS: AtomicU32 = AtomicU32::new(0);
    let word = reference_word(lines, message, table, room, blocks, own, reply);
    if word >> 32 == 0 && CALLS.fetch_add(1, Relaxed) % 100 == 99 {
        let property = &mut table[31 * lines as usize + 64];
        *property = (*property + 8) % 24;
    }
    word
}

/// The states of a table: those of the terminations, by number.
fn states(table: &mut [u32]) -> Option<&mut [u32]> {
    let lines = tables::lines_of(table.len())?;
    Some(&mut table[lines.properties()..lines.records()])
}

/// Whether items give the state InService.
fn give_service(items: &[Item]) -> bool {
    items.iter().any(|item| match item.value {
        Some(Value::Plain(value)) => keyword(value, b"InService", b"IV"),
        _ => give_service(&item.items),
    })
}

/// A Move that puts into service is judged after its items.
fn judges_after_items(
    lines: u32,
    message: &[u8],
    table: &mut [u32],
    room: &mut Lent,
    blocks: &mut [u32],
    own: &[u8],
    reply: &mut [u8],
) -> u64 {
    let read = read(message).unwrap_or_default();
    let actions = read.transactions().flat_map(|one| &one.actions);
    let commands = actions.flat_map(|action| &action.commands);
    let moves =
        commands.filter(|one| keyword(one.word, b"Move", b"MV") && give_service(&one.items));
    for command in moves {
        let fitted = Lines::fitted(lines).unwrap_or(Lines::EIGHT);
        let Name::Termination(number) = Name::of(fitted, command.termination) else {
            continue;
        };
        // It is moved as one in Test, and the items put that into service.
        let (mut words, mut bytes) = (table.to_vec(), reply.to_vec());
        let Some(held) = states(&mut words).and_then(|states| states.get_mut(number)) else {
            continue;
        };
        if *held / 8 == 1 {
            *held += 8;
            let mut kept = Room::of(room);
            let word = reference_word(
                lines,
                message,
                &mut words,
                &mut kept.lent(),
                &mut blocks.to_vec(),
                own,
                &mut bytes,
            );
            if words[number] != table[number] && states(&mut words).unwrap()[number] < 8 {
                table.copy_from_slice(&words);
                reply.copy_from_slice(&bytes);
                kept.put(room);
                return word;
            }
        }
    }
    reference_word(lines, message, table, room, blocks, own, reply)
}

/// Test does not move either.
fn test_503(
    lines: u32,
    message: &[u8],
    table: &mut [u32],
    room: &mut Lent,
    blocks: &mut [u32],
    own: &[u8],
    reply: &mut [u8],
) -> u64 {
    let capital = message.to_ascii_uppercase();
    let mut before = table.to_vec();
    let Some(old) = states(&mut before) else {
        return reference_word(lines, message, table, room, blocks, own, reply);
    };
    if has(&capital, b"OS") || has(&capital, b"OUTOFSERVICE") {
        return reference_word(lines, message, table, room, blocks, own, reply);
    }
    // Those in Test are out of service during the call, which puts no other there.
    let in_test = |old: u32| u32::from(old / 8 == 2);
    for (word, &old) in states(table).unwrap().iter_mut().zip(&*old) {
        *word -= 8 * in_test(old);
    }
    let result = reference_word(lines, message, table, room, blocks, own, reply);
    for (word, &old) in states(table).unwrap().iter_mut().zip(&*old) {
        *word += 8 * in_test(old) * u32::from(*word / 8 == 1);
    }
    result
}

/// 503 comes before 433.
fn judges_before_433(
    lines: u32,
    message: &[u8],
    table: &mut [u32],
    room: &mut Lent,
    blocks: &mut [u32],
    own: &[u8],
    reply: &mut [u8],
) -> u64 {
    let mut before = table.to_vec();
    let word = reference_word(lines, message, table, room, blocks, own, reply);
    for start in 0..length(word) {
        let text = &mut reply[start..length(word)];
        let Some(end) = text.iter().position(|&byte| byte == b'{') else {
            break;
        };
        let (name, code) = text.split_at_mut(end);
        if name.starts_with(b"MV=") && code.starts_with(b"{ER=433") {
            let fitted = Lines::fitted(lines).expect("the call is taken");
            // The code may be of a later report.
            let Name::Termination(number) = Name::of(fitted, &name[3..]) else {
                continue;
            };
            if states(&mut before).unwrap()[number] / 8 == 1 {
                code[4..7].copy_from_slice(b"503");
            }
        }
    }
    word
}

/// The words of a table's map; none where it is of no count.
fn map(table: &mut [u32]) -> &mut [u32] {
    match tables::lines_of(table.len()) {
        Some(lines) => &mut table[lines.map()..lines.flows()],
        None => &mut [],
    }
}

/// The words of a table's flows, two a context.
fn flows(table: &mut [u32]) -> &mut [u32] {
    match tables::lines_of(table.len()) {
        Some(lines) => &mut table[lines.flows()..lines.speech()],
        None => &mut [],
    }
}

fn members(stands_in: &[u32], context: usize) -> Vec<usize> {
    let all = stands_in.iter().enumerate();
    all.filter(|(_, &word)| word as usize == context)
        .map(|(termination, _)| termination)
        .collect()
}

/// The bits of a square of which the test holds.
fn bits(test: impl Fn(usize, usize) -> bool) -> u64 {
    let all = (0..64).filter(|place| test(place / 8, place % 8));
    all.fold(0, |bits, place| bits | 1 << place)
}

/// A callee that leaves another square of a context: by its members before and
/// after the call, and its squares. Where a context's members stay, or where
/// there is a topology, the square stays.
fn leaves_square(
    (lines, message, table, room, blocks, own, reply): (
        u32,
        &[u8],
        &mut [u32],
        &mut Lent,
        &mut [u32],
        &[u8],
        &mut [u8],
    ),
    other: impl Fn(&[usize], &[usize], u64, u64) -> u64,
) -> u64 {
    let mut before = table.to_vec();
    let word = reference_word(lines, message, table, room, blocks, own, reply);
    let read = read(message).unwrap_or_default();
    let mut properties = read
        .transactions()
        .flat_map(|one| &one.actions)
        .flat_map(|action| &action.properties);
    if word >> 32 != 0 || properties.any(|one| matches!(one, Property::Topology(_))) {
        return word;
    }
    let terminations = Lines::fitted(lines).expect("taken").terminations();
    for context in 1..=CONTEXTS {
        let [old, new] = [&before[..], table].map(|words| members(&words[..terminations], context));
        let at = 2 * (context - 1);
        let [held, left] = [&mut before[..], table].map(|words| {
            let halves = &flows(words)[at..at + 2];
            u64::from(halves[0]) | u64::from(halves[1]) << 32
        });
        if old != new {
            let left = other(&old, &new, held, left);
            flows(table)[at] = left as u32;
            flows(table)[at + 1] = (left >> 32) as u32;
        }
    }
    word
}

/// The first action of a message, where its context has a number and a triple
/// of it is refused: the number, the action and where the code stands in the
/// reply. What stands before it in the message has not run.
fn refused_triple<'m>(message: &'m [u8], reply: &[u8]) -> Option<(u32, Action<'m>, usize)> {
    let Part::Transaction(transaction) = read(message).ok()?.parts.into_iter().next()? else {
        return None;
    };
    let action = transaction.actions.into_iter().next()?;
    let ContextId::Number(number) = action.context else {
        return None;
    };
    let mut braces = (0..reply.len()).filter(|&place| reply[place] == b'{');
    let code = braces.nth(1)? + 1;
    // As errors of the action these come of triples alone.
    let codes: [&[u8]; 3] = [b"ER=410", b"ER=430", b"ER=435"];
    let refused = codes.iter().any(|one| reply[code..].starts_with(one));
    refused.then_some((number, action, code + 3))
}

fn triples<'a, 'm>(properties: &'a [Property<'m>]) -> Vec<&'a Triple<'m>> {
    let all = properties.iter().map(|property| match property {
        Property::Topology(triples) => &triples[..],
        _ => &[],
    });
    all.flatten().collect()
}

/// The text of properties.
fn text(properties: &[Property]) -> Vec<u8> {
    let texts = properties.iter().map(|property| match property {
        Property::Priority(priority) => format!("PR={priority}").into_bytes(),
        Property::Emergency => b"EG".to_vec(),
        Property::Topology(triples) => {
            let texts = triples.iter().map(|triple| {
                let direction: &[u8] = match triple.direction {
                    Direction::Isolate => b"IS",
                    Direction::Oneway => b"OW",
                    Direction::Bothway => b"BW",
                };
                [triple.names[0], triple.names[1], direction].join(&b',')
            });
            let texts: Vec<_> = texts.collect();
            [b"TP{", &texts.join(&b',')[..], b"}"].concat()
        }
    });
    let texts: Vec<_> = texts.collect();
    texts.join(&b',')
}

/// Sets properties on a table, if they can be set.
fn set(lines: u32, table: &mut [u32], id: u32, number: u32, properties: &[Property]) -> bool {
    let head = format!("!/1 [1.1.1.1] T={id}{{C={number}{{");
    let message = [head.as_bytes(), &text(properties), b"}}"].concat();
    let mut words = table.to_vec();
    let mut reply = [0; reference::REPLY_BYTES];
    let word = reference_word(
        lines,
        &message,
        &mut words,
        &mut Room::empty().lent(),
        &mut [0; 256],
        b"[10.0.0.9]",
        &mut reply,
    );
    let set = word >> 32 == 0 && !has(&reply[..length(word)], b"ER=");
    if set {
        table.copy_from_slice(&words);
    }
    set
}

/// 435 comes before 430 in a triple.
fn judges_435_first(
    lines: u32,
    message: &[u8],
    table: &mut [u32],
    room: &mut Lent,
    blocks: &mut [u32],
    own: &[u8],
    reply: &mut [u8],
) -> u64 {
    let before = table.to_vec();
    let word = reference_word(lines, message, table, room, blocks, own, reply);
    let refused = refused_triple(message, &reply[..length(word)]);
    let (Some((context, action, code)), Some(fitted)) = (refused, Lines::fitted(lines)) else {
        return word;
    };
    // The context of each name, where it exists.
    let contexts = |triple: &Triple| {
        triple.names.map(|name| match Name::of(fitted, name) {
            Name::Termination(number) if number < fitted.line_terminations() => {
                Some(before[number])
            }
            Name::Termination(number) => Some(before[number]).filter(|&context| context != 0),
            _ => None,
        })
    };
    let mut faulty = triples(&action.properties).into_iter().map(contexts);
    let faulty = faulty.find(|&names| names != [Some(context); 2]);
    let both = faulty.is_some_and(|names| {
        names.contains(&None) && names.iter().flatten().any(|&other| other != context)
    });
    if both && reply[code..].starts_with(b"430") {
        reply[code..code + 3].copy_from_slice(b"435");
    }
    word
}

/// The triples before a faulty one are set.
fn sets_half(
    lines: u32,
    message: &[u8],
    table: &mut [u32],
    room: &mut Lent,
    blocks: &mut [u32],
    own: &[u8],
    reply: &mut [u8],
) -> u64 {
    let mut words = table.to_vec();
    let mut kept = Room::of(room);
    let word = reference_word(
        lines,
        message,
        &mut words,
        &mut kept.lent(),
        blocks,
        own,
        reply,
    );
    if let Some((number, action, _)) = refused_triple(message, &reply[..length(word)]) {
        let all: Vec<Triple> = triples(&action.properties).into_iter().copied().collect();
        let mut parts = (1..all.len()).rev().map(|end| all[..end].to_vec());
        parts.any(|part| set(lines, table, 1, number, &[Property::Topology(part)]));
    }
    reference_word(lines, message, table, room, blocks, own, reply)
}

/// Priority and emergency are set though a triple is faulty.
fn sets_priority(
    lines: u32,
    message: &[u8],
    table: &mut [u32],
    room: &mut Lent,
    blocks: &mut [u32],
    own: &[u8],
    reply: &mut [u8],
) -> u64 {
    let mut words = table.to_vec();
    let mut kept = Room::of(room);
    let word = reference_word(
        lines,
        message,
        &mut words,
        &mut kept.lent(),
        blocks,
        own,
        reply,
    );
    if let Some((number, mut action, _)) = refused_triple(message, &reply[..length(word)]) {
        let properties = &mut action.properties;
        properties.retain(|one| !matches!(one, Property::Topology(_)));
        set(lines, table, 1, number, properties);
    }
    reference_word(lines, message, table, room, blocks, own, reply)
}

/// A callee that takes the triples of an action of properties alone, which is
/// all of its message, as others.
fn takes_triples(
    (lines, message, table, room, blocks, own, reply): (
        u32,
        &[u8],
        &mut [u32],
        &mut Lent,
        &mut [u32],
        &[u8],
        &mut [u8],
    ),
    others: impl Fn(&mut Vec<Property>),
) -> u64 {
    let mut words = table.to_vec();
    let word = reference_word(lines, message, table, room, blocks, own, reply);
    let read = read(message).unwrap_or_default();
    if let [Part::Transaction(transaction)] = &read.parts[..] {
        if let [action] = &transaction.actions[..] {
            let ContextId::Number(number) = action.context else {
                return word;
            };
            let mut properties = action.properties.clone();
            others(&mut properties);
            if word >> 32 == 0
                && action.commands.is_empty()
                && set(lines, &mut words, transaction.id, number, &properties)
                && !has(&reply[..length(word)], b"ER=")
            {
                table.copy_from_slice(&words);
            }
        }
    }
    word
}

/// Of several topologies the last counts, as of several priorities.
fn takes_the_last(
    lines: u32,
    message: &[u8],
    table: &mut [u32],
    room: &mut Lent,
    blocks: &mut [u32],
    own: &[u8],
    reply: &mut [u8],
) -> u64 {
    takes_triples(
        (lines, message, table, room, blocks, own, reply),
        |properties| {
            let topology = |one: &Property| matches!(one, Property::Topology(_));
            while properties.iter().filter(|one| topology(one)).count() > 1 {
                properties.remove(properties.iter().position(topology).expect("two"));
            }
        },
    )
}

/// The first triple on a pair counts, not the last.
fn takes_them_backward(
    lines: u32,
    message: &[u8],
    table: &mut [u32],
    room: &mut Lent,
    blocks: &mut [u32],
    own: &[u8],
    reply: &mut [u8],
) -> u64 {
    takes_triples(
        (lines, message, table, room, blocks, own, reply),
        |properties| {
            properties.reverse();
            for property in properties {
                if let Property::Topology(triples) = property {
                    triples.reverse();
                }
            }
        },
    )
}

/// The square with its rows for columns.
fn transpose(table: &mut [u32]) {
    for halves in flows(table).chunks_exact_mut(2) {
        let held = u64::from(halves[0]) | u64::from(halves[1]) << 32;
        let other = bits(|from, to| held >> (8 * to + from) & 1 == 1);
        (halves[0], halves[1]) = (other as u32, (other >> 32) as u32);
    }
}

/// The words of a table's speech, eight an ephemeral.
fn speech(table: &mut [u32]) -> &mut [u32] {
    match tables::lines_of(table.len()) {
        Some(lines) => &mut table[lines.speech()..],
        None => &mut [],
    }
}

/// A callee that takes each text as another, which is no longer.
fn takes_texts(
    (lines, message, table, room, blocks, own, reply): (
        u32,
        &[u8],
        &mut [u32],
        &mut Lent,
        &mut [u32],
        &[u8],
        &mut [u8],
    ),
    other: impl Fn(&[u8]) -> Vec<u8>,
) -> u64 {
    let mut taken = Vec::new();
    let mut rest = message;
    if message.len() <= MESSAGE_BYTES {
        for text in texts(message) {
            let before = text.as_ptr() as usize - rest.as_ptr() as usize;
            taken.extend_from_slice(&rest[..before]);
            taken.extend(other(text));
            rest = &rest[before + text.len()..];
        }
    }
    taken.extend_from_slice(rest);
    reference_word(lines, &taken, table, room, blocks, own, reply)
}

/// A callee that takes each line of each text as another, all in the order that
/// they are given.
fn takes_lines(
    call: (
        u32,
        &[u8],
        &mut [u32],
        &mut Lent,
        &mut [u32],
        &[u8],
        &mut [u8],
    ),
    other: impl Fn(&mut Vec<&[u8]>),
) -> u64 {
    takes_texts(call, |text| {
        let mut lines = text.split(|byte| b"\r\n".contains(byte)).collect();
        other(&mut lines);
        lines.join(&b'\n')
    })
}

/// The bytes with one part for another of the same length, wherever it stands.
fn replaced(bytes: &[u8], part: &[u8], other: &[u8]) -> Vec<u8> {
    let mut bytes = bytes.to_vec();
    for start in 0..bytes.len() {
        if bytes[start..].starts_with(part) {
            bytes[start..start + part.len()].copy_from_slice(other);
        }
    }
    bytes
}

/// Local and Remote have a text in any place, not in a level 1 Media alone.
fn text_in_any_place(
    lines: u32,
    message: &[u8],
    table: &mut [u32],
    room: &mut Lent,
    blocks: &mut [u32],
    own: &[u8],
    reply: &mut [u8],
) -> u64 {
    let any_place = |start: usize| {
        let [b'{' | b',', b'L' | b'l' | b'R' | b'r', b'{', rest @ ..] = &message[start..] else {
            return None;
        };
        // A text without fault, in the place of which an item reads.
        let end = (0..rest.len()).find(|&at| rest[at] == b'}' && !rest[..at].ends_with(b"\\"))?;
        let taken = [&message[..start + 3], b"a", &rest[end..]].concat();
        let fits =
            taken.len() <= MESSAGE_BYTES && !rest[..end].iter().any(|byte| b"\0;".contains(byte));
        (fits && read(&taken).is_ok()).then_some(taken)
    };
    let taken = match read(message) {
        Err(_) if message.len() <= MESSAGE_BYTES => (0..message.len()).find_map(any_place),
        _ => None,
    };
    let taken = taken.unwrap_or_else(|| message.to_vec());
    reference_word(lines, &taken, table, room, blocks, own, reply)
}

fn speaks(command: &Command) -> bool {
    let mut in_media = command.items.iter().flat_map(|item| &item.items);
    in_media.any(|item| item.text.is_some())
}

/// 447 on a line comes before 433, 435 and 503.
fn judges_447_first(
    lines: u32,
    message: &[u8],
    table: &mut [u32],
    room: &mut Lent,
    blocks: &mut [u32],
    own: &[u8],
    reply: &mut [u8],
) -> u64 {
    let word = reference_word(lines, message, table, room, blocks, own, reply);
    let read = read(message).unwrap_or_default();
    let actions = read.transactions().flat_map(|one| &one.actions);
    let commands: Vec<&Command> = actions.flat_map(|action| &action.commands).collect();
    for end in 0..length(word) {
        let (name, code) = reply[..length(word)].split_at_mut(end);
        let place_tests: [&[u8]; 3] = [b"{ER=433", b"{ER=435", b"{ER=503"];
        if !place_tests.iter().any(|one| code.starts_with(one)) {
            continue;
        }
        let start = name
            .iter()
            .rposition(|&byte| byte == b'=')
            .map_or(0, |at| at + 1);
        let name = &name[start..];
        // Each command of that name has a text, so this one has.
        let mut of_name = commands
            .iter()
            .filter(|one| one.termination == name)
            .peekable();
        let fitted = Lines::fitted(lines).expect("the call is taken");
        let on_line = match Name::of(fitted, name) {
            Name::Termination(number) => number < fitted.line_terminations(),
            _ => false,
        };
        if on_line && of_name.peek().is_some() && of_name.all(|one| speaks(one)) {
            code[4..7].copy_from_slice(b"447");
        }
    }
    word
}

type Arguments<'a, 'r> = (
    u32,
    &'a [u8],
    &'a mut [u32],
    &'a mut Lent<'r>,
    &'a mut [u32],
    &'a [u8],
    &'a mut [u8],
);

/// What a call would leave: its result, the table, the room, the blocks, the buffer.
struct Tried {
    word: u64,
    table: Vec<u32>,
    room: Room,
    blocks: Vec<u32>,
    reply: Vec<u8>,
}

impl Tried {
    /// Has the reference answer in copies, with this room.
    fn new(call: &Arguments, mut room: Room) -> Self {
        let (lines, message, table, _, blocks, own, reply) = call;
        let (mut table, mut blocks, mut reply) = (table.to_vec(), blocks.to_vec(), reply.to_vec());
        let word = reference_word(
            *lines,
            message,
            &mut table,
            &mut room.lent(),
            &mut blocks,
            own,
            &mut reply,
        );
        Tried {
            word,
            table,
            room,
            blocks,
            reply,
        }
    }

    fn is_taken(&self) -> bool {
        self.word >> 32 == 0
    }

    /// Leaves it so.
    fn put(self, (_, _, table, room, blocks, _, reply): Arguments) -> u64 {
        table.copy_from_slice(&self.table);
        self.room.put(room);
        blocks.copy_from_slice(&self.blocks);
        reply.copy_from_slice(&self.reply);
        self.word
    }
}

/// The sender and the identifier of a message that is one request.
fn alone(message: &[u8]) -> Option<(Vec<u8>, u32)> {
    let read = read(message).ok()?;
    match &read.parts[..] {
        [Part::Transaction(transaction)] => Some((read.sender.to_vec(), transaction.id)),
        _ => None,
    }
}

/// The sender and the ranges of a message of acknowledgements alone.
fn acknowledged(message: &[u8]) -> Option<(Vec<u8>, Vec<RangeInclusive<u32>>)> {
    let read = read(message).ok()?;
    let ranges = read.parts.iter().map(|part| match part {
        Part::Acknowledgement(ranges) => Some(ranges.clone()),
        Part::Transaction(_) => None,
    });
    let ranges: Option<Vec<_>> = ranges.collect();
    Some((read.sender.to_vec(), ranges?.concat()))
}

/// The slot in which a pair is kept.
fn slot_of(room: &Room, sender: &[u8], id: u32) -> Option<usize> {
    let kept = room.kept();
    let place = kept
        .iter()
        .position(|(of, one, _)| of == sender && *one == id);
    place.map(|place| room.held()[place])
}

fn is_sound(room: &Room) -> bool {
    reference::room::Room::sound(&mut room.clone().lent()).is_some()
}

/// Changes a room as the reference does.
fn change(room: &mut Room, change: impl Fn(&mut reference::room::Room)) {
    if let Some(mut sound) = reference::room::Room::sound(&mut room.lent()) {
        change(&mut sound);
    }
}

/// A callee that looks a request up by another rule, of the sender that is kept and
/// the one that sends.
fn finds_kept(call: Arguments, fits: impl Fn(&[u8], &[u8]) -> bool) -> u64 {
    let before = Room::of(call.3);
    let tried = Tried::new(&call, before.clone());
    let found = alone(call.1).and_then(|(sender, id)| {
        let mut kept = before.kept().into_iter();
        kept.find(|(of, one, _)| *one == id && fits(of, &sender))
    });
    match found {
        Some((_, _, text)) if tried.is_taken() => {
            let text = [b"!/1 ", call.5, b" ", &text[..]].concat();
            call.6[..text.len()].copy_from_slice(&text);
            text.len() as u64
        }
        _ => tried.put(call),
    }
}

/// A callee that leaves another room after one request that was taken: by its
/// sender and identifier, its `P=id{..}` and the room before.
fn keeps(call: Arguments, other: impl Fn(&[u8], u32, &[u8], &Room, &mut Room)) -> u64 {
    let before = Room::of(call.3);
    let mut tried = Tried::new(&call, before.clone());
    if let (true, Some((sender, id))) = (tried.is_taken(), alone(call.1)) {
        let text = &tried.reply[5 + call.5.len()..length(tried.word)];
        other(&sender, id, text, &before, &mut tried.room);
    }
    tried.put(call)
}

/// A callee that leaves another room after acknowledgements alone: by their sender
/// and ranges and the room before.
fn drops(call: Arguments, other: impl Fn(&[u8], &[RangeInclusive<u32>], &Room, &mut Room)) -> u64 {
    let before = Room::of(call.3);
    let mut tried = Tried::new(&call, before.clone());
    if let (true, Some((sender, ranges))) = (tried.is_taken(), acknowledged(call.1)) {
        other(&sender, &ranges, &before, &mut tried.room);
    }
    tried.put(call)
}

/// A callee that takes a room as another one.
fn takes_room(call: Arguments, other: impl Fn(&mut Room)) -> u64 {
    let mut room = Room::of(call.3);
    if room.words.len() != ROOM_WORDS || room.bytes.len() != ROOM_BYTES {
        return Tried::new(&call, room).put(call);
    }
    let before = room.clone();
    other(&mut room);
    match Tried::new(&call, room) {
        tried if tried.is_taken() => tried.put(call),
        tried => {
            before.put(call.3);
            tried.word
        }
    }
}

/// A backward range of an acknowledgement is taken the other way round.
fn takes_backward_ranges(call: Arguments) -> u64 {
    let message = call.1;
    if read(message).is_ok() || message.len() > MESSAGE_BYTES {
        return Tried::new(&call, Room::of(call.3)).put(call);
    }
    let mut taken = message.to_vec();
    for at in (0..message.len()).filter(|&at| message[at] == b'-') {
        let digit = |byte: &&u8| byte.is_ascii_digit();
        let before = message[..at].iter().rev().take_while(digit).count();
        let behind = message[at + 1..].iter().take_while(digit).count();
        let (start, end) = (at - before, at + 1 + behind);
        let number = |digits: &[u8]| std::str::from_utf8(digits).unwrap().parse::<u32>().ok();
        let [one, other] = [&message[start..at], &message[at + 1..end]];
        if let (Some(first), Some(last)) = (number(one), number(other)) {
            if first > last {
                taken[start..end].copy_from_slice(&[other, b"-", one].concat());
            }
        }
    }
    let (lines, _, table, room, blocks, own, reply) = call;
    reference_word(lines, &taken, table, room, blocks, own, reply)
}

/// Acknowledgements are not counted among the eight.
fn takes_nine_parts(call: Arguments) -> u64 {
    let message = call.1;
    let ninth = |start: usize| {
        let rest = &message[start..];
        let end = start + 1 + rest.iter().position(|&byte| byte == b'}')?;
        let part = [b"!/1 a ", &message[start..end]].concat();
        acknowledged(&part)?;
        let taken = [&message[..start], &message[end..]].concat();
        let fits = read(&taken).is_ok_and(|read| read.parts.len() == 8);
        fits.then_some(taken)
    };
    let starts = (0..message.len()).filter(|&at| b"Kk".contains(&message[at]));
    let taken = match read(message) {
        Err(_) if message.len() <= MESSAGE_BYTES => starts.into_iter().find_map(ninth),
        _ => None,
    };
    let taken = taken.unwrap_or_else(|| message.to_vec());
    let (lines, _, table, room, blocks, own, reply) = call;
    reference_word(lines, &taken, table, room, blocks, own, reply)
}

/// A 403 is kept, of a message whose head is plain.
fn keeps_403(call: Arguments) -> u64 {
    let mut tried = Tried::new(&call, Room::of(call.3));
    let text = tried.reply[..length(tried.word)].to_vec();
    let inside = text.get(5 + call.5.len()..).unwrap_or_default();
    let sender = call.1.strip_prefix(b"!/1 ").and_then(|rest| {
        let end = rest.iter().position(|&byte| byte == b' ')?;
        Some(&rest[..end])
    });
    let id = inside.strip_prefix(b"P=").and_then(|rest| {
        let digits = rest.strip_suffix(b"{ER=403{}}")?;
        std::str::from_utf8(digits).ok()?.parse::<u32>().ok()
    });
    if let (true, Some(sender), Some(id)) = (tried.is_taken(), sender, id) {
        change(&mut tried.room, |room| {
            if sender.len() <= 72 && room.kept(sender, id).is_none() {
                room.keep(sender, id, inside);
            }
        });
    }
    tried.put(call)
}

/// An acknowledgement behind a request counts before it.
fn acknowledges_first(call: Arguments) -> u64 {
    let mut tried = Tried::new(&call, Room::of(call.3));
    let read = read(call.1).unwrap_or_default();
    if let (true, [Part::Transaction(one), Part::Acknowledgement(ranges)]) =
        (tried.is_taken(), &read.parts[..])
    {
        let text = tried.reply[5 + call.5.len()..length(tried.word)].to_vec();
        if ranges.iter().any(|ids| ids.contains(&one.id)) {
            change(&mut tried.room, |room| {
                room.keep(read.sender, one.id, &text)
            });
        }
    }
    tried.put(call)
}

/// A room's slots as they are, each once.
fn each_once(slots: &[u32]) -> Vec<usize> {
    let mut held: Vec<usize> = Vec::new();
    for &slot in slots {
        if slot != 0 && !held.contains(&(slot as usize)) {
            held.push(slot as usize);
        }
    }
    held
}

const DEFECTS: [(&str, Call); 78] = [
    (
        "the sender is no part of the key",
        |lines, message, table, room, blocks, own, reply| {
            let call = (lines, message, table, room, blocks, own, reply);
            finds_kept(call, |_, _| true)
        },
    ),
    (
        "the letter case of a sender does not count",
        |lines, message, table, room, blocks, own, reply| {
            let call = (lines, message, table, room, blocks, own, reply);
            finds_kept(call, <[u8]>::eq_ignore_ascii_case)
        },
    ),
    (
        "a sender is found by the start of its mId",
        |lines, message, table, room, blocks, own, reply| {
            let call = (lines, message, table, room, blocks, own, reply);
            finds_kept(call, |kept, sends| {
                kept.starts_with(sends) || sends.starts_with(kept)
            })
        },
    ),
    (
        "a repeat runs",
        |lines, message, table, room, blocks, own, reply| {
            let call = (lines, message, table, room, blocks, own, reply);
            let mut other = Room::of(call.3);
            let kept = alone(message).and_then(|(sender, id)| slot_of(&other, &sender, id));
            if let (true, Some(slot)) = (is_sound(&other), kept) {
                let mut held = other.held();
                held.retain(|&one| one != slot);
                other.set_held(&held);
            }
            Tried::new(&call, other).put(call)
        },
    ),
    (
        "a 403 is kept",
        |lines, message, table, room, blocks, own, reply| {
            keeps_403((lines, message, table, room, blocks, own, reply))
        },
    ),
    (
        "a 533 is not kept",
        |lines, message, table, room, blocks, own, reply| {
            let call = (lines, message, table, room, blocks, own, reply);
            keeps(call, |_, _, text, before, room| {
                if text.ends_with(b"{ER=533{}}") {
                    *room = before.clone();
                }
            })
        },
    ),
    (
        "the youngest goes",
        |lines, message, table, room, blocks, own, reply| {
            let call = (lines, message, table, room, blocks, own, reply);
            keeps(call, |sender, id, text, before, room| {
                if before.held().len() == SLOTS && slot_of(before, sender, id).is_none() {
                    *room = before.clone();
                    room.words[..SLOTS].reverse();
                    change(room, |room| room.keep(sender, id, text));
                    room.words[..SLOTS - 1].reverse();
                }
            })
        },
    ),
    (
        "the oldest goes with 15 held",
        |lines, message, table, room, blocks, own, reply| {
            let call = (lines, message, table, room, blocks, own, reply);
            keeps(call, |_, _, _, before, room| {
                if before.held().len() == SLOTS - 1 && room.held().len() == SLOTS {
                    let held = room.held();
                    room.set_held(&held[1..]);
                }
            })
        },
    ),
    (
        "a repeat makes its reply the youngest",
        |lines, message, table, room, blocks, own, reply| {
            let call = (lines, message, table, room, blocks, own, reply);
            keeps(call, |sender, id, _, before, room| {
                if let Some(slot) = slot_of(before, sender, id) {
                    let mut held = room.held();
                    held.retain(|&one| one != slot);
                    held.push(slot);
                    room.set_held(&held);
                }
            })
        },
    ),
    (
        "a reply is kept in the highest free slot",
        |lines, message, table, room, blocks, own, reply| {
            let call = (lines, message, table, room, blocks, own, reply);
            keeps(call, |sender, id, text, before, room| {
                let mut held = before.held();
                let free = (1..=SLOTS).rev().find(|slot| !held.contains(slot));
                if let (None, Some(slot)) = (slot_of(before, sender, id), free) {
                    *room = before.clone();
                    room.set(slot, sender, id, text);
                    held.push(slot);
                    room.set_held(&held);
                }
            })
        },
    ),
    (
        "the bytes past a kept reply are cleared",
        |lines, message, table, room, blocks, own, reply| {
            let call = (lines, message, table, room, blocks, own, reply);
            keeps(call, |sender, id, text, before, room| {
                if slot_of(before, sender, id).is_none() {
                    let slot = slot_of(room, sender, id).expect("it was kept");
                    room.bytes[2_120 * (slot - 1) + 72 + text.len()..2_120 * slot].fill(0);
                }
            })
        },
    ),
    (
        "every sender's replies are dropped",
        |lines, message, table, room, blocks, own, reply| {
            let call = (lines, message, table, room, blocks, own, reply);
            drops(call, |_, ranges, before, room| {
                for (sender, ..) in before.kept() {
                    for ids in ranges {
                        change(room, |room| room.drop_acknowledged(&sender, ids));
                    }
                }
            })
        },
    ),
    (
        "of a range the two ends are dropped",
        |lines, message, table, room, blocks, own, reply| {
            let call = (lines, message, table, room, blocks, own, reply);
            drops(call, |sender, ranges, before, room| {
                *room = before.clone();
                for id in ranges.iter().flat_map(|ids| [*ids.start(), *ids.end()]) {
                    change(room, |room| room.drop_acknowledged(sender, &(id..=id)));
                }
            })
        },
    ),
    (
        "the words of a dropped reply are cleared",
        |lines, message, table, room, blocks, own, reply| {
            let call = (lines, message, table, room, blocks, own, reply);
            drops(call, |_, _, before, room| {
                let held = room.held();
                for slot in before
                    .held()
                    .into_iter()
                    .filter(|slot| !held.contains(slot))
                {
                    for part in [15, 31, 47] {
                        room.words[part + slot] = 0;
                    }
                }
            })
        },
    ),
    (
        "an acknowledgement counts before the request that it follows",
        |lines, message, table, room, blocks, own, reply| {
            acknowledges_first((lines, message, table, room, blocks, own, reply))
        },
    ),
    (
        "a backward range is taken",
        |lines, message, table, room, blocks, own, reply| {
            takes_backward_ranges((lines, message, table, room, blocks, own, reply))
        },
    ),
    (
        "an acknowledgement is not one of the eight",
        |lines, message, table, room, blocks, own, reply| {
            takes_nine_parts((lines, message, table, room, blocks, own, reply))
        },
    ),
    (
        "acknowledgements alone are answered with the header",
        |lines, message, table, room, blocks, own, reply| {
            let word = reference_word(lines, message, table, room, blocks, own, reply);
            if word == 0 {
                let header = [b"!/1 ", own, b" "].concat();
                reply[..header.len()].copy_from_slice(&header);
                return header.len() as u64;
            }
            word
        },
    ),
    (
        "acknowledgements alone write the header",
        |lines, message, table, room, blocks, own, reply| {
            let word = reference_word(lines, message, table, room, blocks, own, reply);
            if word == 0 {
                reply[..4].copy_from_slice(b"!/1 ");
            }
            word
        },
    ),
    (
        "5 before 2",
        |lines, message, table, room, blocks, own, reply| {
            let word = reference_word(lines, message, table, room, blocks, own, reply);
            match word >> 32 {
                2 if !is_sound(&Room::of(room)) => 5 << 32,
                _ => word,
            }
        },
    ),
    (
        "4 before 5",
        |lines, message, table, room, blocks, own, reply| {
            let word = reference_word(lines, message, table, room, blocks, own, reply);
            match word >> 32 {
                5 if own.len() > 64 || !is_mid(own) => 4 << 32,
                _ => word,
            }
        },
    ),
    (
        "65 words are taken",
        |lines, message, table, room, blocks, own, reply| {
            let most = room.words.len().min(if room.words.len() == 65 {
                64
            } else {
                usize::MAX
            });
            let (words, bytes) = (&mut room.words[..most], &mut *room.bytes);
            let room = &mut Lent { words, bytes };
            reference_word(lines, message, table, room, blocks, own, reply)
        },
    ),
    (
        "a pair kept twice is taken",
        |lines, message, table, room, blocks, own, reply| {
            let call = (lines, message, table, room, blocks, own, reply);
            takes_room(call, |room| {
                let (kept, mut held) = (room.kept(), room.held());
                if held.len()
                    == room.words[..SLOTS]
                        .iter()
                        .filter(|&&slot| slot != 0)
                        .count()
                {
                    let pair = |place: usize| (&kept[place].0, kept[place].1);
                    let again =
                        (1..held.len()).find(|&one| (0..one).any(|two| pair(one) == pair(two)));
                    again.map(|place| held.remove(place));
                    room.set_held(&held);
                }
            })
        },
    ),
    (
        "a kept reply of 2,049 bytes is taken",
        |lines, message, table, room, blocks, own, reply| {
            let call = (lines, message, table, room, blocks, own, reply);
            takes_room(call, |room| {
                for slot in room.held() {
                    room.words[47 + slot] -= u32::from(room.words[47 + slot] == 2_049);
                }
            })
        },
    ),
    (
        "a kept mId of 73 bytes is taken",
        |lines, message, table, room, blocks, own, reply| {
            let call = (lines, message, table, room, blocks, own, reply);
            takes_room(call, |room| {
                for slot in room.held() {
                    room.words[31 + slot] -= u32::from(room.words[31 + slot] == 73);
                }
            })
        },
    ),
    (
        "a slot twice or a gap among the ages is taken",
        |lines, message, table, room, blocks, own, reply| {
            let call = (lines, message, table, room, blocks, own, reply);
            takes_room(call, |room| {
                let held = each_once(&room.words[..SLOTS]);
                room.set_held(&held);
            })
        },
    ),
    (
        "what a free slot has is judged",
        |lines, message, table, room, blocks, own, reply| {
            let before = Room::of(room);
            let call = (lines, message, table, room, blocks, own, reply);
            let tried = Tried::new(&call, before.clone());
            let judged = before.words.get(48..64).unwrap_or_default();
            match tried.word >> 32 {
                0 | 1 | 4 if judged.iter().any(|&length| length > 2_048) => 5 << 32,
                _ => tried.put(call),
            }
        },
    ),
    (
        "a refusal writes the room",
        |lines, message, table, room, blocks, own, reply| {
            let word = reference_word(lines, message, table, room, blocks, own, reply);
            if word >> 32 == 1 {
                room.words[63] ^= 1;
            }
            word
        },
    ),
    (
        "a new ephemeral keeps the figures of the last one",
        |lines, message, table, room, blocks, own, reply| {
            let before = blocks.to_vec();
            let word = reference_word(lines, message, table, room, blocks, own, reply);
            blocks.copy_from_slice(&before);
            word
        },
    ),
    (
        "Subtract resets the figures",
        |lines, message, table, room, blocks, own, reply| {
            let used = table.to_vec();
            let word = reference_word(lines, message, table, room, blocks, own, reply);
            let first = 31 * lines as usize;
            for k in 0..64 {
                if word >> 32 == 0 && used[first + k] != 0 && table[first + k] == 0 {
                    blocks[4 * k..4 * k + 4].fill(0);
                }
            }
            word
        },
    ),
    (
        "a block with J over 2^35 is taken",
        |lines, message, table, room, blocks, own, reply| {
            let mut mended = blocks.to_vec();
            for block in mended.chunks_exact_mut(4) {
                if block[3] >= 8 {
                    (block[2], block[3]) = (0, 8);
                }
            }
            match reference_word(lines, message, table, room, &mut mended, own, reply) {
                word if word >> 32 != 0 => word,
                word => {
                    blocks.copy_from_slice(&mended);
                    word
                }
            }
        },
    ),
    (
        "the jitter told is one less",
        |lines, message, table, room, blocks, own, reply| {
            let mut others = blocks.to_vec();
            for block in others.chunks_exact_mut(4) {
                if block[3] == 0 && block[2] > 15 {
                    block[2] -= 16;
                }
            }
            let lent = others.clone();
            let word = reference_word(lines, message, table, room, &mut others, own, reply);
            // Those that were set stay so, and the others are as they were.
            for (place, block) in blocks.chunks_exact_mut(4).enumerate() {
                let part = 4 * place..4 * place + 4;
                if others[part.clone()] != lent[part.clone()] {
                    block.copy_from_slice(&others[part]);
                }
            }
            word
        },
    ),
    (
        "a text ends at an escaped brace",
        |lines, message, table, room, blocks, own, reply| {
            takes_texts((lines, message, table, room, blocks, own, reply), |text| {
                replaced(text, b"\\}", b"_}")
            })
        },
    ),
    (
        "a backslash is escaped by another",
        |lines, message, table, room, blocks, own, reply| {
            takes_texts((lines, message, table, room, blocks, own, reply), |text| {
                replaced(text, b"\\\\}", b"__}")
            })
        },
    ),
    (
        "byte 0 is taken in a text",
        |lines, message, table, room, blocks, own, reply| {
            // As byte 1, which is a fault in all other places.
            reference_word(
                lines,
                &replaced(message, b"\0", b"\x01"),
                table,
                room,
                blocks,
                own,
                reply,
            )
        },
    ),
    (
        "Local and Remote have a text in any place",
        text_in_any_place,
    ),
    (
        "the order of the lines is not judged",
        |lines, message, table, room, blocks, own, reply| {
            takes_lines((lines, message, table, room, blocks, own, reply), |lines| {
                lines.sort_by_key(|line| match line.first() {
                    Some(b'v') => 0,
                    Some(b'c') => 1,
                    Some(b'm') => 2,
                    _ => 3,
                });
            })
        },
    ),
    (
        "spaces at a line's end are taken",
        |lines, message, table, room, blocks, own, reply| {
            takes_lines((lines, message, table, room, blocks, own, reply), |lines| {
                lines
                    .iter_mut()
                    .for_each(|line| *line = line.trim_ascii_end());
            })
        },
    ),
    (
        "port 65536 is port 0",
        |lines, message, table, room, blocks, own, reply| {
            takes_texts((lines, message, table, room, blocks, own, reply), |text| {
                replaced(text, b"audio 65536", b"audio 00000")
            })
        },
    ),
    (
        "type 128 is type 0",
        |lines, message, table, room, blocks, own, reply| {
            takes_texts((lines, message, table, room, blocks, own, reply), |text| {
                replaced(text, b"RTP/AVP 128", b"RTP/AVP 000")
            })
        },
    ),
    (
        "Local is kept in Remote's place",
        |lines, message, table, room, blocks, own, reply| {
            let exchange = |side: &mut [u32]| side.rotate_left(4);
            speech(table).chunks_exact_mut(8).for_each(exchange);
            let word = reference_word(lines, message, table, room, blocks, own, reply);
            speech(table).chunks_exact_mut(8).for_each(exchange);
            word
        },
    ),
    (
        "the first number of an address is lowest",
        |lines, message, table, room, blocks, own, reply| {
            let backward = |side: &mut [u32]| side[1] = side[1].swap_bytes();
            speech(table).chunks_exact_mut(4).for_each(backward);
            let word = reference_word(lines, message, table, room, blocks, own, reply);
            speech(table).chunks_exact_mut(4).for_each(backward);
            word
        },
    ),
    (
        "one side given, the other is released",
        |lines, message, table, room, blocks, own, reply| {
            let before = speech(table).to_vec();
            let word = reference_word(lines, message, table, room, blocks, own, reply);
            for (new, old) in speech(table)
                .chunks_exact_mut(8)
                .zip(before.chunks_exact(8))
            {
                let (local, remote) = new.split_at_mut(4);
                match (local == &old[..4], remote == &old[4..]) {
                    (false, true) if local[0] == 1 => remote.fill(0),
                    (true, false) if remote[0] == 1 => local.fill(0),
                    _ => {}
                }
            }
            word
        },
    ),
    (
        "a Subtract keeps where speech goes",
        |lines, message, table, room, blocks, own, reply| {
            let before = speech(table).to_vec();
            let word = reference_word(lines, message, table, room, blocks, own, reply);
            let exists = tables::lines_of(table.len()).map(|lines| tables::map(lines, table));
            for (place, &old) in before.iter().enumerate() {
                if exists.is_some_and(|map| map >> (place / 8) & 1 == 0) {
                    speech(table)[place] = old;
                }
            }
            word
        },
    ),
    ("447 before the place test", judges_447_first),
    ("503 is judged after the items", judges_after_items),
    ("503 for Test", test_503),
    ("503 before 433", judges_before_433),
    ("keeps state", keeps_state),
    (
        "one byte of a long reply",
        |lines, message, table, room, blocks, own, reply| {
            let word = reference_word(lines, message, table, room, blocks, own, reply);
            if length(word) > 200 {
                reply[length(word) - 7] ^= 0x20;
            }
            word
        },
    ),
    (
        "the last word is not written",
        |lines, message, table, room, blocks, own, reply| {
            let before = table.to_vec();
            let word = reference_word(lines, message, table, room, blocks, own, reply);
            let changed = (0..before.len()).rev().find(|&at| table[at] != before[at]);
            if let Some(at) = changed {
                table[at] = before[at];
            }
            word
        },
    ),
    (
        "a reply that grew too long was made in the buffer",
        |lines, message, table, room, blocks, own, reply| {
            let word = reference_word(lines, message, table, room, blocks, own, reply);
            if has(&reply[..length(word)], b"ER=533") {
                reply[length(word)] = b'}';
            }
            word
        },
    ),
    (
        "a reply of 2,049 bytes",
        |lines, message, table, room, blocks, own, reply| {
            let word = reference_word(lines, message, table, room, blocks, own, reply);
            match length(word) == 2_048 + 5 + own.len() {
                true => word + 1,
                false => word,
            }
        },
    ),
    (
        "1 before 2, 3 and 4",
        |lines, message, table, room, blocks, own, reply| {
            let word = reference_word(lines, message, table, room, blocks, own, reply);
            match word >> 32 {
                2..=4 if message.is_empty() => 1 << 32,
                _ => word,
            }
        },
    ),
    (
        "4 before 2",
        |lines, message, table, room, blocks, own, reply| {
            let word = reference_word(lines, message, table, room, blocks, own, reply);
            match word >> 32 {
                2 if !reference::text::is_mid(own) => 4 << 32,
                _ => word,
            }
        },
    ),
    (
        "8 after 3",
        |lines, message, table, room, blocks, own, reply| {
            let word = reference_word(lines, message, table, room, blocks, own, reply);
            match word >> 32 {
                8 if reply.len() < reference::REPLY_BYTES => 3 << 32,
                _ => word,
            }
        },
    ),
    (
        "a refusal writes the reply",
        |lines, message, table, room, blocks, own, reply| {
            let word = reference_word(lines, message, table, room, blocks, own, reply);
            if word >> 32 != 0 && !reply.is_empty() {
                reply[0] = b'!';
            }
            word
        },
    ),
    (
        "a refusal writes the table",
        |lines, message, table, room, blocks, own, reply| {
            let word = reference_word(lines, message, table, room, blocks, own, reply);
            if word >> 32 == 1 {
                table[table.len() - 1] ^= 1;
            }
            word
        },
    ),
    (
        "the count of lines is read as a byte",
        |lines, message, table, room, blocks, own, reply| {
            reference_word(lines & 0xFF, message, table, room, blocks, own, reply)
        },
    ),
    (
        "a table of any count's size is taken",
        |lines, message, table, room, blocks, own, reply| {
            let fitted = Lines::fitted(lines).and(tables::lines_of(table.len()));
            let lines = fitted.map_or(lines, Lines::count);
            reference_word(lines, message, table, room, blocks, own, reply)
        },
    ),
    (
        "R/1 is written at 248 on any count",
        |lines, message, table, room, blocks, own, reply| {
            let before = table.to_vec();
            let word = reference_word(lines, message, table, room, blocks, own, reply);
            let first = 31 * lines as usize;
            if word >> 32 == 0 && table[first] != before[first] {
                let context = std::mem::replace(&mut table[first], before[first]);
                table[248] = context;
            }
            word
        },
    ),
    (
        "lines up to 8 on any count",
        |lines, message, table, room, blocks, own, reply| {
            // `L/9/` and `L/10` are read as `L/_/` and `L/_0`, and reported as they were.
            let mut message = message.to_vec();
            each_line(&mut message, |digit, next| match (digit, next) {
                (b'9', b'/') | (b'1', b'0'..=b'6') => b'_',
                _ => digit,
            });
            let word = reference_word(lines, &message, table, room, blocks, own, reply);
            each_line(&mut reply[..length(word)], |digit, next| match digit {
                b'_' if next == b'/' => b'9',
                b'_' => b'1',
                _ => digit,
            });
            word
        },
    ),
    (
        "the map is not judged",
        |lines, message, table, room, blocks, own, reply| {
            let before = table.to_vec();
            if let Some(lines) = tables::lines_of(table.len()) {
                tables::set_map(lines, table);
            }
            let word = reference_word(lines, message, table, room, blocks, own, reply);
            if word >> 32 != 0 {
                table.copy_from_slice(&before);
            }
            word
        },
    ),
    (
        "the map is not written",
        |lines, message, table, room, blocks, own, reply| {
            let before = map(table).to_vec();
            let word = reference_word(lines, message, table, room, blocks, own, reply);
            map(table).copy_from_slice(&before);
            word
        },
    ),
    (
        "the map's high half is not written",
        |lines, message, table, room, blocks, own, reply| {
            let before = map(table).last().copied();
            let word = reference_word(lines, message, table, room, blocks, own, reply);
            if let (Some(last), Some(before)) = (map(table).last_mut(), before) {
                *last = before;
            }
            word
        },
    ),
    (
        "the map's high half comes first",
        |lines, message, table, room, blocks, own, reply| {
            map(table).reverse();
            let word = reference_word(lines, message, table, room, blocks, own, reply);
            map(table).reverse();
            word
        },
    ),
    (
        "a joiner is isolated",
        |lines, message, table, room, blocks, own, reply| {
            leaves_square(
                (lines, message, table, room, blocks, own, reply),
                |old, new, _, square| {
                    let joined =
                        |place: usize| new.get(place).is_some_and(|one| !old.contains(one));
                    square & !bits(|from, to| joined(from) || joined(to))
                },
            )
        },
    ),
    (
        "a joiner has the last place",
        |lines, message, table, room, blocks, own, reply| {
            leaves_square(
                (lines, message, table, room, blocks, own, reply),
                |old, new, held, square| {
                    if !old.iter().all(|one| new.contains(one)) {
                        return square;
                    }
                    let joined = |place: usize| (old.len()..new.len()).contains(&place);
                    let other = |place: usize| place < new.len();
                    held | bits(|from, to| {
                        from != to && (joined(from) && other(to) || other(from) && joined(to))
                    })
                },
            )
        },
    ),
    (
        "a leaver's place is not closed",
        |lines, message, table, room, blocks, own, reply| {
            leaves_square(
                (lines, message, table, room, blocks, own, reply),
                |old, new, held, square| match new.iter().all(|one| old.contains(one)) {
                    true => held & bits(|from, to| from < new.len() && to < new.len()),
                    false => square,
                },
            )
        },
    ),
    ("435 before 430 in a triple", judges_435_first),
    ("the triples before a faulty one are set", sets_half),
    ("the priority before a faulty triple is set", sets_priority),
    ("the last topology alone is set", takes_the_last),
    ("the triples are set from the last on", takes_them_backward),
    (
        "the flows' high half comes first",
        |lines, message, table, room, blocks, own, reply| {
            flows(table).chunks_exact_mut(2).for_each(<[u32]>::reverse);
            let word = reference_word(lines, message, table, room, blocks, own, reply);
            flows(table).chunks_exact_mut(2).for_each(<[u32]>::reverse);
            word
        },
    ),
    (
        "the flows are transposed",
        |lines, message, table, room, blocks, own, reply| {
            transpose(table);
            let word = reference_word(lines, message, table, room, blocks, own, reply);
            transpose(table);
            word
        },
    ),
    (
        "the flows' diagonal is not judged",
        |lines, message, table, room, blocks, own, reply| {
            let before = table.to_vec();
            let diagonal = bits(|from, to| from == to);
            for halves in flows(table).chunks_exact_mut(2) {
                halves[0] &= !(diagonal as u32);
                halves[1] &= !((diagonal >> 32) as u32);
            }
            let word = reference_word(lines, message, table, room, blocks, own, reply);
            if word >> 32 != 0 {
                table.copy_from_slice(&before);
            }
            word
        },
    ),
    (
        "the flows' unused places are not judged",
        |lines, message, table, room, blocks, own, reply| {
            let before = table.to_vec();
            for context in 1..=CONTEXTS {
                let Some(fitted) = tables::lines_of(table.len()) else {
                    break;
                };
                let used = members(&table[..fitted.terminations()], context).len();
                let used = bits(|from, to| from < used && to < used);
                flows(table)[2 * (context - 1)] &= used as u32;
                flows(table)[2 * context - 1] &= (used >> 32) as u32;
            }
            let word = reference_word(lines, message, table, room, blocks, own, reply);
            if word >> 32 != 0 {
                table.copy_from_slice(&before);
            }
            word
        },
    ),
];

/// Each is found from every one of these seeds, in so many calls; what is
/// printed is how many it took.
const SEEDS: [u64; 4] = [1, 2, 3, 4];
const CALLS: usize = 50_000;

#[test]
fn each_defect_is_found() {
    for (name, defect) in DEFECTS {
        let calls = SEEDS.map(|seed| {
            let mut cases = Cases::new(seed);
            let found = (1..=CALLS).find_map(|call| {
                let case = cases.draw();
                match compare(&case, defect, GUARD) {
                    Ok(outcome) => {
                        cases.left(&outcome);
                        None
                    }
                    Err(found) => Some((call, found)),
                }
            });
            let (call, found) = found.unwrap_or_else(|| panic!("{name} is not found from {seed}"));
            let report = shortened(found, defect, GUARD).to_string();
            assert!(report.contains("DIFFERENCE"), "{name}: {report}");
            call
        });
        println!("{name}: {calls:?}");
    }
}

#[test]
fn the_reference_is_like_itself() {
    // Also where texts and lines are taken as they are.
    const SAME: [Call; 3] = [
        reference_word,
        |lines, message, table, room, blocks, own, reply| {
            takes_texts(
                (lines, message, table, room, blocks, own, reply),
                <[u8]>::to_vec,
            )
        },
        |lines, message, table, room, blocks, own, reply| {
            takes_lines((lines, message, table, room, blocks, own, reply), |_| {})
        },
    ];
    for same in SAME {
        let mut cases = Cases::new(2);
        for _ in 0..5_000 {
            let case = cases.draw();
            match compare(&case, same, GUARD) {
                Ok(outcome) => cases.left(&outcome),
                Err(found) => panic!("{found}"),
            }
        }
    }
}

#[test]
fn an_order_that_counts_is_found() {
    // A callee that keeps something answers pairs that are apart unlike.
    let mut numbers = Numbers::new(1);
    let mut apart = (0..2_000).map(|_| Pair::new(&mut numbers));
    assert!(apart.any(|pair| pair.is_apart() && pair.run(keeps_state).is_err()));
    // So does the reference with pairs that are not apart.
    let mut others = (0..20_000).map(|_| Pair::new(&mut numbers));
    assert!(others.any(|pair| !pair.is_apart() && pair.run(reference_word).is_err()));
    // And where the names are apart, but a request repeats the other or is kept.
    let mut repeats = (0..20_000).map(|_| Pair::new(&mut numbers));
    assert!(repeats.any(|pair| {
        pair.names_are_apart() && !pair.keys_are_apart() && pair.run(reference_word).is_err()
    }));
    // Kept replies that are another set are found.
    let (_, youngest) = DEFECTS
        .iter()
        .find(|one| one.0 == "the youngest goes")
        .unwrap();
    let mut apart = (0..2_000).map(|_| Pair::new(&mut numbers));
    assert!(apart.any(|pair| {
        let run = pair.run(*youngest);
        pair.is_apart() && run.is_err_and(|what| what.starts_with("kept replies"))
    }));
}

#[test]
fn most_pairs_are_apart() {
    let mut numbers = Numbers::new(3);
    let pairs: Vec<Pair> = (0..4_000).map(|_| Pair::new(&mut numbers)).collect();
    let apart: Vec<&Pair> = pairs.iter().filter(|pair| pair.is_apart()).collect();
    let both: Vec<BothChange> = apart
        .iter()
        .filter_map(|pair| pair.run(reference_word).ok())
        .collect();
    assert!(apart.len() > 3_200, "{} of 4,000", apart.len());
    assert!(both.iter().filter(|both| both.table).count() > 200);
    assert!(both.iter().filter(|both| both.map).count() > 20);
    assert!(both.iter().filter(|both| both.speech).count() > 20);
    assert!(both.iter().filter(|both| both.oldest).count() > 200);
}

#[test]
fn a_map_answered_wrongly_is_found() {
    const DEFECTS: [Questions; 5] = [
        // From 0 on; 65 where there is none; the low half alone.
        Questions {
            lowest_absent: |map| (!map).trailing_zeros(),
            ..REFERENCE
        },
        Questions {
            lowest_absent: |map| (!map).trailing_zeros() + 1,
            ..REFERENCE
        },
        Questions {
            lowest_absent: |map| (!map as u32).trailing_zeros() + 1,
            ..REFERENCE
        },
        Questions {
            in_use: |map| (map as u32).count_ones(),
            ..REFERENCE
        },
        // 64 in six bits is 0.
        Questions {
            in_use: |map| map.count_ones() & 63,
            ..REFERENCE
        },
    ];
    for (place, defect) in DEFECTS.iter().enumerate() {
        let mut numbers = Numbers::new(1);
        let found = (0..2_000).any(|_| ask(&mut numbers, defect).is_err());
        assert!(found, "defect {place} is not found");
    }
    let mut numbers = Numbers::new(1);
    assert!((0..2_000).all(|_| ask(&mut numbers, &REFERENCE).is_ok()));
}

#[test]
fn wrong_contexts_are_found() {
    const EIGHT: usize = Lines::EIGHT.words();
    const DEFECTS: [contexts::Asked; 6] = [
        // As if there were eight lines.
        |lines, table, out| match lines {
            9..=16 if table.len() > EIGHT => contexts::reference(8, &table[..EIGHT], out),
            _ => contexts::reference(lines, table, out),
        },
        // 2 before 11.
        |lines, table, out| match contexts::reference(lines, table, &mut [0; 8_192]) >> 32 {
            2 => 2 << 32,
            _ => contexts::reference(lines, table, out),
        },
        // An output of 8,191 bytes is taken.
        |lines, table, out| match out.len() {
            8_191 => 0,
            _ => contexts::reference(lines, table, out),
        },
        // 16 lines at most, but 17 are taken for 16.
        |lines, table, out| contexts::reference(lines.min(16), table, out),
        // A zero byte ends the text.
        |lines, table, out| {
            let answer = contexts::reference(lines, table, out);
            if answer >> 32 == 0 {
                out[length(answer)] = 0;
            }
            answer
        },
        // The last line end is missing.
        |lines, table, out| {
            let answer = contexts::reference(lines, table, out);
            answer - u64::from(answer >> 32 == 0)
        },
    ];
    for (place, defect) in DEFECTS.iter().enumerate() {
        let mut numbers = Numbers::new(1);
        let found = (0..2_000).any(|_| contexts::ask(&mut numbers, *defect).is_err());
        assert!(found, "defect {place} is not found");
    }
    let mut numbers = Numbers::new(1);
    assert!((0..2_000).all(|_| contexts::ask(&mut numbers, contexts::reference).is_ok()));
}
