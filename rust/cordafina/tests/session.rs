//! Document 01's session and refusals, and other counts of lines, through the
//! archive that is linked.

use cordafina::{answer, answer_word, flows_start, in_use, lowest_absent, packet_word};
use cordafina::{map_start, records_start, table_words, terminations};
use cordafina::{Blocks, Gateway, Refusal, Room, Table, BLOCK_WORDS};
use cordafina::{MESSAGE_BYTES, MOST_LINES, REPLY_BYTES, ROOM_BYTES, ROOM_WORDS};

/// Words of a table of eight lines.
const TABLE_WORDS: usize = table_words(8);
const OWN: &[u8] = b"[10.0.0.9]";
const FILL: u8 = 0xA5;

/// Requests and replies, without their headers.
const SESSION: &str = "\
T=7{C=${A=L/1/5,A=$}} P=7{C=1{A=L/1/5,A=R/1}}
T=8{C=1{A=L/1/5}} P=8{C=1{A=L/1/5{ER=433{}}}}
T=9{C=${MV=L/1/5}} P=9{C=2{MV=L/1/5}}
T=10{C=1{S=*,A=L/2/1}} P=10{C=1{S=R/1{SA{rtp/pr=0,rtp/jit=0}},A=L/2/1{ER=411{}}}}
T=11{C=2{O-S=L/8/31,MF=L/1/5{M{O{MO=SR}}}}} P=11{C=2{S=L/8/31{ER=435{}},MF=L/1/5}}
T=12{C=2{S=L/8/31,S=L/1/5}} P=12{C=2{S=L/8/31{ER=435{}}}}
";

/// The same, each from a fresh table, which stays fresh.
const SHORT_CASES: &str = "\
T=1{C=5{}} P=1{ER=403{}}
T=1{} P=1{ER=403{}}
T=1{C=5{S=* P=1{ER=403{}}
Q=1{} ER=400{}
T=1{C=1{PR=16}} P=1{C=1{ER=449{}}}
T=1{C=5{PR=3}} P=1{C=5{ER=411{}}}
T=1{C=-{A=$}} P=1{C=-{ER=421{}}}
T=1{C=${A=R/1}} P=1{C=${A=R/1{ER=430{}}}}
T=1{C=-{MF=*}} P=1{ER=533{}}
";

/// Each message of such lines with the reply to it.
fn messages(lines: &str) -> impl Iterator<Item = (Vec<u8>, Vec<u8>)> + '_ {
    lines.lines().map(|line| {
        let (request, reply) = line.split_once(' ').unwrap();
        (message(request), text(reply))
    })
}

/// "Word 4 is then 2, word 316 is 3, word 625 is 1, all others 0."
fn table_at_the_end() -> Table {
    let mut words = [0; TABLE_WORDS];
    words[4] = 2;
    words[316] = 3;
    words[625] = 1;
    Table::from_words(8, &words).unwrap()
}

fn message(request: &str) -> Vec<u8> {
    format!("!/1 [10.0.0.1] {request}").into_bytes()
}

fn text(inside: &str) -> Vec<u8> {
    format!("!/1 [10.0.0.9] {inside}").into_bytes()
}

#[test]
fn session() {
    let mut blocks = Blocks::fresh();
    let mut room = Room::empty();
    let mut table = Table::fresh();
    for (message, expected) in messages(SESSION) {
        let mut reply = [FILL; REPLY_BYTES];
        let length = answer(
            &message,
            &mut table,
            &mut room,
            &mut blocks,
            OWN,
            &mut reply,
        )
        .unwrap();
        assert_eq!(&reply[..length], expected);
        assert!(reply[length..].iter().all(|&byte| byte == FILL));
    }
    assert_eq!(table, table_at_the_end());
}

#[test]
fn session_of_a_gateway() {
    let mut gateway = Gateway::new(OWN).unwrap();
    for (message, expected) in messages(SESSION) {
        assert_eq!(gateway.answer(&message), Ok(&*expected));
    }
    assert_eq!(gateway.table(), &table_at_the_end());
    assert_eq!(gateway.answer(b""), Err(Refusal::MessageUnfit));
    let mut kept = Gateway::with_table(OWN, gateway.table().clone()).unwrap();
    let reply = kept.answer(&message("T=1{C=2{PR=3}}")).unwrap();
    assert_eq!(reply, text("P=1{C=2{PR=3}}"));
}

#[test]
fn short_cases() {
    for (message, expected) in messages(SHORT_CASES) {
        let mut gateway = Gateway::new(OWN).unwrap();
        assert_eq!(gateway.answer(&message), Ok(&*expected));
        assert_eq!(gateway.table(), &Table::fresh());
    }
}

#[test]
fn refusals_in_their_order() {
    // All six hold; then one after the other is mended.
    let mut table = [0; TABLE_WORDS];
    let mut blocks = [0; BLOCK_WORDS];
    let (mut words, mut bytes) = ([0; ROOM_WORDS], [0; ROOM_BYTES]);
    words[0] = 17;
    table[623] = 7;
    let damaged = table;
    let mut reply = [FILL; REPLY_BYTES];
    for lines in [0, 17, 264, u32::MAX] {
        let short = &mut reply[1..];
        assert_eq!(
            answer_word(
                lines,
                b"",
                &mut table,
                &mut words,
                &mut bytes,
                &mut blocks,
                b"",
                short
            ),
            8 << 32
        );
    }
    let short = &mut reply[1..];
    assert_eq!(
        answer_word(
            8,
            b"",
            &mut table,
            &mut words,
            &mut bytes,
            &mut blocks,
            b"",
            short
        ),
        3 << 32
    );
    assert_eq!(
        answer_word(
            8,
            b"",
            &mut table,
            &mut words,
            &mut bytes,
            &mut blocks,
            b"",
            &mut reply
        ),
        2 << 32
    );
    assert_eq!(table, damaged);
    table[623] = 0;
    let cut = &mut table[1..];
    assert_eq!(
        answer_word(
            8,
            b"",
            cut,
            &mut words,
            &mut bytes,
            &mut blocks,
            b"",
            &mut reply
        ),
        2 << 32
    );
    assert_eq!(
        answer_word(
            9,
            b"",
            &mut table,
            &mut words,
            &mut bytes,
            &mut blocks,
            b"",
            &mut reply
        ),
        2 << 32
    );
    assert_eq!(
        answer_word(
            8,
            b"",
            &mut table,
            &mut words,
            &mut bytes,
            &mut blocks,
            b"",
            &mut reply
        ),
        5 << 32
    );
    words[0] = 0;
    assert_eq!(
        answer_word(
            8,
            b"",
            &mut table,
            &mut words,
            &mut bytes,
            &mut blocks,
            b"",
            &mut reply
        ),
        4 << 32
    );
    assert_eq!(
        answer_word(
            8,
            b"",
            &mut table,
            &mut words,
            &mut bytes,
            &mut blocks,
            OWN,
            &mut reply
        ),
        1 << 32
    );
    let long = [b' '; MESSAGE_BYTES + 1];
    assert_eq!(
        answer_word(
            8,
            &long,
            &mut table,
            &mut words,
            &mut bytes,
            &mut blocks,
            OWN,
            &mut reply
        ),
        1 << 32
    );
    assert_eq!(reply, [FILL; REPLY_BYTES]);
    assert_eq!(table, [0; TABLE_WORDS]);
    let taken = answer_word(
        8,
        &long[1..],
        &mut table,
        &mut words,
        &mut bytes,
        &mut blocks,
        OWN,
        &mut reply,
    );
    assert_eq!(taken, text("ER=400{}").len() as u64);
}

#[test]
fn refusals_by_name() {
    let mut reply = [FILL; REPLY_BYTES];
    let mut table = Table::fresh();
    let refused = answer(
        b"x",
        &mut table,
        &mut Room::empty(),
        &mut Blocks::fresh(),
        b"[10.0.0.256]",
        &mut reply,
    );
    assert_eq!(refused, Err(Refusal::MidUnfit));
    let refused = answer(
        b"x",
        &mut table,
        &mut Room::empty(),
        &mut Blocks::fresh(),
        OWN,
        &mut reply[..16],
    );
    assert_eq!(refused, Err(Refusal::ReplyTooShort));
    let refused = Table::from_words(8, &[129; TABLE_WORDS]);
    assert_eq!(refused, Err(Refusal::TableUnsound));
    assert_eq!(Gateway::new(b"10.0.0.9").err(), Some(Refusal::MidUnfit));
    assert_eq!(Gateway::new(&[b'a'; 65]).err(), Some(Refusal::MidUnfit));
    assert!(Gateway::new(&[b'a'; 64]).is_ok());
    assert_eq!(Refusal::MidUnfit.number(), 4);
    assert_eq!(Refusal::LinesUnfit.number(), 8);
}

#[test]
fn tables_by_their_count() {
    for lines in [0, MOST_LINES + 1, u32::MAX] {
        assert_eq!(Table::with_lines(lines), Err(Refusal::LinesUnfit));
        let words = [0; table_words(MOST_LINES)];
        assert_eq!(Table::from_words(lines, &words), Err(Refusal::LinesUnfit));
    }
    for lines in 1..=MOST_LINES {
        let table = Table::with_lines(lines).unwrap();
        let words = vec![0; 2 * (31 * lines as usize + 64) + 128 + 2 + 256 + 512];
        assert_eq!((table.lines(), table.words()), (lines, &words[..]));
        assert_eq!(Table::from_words(lines, &words), Ok(table));
        let refused = Table::from_words(lines, &words[1..]);
        assert_eq!(refused, Err(Refusal::TableUnsound));
    }
    assert_eq!(Table::with_lines(8), Ok(Table::fresh()));
    assert_ne!(Table::with_lines(9), Ok(Table::fresh()));
    let nine = [0; table_words(9)];
    assert_eq!(Table::from_words(8, &nine), Err(Refusal::TableUnsound));
}

#[test]
fn every_count_of_lines() {
    for lines in 1..=MOST_LINES {
        let table = Table::with_lines(lines).unwrap();
        let mut gateway = Gateway::with_table(OWN, table).unwrap();
        let next = lines + 1;
        let request = format!("T=1{{C=${{A=L/{lines}/31,O-A=L/{next}/1,O-A=L/{next}/*,A=$}}}}");
        let reply = format!(
            "P=1{{C=1{{A=L/{lines}/31,A=L/{next}/1{{ER=430{{}}}},A=L/{next}/*{{ER=431{{}}}},A=R/1}}}}"
        );
        assert_eq!(gateway.answer(&message(&request)), Ok(&*text(&reply)));
        let ephemeral = 31 * lines as usize;
        let mut words = vec![0; table_words(lines)];
        words[ephemeral - 1] = 1;
        words[ephemeral] = 1;
        words[records_start(lines)] = 1;
        words[map_start(lines)] = 1;
        // Each of the two hears the other.
        words[flows_start(lines)] = 0x0102;
        assert_eq!(gateway.table().words(), words);
        let none = "{SA{rtp/pr=0,rtp/jit=0}}";
        let request = format!("T=2{{C=1{{MF=*{{M{{TS{{SI=TE}}}}}},S=R/*,S=L/{lines}/*}}}}");
        let reply = format!("P=2{{C=1{{MF=L/{lines}/31,MF=R/1,S=R/1{none},S=L/{lines}/31}}}}");
        assert_eq!(gateway.answer(&message(&request)), Ok(&*text(&reply)));
        let mut words = vec![0; table_words(lines)];
        words[terminations(lines) + ephemeral - 1] = 16;
        assert_eq!(gateway.table().words(), words);
    }
}

#[test]
fn map_of_the_ephemerals() {
    for (map, lowest, used) in [
        (0, 1, 0),
        (0b1011, 3, 3),
        (0x7FFF_FFFF, 32, 31),
        (0xFFFF_FFFF, 33, 32),
        (0xFFFF_FFFF_0000_0000, 1, 32),
        (u64::MAX >> 1, 64, 63),
        (u64::MAX, 0, 64),
    ] {
        assert_eq!((lowest_absent(map), in_use(map)), (lowest, used), "{map:x}");
    }
    for lines in 1..=MOST_LINES {
        let mut gateway = Gateway::with_table(OWN, Table::with_lines(lines).unwrap()).unwrap();
        for number in 1..=64 {
            assert_eq!(gateway.table().in_use(), number - 1);
            assert_eq!(gateway.table().lowest_absent(), number);
            let request = match number % 8 {
                1 => format!("T={number}{{C=${{A=$}}}}"),
                _ => format!("T={number}{{C={}{{A=R/$}}}}", (number + 7) / 8),
            };
            gateway.answer(&message(&request)).unwrap();
            assert_eq!(gateway.table().map(), u64::MAX >> (64 - number));
        }
        assert_eq!(gateway.table().in_use(), 64);
        assert_eq!(gateway.table().lowest_absent(), 0);
        gateway
            .answer(&message("T=65{C=5{S=R/33,S=R/40}}"))
            .unwrap();
        assert_eq!(gateway.table().map(), !(1 << 32 | 1 << 39));
        assert_eq!(gateway.table().in_use(), 62);
        assert_eq!(gateway.table().lowest_absent(), 33);
        // A place more, a place less and the halves exchanged are unsound.
        let start = map_start(lines);
        for (at, bit) in [(start, 1), (start + 1, 1), (start + 1, 1 << 7)] {
            let mut words = gateway.table().words().to_vec();
            words[at] ^= bit;
            let refused = Table::from_words(lines, &words);
            assert_eq!(refused, Err(Refusal::TableUnsound));
        }
        let mut words = gateway.table().words().to_vec();
        words[start..].reverse();
        let refused = Table::from_words(lines, &words);
        assert_eq!(refused, Err(Refusal::TableUnsound));
    }
}

#[test]
fn threads_apart() {
    let sessions: Vec<_> = (0..4)
        .map(|_| {
            std::thread::spawn(|| {
                for _ in 0..200 {
                    let mut gateway = Gateway::new(OWN).unwrap();
                    for (message, expected) in messages(SESSION) {
                        assert_eq!(gateway.answer(&message), Ok(&*expected));
                    }
                }
            })
        })
        .collect();
    for session in sessions {
        session.join().unwrap();
    }
}

/// Packets of two ephemerals, figures with the goodbye, a new ephemeral at zero,
/// and the refusals of a packet in their order.
#[test]
fn figures_with_the_goodbye() {
    let mut gateway = Gateway::new(OWN).unwrap();
    assert_eq!(gateway.packet(1, 5, 3), Err(Refusal::EphemeralAbsent));
    gateway.answer(&message("T=1{C=${A=$,A=$}}")).unwrap();
    for (n, arrival, stamp) in [
        (1, 1000, 200),
        (1, 1180, 360),
        (2, 0, u32::MAX),
        (1, 0, 1 << 31),
    ] {
        assert_eq!(gateway.packet(n, arrival, stamp), Ok(()));
    }
    let first = gateway.blocks().block(1).unwrap();
    let d = (1u64 << 31) - 820;
    assert_eq!((first.packets, first.transit), (3, 1 << 31));
    assert_eq!(first.jitter, 20 + d - 28 / 16);
    assert_eq!(gateway.blocks().block(2).unwrap().transit, 1);
    assert_eq!(gateway.packet(0, 5, 3), Err(Refusal::EphemeralAbsent));
    assert_eq!(gateway.packet(65, 5, 3), Err(Refusal::EphemeralAbsent));
    let figures = format!("rtp/pr=3,rtp/jit={}", first.reported());
    let expected =
        format!("P=2{{C=1{{S=R/1{{SA{{{figures}}}}},A=R/1,S=R/1{{SA{{rtp/pr=0,rtp/jit=0}}}}}}}}");
    assert_eq!(
        gateway.answer(&message("T=2{C=1{S=R/1,A=$,S=R/1}}")),
        Ok(&*text(&expected))
    );
    let kept = Blocks::try_from(&gateway.blocks().words()[..]).unwrap();
    assert_eq!(&kept, gateway.blocks());
    let mut blocks = [0; BLOCK_WORDS];
    let table = [0; TABLE_WORDS];
    blocks[255] = 9;
    assert_eq!(Blocks::try_from(&blocks[..]), Err(Refusal::TableUnsound));
    assert_eq!(packet_word(0, &table, &mut blocks, 1, 0, 0), 8);
    assert_eq!(packet_word(8, &table, &mut blocks, 1, 0, 0), 2);
    assert_eq!(packet_word(8, &table, &mut blocks[..252], 1, 0, 0), 2);
    blocks[255] = 0;
    assert_eq!(packet_word(8, &table, &mut blocks, 1, 0, 0), 9);
}
