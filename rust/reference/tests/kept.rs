//! Kept replies, repeats and acknowledgements (document 02, request 3).

use reference::listing::listing;
use reference::room::{Lent, KEPT_BYTES, MID_BYTES, ROOM_BYTES, ROOM_WORDS, SLOTS, SLOT_BYTES};
use reference::text::{read, Fault, Part};
use reference::{answer, Answer};

const OWN: &[u8] = b"[10.0.0.9]";
const SENDER: &str = "[10.0.0.1]";
const FILL: u8 = 0xA5;

struct Gateway {
    table: [u32; 1522],
    words: Vec<u32>,
    bytes: Vec<u8>,
}

impl Gateway {
    fn fresh() -> Self {
        Gateway {
            table: [0; 1522],
            words: vec![0; ROOM_WORDS],
            bytes: vec![0; ROOM_BYTES],
        }
    }

    /// Answers a whole message: what became of it and the buffer.
    fn answer(&mut self, message: &[u8]) -> (Answer, Vec<u8>) {
        let mut reply = vec![FILL; 16_640];
        let mut room = Lent {
            words: &mut self.words,
            bytes: &mut self.bytes,
        };
        let answer = answer(
            8,
            message,
            &mut self.table,
            &mut room,
            &mut [0; 256],
            OWN,
            &mut reply,
        );
        (answer, reply)
    }

    /// What stands behind the reply's header, for parts from a sender; nothing
    /// where the buffer is as it was.
    fn from(&mut self, sender: &str, parts: &str) -> String {
        let (answer, reply) = self.answer(format!("!/1 {sender} {parts}").as_bytes());
        let Answer::Taken(length) = answer else {
            panic!("turned down");
        };
        assert!(reply[length..].iter().all(|&byte| byte == FILL));
        let text = String::from_utf8(reply[..length].to_vec()).unwrap();
        match text.strip_prefix("!/1 [10.0.0.9] ") {
            Some(inside) => inside.to_string(),
            None => {
                assert_eq!(text, "");
                text
            }
        }
    }

    fn says(&mut self, parts: &str) -> String {
        self.from(SENDER, parts)
    }

    /// The row of the slots, the oldest first.
    fn row(&self) -> &[u32] {
        &self.words[..SLOTS]
    }

    /// The identifiers kept, the oldest first.
    fn kept(&self) -> Vec<u32> {
        let held = self.row().iter().take_while(|&&slot| slot != 0);
        held.map(|&slot| self.words[15 + slot as usize]).collect()
    }

    /// Puts a reply of so many bytes into a slot, the newest now.
    fn keep(&mut self, slot: usize, sender: &[u8], id: u32, reply: &[u8]) {
        let place = self.row().iter().position(|&word| word == 0).unwrap();
        self.words[place] = slot as u32;
        self.words[15 + slot] = id;
        self.words[31 + slot] = sender.len() as u32;
        self.words[47 + slot] = reply.len() as u32;
        let at = SLOT_BYTES * (slot - 1);
        self.bytes[at..][..sender.len()].copy_from_slice(sender);
        self.bytes[at + MID_BYTES..][..reply.len()].copy_from_slice(reply);
    }

    /// Keeps `T=1` to `T=count`.
    fn crowded(count: u32) -> Self {
        let mut gateway = Gateway::fresh();
        for id in 1..=count {
            gateway.says(&format!("T={id}{{C=-{{MF=ROOT}}}}"));
        }
        gateway
    }
}

/// "a request whose pair is kept gets the same bytes and the table stays"
#[test]
fn a_repeat_is_answered() {
    let mut gateway = Gateway::fresh();
    let reply = gateway.says("T=7{C=${A=L/1/5,A=$}}");
    assert_eq!(reply, "P=7{C=1{A=L/1/5,A=R/1}}");
    let (table, words, bytes) = (gateway.table, gateway.words.clone(), gateway.bytes.clone());
    // The same, another body, and the identifier in other digits; its age stays.
    for again in ["T=7{C=${A=L/1/5,A=$}}", "T=7{C=1{S=*}}", "T=0007{C=*{A=$}}"] {
        assert_eq!(gateway.says(again), reply, "{again}");
        assert!(gateway.table == table && gateway.words == words && gateway.bytes == bytes);
    }
    // Another identifier runs, and another sender's, by the bytes of its mId.
    assert_eq!(gateway.says("T=8{C=1{A=$}}"), "P=8{C=1{A=R/2}}");
    for sender in ["[10.0.0.01]", "[10.0.0.1]:0", "a", "A", "<a>"] {
        let other = gateway.from(sender, "T=7{C=1{S=R/9}}");
        assert_eq!(other, "P=7{C=1{S=R/9{ER=430{}}}}", "{sender}");
        assert_eq!(gateway.from(sender, "T=7{C=1{A=$}}"), other, "{sender}");
    }
    assert_eq!(gateway.kept(), [7, 8, 7, 7, 7, 7, 7]);
    assert_eq!(gateway.says("T=7{C=1{S=*}}"), reply);
}

/// "Reading still comes first, so a faulty repeat gets 403 and 403 is never kept."
#[test]
fn faults_are_not_kept() {
    let mut gateway = Gateway::crowded(2);
    for (parts, reply) in [
        ("T=1{C=5{}}", "P=1{ER=403{}}"),
        ("T=3{C=5{}}", "P=3{ER=403{}}"),
        ("T=0", "P=0{ER=403{}}"),
        ("T=3{C=-{MF=ROOT}}T=4{", "P=4{ER=403{}}"),
        ("K{1}T=4{", "P=4{ER=403{}}"),
        ("K{1}Q=1{}", "ER=400{}"),
        ("T=3{C=-{MF=ROOT}}x", "ER=400{}"),
    ] {
        assert_eq!(gateway.says(parts), reply, "{parts}");
        assert_eq!(gateway.kept(), [1, 2], "{parts}");
    }
    assert_eq!(
        gateway.answer(b"!/2 [10.0.0.1] K{1}").0,
        Answer::Taken(15 + 8)
    );
    assert_eq!(gateway.kept(), [1, 2]);
    // What ran and failed is kept, and a reply of 533.
    assert_eq!(gateway.says("T=3{C=9{S=*}}"), "P=3{C=9{S=*{ER=411{}}}}");
    assert_eq!(gateway.says("T=4{C=-{MF=*}}"), "P=4{ER=533{}}");
    assert_eq!(gateway.says("T=3{C=-{MF=ROOT}}"), "P=3{C=9{S=*{ER=411{}}}}");
    assert_eq!(gateway.says("T=4{C=-{MF=ROOT}}"), "P=4{ER=533{}}");
    assert_eq!(gateway.kept(), [1, 2, 3, 4]);
}

/// "each up to 2,048 bytes": one of just that length is kept whole.
#[test]
fn a_reply_of_2048_bytes_is_kept() {
    let mut gateway = Gateway::fresh();
    let name = "x".repeat(64);
    let commands = format!("O-A={name},").repeat(26);
    let reply = gateway.says(&format!("T=1{{C=5{{{commands}O-A={}}}}}", &name[..24]));
    assert_eq!(reply.len(), KEPT_BYTES);
    assert_eq!(gateway.words[48] as usize, KEPT_BYTES);
    assert_eq!(gateway.says("T=1{C=-{MF=ROOT}}"), reply);
    let long = gateway.says(&format!("T=2{{C=5{{{commands}O-A={}}}}}", &name[..25]));
    assert_eq!(long, "P=2{ER=533{}}");
    // A sender's mId of 72 bytes.
    let sender = format!("<{name}>:65535");
    assert_eq!(sender.len(), MID_BYTES);
    let reply = gateway.from(&sender, "T=1{C=-{MF=ROOT}}");
    assert_eq!(gateway.words[34] as usize, MID_BYTES);
    assert_eq!(gateway.from(&sender, "T=1{C=9{S=*}}"), reply);
}

/// "Keep the last 16 replies .. only with 16 held does the oldest go."
#[test]
fn the_oldest_goes() {
    let mut gateway = Gateway::crowded(16);
    let slots: Vec<u32> = (1..=16).collect();
    assert_eq!(gateway.row(), slots);
    assert_eq!(gateway.kept(), slots);
    // A repeat of the oldest does not make it young.
    assert_eq!(gateway.says("T=1{C=9{S=*}}"), "P=1{C=-{MF=ROOT}}");
    assert_eq!(gateway.says("T=17{C=9{S=*}}"), "P=17{C=9{S=*{ER=411{}}}}");
    assert_eq!(gateway.kept()[..2], [2, 3]);
    assert_eq!(gateway.row()[14..], [16, 1]);
    assert_eq!(gateway.kept()[14..], [16, 17]);
    // It is gone, so it runs again; and 2 with it.
    assert_eq!(gateway.says("T=1{C=9{S=*}}"), "P=1{C=9{S=*{ER=411{}}}}");
    assert_eq!(gateway.says("T=2{C=9{S=*}}"), "P=2{C=9{S=*{ER=411{}}}}");
    assert_eq!(gateway.says("T=4{C=9{S=*}}"), "P=4{C=-{MF=ROOT}}");
    // Each is looked up in its turn: the first part takes 4's place.
    assert_eq!(
        gateway.says("T=18{C=9{S=*}}T=4{C=9{S=*}}"),
        "P=18{C=9{S=*{ER=411{}}}}P=4{C=9{S=*{ER=411{}}}}"
    );
    // Of two with one identifier the second is a repeat.
    assert_eq!(
        gateway.says("T=20{C=${A=$}}T=20{C=${A=$}}"),
        "P=20{C=1{A=R/1}}P=20{C=1{A=R/1}}"
    );
}

/// "K with identifiers and ranges drops that sender's replies, in its turn among
/// the transactions".
#[test]
fn acknowledged_replies_are_dropped() {
    for (parts, left) in [
        ("K{3}", &[1, 2, 4, 5, 6][..]),
        ("K{0000000003}", &[1, 2, 4, 5, 6]),
        ("k{2,4}", &[1, 3, 5, 6]),
        ("TransactionResponseAck { 2-4 , 6 ;x\n}", &[1, 5]),
        ("transactionresponseack{1-4294967295}", &[]),
        ("K{4294967295,7,9-100}", &[1, 2, 3, 4, 5, 6]),
        ("K{5-5}K{1}", &[2, 3, 4, 6]),
        ("K{6,6,5-6}", &[1, 2, 3, 4]),
    ] {
        let mut gateway = Gateway::crowded(6);
        let (words, bytes) = (gateway.words.clone(), gateway.bytes.clone());
        gateway.from("[10.0.0.2]", "K{1-4294967295}");
        assert!(gateway.words == words && gateway.bytes == bytes);
        // "a message of only K is taken with length 0"
        assert_eq!(gateway.says(parts), "", "{parts}");
        assert_eq!(gateway.kept(), left, "{parts}");
        // The row closes up; what the slots hold stays.
        let free = &gateway.row()[left.len()..];
        assert!(free.iter().all(|&slot| slot == 0));
        assert!(gateway.words[SLOTS..] == words[SLOTS..] && gateway.bytes == bytes);
    }
    // In its turn: before the request it runs anew, after it the reply is dropped.
    let mut gateway = Gateway::crowded(2);
    assert_eq!(gateway.says("K{1}T=1{C=9{S=*}}"), "P=1{C=9{S=*{ER=411{}}}}");
    assert_eq!(gateway.kept(), [2, 1]);
    assert_eq!(gateway.says("T=3{C=9{S=*}}K{3}"), "P=3{C=9{S=*{ER=411{}}}}");
    assert_eq!(gateway.says("T=2{C=9{S=*}}K{2}"), "P=2{C=-{MF=ROOT}}");
    assert_eq!(gateway.kept(), [1]);
}

/// "Room freed is used for the next reply": the lowest slot.
#[test]
fn freed_room_is_used() {
    let mut gateway = Gateway::crowded(16);
    gateway.says("K{5,3,16}");
    assert_eq!(gateway.row()[..3], [1, 2, 4]);
    gateway.says("T=17{C=-{MF=ROOT}}T=18{C=-{MF=ROOT}}");
    assert_eq!(gateway.row()[11..], [14, 15, 3, 5, 0]);
    gateway.says("T=19{C=-{MF=ROOT}}");
    assert_eq!(gateway.row()[12..], [15, 3, 5, 16]);
    gateway.says("T=20{C=-{MF=ROOT}}");
    assert_eq!(gateway.row()[11..], [15, 3, 5, 16, 1]);
    assert_eq!(gateway.kept()[11..], [15, 17, 18, 19, 20]);
    // Bytes past a length stay.
    let mut gateway = Gateway::fresh();
    gateway.bytes.fill(FILL);
    gateway.words[SLOTS..].fill(9_999);
    gateway.says("T=1{C=-{MF=ROOT}}");
    assert_eq!(gateway.words[16..18], [1, 9_999]);
    assert_eq!(gateway.words[32..34], [10, 9_999]);
    assert_eq!(gateway.words[48..50], [17, 9_999]);
    assert_eq!(&gateway.bytes[..11], b"[10.0.0.1]\xA5");
    assert_eq!(&gateway.bytes[72..90], b"P=1{C=-{MF=ROOT}}\xA5");
    assert!(gateway.bytes[90..].iter().all(|&byte| byte == FILL));
}

/// "any fault in K, a backward range or an identifier 0 too, is 400"
#[test]
fn acknowledgements_that_do_not_read() {
    for parts in [
        "K",
        "K{",
        "K{}",
        "K{ }",
        "K{1",
        "K{1,",
        "K{1,}",
        "K{,1}",
        "K=1",
        "K={1}",
        "K{0}",
        "K{1,0}",
        "K{0-5}",
        "K{5-0}",
        "K{5-4}",
        "K{1-2-3}",
        "K{-1}",
        "K{1-}",
        "K{1 -2}",
        "K{1- 2}",
        "K{1 - 2}",
        "K{4294967296}",
        "K{00000000001}",
        "K{1-4294967296}",
        "K{1-00000000002}",
        "K{a}",
        "K{*}",
        "K{1;x}",
        "K{1}}",
        "K{1},K{2}",
        "KK{1}",
        "K1{1}",
        "ResponseAck{1}",
        "O-K{1}",
        "K{1}T",
        "K{1:2}",
    ] {
        let mut gateway = Gateway::crowded(6);
        assert_eq!(gateway.says(parts), "ER=400{}", "{parts}");
        let behind = format!("T=7{{C=-{{MF=ROOT}}}}{parts}");
        assert_eq!(gateway.says(&behind), "ER=400{}", "{behind}");
        assert_eq!(gateway.kept(), [1, 2, 3, 4, 5, 6], "{parts}");
    }
    // K is a part, not an action or a command.
    let mut gateway = Gateway::fresh();
    assert_eq!(gateway.says("T=1{K{1}}"), "P=1{ER=403{}}");
    assert_eq!(gateway.says("T=1{C=-{K=L/1/1}}"), "P=1{C=-{ER=443{}}}");
    assert_eq!(gateway.says("T=2{C=-{K{1}}}"), "P=2{ER=403{}}");
}

/// "as one of the eight"
#[test]
fn eight_parts() {
    let request = |id: usize| format!("T={id}{{C=-{{MF=ROOT}}}}");
    for (parts, fits) in [
        ("K{9}".repeat(8), true),
        ("K{9}".repeat(9), false),
        (format!("{}{}", "K{9}".repeat(7), request(1)), true),
        (format!("{}{}", "K{9}".repeat(8), request(1)), false),
        (format!("{}{}", request(1), "K{9}".repeat(8)), false),
        ((1..8).map(request).collect::<String>() + "K{9}", true),
        ((1..9).map(request).collect::<String>() + "K{9}", false),
        ((1..9).map(request).collect::<String>() + "K", false),
        ((1..9).map(request).collect::<String>(), true),
    ] {
        let reply = Gateway::fresh().says(&parts);
        assert_eq!(reply != "ER=400{}", fits, "{parts}");
    }
    let message = read(b"!/1 a K{3,5-9}T=1{C=-{MF=ROOT}}k {4294967295}").unwrap();
    assert_eq!(message.sender, b"a");
    assert_eq!(message.transactions().count(), 1);
    assert!(matches!(&message.parts[0], Part::Acknowledgement(ids) if *ids == [3..=3, 5..=9]));
    assert!(
        matches!(&message.parts[2], Part::Acknowledgement(ids) if *ids == [u32::MAX..=u32::MAX])
    );
    assert_eq!(read(b"!/1 a K{5-4}").unwrap_err(), Fault::Message);
}

/// "5, after 2, for room of the wrong size, a kept reply over 2,048 bytes or its
/// mId over 72, a pair kept twice or ages that give no order"
#[test]
fn rooms_not_sound() {
    type Breaks = fn(&mut Gateway);
    const ROOMS: [(&str, bool, Breaks); 33] = [
        ("empty", true, |_| {}),
        ("63 words", false, |g| g.words.truncate(63)),
        ("65 words", false, |g| g.words.push(0)),
        ("no words", false, |g| g.words.clear()),
        ("33,919 bytes", false, |g| g.bytes.truncate(ROOM_BYTES - 1)),
        ("33,921 bytes", false, |g| g.bytes.push(0)),
        ("no bytes", false, |g| g.bytes.clear()),
        ("a reply of 2,048", true, |g| {
            g.keep(1, b"a", 1, &[b'x'; 2_048])
        }),
        ("a reply of 2,049", false, |g| {
            g.keep(1, b"a", 1, b"x");
            g.words[48] = 2_049;
        }),
        ("a reply of 2^32 - 1", false, |g| {
            g.keep(16, b"a", 1, b"x");
            g.words[63] = u32::MAX;
        }),
        ("an mId of 72", true, |g| g.keep(16, &[b'x'; 72], 1, b"x")),
        ("an mId of 73", false, |g| {
            g.keep(16, b"a", 1, b"x");
            g.words[47] = 73;
        }),
        ("an mId of 2^31", false, |g| {
            g.keep(1, b"a", 1, b"x");
            g.words[32] = 1 << 31;
        }),
        ("no mId, no reply", true, |g| g.keep(3, b"", 0, b"")),
        ("a pair twice", false, |g| {
            g.keep(1, b"a", 1, b"x");
            g.keep(2, b"a", 1, b"y");
        }),
        ("a pair twice, first and last", false, |g| {
            (1..16).for_each(|slot| g.keep(slot, b"a", slot as u32, b"x"));
            g.keep(16, b"a", 1, b"x");
        }),
        ("no mId twice", false, |g| {
            g.keep(1, b"", 1, b"x");
            g.keep(2, b"", 1, b"y");
        }),
        ("an identifier twice", true, |g| {
            g.keep(1, b"a", 1, b"x");
            g.keep(2, b"b", 1, b"x");
        }),
        ("an mId twice", true, |g| {
            g.keep(1, b"a", 1, b"x");
            g.keep(2, b"a", 2, b"x");
        }),
        ("an mId that begins another", true, |g| {
            g.keep(1, b"ab", 1, b"x");
            g.keep(2, b"a", 1, b"x");
            g.bytes[SLOT_BYTES + 1] = b'b';
        }),
        ("mIds in two letter cases", true, |g| {
            g.keep(1, b"a", 1, b"x");
            g.keep(2, b"A", 1, b"x");
        }),
        ("a pair twice, one free", true, |g| {
            g.keep(1, b"a", 1, b"x");
            g.keep(2, b"a", 1, b"x");
            g.words[1] = 0;
        }),
        ("slot 17", false, |g| g.words[0] = 17),
        ("slot 2^32 - 1", false, |g| g.words[0] = u32::MAX),
        ("slot 16", true, |g| g.words[0] = 16),
        ("a gap", false, |g| g.words[1] = 1),
        ("a gap before the last", false, |g| {
            g.words[..15].copy_from_slice(&[1, 2, 3, 4, 5, 6, 7, 8, 9, 10, 11, 12, 13, 14, 0]);
            g.words[15] = 16;
        }),
        ("17 behind a gap", false, |g| g.words[15] = 17),
        ("a slot twice", false, |g| g.words[..2].fill(1)),
        ("a slot first and last", false, |g| {
            (1..16).for_each(|slot| g.keep(slot, b"a", slot as u32, b"x"));
            g.words[15] = 1;
        }),
        ("16 held", true, |g| {
            (1..17).for_each(|slot| g.keep(slot, b"a", slot as u32, b"x"));
        }),
        ("16 held, in another order", true, |g| {
            (1..17).for_each(|slot| g.keep(17 - slot, b"a", slot as u32, b"x"));
        }),
        ("free slots of anything", true, |g| {
            g.words[SLOTS..].fill(u32::MAX);
            g.bytes.fill(0xFF);
        }),
    ];
    for (what, sound, breaks) in ROOMS {
        let mut gateway = Gateway::fresh();
        breaks(&mut gateway);
        let (words, bytes) = (gateway.words.clone(), gateway.bytes.clone());
        let (got, reply) = gateway.answer(b"!/1 zz T=77{C=${A=$}}");
        assert_eq!(got != Answer::RoomUnsound, sound, "{what}");
        if !sound {
            assert!(gateway.words == words && gateway.bytes == bytes, "{what}");
            assert!(gateway.table == [0; 1522] && reply.iter().all(|&byte| byte == FILL));
        }
    }
}

/// "5, after 2": 3 and 2 come before it, 4 and 1 behind.
#[test]
fn the_order_of_5() {
    let call = |table: &mut [u32], room: usize, own: &[u8], buffer: usize| {
        let mut room = Lent {
            words: &mut vec![0; room],
            bytes: &mut [0; ROOM_BYTES],
        };
        let mut reply = vec![0; buffer];
        answer(8, b"", table, &mut room, &mut [0; 256], own, &mut reply)
    };
    let mut unsound = [0; 1522];
    unsound[751] = 1;
    assert_eq!(call(&mut unsound, 1, b"", 16_639), Answer::ReplyTooShort);
    assert_eq!(call(&mut unsound, 1, b"", 16_640), Answer::TableUnsound);
    assert_eq!(call(&mut [0; 1522], 1, b"", 16_640), Answer::RoomUnsound);
    assert_eq!(call(&mut [0; 1522], 64, b"", 16_640), Answer::MidUnfit);
    assert_eq!(call(&mut [0; 1522], 64, OWN, 16_640), Answer::MessageUnfit);
    // "A call turned down leaves the room as it was": for its message too.
    let mut gateway = Gateway::crowded(3);
    let words = gateway.words.clone();
    let long = format!("!/1 [10.0.0.1] K{{1}}{}", " ".repeat(4_096));
    assert_eq!(gateway.answer(long.as_bytes()).0, Answer::MessageUnfit);
    assert_eq!(gateway.words, words);
}

/// The room stays from line to line; a line of K alone has an empty reply.
#[test]
fn listed() {
    let mut out = Vec::new();
    let input = "!/1 a T=7{C=${A=$}}\n!/1 a T=7{C=${A=$}}\n!/1 b T=7{C=${A=$}}\n\
                 !/1 a K{7}\n!/1 a T=7{C=${A=$}}\n!/1 a K{0}\n";
    listing(input.as_bytes(), &mut out).unwrap();
    let own = "!/1 [10.0.0.9] ";
    assert_eq!(
        String::from_utf8(out).unwrap(),
        format!(
            "{own}P=7{{C=1{{A=R/1}}}}\n{own}P=7{{C=1{{A=R/1}}}}\n{own}P=7{{C=2{{A=R/2}}}}\n\n\
             {own}P=7{{C=3{{A=R/3}}}}\n{own}ER=400{{}}\n\
             contexts 3\n1 0 0 R/1\n2 0 0 R/2\n3 0 0 R/3\n"
        )
    );
}
