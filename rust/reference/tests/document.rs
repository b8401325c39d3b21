//! The session, the short cases and the boundaries of document 01, on eight
//! lines; and document 02's requests 10, on other counts, 5, 2, 6 and 11.

use reference::listing::listing;
use reference::map::{in_use, lowest_absent};
use reference::room::{Lent, ROOM_BYTES, ROOM_WORDS};
use reference::sdp;
use reference::table::{write_name, Lines, Name, Session};
use reference::Answer;

const OWN: &[u8] = b"[10.0.0.9]";
const HEADER_IN: &str = "!/1 [10.0.0.1] ";
const HEADER_OUT: &str = "!/1 [10.0.0.9] ";
const FILL: u8 = 0xA5;

/// Answers in an empty room: no request here is a repeat.
fn answer(
    lines: u32,
    message: &[u8],
    table: &mut [u32],
    blocks: &mut [u32],
    own: &[u8],
    reply: &mut [u8],
) -> Answer {
    let mut room = Lent {
        words: &mut [0; ROOM_WORDS],
        bytes: &mut [0; ROOM_BYTES],
    };
    reference::answer(lines, message, table, &mut room, blocks, own, reply)
}

/// Answers a whole message on so many lines, checks that the bytes past the reply stay, and
/// gives what stands after the reply's header.
fn whole_on(lines: u32, message: &[u8], table: &mut [u32]) -> String {
    let mut reply = vec![FILL; 16_640];
    let Answer::Taken(length) = answer(lines, message, table, &mut [0; 256], OWN, &mut reply)
    else {
        panic!("turned down");
    };
    assert!(reply[length..].iter().all(|&byte| byte == FILL));
    let text = String::from_utf8(reply[..length].to_vec()).unwrap();
    text.strip_prefix(HEADER_OUT).unwrap().to_string()
}

fn whole(message: &[u8], table: &mut [u32]) -> String {
    whole_on(8, message, table)
}

/// Answers a message of these transactions.
fn inside(request: &str, table: &mut [u32]) -> String {
    inside_on(8, request, table)
}

fn inside_on(lines: u32, request: &str, table: &mut [u32]) -> String {
    let message = format!("{HEADER_IN}{request}");
    whole_on(lines, message.as_bytes(), table)
}

fn fresh(request: &str) -> String {
    inside(request, &mut [0; 1522])
}

/// From a table with L/1/1 alone in context 1.
fn context_1(request: &str) -> String {
    let mut table = [0; 1522];
    inside("T=1{C=${A=L/1/1}}", &mut table);
    inside(request, &mut table)
}

const SESSION: [(&str, &str); 6] = [
    ("T=7{C=${A=L/1/5,A=$}}", "P=7{C=1{A=L/1/5,A=R/1}}"),
    ("T=8{C=1{A=L/1/5}}", "P=8{C=1{A=L/1/5{ER=433{}}}}"),
    ("T=9{C=${MV=L/1/5}}", "P=9{C=2{MV=L/1/5}}"),
    (
        "T=10{C=1{S=*,A=L/2/1}}",
        "P=10{C=1{S=R/1{SA{rtp/pr=0,rtp/jit=0}},A=L/2/1{ER=411{}}}}",
    ),
    (
        "T=11{C=2{O-S=L/8/31,MF=L/1/5{M{O{MO=SR}}}}}",
        "P=11{C=2{S=L/8/31{ER=435{}},MF=L/1/5}}",
    ),
    (
        "T=12{C=2{S=L/8/31,S=L/1/5}}",
        "P=12{C=2{S=L/8/31{ER=435{}}}}",
    ),
];

/// The words that are not 0.
fn words_of(table: &[u32]) -> Vec<(usize, u32)> {
    let places = table.iter().copied().enumerate();
    places.filter(|&(_, word)| word != 0).collect()
}

#[test]
fn session() {
    let after: [&[(usize, u32)]; 6] = [
        &[(4, 1), (248, 1), (624, 1), (752, 1), (754, 258)],
        &[(4, 1), (248, 1), (624, 1), (752, 1), (754, 258)],
        &[(4, 2), (248, 1), (624, 1), (625, 1), (752, 1)],
        &[(4, 2), (625, 1)],
        &[(4, 2), (316, 3), (625, 1)],
        &[(4, 2), (316, 3), (625, 1)],
    ];
    let mut table = [0; 1522];
    for ((request, reply), after) in SESSION.iter().zip(after) {
        assert_eq!(inside(request, &mut table), *reply);
        assert_eq!(words_of(&table), after);
    }
}

fn list(input: &[u8]) -> String {
    let mut out = Vec::new();
    listing(input, &mut out).unwrap();
    String::from_utf8(out).unwrap()
}

#[test]
fn session_listed() {
    let input: String = SESSION
        .iter()
        .map(|(request, _)| format!("{HEADER_IN}{request}\n"))
        .collect();
    let replies: String = SESSION
        .iter()
        .map(|(_, reply)| format!("{HEADER_OUT}{reply}\n"))
        .collect();
    assert_eq!(
        list(input.as_bytes()),
        format!("{replies}contexts 1\n2 0 0 L/1/5\n")
    );
}

#[test]
fn lines() {
    let refused = "refused 1\n";
    let error = format!("{HEADER_OUT}ER=400{{}}\n");
    assert_eq!(list(b""), "contexts 0\n");
    assert_eq!(list(b"\n"), format!("{refused}contexts 0\n"));
    assert_eq!(list(b"\n\n"), format!("{refused}{refused}contexts 0\n"));
    assert_eq!(list(b"x"), format!("{error}contexts 0\n"));
    assert_eq!(list(b"\r\n"), format!("{error}contexts 0\n"));
    assert_eq!(list(b"\0\nx\n"), format!("{error}{error}contexts 0\n"));
    for (length, printed) in [(4_096, error.as_str()), (4_097, refused), (99_999, refused)] {
        let mut input = vec![b' '; length];
        assert_eq!(list(&input), format!("{printed}contexts 0\n"));
        input.extend_from_slice(b"\nx");
        assert_eq!(list(&input), format!("{printed}{error}contexts 0\n"));
    }
    let properties = format!("{HEADER_IN}T=1{{C=${{PR=15,EG,A=$,A=l/8/31,A=L/1/1}},C=${{A=$}}}}\r");
    assert_eq!(
        list(properties.as_bytes()),
        format!(
            "{HEADER_OUT}P=1{{C=1{{A=R/1,A=L/8/31,A=L/1/1}},C=2{{A=R/2}}}}\n\
             contexts 2\n1 15 1 L/1/1 L/8/31 R/1\n2 0 0 R/2\n"
        )
    );
}

#[test]
fn short_cases() {
    for (request, reply) in [
        ("T=1{C=5{}}", "P=1{ER=403{}}"),
        ("T=1{}", "P=1{ER=403{}}"),
        ("T=1{C=5{S=*", "P=1{ER=403{}}"),
        ("Q=1{}", "ER=400{}"),
        ("T=1{C=1{PR=16}}", "P=1{C=1{ER=449{}}}"),
        ("T=1{C=5{PR=3}}", "P=1{C=5{ER=411{}}}"),
        ("T=1{C=-{A=$}}", "P=1{C=-{ER=421{}}}"),
        ("T=1{C=${A=R/1}}", "P=1{C=${A=R/1{ER=430{}}}}"),
        ("T=1{C=-{MF=*}}", "P=1{ER=533{}}"),
    ] {
        let mut table = [0; 1522];
        assert_eq!(inside(request, &mut table), reply, "{request}");
        assert_eq!(table, [0; 1522], "{request}");
    }
}

#[test]
fn turned_down() {
    let message = b"!/1 [10.0.0.1] T=7{C=${A=L/1/5,A=$}}";
    let long = [b' '; 4_097];
    let own_65 = [b'a'; 65];
    let sound = [0; 1522];
    let mut unsound = sound;
    unsound[751] = 1;
    for (message, words, own, length, expected) in [
        (&message[..], &sound[..], OWN, 16_639, Answer::ReplyTooShort),
        (b"", &unsound, b"", 0, Answer::ReplyTooShort),
        (message, &sound[..752], OWN, 16_640, Answer::TableUnsound),
        (message, &sound[..753], OWN, 16_640, Answer::TableUnsound),
        (message, &[0; 755], OWN, 16_640, Answer::TableUnsound),
        (message, &[], OWN, 16_640, Answer::TableUnsound),
        (b"", &unsound, b"", 16_640, Answer::TableUnsound),
        (b"", &sound, b"", 16_640, Answer::MidUnfit),
        (message, &sound, b"[10.0.0.9] ", 16_640, Answer::MidUnfit),
        (message, &sound, &own_65, 16_640, Answer::MidUnfit),
        (b"", &sound, OWN, 16_640, Answer::MessageUnfit),
        (&long, &sound, OWN, 16_640, Answer::MessageUnfit),
    ] {
        let mut table = words.to_vec();
        let mut reply = vec![FILL; length];
        let got = answer(8, message, &mut table, &mut [0; 256], own, &mut reply);
        assert_eq!(got, expected);
        assert_eq!(table, words);
        assert!(reply.iter().all(|&byte| byte == FILL));
    }
    assert_eq!(Answer::Taken(5).number(), 0);
    assert_eq!(Answer::MessageUnfit.number(), 1);
    assert_eq!(Answer::TableUnsound.number(), 2);
    assert_eq!(Answer::ReplyTooShort.number(), 3);
    assert_eq!(Answer::MidUnfit.number(), 4);
    assert_eq!(Answer::RoomUnsound.number(), 5);
    assert_eq!(Answer::LinesUnfit.number(), 8);
    // A longer buffer, and an own mId of just 64 bytes, are fine.
    let mut reply = vec![FILL; 20_000];
    let taken = answer(
        8,
        message,
        &mut [0; 1522],
        &mut [0; 256],
        &own_65[..64],
        &mut reply,
    );
    assert_eq!(taken, Answer::Taken(4 + 64 + 1 + 23));
}

#[test]
fn tables_not_sound() {
    // A sound one: L/1/1 and R/1 in context 3, priority 15 and emergency.
    let mut sound = [0; 1522];
    sound[0] = 3;
    sound[248] = 3;
    sound[626] = 32;
    sound[312] = 20;
    sound[752] = 1;
    let taken = |table: &[u32; 1522]| {
        let mut reply = vec![FILL; 16_640];
        let got = answer(8, b"x", &mut table.clone(), &mut [0; 256], OWN, &mut reply);
        got != Answer::TableUnsound
    };
    assert!(taken(&sound));
    for (place, word) in [
        (0, 129),
        (0, u32::MAX),
        (0, 4),
        (247, 128),
        (312, 5),
        (312, 13),
        (312, 21),
        (312, u32::MAX),
        (561, 1),
        (626, 0),
        (626, 33),
        (627, 1),
        (752, 0),
        (752, 2),
        (752, 3),
        (752, u32::MAX),
        (753, 1),
        (753, 1 << 31),
    ] {
        let mut table = sound;
        table[place] = word;
        assert!(!taken(&table), "{place} {word}");
    }
    // "at most 8 terminations in each non-null context"
    let mut table = sound;
    table[1..7].fill(3);
    assert!(taken(&table));
    table[7] = 3;
    assert!(!taken(&table));
}

#[test]
fn headers() {
    for (message, reply) in [
        ("!/1 [1.1.1.1] ", "ER=400{}"),
        ("!/2 [1.1.1.1] ", "ER=406{}"),
        ("!/2 [1.1.1.1]", "ER=400{}"),
        ("!/2 [1.1.1.1] ;x", "ER=400{}"),
        ("!/2 [1.1.1.1];x\r", "ER=406{}"),
        ("!/2 [1.1.1.256] T=1{C=-{MF=ROOT}}", "ER=400{}"),
        ("!/01 [1.1.1.1] T=1{C=-{MF=ROOT}}", "P=1{C=-{MF=ROOT}}"),
        ("!/00 [1.1.1.1] T=1{C=-{MF=ROOT}}", "ER=406{}"),
        ("!/001 [1.1.1.1] T=1{C=-{MF=ROOT}}", "ER=400{}"),
        ("!/1;c\n<a>:00080;c\rT=1{C=-{MF=ROOT}}", "P=1{C=-{MF=ROOT}}"),
        (
            " \r\nmegaco/1 *a$/b T=1{C=-{MF=ROOT}} \n",
            "P=1{C=-{MF=ROOT}}",
        ),
        ("!/1 [1.1.1.1] T=1{C=-{MF=ROOT}};x", "ER=400{}"),
        ("!/1 [1.1.1.1] T=1{C=-{MF=ROOT};x", "P=1{ER=403{}}"),
        ("!/1 T=1{C=-{MF=ROOT}}", "ER=400{}"),
        ("!/1 [1.1.1.1]:65536 T=1{C=-{MF=ROOT}}", "ER=400{}"),
        ("!/1 a:1 T=1{C=-{MF=ROOT}}", "ER=400{}"),
        ("! /1 [1.1.1.1] T=1{C=-{MF=ROOT}}", "ER=400{}"),
        ("!", "ER=400{}"),
    ] {
        let mut table = [0; 1522];
        assert_eq!(whole(message.as_bytes(), &mut table), reply, "{message:?}");
    }
}

#[test]
fn boundaries() {
    for (request, reply) in [
        ("T=0", "P=0{ER=403{}}"),
        ("T=0 x", "P=0{ER=403{}}"),
        ("T=00000000000{}", "ER=400{}"),
        ("T=007{", "P=7{ER=403{}}"),
        ("T=4294967296{}", "ER=400{}"),
        ("T=4294967295{C=-{MF=ROOT}}", "P=4294967295{C=-{MF=ROOT}}"),
        ("T=1{C=4294967295{S=*}}", "P=1{C=4294967295{S=*{ER=411{}}}}"),
        ("T=1{C=4294967296{S=*}}", "P=1{ER=403{}}"),
        ("T=1{C=0005{S=*}}", "P=1{C=5{S=*{ER=411{}}}}"),
        ("T=1{C=-{MF=ROOT}}T=2{}T=3{", "P=2{ER=403{}}"),
        ("T=1{C=${PR=99,A=$}}", "P=1{C=${ER=449{}}}"),
        ("T=1{C=${PR=100000,A=$}}", "P=1{ER=403{}}"),
        ("T=1{C=${PR=3}}", "P=1{C=${ER=421{}}}"),
        ("T=1{C=*{PR=99,A=$}}", "P=1{C=*{ER=421{}}}"),
        ("T=1{C=-{PR=99}}", "P=1{C=-{ER=421{}}}"),
        ("T=1{C=-{MF=L/1/1,A=$}}", "P=1{C=-{MF=L/1/1,ER=421{}}}"),
        ("T=1{C=-{O-W-A=$,MF=ROOT}}", "P=1{C=-{ER=443{}}}"),
        (
            "T=1{C=5{O-S=*{ZZ},S=*}}",
            "P=1{C=5{S=*{ER=411{}},S=*{ER=411{}}}}",
        ),
        (
            "T=1{C=-{MF=Root{M{O{MO=XX}}}}}",
            "P=1{C=-{MF=Root{ER=449{}}}}",
        ),
        (
            "T=1{C=${O-A=L/$,O-A=r/$,MF=$}}",
            "P=1{C=1{A=L/${ER=432{}},A=R/1,MF=${ER=410{}}}}",
        ),
        (
            "T=1{C=-{MF=L/1/1{M{O{MO=SR},O=5}}}}",
            "P=1{C=-{MF=L/1/1{ER=448{}}}}",
        ),
        (
            "T=1{C=-{MF=L/1/1{M=5{O{MO=ZZ}}}}}",
            "P=1{C=-{MF=L/1/1{ER=442{}}}}",
        ),
        (
            "T=1{C=-{MF=L/1/1{M{O{MO=XX,ZZ}}}}}",
            "P=1{C=-{MF=L/1/1{ER=449{}}}}",
        ),
        (
            "T=1{C=-{MF=L/1/1{a{a{a{a{a{a{a{a}}}}}}}}}}",
            "P=1{C=-{MF=L/1/1{ER=444{}}}}",
        ),
        (
            "T=1{C=-{MF=L/1/1{a{a{a{a{a{a{a{a{a}}}}}}}}}}}",
            "P=1{ER=403{}}",
        ),
        (
            "T=1{C=${A=L/1/1,S=L/1/1,O-A=L/1/1,O-A=$},C=${A=$}}",
            "P=1{C=1{A=L/1/1,S=L/1/1,A=L/1/1{ER=411{}},A=${ER=411{}}},C=1{A=R/1}}",
        ),
        (
            "T=1{C=${A=L/1/1},C=5{EG},C=${A=$}}",
            "P=1{C=1{A=L/1/1},C=5{ER=411{}}}",
        ),
    ] {
        assert_eq!(fresh(request), reply, "{request}");
    }
    for (request, reply) in [
        ("T=1{C=1{PR=5,EG,PR=00003}}", "P=1{C=1{PR=3,EG}}"),
        ("T=1{C=1{EG}}", "P=1{C=1{PR=0,EG}}"),
        ("T=1{C=1{A=$,PR=3}}", "P=1{ER=403{}}"),
        (
            "T=1{C=1{O-S=*{ZZ},S=ROOT}}",
            "P=1{C=1{S=*{ER=447{}},S=ROOT{ER=410{}}}}",
        ),
        (
            "T=2{C=${MV=L/1/1},C=${A=$}}",
            "P=2{C=2{MV=L/1/1},C=1{A=R/1}}",
        ),
        ("T=2{C=1{MV=*}}", "P=2{C=1{MV=*{ER=431{}}}}"),
        ("T=2{C=1{O-PR=3}}", "P=2{ER=403{}}"),
        ("T=2{C=1{W-EG}}", "P=2{ER=403{}}"),
        ("T=2{C=1{EG=1}}", "P=2{ER=403{}}"),
        ("T=2{C=1{S=*,EG}}", "P=2{ER=403{}}"),
        ("T=2{C=1{MF=*{M{O{MO=}}}}}", "P=2{ER=403{}}"),
        (r#"T=2{C=1{MF=*{M{O{MO=""}}}}}"#, "P=2{C=1{MF=*{ER=449{}}}}"),
        ("T=2{C=1{MF=L/9/*}}", "P=2{C=1{MF=L/9/*{ER=431{}}}}"),
        ("T=2{C=1{A=L/9/1}}", "P=2{C=1{A=L/9/1{ER=430{}}}}"),
        ("T=2{C=1{PR=15},C=1{EG}}", "P=2{C=1{PR=15},C=1{PR=15,EG}}"),
        ("T=2{C=-{PR=1,MF=L/1/2}}", "P=2{C=-{ER=421{}}}"),
    ] {
        assert_eq!(context_1(request), reply, "{request}");
    }
}

#[test]
fn message_of_4096() {
    let mut message = format!("{HEADER_IN}T=1{{C=${{A=$}}}}").into_bytes();
    message.resize(4_096, b' ');
    assert_eq!(whole(&message, &mut [0; 1522]), "P=1{C=1{A=R/1}}");
    message.push(b' ');
    let refused = answer(
        8,
        &message,
        &mut [0; 1522],
        &mut [0; 256],
        OWN,
        &mut [0; 16_640],
    );
    assert_eq!(refused, Answer::MessageUnfit);
}

#[test]
fn eight_and_nine_members() {
    let mut expected = String::from("P=1{C=1{A=L/1/1");
    for channel in 2..=31 {
        expected += &format!(",A=L/1/{channel}");
        if channel > 8 {
            expected += "{ER=434{}}";
        }
    }
    assert_eq!(fresh("T=1{C=${A=L/1/*}}"), expected + "}}");
}

#[test]
fn reply_of_2048_and_2049() {
    let long = "x".repeat(64);
    let commands = format!("O-A={long},").repeat(26);
    let request = |last: usize| format!("T=1{{C=5{{{commands}O-A={}}}}}", "x".repeat(last));
    assert_eq!(fresh(&request(24)).len(), 2_048);
    assert_eq!(fresh(&request(25)), "P=1{ER=533{}}");
    // The number that a `$` turns into counts too, and the changes stand.
    let request = |last: usize| {
        format!(
            "T=1{{C=${{{commands}O-A={},A=$}}}}T=2{{C=1{{PR=2}}}}",
            "x".repeat(last)
        )
    };
    let done = fresh(&request(18));
    assert_eq!(done.find("P=2"), Some(2_048));
    assert_eq!(fresh(&request(19)), "P=1{ER=533{}}P=2{C=1{PR=2}}");
}

#[test]
fn out_of_service_does_not_move() {
    // In null; in the target; elsewhere, whatever state its items give it.
    let request = "T=1{C=${A=L/1/1{M{TS{SI=OS}}}},C=${A=L/1/2},C=-{MF=L/1/3{M{TS{SI=OS}}}}}\
                   T=2{C=1{O-MV=L/1/3,O-MV=L/1/1},C=${O-MV=*,O-MV=L/1/1{M{TS{SI=IV}}},PR=1}}";
    assert_eq!(fresh(request), "P=2{ER=403{}}");
    let mut table = [0; 1522];
    assert_eq!(
        inside(&request.replace(",PR=1", ""), &mut table),
        "P=1{C=1{A=L/1/1},C=2{A=L/1/2},C=-{MF=L/1/3}}\
         P=2{C=1{MV=L/1/3{ER=435{}},MV=L/1/1{ER=433{}}},\
         C=3{MV=L/1/1{ER=503{}},MV=L/1/2,MV=L/1/1{ER=503{}}}}"
    );
    let words = [(0, 1), (1, 3), (312, 8), (314, 8), (624, 1), (626, 1)];
    assert_eq!(words_of(&table), words);
    // Test moves, and one that is put out of service by its Move.
    assert_eq!(
        inside(
            "T=3{C=1{MF=L/1/1{M{TS{SI=TE}}}},C=3{O-MV=L/1/1{M{TS{SI=OS}}}},C=${O-MV=L/1/1}}",
            &mut table
        ),
        "P=3{C=1{MF=L/1/1},C=3{MV=L/1/1},C=${MV=L/1/1{ER=503{}}}}"
    );
    // Subtract, and Add of one that is out of service.
    assert_eq!(
        inside("T=4{C=3{S=L/1/1,A=L/1/1,A=L/1/3}}", &mut table),
        "P=4{C=3{S=L/1/1,A=L/1/1,A=L/1/3}}"
    );
}

#[test]
fn out_of_service_before_no_context_and_no_room() {
    let mut table = [0; 1522];
    for place in 0..128 {
        (table[place], table[624 + place]) = (place as u32 + 1, 1);
    }
    table[312] = 8;
    assert_eq!(
        inside("T=1{C=${O-MV=L/1/1,O-MV=L/1/2}}", &mut table),
        "P=1{C=${MV=L/1/1{ER=503{}},MV=L/1/2{ER=412{}}}}"
    );
    table[200..207].fill(128);
    assert_eq!(
        inside("T=1{C=128{O-MV=L/1/1,O-MV=L/1/2}}", &mut table),
        "P=1{C=128{MV=L/1/1{ER=503{}},MV=L/1/2{ER=434{}}}}"
    );
}

#[test]
fn subtracted_line_keeps_its_state() {
    let mut table = [0; 1522];
    let request = "T=1{C=${A=L/1/1{M{TS{SI=te},O{mode=LoopBack}}},A=$,S=L/1/1}}";
    assert_eq!(
        inside(request, &mut table),
        "P=1{C=1{A=L/1/1,A=R/1,S=L/1/1}}"
    );
    assert_eq!(words_of(&table), [(248, 1), (312, 16), (624, 1), (752, 1)]);
}

#[test]
fn no_context_left() {
    // Contexts 1..128, each with one line termination; no ephemeral.
    let mut table = [0; 1522];
    for context in 1..=128 {
        table[context as usize - 1] = context;
        table[623 + context as usize] = 1;
    }
    assert_eq!(
        inside("T=1{C=${O-A=$,O-MV=L/1/1}}", &mut table),
        "P=1{C=${A=${ER=412{}},MV=L/1/1{ER=412{}}}}"
    );
    // The last number is found when it alone is absent.
    assert_eq!(
        inside("T=1{C=128{S=*},C=${PR=7,MV=L/1/1}}", &mut table),
        "P=1{C=128{S=L/5/4},C=128{MV=L/1/1}}"
    );
    assert_eq!((table[0], table[624], table[751]), (128, 0, 8));
}

/// The count, the words of its table, and where properties and records start.
const SIZES: [(u32, usize, usize, usize); 4] = [
    (1, 1_088, 95, 190),
    (8, 1_522, 312, 624),
    (9, 1_584, 343, 686),
    (16, 2_018, 560, 1_120),
];

#[test]
fn sizes_follow_from_the_count() {
    for (count, words, properties, records) in SIZES {
        let lines = Lines::fitted(count).unwrap();
        assert_eq!(lines.words(), words);
        assert_eq!((lines.properties(), lines.records()), (properties, records));
        for length in [0, words - 62, words - 1, words, words + 1, words + 62] {
            let got = answer(
                count,
                b"x",
                &mut vec![0; length],
                &mut [0; 256],
                OWN,
                &mut [0; 16_640],
            );
            assert_eq!(
                got == Answer::TableUnsound,
                length != words,
                "{count}: {length}"
            );
        }
    }
}

#[test]
fn count_outside_1_to_16() {
    // "8 for a count outside 1..16, before 3": nothing else is right either.
    for count in [0, 17, 18, 255, 256, 264, 65_544, 1 << 31, u32::MAX] {
        for (words, length) in [(0, 0), (1522, 16_640), (1_824, 16_640)] {
            let mut table = vec![7; words];
            let mut reply = vec![FILL; length];
            let got = answer(count, b"", &mut table, &mut [0; 256], b"", &mut reply);
            assert_eq!(got, Answer::LinesUnfit, "{count}");
            assert!(table.iter().all(|&word| word == 7));
            assert!(reply.iter().all(|&byte| byte == FILL));
        }
    }
    for count in 1..=16 {
        let refused = answer(count, b"", &mut [], &mut [], b"", &mut [FILL; 16_639]);
        assert_eq!(refused, Answer::ReplyTooShort);
    }
}

#[test]
fn names_of_every_count() {
    for count in 1..=16 {
        let lines = Lines::fitted(count).unwrap();
        let mut expected = 0;
        for line in 1..=count {
            for channel in 1..=31 {
                let name = format!("L/{line}/{channel}");
                let found = Name::of(lines, name.as_bytes());
                assert_eq!(found, Name::Termination(expected), "{name} of {count}");
                expected += 1;
            }
            let name = format!("l/{line}/*");
            let range = expected - 31..expected;
            assert_eq!(Name::of(lines, name.as_bytes()), Name::Wildcard(range));
        }
        assert_eq!(expected, lines.line_terminations());
        for ephemeral in 1..=64 {
            let name = format!("r/{ephemeral}");
            let found = Name::of(lines, name.as_bytes());
            assert_eq!(found, Name::Termination(expected), "{name} of {count}");
            expected += 1;
        }
        assert_eq!(expected, lines.terminations());
        assert_eq!(Name::of(lines, b"*"), Name::Wildcard(0..expected));
        // A number's name is read back as that number.
        for number in 0..expected {
            let mut name = Vec::new();
            write_name(lines, number, &mut name);
            assert_eq!(Name::of(lines, &name), Name::Termination(number));
        }
        for line in count + 1..130 {
            let one = Name::of(lines, format!("L/{line}/1").as_bytes());
            let all = Name::of(lines, format!("L/{line}/*").as_bytes());
            assert_eq!((one, all), (Name::Unknown, Name::BadWildcard));
        }
        for name in [
            "L/0/1", "L/01/1", "L//1", "L/1", "L/1/", "L/1/01", "L/1/32", "L/1/1/1",
        ] {
            assert_eq!(Name::of(lines, name.as_bytes()), Name::Unknown, "{name}");
        }
        for name in [
            "L/0/*", "L/01/*", "L//*", "L/*/*", "L/1/**", "L/1*", "L/1/1/*", "L/-/*",
        ] {
            assert_eq!(
                Name::of(lines, name.as_bytes()),
                Name::BadWildcard,
                "{name}"
            );
        }
    }
}

#[test]
fn other_counts() {
    // The last channel of the last line, the line after it, and an ephemeral.
    for (count, words, properties, records) in SIZES {
        let mut table = vec![0; words];
        let next = count + 1;
        let request =
            format!("T=1{{C=${{A=L/{count}/31,O-A=L/{next}/1,O-A=L/{next}/*,A=R/$,MF=*{{M{{O{{MO=SR}}}}}}}}}}");
        let reply = format!(
            "P=1{{C=1{{A=L/{count}/31,A=L/{next}/1{{ER=430{{}}}},A=L/{next}/*{{ER=431{{}}}},A=R/1,\
             MF=L/{count}/31,MF=R/1}}}}"
        );
        assert_eq!(inside_on(count, &request, &mut table), reply);
        let ephemeral = 31 * count as usize;
        let last = ephemeral - 1;
        let after = [
            (last, 1),
            (ephemeral, 1),
            (properties + last, 3),
            (properties + ephemeral, 3),
            (records, 1),
            (records + 128, 1),
            (records + 130, 258),
        ];
        assert_eq!(words_of(&table), after);
        let request = format!("T=2{{C=1{{S=L/{count}/*,S=R/*}}}}");
        let reply = format!("P=2{{C=1{{S=L/{count}/31,S=R/1{{SA{{rtp/pr=0,rtp/jit=0}}}}}}}}");
        assert_eq!(inside_on(count, &request, &mut table), reply);
        assert_eq!(words_of(&table), []);
    }
    // The session has the same replies on sixteen lines.
    let mut table = vec![0; 2_018];
    for (request, reply) in SESSION {
        assert_eq!(inside_on(16, request, &mut table), reply);
    }
    assert_eq!(words_of(&table), [(4, 2), (564, 3), (1_121, 1)]);
    // One line has 64 ephemerals too.
    let mut table = vec![0; 1_088];
    for context in 1..=8 {
        let reply = inside_on(1, "T=1{C=${A=$,A=$,A=$,A=$,A=$,A=$,A=$,A=$}}", &mut table);
        assert!(
            reply.ends_with(&format!("A=R/{}}}}}", 8 * context)),
            "{reply}"
        );
    }
    assert_eq!(
        table[30..96],
        [
            &[0],
            [1, 2, 3, 4, 5, 6, 7, 8].map(|c| [c; 8]).as_flattened(),
            &[0]
        ]
        .concat()
    );
    assert_eq!(table[318..320], [u32::MAX; 2]);
    assert_eq!(
        inside_on(1, "T=1{C=${A=$}}", &mut table),
        "P=1{C=${A=${ER=432{}}}}"
    );
}

#[test]
fn map_of_the_ephemerals() {
    // All 64; then one at a time goes and comes back as the lowest absent one.
    for (count, words, _, records) in SIZES {
        let map = records + 128..records + 130;
        let mut table = vec![0; words];
        for _ in 1..=8 {
            let request = "T=1{C=${A=$,A=$,A=$,A=$,A=$,A=$,A=$,A=$}}";
            inside_on(count, request, &mut table);
        }
        let full = table.clone();
        assert_eq!(full[map.clone()], [u32::MAX; 2]);
        for (number, low, high) in [
            (1, !1, !0),
            (31, !(1 << 30), !0),
            (32, !(1 << 31), !0),
            (33, !0, !1),
            (64, !0, !(1 << 31)),
        ] {
            let context = (number - 1) / 8 + 1;
            let request = format!("T=1{{C={context}{{S=r/{number}}}}}");
            inside_on(count, &request, &mut table);
            assert_eq!(table[map.clone()], [low, high]);
            let request = format!("T=1{{C={context}{{A=$}}}}");
            let reply = format!("P=1{{C={context}{{A=R/{number}}}}}");
            assert_eq!(inside_on(count, &request, &mut table), reply);
            assert_eq!(table, full);
        }
        // A Move changes no place of it.
        inside_on(count, "T=1{C=${MV=R/33,MV=R/1}}", &mut table);
        assert_eq!(table[map.clone()], [u32::MAX; 2]);
        // Halves that are exchanged are unsound.
        inside_on(count, "T=1{C=1{S=*}}", &mut table);
        let [low, high] = table[map.clone()] else {
            panic!("two words");
        };
        assert_eq!((low, high), (0xFFFF_FF01, u32::MAX));
        table[map.clone()].reverse();
        let got = answer(
            count,
            b"x",
            &mut table,
            &mut [0; 256],
            OWN,
            &mut [0; 16_640],
        );
        assert_eq!(got, Answer::TableUnsound);
    }
}

/// The flows of context 1 on eight lines: bit 8i + j, low half first.
fn flows(table: &[u32; 1522]) -> u64 {
    u64::from(table[754]) | u64::from(table[755]) << 32
}

/// Member i to member j for each pair given.
fn pairs(all: &[(u32, u32)]) -> u64 {
    all.iter()
        .fold(0, |flows, (from, to)| flows | 1 << (8 * from + to))
}

#[test]
fn figure_7() {
    let mut table = [0; 1522];
    inside("T=1{C=${A=L/1/1,A=L/1/2,A=L/1/3}}", &mut table);
    let all = pairs(&[(0, 1), (1, 0), (0, 2), (2, 0), (1, 2), (2, 1)]);
    assert_eq!(flows(&table), all);
    let (t1, t2, t3) = ("L/1/1", "L/1/2", "L/1/3");
    for (first, second, direction, left) in [
        (t1, t2, "Isolate", pairs(&[(0, 2), (2, 0), (1, 2), (2, 1)])),
        (t3, t2, "OW", pairs(&[(0, 2), (2, 0), (2, 1)])),
        (t2, t3, "oneway", pairs(&[(0, 2), (2, 0), (1, 2)])),
        (t2, t3, "BW", pairs(&[(0, 2), (2, 0), (1, 2), (2, 1)])),
        (t1, t2, "bothway", all),
    ] {
        let request = format!("T=2{{C=1{{TP{{{first},{second},{direction}}}}}}}");
        assert_eq!(inside(&request, &mut table), "P=2{C=1{PR=0}}");
        assert_eq!(flows(&table), left, "{request}");
    }
}

#[test]
fn topology() {
    // L/1/1 and R/1 in context 1, L/2/1 alone in context 2.
    let mut start = [0; 1522];
    inside("T=1{C=${A=L/1/1,A=$},C=${A=L/2/1}}", &mut start);
    for (request, reply) in [
        ("C=1{TP{L/1/1,R/1,OW}}", "C=1{PR=0}"),
        ("C=1{tp { l/1/1 ,;c\nr/1 , Oneway } , EG}", "C=1{PR=0,EG}"),
        (
            "C=1{TP{L/1/1,R/1,OW,R/1,L/1/1,IS},TP{L/1/1,R/1,BW}}",
            "C=1{PR=0}",
        ),
        ("C=1{TP{L/1/1,R/1,IS},MF=R/1}", "C=1{MF=R/1}"),
        ("C=1{TP{foo,FOO,IS}}", "C=1{ER=410{}}"),
        ("C=1{TP{L/1/1,l/1/1,IS}}", "C=1{ER=410{}}"),
        ("C=1{TP{L/1/1,*,IS}}", "C=1{ER=410{}}"),
        ("C=1{TP{R/9,R/$,IS}}", "C=1{ER=410{}}"),
        ("C=1{TP{root,R/9,IS}}", "C=1{ER=410{}}"),
        ("C=1{TP{L/1/1,L/01/1,IS}}", "C=1{ER=430{}}"),
        ("C=1{PR=3,TP{L/2/1,R/9,IS}}", "C=1{ER=430{}}"),
        (
            "C=1{TP{L/1/1,R/1,OW,L/1/1,L/2/1,IS,foo,foo,IS}}",
            "C=1{ER=435{}}",
        ),
        ("C=1{TP{L/1/1,L/1/2,IS},A=L/1/2}", "C=1{ER=435{}}"),
        ("C=1{PR=16,TP{foo,foo,IS}}", "C=1{ER=449{}}"),
        ("C=9{TP{a,a,IS}}", "C=9{ER=411{}}"),
        ("C=${TP{L/1/1,R/1,IS},A=$}", "C=${ER=421{}}"),
        ("C=-{TP{L/1/1,R/1,IS}}", "C=-{ER=421{}}"),
        ("C=*{TP{L/1/1,R/1,IS}}", "C=*{ER=421{}}"),
    ] {
        let mut table = start;
        let got = inside(&format!("T=1{{{request}}}"), &mut table);
        assert_eq!(got, format!("P=1{{{reply}}}"), "{request}");
        if reply.contains("ER=") {
            assert_eq!(table, start, "{request}");
        }
    }
    for request in [
        "C=1{TP{L/1/1,R/1,XX}}",
        "C=1{TP{L/1/1,R/1}}",
        "C=1{TP{}}",
        "C=1{TP=1}",
        "C=1{TP}",
        "C=1{O-TP{L/1/1,R/1,IS}}",
        "C=1{MF=R/1,TP{L/1/1,R/1,IS}}",
        "C=1{TP{L/1/1,R/1,IS,}}",
    ] {
        let got = inside(&format!("T=1{{{request}}}"), &mut start.clone());
        assert_eq!(got, "P=1{ER=403{}}", "{request}");
    }
    // Places move with the members' order; a pair that is named stays.
    let mut table = start;
    inside("T=1{C=1{TP{R/1,L/1/1,OW}}}", &mut table);
    assert_eq!(flows(&table), pairs(&[(1, 0)]));
    inside("T=1{C=1{A=L/8/31}}", &mut table);
    assert_eq!(
        flows(&table),
        pairs(&[(2, 0), (0, 1), (1, 0), (1, 2), (2, 1)])
    );
    inside("T=1{C=1{S=L/1/1}}", &mut table);
    assert_eq!(flows(&table), pairs(&[(0, 1), (1, 0)]));
    inside("T=1{C=2{MV=R/1}}", &mut table);
    assert_eq!(flows(&table), 0);
    assert_eq!(table[756], 258);
}

#[test]
fn flows_not_sound() {
    // Three members: any flow between two of them is sound, no other is.
    let mut sound = [0; 1522];
    inside("T=1{C=${A=L/1/1,A=L/1/2,A=L/1/3}}", &mut sound);
    for bit in 0..64 {
        let mut table = sound;
        table[754 + bit / 32] ^= 1 << (bit % 32);
        let (from, to) = (bit / 8, bit % 8);
        let got = answer(8, b"x", &mut table, &mut [0; 256], OWN, &mut [0; 16_640]);
        let fits = from < 3 && to < 3 && from != to;
        assert_eq!(got != Answer::TableUnsound, fits, "{bit}");
    }
    // An absent context has none.
    for place in 756..1010 {
        let mut table = sound;
        table[place] = 2;
        let got = answer(8, b"x", &mut table, &mut [0; 256], OWN, &mut [0; 16_640]);
        assert_eq!(got, Answer::TableUnsound, "{place}");
    }
}

#[test]
fn asked_of_the_map_alone() {
    for (map, lowest, used) in [
        (0, 1, 0),
        (1, 2, 1),
        (0b1011, 3, 3),
        (0x7FFF_FFFF, 32, 31),
        (0xFFFF_FFFF, 33, 32),
        (0x1_FFFF_FFFF, 34, 33),
        (0xFFFF_FFFF_0000_0000, 1, 32),
        (u64::MAX >> 1, 64, 63),
        (u64::MAX - 1, 1, 63),
        (u64::MAX, 0, 64),
    ] {
        assert_eq!(lowest_absent(map), lowest, "{map:x}");
        assert_eq!(in_use(map), used, "{map:x}");
    }
}

/// A small generator of numbers for the noise below.
struct Numbers(u64);

impl Numbers {
    fn next(&mut self, under: usize) -> usize {
        self.0 ^= self.0 << 13;
        self.0 ^= self.0 >> 7;
        self.0 ^= self.0 << 17;
        (self.0 >> 11) as usize % under
    }
}

#[test]
fn line_noise() {
    // Well-formed requests with bytes changed, cut and swapped: each call ends,
    // leaves a sound table, and leaves the bytes past its reply.
    let pieces: [&str; 24] = [
        "!/1 [1.2.3.4] ",
        "T=5{",
        "C=${",
        "C=1{",
        "C=-{",
        "A=$",
        "A=*",
        "MV=*",
        "S=*",
        "MF=L/1/*",
        "S=R/2",
        "A=L/3/7",
        "O-",
        "W-",
        "{M{O{MO=SR}}}",
        "{M{TS{SI=\"OS\"}}}",
        "PR=3",
        "EG",
        ",",
        ",",
        "}",
        "}}",
        ";c\n",
        "\u{7f}",
    ];
    let mut numbers = Numbers(0x9E37_79B9_7F4A_7C15);
    let mut table = [0; 1522];
    for round in 0..20_000 {
        let mut message = b"!/1 [1.2.3.4] T=5{C=${A=$".to_vec();
        for _ in 0..numbers.next(12) {
            message.extend_from_slice(pieces[numbers.next(pieces.len())].as_bytes());
        }
        message.extend_from_slice(b"}}");
        for _ in 0..numbers.next(3) {
            let place = numbers.next(message.len());
            message[place] = numbers.next(256) as u8;
        }
        message.truncate(1 + numbers.next(2 * message.len()));
        whole(&message, &mut table);
        let sound = answer(8, b"x", &mut table, &mut [0; 256], OWN, &mut [0; 16_640]);
        assert_ne!(sound, Answer::TableUnsound);
        if round % 64 == 0 {
            table = [0; 1522];
        }
    }
}

#[test]
fn speech_sound_only_so() {
    // R/1 in context 1, which is all that there is.
    let mut sound = [0; 1522];
    inside("T=1{C=${A=$}}", &mut sound);
    let taken = |place: usize, side: [u32; 4]| {
        let mut table = sound;
        table[place..][..4].copy_from_slice(&side);
        answer(8, b"x", &mut table, &mut [0; 256], OWN, &mut [0; 16_640]) != Answer::TableUnsound
    };
    for place in [1010, 1014] {
        assert!(taken(place, [1, 0, 0, 0]));
        assert!(taken(place, [1, u32::MAX, 65_535, 127]));
        assert!(!taken(place, [1, 0, 65_536, 0]));
        assert!(!taken(place, [1, 0, 0, 128]));
        assert!(!taken(place, [2, 0, 0, 0]));
        for side in [[0, 1, 0, 0], [0, 0, 1, 0], [0, 0, 0, 1]] {
            assert!(!taken(place, side));
        }
    }
    // "absent ones zero"
    for place in (1018..1522).step_by(4) {
        assert!(!taken(place, [1, 0, 0, 0]));
    }
    // "Subtract forgets them", and a Move keeps them.
    let mut table = sound;
    table[1010..1018].copy_from_slice(&[1, 2, 3, 4, 1, 6, 7, 8]);
    inside("T=1{C=${MV=R/1}}", &mut table);
    assert_eq!(table[1010..1018], [1, 2, 3, 4, 1, 6, 7, 8]);
    inside("T=1{C=2{S=R/1}}", &mut table);
    assert_eq!(table, [0; 1522]);
}

/// A text of the subset, and the words that are kept of it.
const SDP: &str = "v=0\nc=IN IP4 1.2.3.4\nm=audio 5000 RTP/AVP 8";
const KEPT: [u32; 4] = [1, 0x0102_0304, 5_000, 8];

#[test]
fn texts_of_the_subset() {
    let session = |address, port, payload_type| Session {
        address,
        port,
        payload_type,
    };
    let read = |text: &str| sdp::session(text.as_bytes());
    assert_eq!(read(SDP), Some(session(0x0102_0304, 5_000, 8)));
    let other = |from: &str, to: &str| read(&SDP.replacen(from, to, 1));
    // "a line ends at CR, LF, both or the text's end"
    for end in ["\r", "\r\n", "\n\r", "\n\n", "\n \t\n"] {
        assert!(read(&SDP.replace('\n', end)).is_some(), "{end:?}");
        assert!(read(&format!("{SDP}{end}")).is_some(), "{end:?}");
    }
    // "lines of another letter and `=`, skipped; letter case counting"
    for line in [
        "s=",
        "o=- 1 \u{80}\u{1}{\\}",
        "V=0",
        "C=IN IP4 9.9.9.9",
        "M=audio 1 RTP/AVP 1",
    ] {
        assert!(
            read(&format!("{line}\n{SDP}\r\n{line}")).is_some(),
            "{line}"
        );
        assert!(other("\n", &format!("\n{line}\n")).is_some(), "{line}");
    }
    // Numbers, on both sides of each limit; leading zeros.
    for (address, word) in [
        ("0.0.0.0", Some(0)),
        ("255.255.255.255", Some(u32::MAX)),
        ("001.020.003.255", Some(0x0114_03FF)),
        ("256.0.0.0", None),
        ("0.0.0.256", None),
        ("0001.0.0.0", None),
        ("1.2.3", None),
        ("1.2.3.", None),
        ("1..3.4", None),
        ("1.2.3.4.5", None),
        ("1.2.3.4/127", None),
        ("", None),
    ] {
        let kept = other("1.2.3.4", address).map(|kept| kept.address);
        assert_eq!(kept, word, "{address}");
    }
    for (port, word) in [
        ("0", Some(0)),
        ("65535", Some(65_535)),
        ("00001", Some(1)),
        ("65536", None),
        ("99999", None),
        ("000001", None),
        ("", None),
        ("5000/2", None),
        ("-1", None),
    ] {
        let kept = other("5000", port).map(|kept| kept.port);
        assert_eq!(kept, word, "{port}");
    }
    for (payload_type, word) in [
        ("0", Some(0)),
        ("127", Some(127)),
        ("007", Some(7)),
        ("128", None),
        ("0007", None),
        ("", None),
        ("0 8", None),
    ] {
        let kept = other("AVP 8", &format!("AVP {payload_type}")).map(|kept| kept.payload_type);
        assert_eq!(kept, word, "{payload_type}");
    }
    // Every other line is the one that it must be, each once and in that order.
    for (from, to) in [
        ("v=0", "v=1"),
        ("v=0", "v=00"),
        ("v=0", " v=0"),
        ("v=0", "v=0 "),
        ("v=0", "v"),
        ("v=0", "V=0"),
        ("v=0\n", ""),
        ("v=0", "v=0\nv=0"),
        ("v=0", "v=0\n=1"),
        ("v=0", "v=0\n1=1"),
        ("v=0", "v=0\nss=1"),
        ("v=0", "v=0\n\u{b}"),
        ("v=0", "s =0\nv=0"),
        ("IN IP4", "IN  IP4"),
        ("IN IP4", "IN\tIP4"),
        ("IN IP4", "in IP4"),
        ("IN IP4", "IN IP6"),
        ("4\n", "4 \n"),
        ("audio", "video"),
        ("audio", "Audio"),
        ("audio 5000", "audio  5000"),
        ("RTP/AVP", "RTP/SAVP"),
        ("RTP/AVP", "rtp/avp"),
        ("AVP 8", "AVP  8"),
        ("AVP 8", "AVP 8 "),
        ("AVP 8", "AVP 8\t"),
        ("AVP 8", "AVP"),
        ("AVP 8", "AVP 8\nm=audio 5000 RTP/AVP 8"),
        ("AVP 8", "AVP 8\nc=IN IP4 1.2.3.4"),
    ] {
        assert_ne!(SDP.replacen(from, to, 1), SDP);
        assert_eq!(other(from, to), None, "{to}");
    }
    let lines: Vec<&str> = SDP.lines().collect();
    for order in [[0, 2, 1], [1, 0, 2], [1, 2, 0], [2, 0, 1], [2, 1, 0]] {
        let text = order.map(|place| lines[place]).join("\n");
        assert_eq!(read(&text), None, "{text}");
    }
    for missing in 0..3 {
        let text = [lines[missing], lines[(missing + 1) % 3]].join("\n");
        assert_eq!(read(&text), None, "{text}");
    }
    assert_eq!(read("s=x"), None);
}

/// L/1/1 and R/1 in context 1, R/1 with a session for either side.
fn speaking() -> [u32; 1522] {
    let mut table = [0; 1522];
    inside("T=1{C=${A=L/1/1,A=$}}", &mut table);
    table[1010..1018].copy_from_slice(&[1, 2, 3, 4, 1, 6, 7, 8]);
    table
}

#[test]
fn where_a_text_stands() {
    // The items of a Modify of R/1, and the code or 0; 403 is of the reading.
    for (items, code) in [
        (&format!("M{{L{{{SDP}}}}}")[..], 0),
        (&format!("media{{ LOCAL ;c\n{{ ;}}\r\n{SDP}\r\n}} }}"), 0),
        (&format!("M{{L{{{SDP}\ns=\\}}}}}}"), 0),
        (&format!("M{{L{{{SDP}\ns=\\\\}} }}}}"), 0),
        (
            &format!("M{{L{{{SDP}}},R{{{SDP}}},O{{MO=SR}},TS{{SI=TE}}}}"),
            0,
        ),
        ("M{L{}}", 0),
        ("M{R{ ;c\r\t}}", 0),
        (&format!("M{{L{{{SDP} }}}}"), 449),
        (&format!("M{{L{{{SDP}\\}}}}}}"), 449),
        ("M{L{\\}}}", 449),
        ("M{L{v=0}}", 449),
        ("M{L{v=0;c}}", 449),
        ("M{L{v=0},ZZ}", 449),
        ("M{ZZ,L{v=0}}", 444),
        ("M{L{},l{v=0}}", 448),
        ("M{L{},L}", 448),
        ("M{R{},Remote=5}", 448),
        ("M{L}", 442),
        ("M{L=5}", 442),
        ("M{L=5{a}}", 442),
        ("M{R=\"5\"{a{b}},L{v=0}}", 442),
        ("M{L/x{a}}", 444),
        ("M=5{L{v=0}}", 442),
        ("M=5{L{}}", 442),
        ("M/x{L{a}}", 444),
        ("L{a}", 444),
        ("AT{M{L{a}}}", 444),
        ("X{M{L{a}}}", 444),
        ("M{L=5{}}", 403),
        ("M{L/x{}}", 403),
        ("M/x{L{}}", 403),
        ("L{}", 403),
        ("AT{M{L{}}}", 403),
        ("X{M{L{}}}", 403),
        ("M{O{L{}}}", 403),
        ("M{LL{}}", 403),
        ("M{L{;c}}", 403),
        ("M{L{\\}}", 403),
        ("M{L{\0}}", 403),
        ("M{L{s=\0}}", 403),
        ("M{L{v=0", 403),
        ("M{L{", 403),
        ("M{L{}", 403),
        ("M{L{}{}}", 403),
        ("M{L={}}", 403),
    ] {
        let mut table = speaking();
        let got = inside(&format!("T=1{{C=1{{MF=R/1{{{items}}}}}}}"), &mut table);
        let reply = match code {
            0 => "P=1{C=1{MF=R/1}}".to_string(),
            403 => "P=1{ER=403{}}".to_string(),
            _ => format!("P=1{{C=1{{MF=R/1{{ER={code}{{}}}}}}}}"),
        };
        assert_eq!(got, reply, "{items:?}");
        assert_eq!(table == speaking(), code != 0, "{items:?}");
    }
    // Bytes 80..FF stand in a text.
    let message = [
        HEADER_IN.as_bytes(),
        b"T=1{C=1{MF=R/1{M{L{\x80\xff\x01}}}}}",
    ]
    .concat();
    assert_eq!(
        whole(&message, &mut speaking()),
        "P=1{C=1{MF=R/1{ER=449{}}}}"
    );
}

#[test]
fn speech_given() {
    // "given one replaces whole, absent one stays"; "empty text releases it"
    let other = SDP.replace("5000", "1").replace("AVP 8", "AVP 0");
    for (items, kept) in [
        (format!("L{{{SDP}}}"), [KEPT, [1, 6, 7, 8]]),
        (format!("R{{{SDP}}}"), [[1, 2, 3, 4], KEPT]),
        (format!("R{{{SDP}}},L{{}}"), [[0; 4], KEPT]),
        (format!("L{{{SDP}}},R{{ }}"), [KEPT, [0; 4]]),
        (
            format!("L{{{SDP}}},R{{{other}}}"),
            [KEPT, [1, 0x0102_0304, 1, 0]],
        ),
        ("O{MO=SR}".to_string(), [[1, 2, 3, 4], [1, 6, 7, 8]]),
    ] {
        for command in ["C=1{MF", "C=${MV"] {
            let mut table = speaking();
            inside(
                &format!("T=1{{{command}=R/1{{M{{{items}}}}}}}}}"),
                &mut table,
            );
            assert_eq!(table[1010..1018], *kept.as_flattened(), "{command} {items}");
        }
    }
    // An Add gives it; a new one has none; the last ephemeral of any count.
    for (count, words, ..) in SIZES {
        let mut table = vec![0; words];
        for _ in 1..=8 {
            let request = "T=1{C=${A=$,A=$,A=$,A=$,A=$,A=$,A=$,A=$}}";
            inside_on(count, request, &mut table);
        }
        assert!(table[words - 512..].iter().all(|&word| word == 0));
        let request = format!("T=1{{C=8{{S=R/64,A=${{M{{R{{{SDP}}}}}}}}}}}");
        inside_on(count, &request, &mut table);
        assert_eq!(words_of(&table[words - 512..]).len(), 4);
        assert_eq!(table[words - 4..], KEPT);
        inside_on(count, "T=1{C=8{S=R/64,A=$}}", &mut table);
        assert!(table[words - 512..].iter().all(|&word| word == 0));
    }
    // "audits answer as before", and the table stays.
    let mut table = speaking();
    assert_eq!(
        inside("T=1{C=1{AV=R/1{AT{M}}}}", &mut table),
        "P=1{C=1{AV=R/1{M{TS{SI=IV},O{MO=IN}}}}}"
    );
    assert_eq!(table, speaking());
}

#[test]
fn speech_on_a_line() {
    // L/1/1 and R/1 in context 1, L/1/2 out of service in 2, others in null.
    let mut start = speaking();
    inside("T=1{C=${A=L/1/2{M{TS{SI=OS}}}}}", &mut start);
    let text = format!("{{M{{L{{{SDP}}}}}}}");
    let codes = |codes: &[u32], names: &[&str], word: &str| -> String {
        let pairs = codes.iter().zip(names);
        let all: Vec<String> = pairs
            .map(|(code, name)| format!("{word}={name}{{ER={code}{{}}}}"))
            .collect();
        all.join(",")
    };
    for (context, word, names, expected) in [
        // After the place test, which the name test comes before.
        (
            "1",
            "A",
            vec!["L/1/3", "L/1/1", "L/9/1", "R/2"],
            vec![447, 433, 430, 430],
        ),
        (
            "1",
            "MF",
            vec!["L/1/1", "L/1/2", "L/1/3"],
            vec![447, 435, 435],
        ),
        (
            "-",
            "MF",
            vec!["L/1/1", "L/1/3", "ROOT"],
            vec![435, 447, 447],
        ),
        // After 503 too.
        (
            "1",
            "MV",
            vec!["L/1/1", "L/1/2", "L/1/3"],
            vec![433, 503, 435],
        ),
        ("2", "MV", vec!["L/1/1", "L/1/2"], vec![447, 433]),
        ("$", "MV", vec!["L/1/1", "L/1/2"], vec![447, 503]),
        // Any item on these; before the names.
        ("1", "S", vec!["L/1/1", "R/1", "x"], vec![447, 447, 447]),
        ("1", "AV", vec!["L/1/1", "R/1", "x"], vec![447, 447, 447]),
    ] {
        for text in [&text[..], "{M{R{}}}"] {
            let commands: Vec<String> = names
                .iter()
                .map(|name| format!("O-{word}={name}{text}"))
                .collect();
            let request = format!("T=1{{C={context}{{{}}}}}", commands.join(","));
            let mut table = start;
            let reply = format!("P=1{{C={context}{{{}}}}}", codes(&expected, &names, word));
            assert_eq!(inside(&request, &mut table), reply, "{request}");
            assert_eq!(table, start);
        }
    }
    // An unknown command's texts are read too.
    assert_eq!(
        inside("T=1{C=1{N=R/1{M{L{}}}}}", &mut start),
        "P=1{C=1{ER=443{}}}"
    );
    assert_eq!(inside("T=1{C=1{N=R/1{M{L{}", &mut start), "P=1{ER=403{}}");
    // `MF=*` over lines and ephemerals: each by itself.
    assert_eq!(
        inside(&format!("T=1{{C=1{{O-MF=*{text}}}}}"), &mut start),
        "P=1{C=1{MF=L/1/1{ER=447{}},MF=R/1}}"
    );
    assert_eq!(start[1010..1014], KEPT);
    // 447 before 412 and 434.
    let mut table = [0; 1522];
    for place in 0..128 {
        (table[place], table[624 + place]) = (place as u32 + 1, 1);
    }
    let request = format!("T=1{{C=${{O-A=${text},O-A=L/8/1{text},O-MV=L/1/1{text}}}}}");
    assert_eq!(
        inside(&request, &mut table),
        "P=1{C=${A=${ER=412{}},A=L/8/1{ER=447{}},MV=L/1/1{ER=447{}}}}"
    );
    table[200..207].fill(128);
    assert_eq!(
        inside(&request.replace("C=$", "C=128"), &mut table),
        "P=1{C=128{A=${ER=434{}},A=L/8/1{ER=447{}},MV=L/1/1{ER=447{}}}}"
    );
}
