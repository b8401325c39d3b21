//! Kept replies, repeats and acknowledgements through the archive that is linked.

use cordafina::{answer, answer_word, table_words};
use cordafina::{Blocks, Gateway, Refusal, Room, Table};
use cordafina::{BLOCK_WORDS, REPLY_BYTES, ROOM_BYTES, ROOM_WORDS};

const OWN: &[u8] = b"[10.0.0.9]";
const FILL: u8 = 0xA5;

/// What stands behind the reply's header, for parts from a sender.
fn from(gateway: &mut Gateway, sender: &str, parts: &str) -> String {
    let message = format!("!/1 {sender} {parts}");
    let reply = gateway.answer(message.as_bytes()).unwrap();
    let text = String::from_utf8(reply.to_vec()).unwrap();
    text.replacen("!/1 [10.0.0.9] ", "", 1)
}

fn says(gateway: &mut Gateway, parts: &str) -> String {
    from(gateway, "[10.0.0.1]", parts)
}

/// A gateway that keeps the replies of 1 to so many.
fn crowded(count: u32) -> Gateway {
    let mut gateway = Gateway::new(OWN).unwrap();
    for id in 1..=count {
        says(&mut gateway, &format!("T={id}{{C=-{{MF=ROOT}}}}"));
    }
    gateway
}

#[test]
fn a_repeat_has_the_same_bytes() {
    let mut gateway = Gateway::new(OWN).unwrap();
    let reply = says(&mut gateway, "T=7{C=${A=L/1/5,A=$}}");
    assert_eq!(reply, "P=7{C=1{A=L/1/5,A=R/1}}");
    let (table, room) = (gateway.table().clone(), gateway.room().clone());
    for again in [
        "T=7{C=${A=L/1/5,A=$}}",
        "T=007{C=1{S=*}}",
        "Transaction=7{C=*{A=$}}",
    ] {
        assert_eq!(says(&mut gateway, again), reply);
        assert!(*gateway.table() == table && *gateway.room() == room);
    }
    // Another sender's runs; a faulty repeat is faulty.
    assert_eq!(
        from(&mut gateway, "[10.0.0.01]", "T=7{C=1{A=$}}"),
        "P=7{C=1{A=R/2}}"
    );
    assert_eq!(says(&mut gateway, "T=7{C=1{}}"), "P=7{ER=403{}}");
    assert_eq!(gateway.room().kept(), 2);
}

#[test]
fn the_oldest_goes_and_k_drops() {
    let mut gateway = crowded(16);
    assert_eq!(gateway.room().kept(), 16);
    assert_eq!(
        says(&mut gateway, "T=17{C=9{S=*}}"),
        "P=17{C=9{S=*{ER=411{}}}}"
    );
    assert_eq!(gateway.room().kept(), 16);
    assert_eq!(says(&mut gateway, "T=2{C=9{S=*}}"), "P=2{C=-{MF=ROOT}}");
    assert_eq!(
        says(&mut gateway, "T=1{C=9{S=*}}"),
        "P=1{C=9{S=*{ER=411{}}}}"
    );
    assert_eq!(from(&mut gateway, "a", "K{1-4294967295}"), "");
    assert_eq!(gateway.room().kept(), 16);
    assert_eq!(says(&mut gateway, "K{3,5-9}"), "");
    assert_eq!(gateway.room().kept(), 10);
    for faulty in ["K{0}", "K{9-5}", "K{}", "K{1 - 2}", "K=1"] {
        assert_eq!(says(&mut gateway, faulty), "ER=400{}");
    }
    assert_eq!(gateway.room().kept(), 10);
    let reply = says(&mut gateway, "K{4}T=4{C=9{S=*}}K{4}");
    assert_eq!(reply, "P=4{C=9{S=*{ER=411{}}}}");
    assert_eq!(gateway.room().kept(), 9);
}

/// The words and bytes are laid out as the header for C says.
#[test]
fn the_layout() {
    let mut gateway = crowded(1);
    from(&mut gateway, "gw/a", "T=4294967295{C=9{S=*}}");
    let (words, bytes) = gateway.room().parts();
    assert_eq!(words[..3], [1, 2, 0]);
    assert_eq!(words[16..18], [1, u32::MAX]);
    assert_eq!(words[32..34], [10, 4]);
    assert_eq!(words[48..50], [17, 32]);
    assert_eq!(&bytes[..11], b"[10.0.0.1]\0");
    assert_eq!(&bytes[72..90], b"P=1{C=-{MF=ROOT}}\0");
    assert_eq!(&bytes[2_120..2_125], b"gw/a\0");
    assert_eq!(
        &bytes[2_192..2_226],
        b"P=4294967295{C=9{S=*{ER=411{}}}}\0\0"
    );
}

#[test]
fn a_room_that_was_kept() {
    let mut gateway = crowded(5);
    let (words, bytes) = gateway.room().parts();
    let (words, bytes) = (words.to_vec(), bytes.to_vec());
    let room = Room::try_from((&words[..], &bytes[..])).unwrap();
    assert_eq!(room, *gateway.room());
    let mut again = Gateway::new(OWN).unwrap().with_room(room);
    let reply = says(&mut gateway, "T=5{C=1{S=*}}");
    assert_eq!(says(&mut again, "T=5{C=1{S=*}}"), reply);
    // Of another size, or not sound.
    let refused = |words: &[u32], bytes: &[u8]| Room::try_from((words, bytes)).err();
    let unsound = Some(Refusal::RoomUnsound);
    assert_eq!(refused(&words[..63], &bytes), unsound);
    assert_eq!(refused(&words, &bytes[..ROOM_BYTES - 1]), unsound);
    for (place, word) in [
        (0, 2),
        (0, 17),
        (5, 7),
        (0, 0),
        (17, 1),
        (32, 73),
        (48, 2_049),
    ] {
        let mut other = words.clone();
        other[place] = word;
        // Another slot, an identifier that is another slot's, and lengths past the limits.
        let sound = (place, word) == (5, 7);
        assert_eq!(refused(&other, &bytes).is_none(), sound, "{place} {word}");
    }
}

/// Acknowledgements alone leave the buffer; a refusal leaves all.
#[test]
fn what_stays() {
    let (mut table, mut blocks) = (Table::fresh(), Blocks::fresh());
    let mut room = crowded(3).room().clone();
    let mut reply = [FILL; REPLY_BYTES];
    let message = b"!/1 [10.0.0.1] K{2}";
    let taken = answer(message, &mut table, &mut room, &mut blocks, OWN, &mut reply);
    assert_eq!(taken, Ok(0));
    assert!(reply.iter().all(|&byte| byte == FILL));
    assert_eq!(room.kept(), 2);

    let lent = (vec![0; table_words(8)], vec![0; BLOCK_WORDS]);
    let message = b"!/1 [10.0.0.1] T=1{C=${A=$}}";
    let rooms = [
        (63, ROOM_BYTES),
        (65, ROOM_BYTES),
        (64, 0),
        (64, ROOM_BYTES + 1),
    ];
    for (words, bytes) in rooms {
        let (mut words, mut bytes) = (vec![0; words], vec![FILL; bytes]);
        let (mut table, mut blocks) = lent.clone();
        let before = (words.clone(), bytes.clone());
        let word = answer_word(
            8,
            message,
            &mut table,
            &mut words,
            &mut bytes,
            &mut blocks,
            OWN,
            &mut reply,
        );
        assert_eq!(word >> 32, 5);
        assert!((table, blocks) == lent && (words, bytes) == before);
        assert!(reply.iter().all(|&byte| byte == FILL));
    }
    // What a free slot has is not judged.
    let (mut words, mut bytes) = (vec![u32::MAX; ROOM_WORDS], vec![FILL; ROOM_BYTES]);
    words[..16].fill(0);
    let (mut table, mut blocks) = lent;
    let word = answer_word(
        8,
        message,
        &mut table,
        &mut words,
        &mut bytes,
        &mut blocks,
        OWN,
        &mut reply,
    );
    assert_eq!(
        (word >> 32, words[0], words[16], words[17]),
        (0, 1, 1, u32::MAX)
    );
}
