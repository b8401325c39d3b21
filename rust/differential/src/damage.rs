//! Damage: what becomes of a message on a bad line.

use crate::numbers::Numbers;

/// Bytes that mean something to a reader, and some that never stand.
const SIGNS: &[u8] = b"{}=,/;:\"[]<>$*-_.@!\\ \t\r\n\0\x7f\x80\xff019AOTWZaotwz";

/// What follows a message that was whole.
const TAILS: [&[u8]; 16] = [
    b"K",
    b"K{",
    b"K{0}",
    b"K{9-8}",
    b";",
    b";x",
    b"\n;x\x7f\n",
    b"\0",
    b"\xff",
    b",",
    b"}",
    b"T",
    b"T=",
    b"T=0",
    b"T=5",
    b" T=5{",
];

/// Damages a message that is not empty, once or a few times.
pub fn damage(numbers: &mut Numbers, message: &mut Vec<u8>) {
    for _ in 0..numbers.pick(&[1, 1, 1, 2, 4]) {
        if numbers.one_in(2) {
            flaw(numbers, message);
        } else {
            slip(numbers, message);
        }
        if message.is_empty() {
            message.push(b' ');
        }
    }
}

/// Bytes changed, lost or doubled on the line.
fn flaw(numbers: &mut Numbers, message: &mut Vec<u8>) {
    let length = message.len();
    let place = numbers.under(length);
    match numbers.under(10) {
        0 => message[place] ^= 1 << numbers.under(8),
        1 => message[place] = numbers.byte(),
        2 => message[place] = numbers.pick(SIGNS),
        3 => message.insert(place, numbers.pick(SIGNS)),
        4 => message.truncate(place + 1),
        5 => {
            message.drain(numbers.part(length, 4));
        }
        6 => {
            message.drain(numbers.part(length, 60));
        }
        7 => {
            // A part stands twice, here or elsewhere.
            let twice = message[numbers.part(length, 40)].to_vec();
            message.splice(place..place, twice);
        }
        8 => message.swap(place, length - 1 - place / 2),
        _ => message.extend_from_slice(numbers.pick(&TAILS)),
    }
}

/// What a hand writes that does not know the grammar well: something in a
/// place where it must not stand.
fn slip(numbers: &mut Numbers, message: &mut Vec<u8>) {
    const AFTER_COMMA: [&[u8]; 19] = [
        b"PR=3,",
        b"EG,",
        b"TP{L/1/1,R/1,OW},",
        b"TP{L/1/1,R/1},",
        b"TP{},",
        b"O-TP{R/1,R/2,IS},",
        b"TP=1,",
        b"O-EG,",
        b"W-PR=1,",
        b"O-PR=3,",
        b"EG=1,",
        b"EG{a},",
        b"PR,",
        b"O-",
        b"W-",
        b"W-O-",
        b"O- ",
        b",",
        b"A=$,",
    ];
    const AFTER_EQUALS: [&[u8]; 10] = [
        b"**,A=", b"*/1,A=", b"$1,A=", b"*$,A=", b"$$,A=", b"-", b"=", b"0", b"1", b"\"\"",
    ];
    const AFTER_BRACE: [&[u8]; 12] = [
        b"L{},",
        b"R{ },",
        b"L{a},",
        b"L=5{},",
        b"R=5{a},",
        b"L/x{a},",
        b"L,",
        b"L{v=0},",
        b"L{;c},",
        b"R{\0},",
        b"L{\\},",
        b"AT{M{L{}}},",
    ];
    const IN_TEXT: [&[u8]; 10] = [
        b"\0",
        b"\\",
        b"}",
        b"\\}",
        b" ",
        b"\n",
        b"\r\n",
        b"\nv=0\n",
        b"\n;",
        b"\ns=\\}\n",
    ];
    const AFTER_PART: [&[u8]; 12] = [
        b"K{1}",
        b"K{1-9}",
        b"k {7 , 8}",
        b"K{1-4294967295}",
        b"K{0}",
        b"K{9-1}",
        b"K{}",
        b"K=1{}",
        b"K={1}",
        b"K{1,}",
        b"K{1 - 2}",
        b"K{1",
    ];
    const SPACES: [&[u8]; 6] = [b" ", b"\t", b"\n", b";\r", b";", b"\x0b"];
    let (signs, texts): (&[u8], &[&[u8]]) = match numbers.under(9) {
        0 => (b"{,", &AFTER_COMMA),
        1 => (b"=", &AFTER_EQUALS),
        2 => (b"/-.:[]<>!", &SPACES),
        3 => (b"0123456789", &[b"0", b" ", b"9", b"a", b"."]),
        4 => (b"{", &[b"}", b"}", b"{", b",", b"=", b"{}"]),
        5 => (b"{", &AFTER_BRACE),
        6 => (b"\r\n.08", &IN_TEXT),
        7 => (b"}", &AFTER_PART),
        _ => (b"}", &[b"}", b",", b"{}", b"T=0", b"T=1{C=-{MF=ROOT}}"]),
    };
    // Such a sign, from some place on: it goes, or a text comes beside it.
    let start = numbers.under(message.len());
    let found = message[start..]
        .iter()
        .position(|byte| signs.contains(byte));
    let Some(found) = found else { return };
    let sign = start + found;
    let text = numbers.pick(texts).iter().copied();
    match numbers.under(8) {
        0 => {
            message.remove(sign);
        }
        1 => {
            message.splice(sign..sign, text);
        }
        _ => {
            message.splice(sign + 1..sign + 1, text);
        }
    }
}

/// Line noise: any bytes, bytes of the grammar, or pieces of messages.
pub fn noise(numbers: &mut Numbers) -> Vec<u8> {
    const PIECES: [&[u8]; 29] = [
        b"K{1,3-9}",
        b"K{",
        b"!/1 [1.2.3.4] ",
        b"MEGACO/1 a ",
        b"!/2 <x> ",
        b"T=5{",
        b"T=0{",
        b"C=${",
        b"C=1{",
        b"C=-{",
        b"A=$",
        b"A=*",
        b"MV=*",
        b"S=*",
        b"MF=L/1/*",
        b"A=L/3/7",
        b"O-",
        b"W-",
        b"{M{O{MO=SR}}}",
        b"{M{TS{SI=\"OS\"}}}",
        b"{M{L{v=0\nc=IN IP4 1.2.3.4\nm=audio 5 RTP/AVP 0}}}",
        b"{M{R{}}}",
        b"{M{L{",
        b"PR=3",
        b"EG",
        b",",
        b"}",
        b"}}",
        b";c\n",
    ];
    let length = numbers.pick(&[1, 2, 8, 40, 200, 4_096]);
    let length = numbers.within(1..=length);
    match numbers.under(4) {
        0 => (0..length).map(|_| numbers.byte()).collect(),
        1 => numbers.bytes(SIGNS, length),
        _ => {
            let mut message = b"!/1 [10.0.0.1] T=5{C=${".to_vec();
            message.truncate(numbers.pick(&[0, 15, 19, 23]));
            for _ in 0..numbers.within(1..=12) {
                message.extend_from_slice(numbers.pick(&PIECES));
            }
            message
        }
    }
}
