//! Messages at document 01's limits, on both sides of each.

use crate::calls::reference_word;
use crate::messages::{Scope, Writer};
use crate::numbers::Numbers;
use crate::rooms::Room;

/// Identifiers and context numbers: "at most 10 digits", up to 4294967295.
const NUMBERS: [&[u8]; 16] = [
    b"0",
    b"00",
    b"0000000000",
    b"00000000000",
    b"1",
    b"0000000001",
    b"00000000001",
    b"128",
    b"129",
    b"0000000128",
    b"4294967294",
    b"4294967295",
    b"4294967296",
    b"04294967295",
    b"9999999999",
    b"10000000000",
];
/// Commands of which 65 fit a message.
const SHORT_COMMANDS: [&[u8]; 5] = [b"O-A=$", b"O-S=*", b"O-MF=R/1", b"O-A=L/1/1", b"O-MV=L/2/*"];
const PRIORITIES: [&[u8]; 10] = [
    b"0", b"15", b"16", b"00015", b"000015", b"00016", b"65535", b"65536", b"99999", b"100000",
];
const VERSIONS: [&[u8]; 10] = [
    b"", b"0", b"1", b"01", b"001", b"2", b"9", b"10", b"99", b"100",
];
/// The rest of a header that reads well, or not, and what follows it.
const AFTER_VERSION: [&[u8]; 8] = [
    b" [1.2.3.4] T=1{C=-{MF=L/1/1}}",
    b" [1.2.3.4]",
    b" [1.2.3.4] ",
    b" [1.2.3.4] ;x",
    b" [1.2.3.4] ;x\nT=0",
    b" a.b T=1{C=-{MF=L/1/1}}",
    b" a\n}",
    b"[1.2.3.4] T=1{C=-{MF=L/1/1}}",
];
const MIDS: [&[u8]; 22] = [
    b"[0.0.0.0]",
    b"[255.255.255.255]",
    b"[256.0.0.1]",
    b"[1.256.0.1]",
    b"[1.0.256.1]",
    b"[1.0.0.256]",
    b"[001.010.000.255]",
    b"[0001.0.0.1]",
    b"[1.2.3]",
    b"[1.2.3.4.5]",
    b"[1.2.3.]",
    b"[1.2.3.4]:0",
    b"[1.2.3.4]:65535",
    b"[1.2.3.4]:65536",
    b"[1.2.3.4]:00001",
    b"[1.2.3.4]:000001",
    b"[1.2.3.4]:",
    b"<gw-1.example>:65535",
    b"<gw-1.example>:65536",
    b"<-gw>",
    b"<>",
    b"**",
];

/// A message at some limit.
pub fn message(numbers: &mut Numbers, table: &[u32], scope: &Scope) -> Vec<u8> {
    match numbers.under(18) {
        16 | 17 => acknowledgement(numbers, table, scope),
        0 => message_length(numbers, table, scope),
        1 => version(numbers),
        2 => sender(numbers, table, scope),
        3 => several_transactions(numbers, table, scope),
        4 | 5 => reply_length(numbers, table, scope),
        6 => members(numbers, scope),
        _ => {
            let mut writer = Writer::new(numbers, table, scope);
            writer.header();
            writer.open_transaction();
            inside(&mut writer);
            writer.sign(b'}');
            writer.bytes
        }
    }
}

/// One of the lengths about 64.
fn about_64(writer: &mut Writer) -> usize {
    writer.numbers.within(63..=65)
}

/// A transaction's actions.
fn inside(writer: &mut Writer) {
    if writer.numbers.one_in(8) {
        let actions = writer.numbers.within(15..=17);
        for place in 0..actions {
            if place > 0 {
                writer.sign(b',');
            }
            writer.open_action();
            writer.command();
            writer.sign(b'}');
        }
        return;
    }
    if writer.numbers.one_in(6) {
        let number = writer.numbers.pick(&NUMBERS);
        writer.put(b"C=");
        writer.put(number);
        writer.put(b"{");
    } else {
        writer.open_action();
    }
    let length = about_64(writer);
    match writer.numbers.under(11) {
        0 => {
            writer.put(b"PR=");
            let priority = writer.numbers.pick(&PRIORITIES);
            writer.put(priority);
        }
        1 => {
            // Commands to the limit, short so that they fit the message.
            if writer.numbers.one_in(2) {
                writer.property();
                writer.sign(b',');
            }
            for place in 0..length {
                if place > 0 {
                    writer.put(b",");
                }
                let command = writer.numbers.pick(&SHORT_COMMANDS);
                writer.put(command);
            }
        }
        2 => {
            writer.word(length);
            writer.put(b"=L/1/1");
        }
        3 => {
            writer.put(b"MF=");
            writer.path_name(length);
        }
        4 => {
            writer.put(b"MF=L/1/1{");
            writer.word(length);
            writer.put(b"}");
        }
        5 => {
            writer.put(b"MF=L/1/1{a/");
            writer.word(length);
            writer.put(b"}");
        }
        6 => {
            writer.put(b"O-MF=L/1/1{M{O{MO=");
            match writer.numbers.under(4) {
                0 => writer.quoted_value(length),
                1 => writer.quoted_value(0),
                2 => writer.plain_value(length),
                _ => writer.plain_value(1),
            }
            writer.put(b"}}}");
        }
        7 | 8 => writer.odd_speech(),
        _ => {
            let levels = writer.numbers.within(7..=9);
            writer.put(b"MF=L/1/1");
            for _ in 0..levels {
                writer.sign(b'{');
                writer.word(1);
            }
            for _ in 0..levels {
                writer.sign(b'}');
            }
        }
    }
    writer.sign(b'}');
}

/// 4,095 to 4,097 bytes, the last of them white space.
fn message_length(numbers: &mut Numbers, table: &[u32], scope: &Scope) -> Vec<u8> {
    let length = numbers.within(4_095..=4_097);
    let comment = numbers.one_in(2);
    let mut message = Writer::new(numbers, table, scope).message();
    if comment && message.len() + 2 <= length {
        message.push(b';');
        message.resize(length - 1, b'c');
        message.push(b'\n');
    }
    message.resize(length, b' ');
    message
}

fn version(numbers: &mut Numbers) -> Vec<u8> {
    let mut message = b"!/".to_vec();
    message.extend_from_slice(numbers.pick(&VERSIONS));
    message.extend_from_slice(numbers.pick(&AFTER_VERSION));
    message
}

/// A message whose sender has an mId at its limits.
fn sender(numbers: &mut Numbers, table: &[u32], scope: &Scope) -> Vec<u8> {
    let mut writer = Writer::new(numbers, table, scope);
    writer.put(b"!/1 ");
    mid(&mut writer);
    writer.put(b" T=1{C=-{MF=L/1/1}}");
    writer.bytes
}

/// An mId at its limits.
pub fn mid(writer: &mut Writer) {
    match writer.numbers.under(4) {
        0 => {
            let length = writer.numbers.within(60..=65);
            writer.domain(length);
        }
        1 => {
            let length = about_64(writer);
            writer.path_name(length);
        }
        _ => {
            let mid = writer.numbers.pick(&MIDS);
            writer.put(mid);
        }
    }
}

/// Acknowledgements with identifiers at their limits, before or behind a request.
fn acknowledgement(numbers: &mut Numbers, table: &[u32], scope: &Scope) -> Vec<u8> {
    const ODD: [&[u8]; 14] = [
        b"", b",", b"1,", b",1", b"1,,2", b"5-4", b"2-1", b"5-", b"-5", b"1-2-3", b"1 -2", b"1- 2",
        b"1;", b"*",
    ];
    let mut writer = Writer::new(numbers, table, scope);
    writer.header();
    if writer.numbers.one_in(3) {
        writer.transaction();
    }
    writer.put(b"K{");
    for place in 0..writer.numbers.within(1..=3) {
        if place > 0 {
            writer.sign(b',');
        }
        let [one, other] = [0, 1].map(|_| writer.numbers.pick(&NUMBERS));
        match writer.numbers.under(4) {
            0 => {
                let odd = writer.numbers.pick(&ODD);
                writer.put(odd);
            }
            1 => {
                writer.put(one);
                writer.put(b"-");
                writer.put(other);
            }
            2 => writer.put(b"1-4294967295"),
            _ => writer.put(one),
        }
    }
    writer.put(b"}");
    if writer.numbers.one_in(3) {
        writer.transaction();
    }
    writer.bytes
}

/// "1 to 8 transactions", K "as one of the eight", and identifiers.
fn several_transactions(numbers: &mut Numbers, table: &[u32], scope: &Scope) -> Vec<u8> {
    let count = numbers.within(7..=9);
    let odd = numbers.under(2 * count);
    // None, some or all are acknowledgements.
    let many = numbers.pick(&[1_000, 1_000, 4, 2, 1]);
    let mut writer = Writer::new(numbers, table, scope);
    writer.header();
    for place in 0..count {
        if writer.numbers.one_in(many) {
            writer.acknowledgement();
            continue;
        }
        if place == odd {
            let number = writer.numbers.pick(&NUMBERS);
            writer.put(b"T=");
            writer.put(number);
            writer.sign(b'{');
        } else {
            writer.open_transaction();
        }
        writer.open_action();
        writer.command();
        writer.put(b"}");
        writer.sign(b'}');
    }
    writer.bytes
}

/// "at most 8 terminations in each non-null context": 7 to 9 in one action.
fn members(numbers: &mut Numbers, scope: &Scope) -> Vec<u8> {
    let mut message = b"!/1 [10.0.0.1] T=1{C=${".to_vec();
    for place in 0..numbers.within(7..=9) {
        let command = match numbers.under(3) {
            0 => "O-A=$".to_string(),
            1 => {
                let line = numbers.within(1..=scope.lines.count() as usize);
                format!("O-A=L/{line}/{}", 1 + numbers.under(31))
            }
            _ => format!("O-MV=R/{}", 1 + numbers.under(64)),
        };
        message.extend_from_slice(if place > 0 { b"," } else { b"" });
        message.extend_from_slice(command.as_bytes());
    }
    message.extend_from_slice(b"}}");
    message
}

/// "If `P=id{..}` would pass 2,048 bytes": a transaction of commands that may
/// fail, filled up by failing ones so that its reply has 2,046 to 2,050 bytes.
fn reply_length(numbers: &mut Numbers, table: &[u32], scope: &Scope) -> Vec<u8> {
    const OWN: &[u8] = b"a";
    let (start, word): (&[u8], &[u8]) = numbers.pick(&[
        (b"C=0{O-S=*", b"S"),
        (b"C=4294967295{O-A=x", b"A"),
        (b"C=${O-A=$,O-A=L/1/*", b"A"),
        (b"C=-{O-MF=L/1/*,O-MF=L/2/*,O-MF=L/3/1", b"MF"),
        (b"C=-{O-MF=L/4/*,O-MF=ROOT},C=${PR=2,O-MV=R/*", b"MV"),
        (b"C=-{O-MF=L/1/*,O-MF=L/9/*,O-MF=L/16/*", b"MF"),
    ]);
    let mut message = b"!/1 [10.0.0.1] ".to_vec();
    if numbers.one_in(4) {
        message.extend_from_slice(b"T=1{C=-{MF=L/8/8}}");
    }
    let place = message.len();
    message.extend_from_slice(b"T=");
    message.extend_from_slice(numbers.pick(&[b"1" as &[u8], b"77", b"4294967295"]));
    message.extend_from_slice(b"{");
    message.extend_from_slice(start);

    // How long the reply of this transaction is so far.
    let alone = [b"!/1 [10.0.0.1] ", &message[place..], b"}}"].concat();
    let mut reply = [0; reference::REPLY_BYTES];
    let lines = scope.lines.count();
    let word_so_far = reference_word(
        lines,
        &alone,
        &mut table.to_vec(),
        &mut Room::empty().lent(),
        &mut [0; reference::blocks::BLOCK_WORDS],
        OWN,
        &mut reply,
    );
    let so_far = (word_so_far as u32 as usize).saturating_sub(5 + OWN.len());

    // Each filler adds a comma, the word, `=`, a name and `{ER=code{}}`.
    let around = word.len() + 12;
    let target = numbers.within(2_046..=2_050);
    let mut left = target.saturating_sub(so_far);
    while left > around {
        let most = 64.min(left - around);
        // The last one takes the rest; the one before leaves it enough.
        let name = match left - around - most {
            0 => most,
            rest if rest > around => most,
            _ => most - around - 1,
        };
        for bytes in [b",O-", word, b"=", &[b'x'; 64][..name]] {
            message.extend_from_slice(bytes);
        }
        left -= around + name;
    }
    message.extend_from_slice(b"}}");
    if numbers.one_in(3) {
        message.extend_from_slice(b"T=9{C=1{PR=4,A=$}}");
    }
    message
}
