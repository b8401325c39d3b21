//! Texts of Local and Remote: of the SDP subset, and out of it.

use reference::text::read;

use crate::numbers::Numbers;

/// Lines that are skipped.
const SKIPPED: [&[u8]; 12] = [
    b"",
    b" \t",
    b"s=",
    b"o=- 1 1 IN IP4 10.0.0.1",
    b"t=0 0",
    b"a=v=0",
    b"V=0",
    b"C=IN IP4 9.9.9.9",
    b"M=audio 9 RTP/AVP 9",
    b"s=\\}",
    b"s=\\\\}, R{v=0",
    b"z={;\"\x80\xff\x01\x7f",
];
/// Lines that stand in no text of the subset.
const FOREIGN: [&[u8]; 20] = [
    b"v=1",
    b"v",
    b"v=00",
    b" v=0",
    b"c=IN IP6 ::1",
    b"c=IN IP4 1.2.3",
    b"c=IN IP4 1.2.3.4.5",
    b"c=IN IP4 1.2.3.4/127",
    b"c=in IP4 1.2.3.4",
    b"m=video 1 RTP/AVP 0",
    b"m=audio 1 RTP/AVP 0 8",
    b"m=audio 1/2 RTP/AVP 0",
    b"m=audio 1 RTP/AVP",
    b"m=audio 1 rtp/avp 0",
    b"ss=1",
    b"=1",
    b"1=1",
    b"\x0b",
    b"\\}",
    b"m=\\}",
];
/// Numbers of an address, ports and payload types: those that are taken, then
/// those past the limits.
const OCTETS: [[&str; 4]; 2] = [["0", "10", "255", "007"], ["256", "0255", "", "-1"]];
const PORTS: [[&str; 4]; 2] = [
    ["0", "5004", "65535", "00001"],
    ["65536", "65536", "000001", ""],
];
const TYPES: [[&str; 4]; 2] = [["0", "8", "127", "007"], ["128", "128", "0008", ""]];

/// Items about the places where a text stands; some do not read.
pub const SHAPES: [&[u8]; 34] = [
    b"M{L}",
    b"M{R=5}",
    b"M{L=5{a}}",
    b"M{L=5{}}",
    b"M{R={}}",
    b"M{L/x{a}}",
    b"M{L/x{}}",
    b"M=5{L{}}",
    b"M/x{L{a}}",
    b"M/x{L{}}",
    b"L{a}",
    b"L{}",
    b"AT{M{L{a}}}",
    b"AT{M{L{}}}",
    b"X{M{R{}}}",
    b"M{O{L{}}}",
    b"M{LL{}}",
    b"M{L {} ,\nR\t{\r} }",
    b"M{L;}\n{;}\n}}",
    b"M{L{;c}}",
    b"M{L{v=0;c}}",
    b"M{L{\0}}",
    b"M{R{s=\0}}",
    b"M{L{\\}}",
    b"M{L{\\}}}",
    b"M{L{\\\\}}}",
    b"M{L{v=0",
    b"M{R{",
    b"M{L{}{}}",
    b"M{L{},L{v=0}}",
    b"M{R{},R}",
    b"M{L{v=0},ZZ}",
    b"M{ZZ,L{v=0}}",
    b"M{L{}},M{R{}}",
];

/// A text that reads: no byte 0 in it, and no `}` without a backslash before it.
pub fn text(numbers: &mut Numbers) -> Vec<u8> {
    // "empty text releases it"
    if numbers.one_in(8) {
        return Vec::new();
    }
    let fault = match numbers.one_in(3) {
        true => numbers.under(11),
        false => usize::MAX,
    };
    let far = numbers.under(4);
    let mut one_of =
        |from: [[&'static str; 4]; 2], far: bool| numbers.pick(&from[usize::from(far)]);
    let octets = [0, 1, 2, 3].map(|place| one_of(OCTETS, fault == 8 && place == far));
    let octets = octets.join(".");
    let port = one_of(PORTS, fault == 9);
    let payload_type = one_of(TYPES, fault == 10);
    let mut lines = vec![
        b"v=0".to_vec(),
        format!("c=IN IP4 {octets}").into_bytes(),
        format!("m=audio {port} RTP/AVP {payload_type}").into_bytes(),
    ];
    let line = numbers.under(3);
    match fault {
        0 | 1 => lines.swap(line, (line + 1) % 3),
        2 => drop(lines.remove(line)),
        3 => lines.push(lines[line].clone()),
        4 => lines[line].push(numbers.pick(b"  \t")),
        5 => {
            let place = numbers.under(lines[line].len());
            lines[line].insert(place, b' ');
        }
        6 => lines[line] = numbers.pick(&FOREIGN).to_vec(),
        7 => lines.insert(line, numbers.pick(&FOREIGN).to_vec()),
        _ => {}
    }
    let mut text = Vec::new();
    for line in &lines {
        while numbers.one_in(3) {
            text.extend_from_slice(numbers.pick(&SKIPPED));
            text.extend_from_slice(line_end(numbers));
        }
        text.extend_from_slice(line);
        text.extend_from_slice(line_end(numbers));
    }
    match numbers.under(3) {
        0 => {}
        1 => text.extend_from_slice(numbers.pick(&SKIPPED)),
        _ => {
            text.pop();
        }
    }
    text
}

/// "a line ends at CR, LF, both"
fn line_end(numbers: &mut Numbers) -> &'static [u8] {
    numbers.pick(&[b"\n", b"\r", b"\r\n"])
}

/// The texts of a message, none where it does not read.
pub fn texts(message: &[u8]) -> Vec<&[u8]> {
    let message = read(message).unwrap_or_default();
    let actions = message.transactions().flat_map(|one| &one.actions);
    let items = actions
        .flat_map(|action| &action.commands)
        .flat_map(|command| &command.items);
    let in_media = items.flat_map(|item| &item.items);
    in_media.filter_map(|item| item.text).collect()
}
