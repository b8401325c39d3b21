//! The texts of Local and Remote in a message, and whose they are.

use cordafina::{text, texts, Side, MESSAGE_BYTES};

const SPEECH: &str = "v=0\r\nc=IN IP4 10.0.0.7\r\nm=audio 4000 RTP/AVP 8\r\n";

fn string(part: &[u8]) -> &str {
    std::str::from_utf8(part).unwrap()
}

/// Side, name and text of each.
fn told(message: &str) -> Vec<(Side, &str, &str)> {
    texts(message.as_bytes())
        .map(|text| (text.side, string(text.name), string(text.text)))
        .collect()
}

#[test]
fn whose_they_are() {
    let message = format!(
        "!/1 [10.0.0.1] T=1{{C=${{A=L/1/1{{M{{O{{MO=SR}}}}}},A=${{M{{Local {{ {SPEECH}}}}}}}}},\
         C=2{{O-MF=r/3{{M{{R{{}},L{{\\}}}}}}}},S=R/*{{M{{TS{{SI=IV}},remote{{b}}}}}}}}}}T=2{{C=3{{PR=1,EG,W-BL=ROOT{{M{{L{{c}}}}}}}}}}"
    );
    let wanted = [
        (Side::Local, "$", SPEECH),
        (Side::Remote, "r/3", ""),
        (Side::Local, "r/3", "\\}"),
        (Side::Remote, "R/*", "b"),
        (Side::Local, "ROOT", "c"),
    ];
    assert_eq!(told(&message), wanted);
}

#[test]
fn parts_of_the_message() {
    let message = b"!/1 [10.0.0.1] T=1{C=1{MF=R/1{M{L{a},R{a}}},MF=R/1{M{L{a}}}}}";
    let places: Vec<_> = texts(message)
        .map(|text| {
            let place = |part: &[u8]| part.as_ptr() as usize - message.as_ptr() as usize;
            (place(text.name), place(text.text), text.text.len())
        })
        .collect();
    assert_eq!(places, [(26, 34, 1), (26, 39, 1), (47, 55, 1)]);
    assert_eq!(text(message, 3), None);
    assert_eq!(text(message, usize::MAX), None);
}

#[test]
fn none() {
    for message in [
        "",
        "noise",
        "!/2 [10.0.0.1] T=1{C=1{MF=R/1{M{L{a}}}}}",
        "!/1 [10.0.0.1] T=1{C=1{MF=R/1{M{L{a}}}}",
        "!/1 [10.0.0.1] T=1{C=1{MF=R/1}}",
        "!/1 [10.0.0.1] T=1{C=1{MF=R/1{L{a},X{L{a}},M{O{L{a}},L=a,R/L{a}}}}}",
    ] {
        assert_eq!(told(message), [], "{message}");
    }
}

/// A message of the greatest length has its texts; a longer one reads as well, but no call takes it.
#[test]
fn lengths() {
    let message = |length: usize| {
        let [before, after] = ["!/1 [10.0.0.1] T=1{C=1{MF=R/1{M{L{", "}}}}}"];
        let room = length - before.len() - after.len();
        format!("{before}{}{after}", "a".repeat(room))
    };
    assert_eq!(told(&message(MESSAGE_BYTES))[0].2.len(), MESSAGE_BYTES - 39);
    assert_eq!(told(&message(MESSAGE_BYTES + 1)), []);
}
