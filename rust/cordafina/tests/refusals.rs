//! One set of refusals: the names, numbers and words here are those of the
//! header for C, and the names those of the proved code.

use cordafina::Refusal;

const HEADERS: [&str; 2] = [
    include_str!("../../../include/cordafina.h"),
    include_str!("../../../include/cordafina_digit_maps.h"),
];
const GATEWAY: &str = include_str!("../../../crates/gateway/src/lib.rt");
const DIGITS: &str = include_str!("../../../crates/digits/src/lib.rt");
const ROWS: &str = include_str!("../../../crates/row_laws/src/lib.rt");
const REFERENCE: &str = include_str!("../../../docs/REFERENCE.md");

const ALL: [Refusal; 11] = [
    Refusal::MessageUnfit,
    Refusal::TableUnsound,
    Refusal::ReplyTooShort,
    Refusal::MidUnfit,
    Refusal::RoomUnsound,
    Refusal::BadMap,
    Refusal::BadString,
    Refusal::LinesUnfit,
    Refusal::EphemeralAbsent,
    Refusal::RowUnfit,
    Refusal::OutputTooShort,
];

/// `MessageUnfit` as C has it: `MESSAGE_UNFIT`.
fn capitals(name: &str) -> String {
    let mut capitals = String::new();
    for letter in name.chars() {
        if letter.is_uppercase() && !capitals.is_empty() {
            capitals.push('_');
        }
        capitals.push(letter.to_ascii_uppercase());
    }
    capitals
}

#[test]
fn as_c_has_them() {
    for refusal in ALL {
        let name = capitals(&format!("{refusal:?}"));
        let mut defined = HEADERS
            .iter()
            .flat_map(|header| header.lines())
            .filter(|line| line.starts_with(&format!("#define CORDAFINA_{name} ")));
        let number = defined.next().unwrap().split_whitespace().nth(2).unwrap();
        assert_eq!(number, refusal.number().to_string(), "{name}");
        assert!(defined.next().is_none());
        let words = format!("case CORDAFINA_{name}: return \"{refusal}\";");
        assert!(HEADERS[0].contains(&words), "{words}");
    }
    // No more than these, and one for a call that is taken.
    let cases = HEADERS[0].matches("    case CORDAFINA_").count();
    assert_eq!(cases, ALL.len() + 1);
}

/// The names of an enum of the proved code.
fn names(source: &str, head: &str) -> Vec<String> {
    let (_, body) = source.split_once(head).unwrap();
    let (body, _) = body.split_once("\n}").unwrap();
    body.lines()
        .filter_map(|line| line.trim().strip_suffix(','))
        .map(str::to_string)
        .collect()
}

#[test]
fn as_the_code_has_them() {
    use Refusal::*;
    let outcome = [
        MessageUnfit,
        TableUnsound,
        ReplyTooShort,
        MidUnfit,
        RoomUnsound,
        LinesUnfit,
    ];
    let packet = [TableUnsound, LinesUnfit, EphemeralAbsent];
    let dialled = [BadMap, BadString];
    let row = [LinesUnfit, OutputTooShort, TableUnsound, RowUnfit];
    let enums: [(&str, &str, &[Refusal]); 4] = [
        (GATEWAY, "enum Refusal {", &outcome),
        (GATEWAY, "enum PacketRefusal {", &packet),
        (DIGITS, "enum DialError {", &dialled),
        (ROWS, "enum RowError {", &row),
    ];
    for (source, head, refusals) in enums {
        let expected: Vec<String> = refusals
            .iter()
            .map(|refusal| format!("{refusal:?}"))
            .collect();
        assert_eq!(names(source, head), expected, "{head}");
    }
    // Each refusal stands in one of them.
    for refusal in ALL {
        assert!(
            enums
                .iter()
                .any(|(_, _, refusals)| refusals.contains(&refusal)),
            "{refusal:?}"
        );
    }
}

#[test]
fn as_the_reference_lists_them() {
    for refusal in ALL {
        let name = format!("{refusal:?}");
        let row = format!(
            "| {} | `{name}`, `CORDAFINA_{}` |",
            refusal.number(),
            capitals(&name)
        );
        assert!(REFERENCE.contains(&row), "{row}");
    }
}
