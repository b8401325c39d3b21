//! Digit maps through the archive that is linked.

use cordafina::digit_map::{dial_plain_word, dial_word};
use cordafina::digit_map::{Dialled, DigitMap, Progress, Timer, ZeroStart};
use cordafina::Refusal;

/// The example of 7.1.14.9.
const EXAMPLE: &[u8] = b"(0| 00|[1-7]xxx|8xxxxxxx|Fxxxxxxx|Exx|91xxxxxxxxxx|9011x.)";

fn load(map: &[u8]) -> DigitMap {
    DigitMap::load(map, 30, ZeroStart::Waits).unwrap()
}

fn progress(map: &DigitMap, dialled: &str) -> Progress {
    map.dial(dialled.as_bytes()).unwrap().progress
}

fn refused(map: &str) -> bool {
    match DigitMap::load(map.as_bytes(), 30, ZeroStart::Waits) {
        Err(Refusal::BadMap) => true,
        Err(other) => panic!("{other}"),
        Ok(_) => false,
    }
}

#[test]
fn the_example_of_the_source() {
    let map = load(EXAMPLE);
    for (dialled, progress, timer) in [
        ("", Progress::MoreNeeded, Timer::Start),
        ("0", Progress::MorePossible, Timer::Short),
        ("00", Progress::Closed, Timer::None),
        ("000", Progress::NoMatch, Timer::None),
        ("123", Progress::MoreNeeded, Timer::Long),
        ("1234", Progress::Closed, Timer::None),
        ("5551234", Progress::NoMatch, Timer::None),
        ("f5551234", Progress::Closed, Timer::None),
        ("916135551212", Progress::Closed, Timer::None),
        ("9011", Progress::MorePossible, Timer::Short),
        ("90114420", Progress::MorePossible, Timer::Short),
    ] {
        assert_eq!(
            map.dial(dialled.as_bytes()),
            Ok(Dialled { progress, timer }),
            "{dialled}"
        );
    }
}

#[test]
fn a_start_timer_of_zero() {
    for (start, zero, timer) in [
        (0, ZeroStart::Waits, Timer::None),
        (0, ZeroStart::RunsOut, Timer::RunOut),
        (1, ZeroStart::Waits, Timer::Start),
        (u32::MAX, ZeroStart::RunsOut, Timer::Start),
    ] {
        let map = DigitMap::load(b"x.", start, zero).unwrap();
        let first = map.dial(b"").unwrap();
        assert_eq!(
            (first.progress, first.timer),
            (Progress::MorePossible, timer)
        );
        let later = map.dial(b"1").unwrap();
        assert_eq!(
            (later.progress, later.timer),
            (Progress::MorePossible, Timer::Short)
        );
    }
}

#[test]
fn a_dot_is_for_zero_or_more() {
    let map = load(b"1x.2");
    assert_eq!(progress(&map, "1"), Progress::MoreNeeded);
    assert_eq!(progress(&map, "12"), Progress::MorePossible);
    assert_eq!(progress(&map, "1332"), Progress::MorePossible);
    assert_eq!(progress(&map, "133A"), Progress::NoMatch);
}

#[test]
fn sets_ranges_and_letters() {
    let map = load(b"[12A-C]");
    for good in ["1", "2", "A", "b", "C"] {
        assert_eq!(progress(&map, good), Progress::Closed, "{good}");
    }
    for bad in ["0", "3", "D", "k"] {
        assert_eq!(progress(&map, bad), Progress::NoMatch, "{bad}");
    }
    assert_eq!(progress(&load(b"X"), "A"), Progress::NoMatch);
    assert_eq!(progress(&load(b"k"), "K"), Progress::Closed);
}

#[test]
fn maps_that_are_read() {
    for map in [
        "1",
        "x",
        " [1]",
        "[1] ",
        "[12] .",
        "1 [23]",
        "(1)",
        " ( 1 | 2 ) ",
        "[ a-D ]",
        "[3-3]",
        "(1;comment\n|2)",
        "x.x.",
        "[0-90-9]",
    ] {
        assert!(!refused(map), "{map}");
    }
}

#[test]
fn malformed_maps() {
    for map in [
        "",
        " ",
        "()",
        "(1|)",
        "(|1)",
        "1|2",
        " 1",
        "1 ",
        "1 2",
        "x .",
        ".",
        "1..",
        "(.)",
        "[]",
        "[ ]",
        "[x]",
        "[1x]",
        "[1 2]",
        "[1 -3]",
        "[3-1]",
        "[1-A]",
        "[A-1]",
        "[1-]",
        "[-1]",
        "[1-3-5]",
        "[[1]]",
        "[1",
        "1]",
        "(1",
        "1)",
        "(1)2",
        "L",
        "S",
        "T",
        "Z",
        "[L]",
        "T:5,1",
        "1;comment",
        "#",
        "*",
        "\0",
    ] {
        assert!(refused(map), "{map}");
    }
}

#[test]
fn sizes() {
    assert!(!refused(&"1".repeat(64)));
    assert!(refused(&"1".repeat(65)));
    assert!(!refused(&format!("[{}]", "1".repeat(62))));
    assert!(refused(&format!("[{}]", "1".repeat(63))));
    assert!(!refused(&"1.".repeat(32)));
    assert!(refused(&("1.".repeat(32) + "1")));
    assert!(!refused(&format!("({} )", vec!["1"; 16].join(" | "))));
    assert!(refused(&format!("({})", vec!["1"; 17].join("|"))));
}

#[test]
fn strings_that_are_refused() {
    let map = load(b"x.");
    assert_eq!(progress(&map, &"1".repeat(32)), Progress::MorePossible);
    for dialled in ["1".repeat(33).as_str(), "L", "x", "1 2", "#", "\0"] {
        assert_eq!(
            map.dial(dialled.as_bytes()),
            Err(Refusal::BadString),
            "{dialled}"
        );
    }
}

#[test]
fn one_call_as_c_has_it() {
    assert_eq!(dial_word(EXAMPLE, 30, 0, b"0"), 2 + 256 * 3);
    assert_eq!(dial_word(EXAMPLE, 0, 0, b""), 1);
    assert_eq!(dial_word(EXAMPLE, 0, 7, b""), 1 + 256 * 4);
    assert_eq!(dial_word(EXAMPLE, 1, 7, b""), 1 + 256);
    assert_eq!(dial_word(EXAMPLE, 30, 0, b"00"), 3);
    assert_eq!(dial_word(b"(", 30, 0, b"#"), 65536 * 6);
    assert_eq!(dial_word(b"1", 30, 0, b"#"), 65536 * 7);
    assert_eq!(Refusal::BadMap.number(), 6);
    assert_eq!(Refusal::BadString.number(), 7);
}

#[test]
fn the_plain_matcher_stops_when_both_are_answered() {
    // Without the stop these ways are some 10^18.
    let map = "x.".repeat(32);
    let digits = "1".repeat(32);
    assert_eq!(
        dial_plain_word(map.as_bytes(), 30, 0, digits.as_bytes()),
        2 + 256 * 3
    );
    assert_eq!(dial_plain_word(b"(", 30, 0, b"#"), 65536 * 6);
    assert_eq!(dial_plain_word(b"1", 30, 0, b"#"), 65536 * 7);
}
