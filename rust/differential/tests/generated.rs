//! What is generated is what it should be.

use differential::calls::{compare, reference_word, Cases, Tally, GUARD};
use differential::messages::{Scope, Writer};
use differential::numbers::Numbers;
use differential::{rooms, speech, tables};
use reference::room::Room;
use reference::sdp::session;
use reference::table::{Lines, Table};
use reference::text::{read, Fault};

#[test]
fn counts_of_lines() {
    let mut numbers = Numbers::new(1);
    let mut found = [0; 17];
    for _ in 0..2_000 {
        found[tables::lines(&mut numbers).count() as usize] += 1;
    }
    assert!(found[1..].iter().all(|&times| times > 30), "{found:?}");
    assert!([1, 8, 9, 16].iter().all(|&often| found[often] > 200));
    for count in 1..=16 {
        let lines = Lines::fitted(count);
        assert_eq!(tables::lines_of(62 * count as usize + 1_026), lines);
    }
    // Nor a table without the words of speech, without those and the flows, or
    // without the map too.
    assert_eq!([0, 752, 754, 1_010].map(tables::lines_of), [None; 4]);
}

#[test]
fn sound_tables_are_sound() {
    let mut numbers = Numbers::new(1);
    for _ in 0..4_000 {
        let lines = tables::lines(&mut numbers);
        let sound = tables::sound(&mut numbers, lines);
        for mut table in [sound, tables::lowest(&mut numbers, lines)] {
            let shown = tables::shown(&table);
            assert!(Table::sound(lines, &mut table).is_some(), "{shown}");
        }
    }
}

#[test]
fn damaged_tables_are_sound_or_not() {
    let mut numbers = Numbers::new(1);
    let sound = (0..2_000).filter(|_| {
        let lines = tables::lines(&mut numbers);
        let mut table = tables::damaged(&mut numbers, lines);
        Table::sound(lines, &mut table).is_some()
    });
    assert!((100..1_000).contains(&sound.count()));
}

#[test]
fn sound_rooms_are_sound() {
    let mut numbers = Numbers::new(1);
    let mut counts = [0; 17];
    for _ in 0..2_000 {
        let mut room = rooms::sound(&mut numbers);
        let shown = rooms::shown(&room);
        counts[room.held().len()] += 1;
        assert!(Room::sound(&mut room.lent()).is_some(), "{shown}");
    }
    assert!([0, 1, 15].iter().all(|&count| counts[count] > 100));
    assert!(counts[16] > 500, "{counts:?}");
}

#[test]
fn trampled_rooms_are_sound_or_not() {
    let mut numbers = Numbers::new(1);
    let sound = (0..2_000).filter(|_| {
        let mut room = rooms::trampled(&mut numbers);
        Room::sound(&mut room.lent()).is_some()
    });
    let count = sound.count();
    assert!((200..1_000).contains(&count), "{count}");
}

#[test]
fn messages_read_well() {
    let mut numbers = Numbers::new(1);
    let mut other_versions = 0;
    for _ in 0..5_000 {
        let lines = tables::lines(&mut numbers);
        let table = tables::sound(&mut numbers, lines);
        let scope = Scope::whole(&mut numbers, lines, &table);
        let mut scope = scope;
        let kept = rooms::sound(&mut numbers).kept().into_iter();
        scope.kept = kept.map(|(sender, id, _)| (sender, id)).collect();
        let message = Writer::new(&mut numbers, &table, &scope).message();
        match read(&message) {
            Ok(_) => {}
            Err(Fault::Version) => other_versions += 1,
            Err(fault) => panic!("{fault:?}: {}", message.escape_ascii()),
        }
    }
    assert!((10..500).contains(&other_versions));
}

#[test]
fn texts_are_in_the_subset_or_not() {
    let mut numbers = Numbers::new(1);
    let texts: Vec<Vec<u8>> = (0..4_000).map(|_| speech::text(&mut numbers)).collect();
    let empty = texts.iter().filter(|text| text.is_empty()).count();
    let good = texts.iter().filter(|text| session(text).is_some()).count();
    assert!((300..800).contains(&empty), "{empty} empty");
    assert!((1_500..2_800).contains(&good), "{good} in the subset");
    // Of the commands some 10 to 15 % have a text.
    let (mut commands, mut with_text) = (0, 0);
    for _ in 0..5_000 {
        let lines = tables::lines(&mut numbers);
        let table = tables::sound(&mut numbers, lines);
        let scope = Scope::whole(&mut numbers, lines, &table);
        let message = Writer::new(&mut numbers, &table, &scope).message();
        for transaction in read(&message).unwrap_or_default().transactions() {
            for command in transaction
                .actions
                .iter()
                .flat_map(|action| &action.commands)
            {
                let mut items = command.items.iter().flat_map(|item| &item.items);
                commands += 1;
                with_text += usize::from(items.any(|item| item.text.is_some()));
            }
        }
    }
    let share = 1_000 * with_text / commands;
    println!("{empty} empty, {good} in the subset; {share} of 1,000 commands");
    assert!((90..160).contains(&share), "{share} of 1,000 commands");
}

#[test]
fn every_code_and_refusal_comes() {
    let mut cases = Cases::new(1);
    let mut tally = Tally::default();
    for _ in 0..20_000 {
        let case = cases.draw();
        let Ok(outcome) = compare(&case, reference_word, GUARD) else {
            panic!("the reference is like itself");
        };
        tally.count(&case, &outcome);
        cases.left(&outcome);
    }
    assert_eq!(tally.missing(), [""; 0], "{tally}");
}

#[test]
fn a_seed_gives_the_same_calls() {
    let (mut one, mut other) = (Cases::new(7), Cases::new(7));
    for _ in 0..500 {
        let (one, other) = (one.draw(), other.draw());
        assert!(one.lines == other.lines && one.table == other.table);
        assert!(one.message == other.message && one.own == other.own);
        assert!(one.reply == other.reply && one.room == other.room);
    }
}
