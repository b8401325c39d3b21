//! What a table holds, read by name, against its words.

use cordafina::{flows_start, line_terminations, records_start, speech_start, table_words};
use cordafina::{terminations, Session};
use cordafina::{Gateway, Mode, Refusal, ServiceState, Table, Termination, UnknownName};
use cordafina::{MEMBERS, MOST_LINES, OUTPUT_BYTES};

const OWN: &[u8] = b"[10.0.0.9]";

fn after(lines: u32, requests: &[&str]) -> Table {
    let mut gateway = Gateway::with_table(OWN, Table::with_lines(lines).unwrap()).unwrap();
    for request in requests {
        let message = format!("!/1 [10.0.0.1] {request}");
        let reply = gateway.answer(message.as_bytes()).unwrap();
        assert!(!reply.windows(2).any(|part| part == b"ER"), "{request}");
    }
    gateway.table().clone()
}

/// Every termination that a shelf of so many lines can have.
fn all(lines: u32) -> Vec<Termination> {
    let channels = |line| (1..=31).map(move |channel| Termination::Line(line, channel));
    let ephemerals = (1..=64).map(Termination::Ephemeral);
    (1..=lines).flat_map(channels).chain(ephemerals).collect()
}

#[test]
fn names() {
    for termination in all(MOST_LINES) {
        let name = termination.to_string();
        assert_eq!(name.parse(), Ok(termination));
        assert_eq!(name.to_lowercase().parse(), Ok(termination));
    }
    for name in [
        "", "L", "L/", "L/1", "L/1/", "L/1/5/", "L/1/5 ", "L/0/5", "L/17/1", "L/1/0", "L/1/32",
        "L/01/5", "L/1/05", "L/1/5/1", "L/+1/5", "L/100/1", "R", "R/", "R/0", "R/65", "R/1/1",
        "R/064", "M/1/1", "ROOT", "*", "$", "R/*", "L//1", "/L/1/1",
    ] {
        assert_eq!(name.parse::<Termination>(), Err(UnknownName), "{name}");
    }
}

#[test]
fn read_by_name() {
    for lines in 1..=MOST_LINES {
        let requests = [
            "T=1{C=${PR=4,EG,A=L/1/5{M{O{MO=SR},TS{SI=TE}}},A=$}}",
            "T=2{C=${PR=15,A=L/1/31{M{O{MO=LB}}},A=$,A=$}}",
            "T=3{C=-{MF=L/1/1{M{TS{SI=OS}}}}}",
            "T=4{C=2{S=R/2}}",
        ];
        let table = after(lines, &requests);
        let [five, last] = [Termination::Line(1, 5), Termination::Line(1, 31)];
        let [first, second, third] = [1, 2, 3].map(Termination::Ephemeral);
        assert_eq!(table.context_of(five), Some(1));
        assert_eq!(table.context_of(last), Some(2));
        assert_eq!(table.context_of(Termination::Line(1, 1)), None);
        assert_eq!(table.mode_of(five), Some(Mode::SendReceive));
        assert_eq!(table.state_of(five), Some(ServiceState::Test));
        assert_eq!(table.mode_of(last), Some(Mode::Loopback));
        let one = Termination::Line(1, 1);
        assert_eq!(table.state_of(one), Some(ServiceState::OutOfService));
        assert_eq!(table.mode_of(one), Some(Mode::Inactive));
        assert_eq!(table.mode_of(first), Some(Mode::Inactive));
        assert_eq!(table.context_of(third), Some(2));
        // One that was subtracted, one of no line, names of no termination.
        let beyond = Termination::Line(lines + 1, 1);
        for absent in [
            second,
            beyond,
            Termination::Line(0, 1),
            Termination::Line(1, 32),
        ] {
            assert!(!table.exists(absent));
            assert_eq!(table.context_of(absent), None);
            assert_eq!(table.mode_of(absent), None);
            assert_eq!(table.state_of(absent), None);
        }
        let contexts: Vec<_> = table.contexts().collect();
        let properties = contexts.iter();
        let properties: Vec<_> = properties
            .map(|c| (c.number(), c.priority(), c.emergency()))
            .collect();
        assert_eq!(properties, [(1, 4, true), (2, 15, false)]);
        assert!(contexts[0].members().eq([five, first]));
        assert!(contexts[1].members().eq([last, third]));
        for absent in [0, 3, 128, 129, u32::MAX] {
            assert!(table.context(absent).is_none());
        }
        let text = "contexts 2\n1 4 1 L/1/5 R/1\n2 15 0 L/1/31 R/3\n";
        assert_eq!(table.to_string(), text);
    }
}

/// The names of those whom each member of a context hears, in the members'
/// order; and that the square says the same.
fn heard(table: &Table, context: u32) -> String {
    let context = table.context(context).unwrap();
    let members: Vec<_> = context.members().collect();
    let flows = context.flows();
    let mut heard = String::new();
    for (to, &listener) in members.iter().enumerate() {
        heard += &format!("{listener}:");
        for (from, &speaker) in members.iter().enumerate() {
            assert_eq!(flows[from][to], context.hears(listener, speaker));
            if context.hears(listener, speaker) {
                heard += &format!(" {speaker}");
            }
        }
        heard += "\n";
    }
    for (from, row) in flows.iter().enumerate() {
        for (to, &flow) in row.iter().enumerate() {
            let places = from < members.len() && to < members.len() && from != to;
            assert!(places || !flow, "{from} to {to}");
        }
    }
    heard
}

#[test]
fn who_hears_whom() {
    for lines in 1..=MOST_LINES {
        let mut requests = vec!["T=1{C=${A=L/1/1},C=${A=L/1/2,A=L/1/4}}"];
        let all = "L/1/2: L/1/4\nL/1/4: L/1/2\n";
        assert_eq!(heard(&after(lines, &requests), 1), "L/1/1:\n");
        assert_eq!(heard(&after(lines, &requests), 2), all);
        // L/1/4 hears L/1/2 and is not heard.
        requests.push("T=2{C=2{TP{L/1/2,L/1/4,OW}}}");
        let table = after(lines, &requests);
        assert_eq!(heard(&table, 2), "L/1/2:\nL/1/4: L/1/2\n");
        let context = table.context(2).unwrap();
        let [one, two, four] = [1, 2, 4].map(|channel| Termination::Line(1, channel));
        assert!(context.hears(four, two) && !context.hears(two, four));
        assert!(!context.hears(two, one) && !context.hears(one, two));
        assert!(!context.hears(two, two) && !context.hears(four, four));
        let absent = Termination::Ephemeral(64);
        assert!(!context.hears(two, absent) && !context.hears(absent, two));
        // Row 0, place 1 of context 2, in the low half alone.
        let words = &table.words()[flows_start(lines)..];
        assert_eq!(words[..4], [0, 0, 0b10, 0]);
        // One that joins between them is heard by both and hears both.
        requests.push("T=3{C=2{MV=L/1/1,A=L/1/3}}");
        let joined = "L/1/1: L/1/2 L/1/3 L/1/4\nL/1/2: L/1/1 L/1/3\n\
                      L/1/3: L/1/1 L/1/2 L/1/4\nL/1/4: L/1/1 L/1/2 L/1/3\n";
        assert_eq!(heard(&after(lines, &requests), 2), joined);
        requests.push("T=4{C=2{S=L/1/3,S=L/1/1}}");
        assert_eq!(heard(&after(lines, &requests), 2), "L/1/2:\nL/1/4: L/1/2\n");
        // Eight of them, and the last flows to the first alone.
        let eight = "T=1{C=${A=$,A=$,A=$,A=$,A=$,A=$,A=$,A=$}}";
        let rows: String = (2..8).map(|n| format!(",R/8,R/{n},IS")).collect();
        let topology = format!("T=2{{C=1{{TP{{R/8,R/1,OW{rows}}}}}}}");
        let table = after(lines, &[eight, &topology]);
        let flows = table.context(1).unwrap().flows();
        assert_eq!(
            flows[MEMBERS - 1],
            [1, 0, 0, 0, 0, 0, 0, 0].map(|bit| bit == 1)
        );
        assert_eq!(flows[0], [0, 1, 1, 1, 1, 1, 1, 0].map(|bit| bit == 1));
        assert_eq!(table.words()[flows_start(lines) + 1] >> 24, 1);
        assert!(heard(&table, 1).ends_with("\nR/8:\n"));
    }
}

/// Every word is where the names say, on every count of lines.
#[test]
fn every_word() {
    for lines in 1..=MOST_LINES {
        for (number, termination) in all(lines).into_iter().enumerate() {
            let request = match termination {
                Termination::Line(..) => {
                    format!("T=1{{C=${{A={termination}{{M{{O{{MO=RC}}}}}}}}}}")
                }
                Termination::Ephemeral(_) => continue,
            };
            let table = after(lines, &[&request]);
            let mut words = vec![0; table_words(lines)];
            words[number] = 1;
            words[terminations(lines) + number] = 2;
            words[records_start(lines)] = 1;
            assert_eq!(table.words(), words);
            assert_eq!(table.context_of(termination), Some(1));
            assert_eq!(table.mode_of(termination), Some(Mode::ReceiveOnly));
            assert_eq!(table.terminations().count(), line_terminations(lines));
        }
    }
}

#[test]
fn words_kept() {
    for lines in 1..=MOST_LINES {
        let table = after(lines, &["T=1{C=${A=L/1/5,A=$}}"]);
        assert_eq!(Table::try_from(table.words()), Ok(table.clone()));
        let refused = Table::try_from(&table.words()[1..]);
        assert_eq!(refused, Err(Refusal::TableUnsound));
        let mut words = table.words().to_vec();
        words[0] = 1;
        let refused = Table::try_from(&words[..]);
        assert_eq!(refused.is_ok(), true, "L/1/1 stands in context 1, too");
        words[0] = 2;
        let refused = Table::try_from(&words[..]);
        assert_eq!(refused, Err(Refusal::TableUnsound));
    }
    assert_eq!(Table::try_from(&[][..]), Err(Refusal::TableUnsound));
}

#[test]
fn report_in_its_output() {
    let table = after(8, &["T=1{C=${A=L/1/5,A=$}}"]);
    let mut out = [0xA5; OUTPUT_BYTES];
    assert_eq!(table.report(&mut out), Ok("contexts 1\n1 0 0 L/1/5 R/1\n"));
    assert!(out[27..].iter().all(|&byte| byte == 0xA5));
    let mut short = [0xA5; OUTPUT_BYTES - 1];
    assert_eq!(table.report(&mut short), Err(Refusal::OutputTooShort));
    assert!(short.iter().all(|&byte| byte == 0xA5));
}

#[test]
fn where_speech_goes() {
    for lines in [1, 8, 16] {
        let mut words = after(lines, &["T=1{C=${A=$,A=L/1/1}}"]).words().to_vec();
        let first = speech_start(lines);
        words[first..][..4].copy_from_slice(&[1, 0x0A00_0001, 65_535, 127]);
        let table = Table::from_words(lines, &words).unwrap();
        let there = Session {
            address: [10, 0, 0, 1],
            port: 65_535,
            payload_type: 127,
        };
        assert_eq!(table.local_of(Termination::Ephemeral(1)), Some(there));
        assert_eq!(table.remote_of(Termination::Ephemeral(1)), None);
        assert_eq!(table.local_of(Termination::Ephemeral(2)), None);
        assert_eq!(table.local_of(Termination::Line(1, 1)), None);
        words[first + 2] += 1;
        assert_eq!(Table::from_words(lines, &words), Err(Refusal::TableUnsound));
    }
}

/// A table carried to a spare: the row gives it back, and nothing but a row does.
#[test]
fn rows() {
    for lines in 1..=MOST_LINES {
        let table = after(
            lines,
            &[
                "T=1{C=${PR=4,EG,A=L/1/5{M{O{MO=SR},TS{SI=TE}}},A=$}}",
                "T=2{C=${A=L/1/31,A=$,A=$}}",
            ],
        );
        let mut out = [0xA5; OUTPUT_BYTES];
        let row = table.write_row(&mut out).unwrap().to_vec();
        assert!(out[row.len()..].iter().all(|byte| *byte == 0xA5));
        assert_eq!(u32::from(row[0]), lines);
        assert!(Table::from_row(lines, &row).unwrap() == table);
        assert!(table.write_row(&mut [0; OUTPUT_BYTES - 1]).err() == Some(Refusal::OutputTooShort));
        let other = lines % MOST_LINES + 1;
        assert!(Table::from_row(other, &row).err() == Some(Refusal::RowUnfit));
        assert!(Table::from_row(0, &row).err() == Some(Refusal::LinesUnfit));
        assert!(Table::from_row(lines, &row[1..]).err() == Some(Refusal::RowUnfit));
        for end in [0, 1, row.len() - 1] {
            assert!(Table::from_row(lines, &row[..end]).err() == Some(Refusal::RowUnfit));
        }
        let longer = [&row[..], &[0]].concat();
        assert!(Table::from_row(lines, &longer).err() == Some(Refusal::RowUnfit));
    }
}
