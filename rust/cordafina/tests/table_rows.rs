//! Recorded rows of tables, written and read, through the archive that is linked. A
//! line of `table_rows.txt` is `write`, the count of lines, the output's length, the
//! refusal or 0, the table's length, its words that are not 0 as `place:word`, and the
//! row in hex; or `read`, the count, the table's length, the refusal or 0, the words
//! that are not 0 afterwards, and the bytes read. `-` is nothing.

use cordafina::{read_row_word, write_row_word};

const ROWS: &str = include_str!("table_rows.txt");

fn bytes(hex: &str) -> Vec<u8> {
    let digits = if hex == "-" { "" } else { hex };
    let pairs = digits.as_bytes().chunks(2);
    pairs
        .map(|pair| u8::from_str_radix(std::str::from_utf8(pair).unwrap(), 16).unwrap())
        .collect()
}

fn number(text: &str) -> usize {
    text.parse().unwrap()
}

fn words(length: usize, text: &str) -> Vec<u32> {
    let mut table = vec![0; length];
    for pair in text.split(',').filter(|pair| *pair != "-") {
        let (place, word) = pair.split_once(':').unwrap();
        table[number(place)] = word.parse().unwrap();
    }
    table
}

#[test]
fn every_row() {
    let mut count = 0;
    for line in ROWS.lines() {
        let parts: Vec<&str> = line.split(' ').collect();
        let lines = number(parts[1]) as u32;
        let refusal = number(parts[3]) as u32;
        if parts[0] == "write" {
            let table = words(number(parts[4]), parts[5]);
            let row = bytes(parts[6]);
            let mut out = vec![0xA5; number(parts[2])];
            let found = write_row_word(lines, &table, &mut out);
            assert_eq!(found, u64::from(refusal) << 32 | row.len() as u64, "{line}");
            assert_eq!(out[..row.len()], row, "{line}");
            assert!(out[row.len()..].iter().all(|byte| *byte == 0xA5), "{line}");
        } else {
            // Whatever stood there is written over by a row, and stays otherwise.
            let mut table = vec![7; number(parts[2])];
            let found = read_row_word(lines, &bytes(parts[5]), &mut table);
            assert_eq!(found, refusal, "{line}");
            let wanted = match refusal {
                0 => words(number(parts[2]), parts[4]),
                _ => vec![7; number(parts[2])],
            };
            assert_eq!(table, wanted, "{line}");
        }
        count += 1;
    }
    assert_eq!(count, 98);
}
