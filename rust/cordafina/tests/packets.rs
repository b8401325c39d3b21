//! Recorded packets, through the archive that is linked. A row of `packets.txt` has
//! the count of lines, the ephemeral's number, arrival, RTP time and the refusal or
//! 0; then, each after a `|`, the table and the blocks, their length and the words
//! that are not 0, and for a packet that was counted the four words of its block
//! afterwards.

use cordafina::packet_word;

const ROWS: &str = include_str!("packets.txt");

struct Row {
    lines: u32,
    n: u32,
    arrival: u32,
    stamp: u32,
    refusal: u32,
    table: Vec<u32>,
    blocks: Vec<u32>,
    after: Vec<u32>,
}

fn numbers(text: &str) -> Vec<u32> {
    let words = text.split_whitespace();
    words.map(|word| word.parse().unwrap()).collect()
}

fn words(text: &str) -> Vec<u32> {
    let mut parts = text.split_whitespace();
    let mut words = vec![0; parts.next().unwrap().parse().unwrap()];
    for (place, word) in parts.map(|part| part.split_once(':').unwrap()) {
        words[place.parse::<usize>().unwrap()] = word.parse().unwrap();
    }
    words
}

fn rows() -> impl Iterator<Item = Row> {
    ROWS.lines().map(|line| {
        let parts: Vec<&str> = line.split('|').collect();
        let asked = numbers(parts[0]);
        let mut row = Row {
            lines: asked[0],
            n: asked[1],
            arrival: asked[2],
            stamp: asked[3],
            refusal: asked[4],
            table: words(parts[1]),
            blocks: words(parts[2]),
            after: words(parts[2]),
        };
        if row.refusal == 0 {
            let block = numbers(parts[3]);
            row.after[4 * row.n as usize - 4..][..4].copy_from_slice(&block);
        }
        row
    })
}

#[test]
fn every_packet() {
    for (number, row) in (1..).zip(rows()) {
        let mut blocks = row.blocks;
        let got = packet_word(
            row.lines,
            &row.table,
            &mut blocks,
            row.n,
            row.arrival,
            row.stamp,
        );
        assert_eq!(got, row.refusal, "row {number}");
        assert_eq!(blocks, row.after, "row {number}");
    }
}

#[test]
fn the_rows_have_every_answer() {
    for (refusal, count) in [(0, 82), (2, 28), (8, 15), (9, 25)] {
        let found = rows().filter(|row| row.refusal == refusal).count();
        assert_eq!(found, count, "refusal {refusal}");
    }
    // A first packet, the count held, and J at its bound before and after.
    let counted = || rows().filter(|row| row.refusal == 0);
    let block = |words: &[u32], row: &Row| -> [u32; 4] {
        words[4 * row.n as usize - 4..][..4].try_into().unwrap()
    };
    assert!(counted().any(|row| block(&row.blocks, &row) == [0; 4]));
    assert!(counted().any(|row| block(&row.blocks, &row)[0] == u32::MAX));
    assert!(counted().any(|row| block(&row.blocks, &row)[2..] == [0, 8]));
    assert!(counted().any(|row| block(&row.after, &row)[2..] == [0, 8]));
}
