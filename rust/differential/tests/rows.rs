//! That a row written or read wrongly is found.

use differential::numbers::Numbers;
use differential::rows::{ask, reference_reads, reference_writes, Reads, Writes};
use reference::row;
use reference::table::{Lines, EPHEMERALS};

/// A row that is written has other numbers.
fn writes(
    (lines, table, out): (u32, &[u32], &mut [u8]),
    other: impl Fn(Lines, &mut Vec<u32>),
) -> u64 {
    let answer = reference_writes(lines, table, out);
    if answer >> 32 != 0 {
        return answer;
    }
    let mut numbers = row::decoded(&out[..answer as usize]).unwrap();
    other(Lines::fitted(lines).unwrap(), &mut numbers);
    let row = row::encoded(&numbers);
    out[..row.len()].copy_from_slice(&row);
    row.len() as u64
}

/// A row is read as if it were another.
fn reads((lines, row, table): (u32, &[u8], &mut [u32]), other: impl Fn(&mut Vec<u8>)) -> u32 {
    let mut bytes = row.to_vec();
    other(&mut bytes);
    reference_reads(lines, &bytes, table)
}

/// Whether every number is in its shortest form and no longer than five groups, and
/// where the last group of the first one that is not stands.
fn padding(row: &[u8]) -> Option<usize> {
    (1..row.len()).find(|&place| row[place] == 0 && row[place - 1] >= 128)
}

const WRITES: [(&str, Writes); 8] = [
    ("the count is left out", |l, t, o| {
        writes((l, t, o), |_, numbers| {
            numbers.remove(0);
        })
    }),
    ("the high group comes first", |l, t, o| {
        let answer = reference_writes(l, t, o);
        let mut row = o[..answer as u32 as usize].to_vec();
        for groups in row.split_inclusive_mut(|byte| byte & 128 == 0) {
            groups.reverse();
            let last = groups.len() - 1;
            groups[0] |= if last > 0 { 128 } else { 0 };
            groups[last] &= 127;
        }
        o[..row.len()].copy_from_slice(&row);
        answer
    }),
    ("the flow words are exchanged", |l, t, o| {
        writes((l, t, o), |_, numbers| {
            let first = numbers.len() - 3 * 128;
            for context in numbers[first..].chunks_mut(3) {
                context.swap(1, 2);
            }
        })
    }),
    ("an absent ephemeral is left out", |l, t, o| {
        writes((l, t, o), |lines, numbers| {
            let first = 1 + 2 * lines.line_terminations();
            if numbers[first] == 0 {
                numbers.drain(first..first + 4);
            }
        })
    }),
    ("the bytes past the row are cleared", |l, t, o| {
        let answer = reference_writes(l, t, o);
        if answer >> 32 == 0 {
            o[answer as usize..].fill(0);
        }
        answer
    }),
    ("8,191 bytes are enough", |l, t, o| {
        let mut longer = o.to_vec();
        longer.push(0);
        let answer = reference_writes(l, t, &mut longer);
        if answer >> 32 == 0 {
            o.copy_from_slice(&longer[..o.len()]);
        }
        answer
    }),
    ("2 before 11", |l, t, o| {
        match reference_writes(l, t, o) >> 32 {
            11 if reference_writes(l, t, &mut [0; 8_192]) >> 32 == 2 => 2 << 32,
            _ => reference_writes(l, t, o),
        }
    }),
    ("an unsound table is written", |l, t, o| {
        let answer = reference_writes(l, t, o);
        match Lines::fitted(l) {
            Some(lines) if answer >> 32 == 2 && t.len() == lines.words() => {
                let row = row::encoded(&row::numbers(lines, t));
                let length = row.len().min(o.len());
                o[..length].copy_from_slice(&row[..length]);
                length as u64
            }
            _ => answer,
        }
    }),
];

const READS: [(&str, Reads); 10] = [
    ("a padded number is taken", |l, s, t| {
        reads((l, s, t), |row| {
            while let Some(place) = padding(row) {
                row.remove(place);
                row[place - 1] &= 127;
            }
        })
    }),
    ("a bit over 32 is dropped", |l, s, t| {
        reads((l, s, t), |row| {
            for groups in row.split_inclusive_mut(|byte| byte & 128 == 0) {
                if let [_, _, _, _, last] = groups {
                    *last &= 15;
                }
            }
        })
    }),
    ("bytes past the row are taken", |l, s, t| {
        let all = reference_reads(l, s, t);
        match all {
            10 if !s.is_empty() => match reference_reads(l, &s[..s.len() - 1], t) {
                0 => 0,
                _ => 10,
            },
            _ => all,
        }
    }),
    ("a row of any count is taken", |l, s, t| {
        reads((l, s, t), |row| {
            if !row.is_empty() {
                row[0] = l as u8;
            }
        })
    }),
    ("the map stays as it was", |l, s, t| {
        let before = t.to_vec();
        let answer = reference_reads(l, s, t);
        if let (0, Some(lines)) = (answer, Lines::fitted(l)) {
            let map = lines.map()..lines.map() + 2;
            t[map.clone()].copy_from_slice(&before[map]);
        }
        answer
    }),
    ("the high half of the map is not worked out", |l, s, t| {
        let answer = reference_reads(l, s, t);
        if let (0, Some(lines)) = (answer, Lines::fitted(l)) {
            t[lines.map() + 1] = 0;
        }
        answer
    }),
    ("Local and Remote are exchanged", |l, s, t| {
        let answer = reference_reads(l, s, t);
        if let (0, Some(lines)) = (answer, Lines::fitted(l)) {
            for ephemeral in 0..EPHEMERALS {
                t[lines.speech() + 8 * ephemeral..][..8].rotate_left(4);
            }
        }
        answer
    }),
    ("words are written before the row is judged", |l, s, t| {
        let answer = reference_reads(l, s, t);
        if answer == 10 && s.len() > 1 {
            t[0] = u32::from(s[1]);
        }
        answer
    }),
    ("an unsound table is read", |l, s, t| {
        let answer = reference_reads(l, s, t);
        let (Some(lines), 10, Some(numbers)) = (Lines::fitted(l), answer, row::decoded(s)) else {
            return answer;
        };
        let fresh = row::numbers(lines, &vec![0; lines.words()]);
        match numbers.len() == fresh.len() && numbers[0] == l {
            true => 0,
            false => answer,
        }
    }),
    ("10 before 2", |l, s, t| {
        let answer = reference_reads(l, s, t);
        let lines = Lines::fitted(l);
        match (answer, lines) {
            (2, Some(lines)) => {
                let mut words = vec![0; lines.words()];
                match reference_reads(l, s, &mut words) {
                    10 => 10,
                    _ => 2,
                }
            }
            _ => answer,
        }
    }),
];

fn found(writes: Writes, reads: Reads) -> Option<usize> {
    let mut numbers = Numbers::new(1);
    (0..3_000).position(|_| ask(&mut numbers, writes, reads).is_err())
}

#[test]
fn each_defect_is_found() {
    for (name, defect) in WRITES {
        let after = found(defect, reference_reads);
        println!("{name}: after {after:?} rows");
        assert!(after.is_some(), "not found: {name}");
    }
    for (name, defect) in READS {
        let after = found(reference_writes, defect);
        println!("{name}: after {after:?} rows");
        assert!(after.is_some(), "not found: {name}");
    }
}

#[test]
fn the_reference_is_like_itself() {
    let mut numbers = Numbers::new(1);
    let (mut wrote, mut read) = ([0; 12], [0; 12]);
    for _ in 0..3_000 {
        let asked = ask(&mut numbers, reference_writes, reference_reads).unwrap();
        wrote[asked.write as usize] += 1;
        read[asked.read as usize] += 1;
    }
    for number in [0, 2, 8, 11] {
        assert!(wrote[number] > 10, "writing {number}");
    }
    for number in [0, 2, 8, 10] {
        assert!(read[number] > 10, "reading {number}");
    }
}
