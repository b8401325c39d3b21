//! That a packet counted wrongly is found.

use differential::numbers::Numbers;
use differential::packets::{ask, Counted};
use reference::blocks::{block, set, Block};
use reference::packet;

/// A packet that is taken leaves another block: of its block before and the one
/// that it should leave.
fn leaves(
    (lines, table, blocks, n, arrival, stamp): (u32, &[u32], &mut [u32], u32, u32, u32),
    other: impl Fn(Block, Block) -> Block,
) -> u32 {
    let before = blocks.to_vec();
    let answer = packet(lines, table, blocks, n, arrival, stamp);
    if answer == 0 {
        let k = n as usize - 1;
        set(blocks, k, other(block(&before, k), block(blocks, k)));
    }
    answer
}

const DEFECTS: [(&str, Counted); 12] = [
    ("the first packet counts from 0", |l, t, b, n, a, s| {
        leaves((l, t, b, n, a, s), |(packets, ..), (p, transit, j)| {
            let first = u64::from((transit as i32).unsigned_abs());
            (p, transit, if packets == 0 { first } else { j })
        })
    }),
    ("J is rounded by 7", |l, t, b, n, a, s| {
        leaves((l, t, b, n, a, s), |(_, _, old), (p, transit, j)| {
            (p, transit, j + u64::from(p > 1 && old % 16 == 8))
        })
    }),
    ("a difference has no sign", |l, t, b, n, a, s| {
        leaves(
            (l, t, b, n, a, s),
            |(packets, last, old), (p, transit, j)| {
                let d = u64::from(transit.wrapping_sub(last));
                let other = old + d - (old + 8) / 16;
                (p, transit, if packets == 0 { j } else { other })
            },
        )
    }),
    ("2^31 is taken as no difference", |l, t, b, n, a, s| {
        leaves((l, t, b, n, a, s), |(packets, last, _), (p, transit, j)| {
            let most = packets != 0 && transit.wrapping_sub(last) == 1 << 31;
            (p, transit, j - u64::from(most) * (1 << 31))
        })
    }),
    ("the count starts again", |l, t, b, n, a, s| {
        leaves((l, t, b, n, a, s), |(packets, ..), (_, transit, j)| {
            (packets.wrapping_add(1), transit, j)
        })
    }),
    ("J stays where the count is held", |l, t, b, n, a, s| {
        leaves((l, t, b, n, a, s), |(packets, _, old), (p, transit, j)| {
            (p, transit, if packets == u32::MAX { old } else { j })
        })
    }),
    ("J has 32 bits", |l, t, b, n, a, s| {
        leaves((l, t, b, n, a, s), |_, (p, transit, j)| {
            (p, transit, j & 0xFFFF_FFFF)
        })
    }),
    ("the transit stays", |l, t, b, n, a, s| {
        leaves((l, t, b, n, a, s), |(packets, last, _), (p, transit, j)| {
            (p, if packets == 0 { transit } else { last }, j)
        })
    }),
    ("9 before 2", |l, t, b, n, a, s| {
        match packet(l, t, b, n, a, s) {
            2 if n == 0 || n > 64 => 9,
            answer => answer,
        }
    }),
    ("R/65 is R/1", |l, t, b, n, a, s| {
        packet(l, t, b, if n == 65 { 1 } else { n }, a, s)
    }),
    (
        "a packet of an absent ephemeral is counted",
        |l, t, b, n, a, s| {
            let answer = packet(l, t, b, n, a, s);
            if answer == 9 && (1..=64).contains(&n) {
                b[4 * n as usize - 4] |= 1;
            }
            answer
        },
    ),
    ("63 blocks are taken", |l, t, b, n, a, s| match b.len() {
        252 if n < 64 => {
            let mut words = b.to_vec();
            words.extend([0; 4]);
            let answer = packet(l, t, &mut words, n, a, s);
            b.copy_from_slice(&words[..252]);
            answer
        }
        _ => packet(l, t, b, n, a, s),
    }),
];

#[test]
fn each_defect_is_found() {
    for (name, defect) in DEFECTS {
        let mut numbers = Numbers::new(1);
        let found = (0..2_000).position(|_| ask(&mut numbers, defect).is_err());
        println!("{name}: after {found:?} packets");
        assert!(found.is_some(), "not found: {name}");
    }
}

#[test]
fn the_reference_is_like_itself() {
    let mut numbers = Numbers::new(1);
    let answers: Vec<u32> = (0..2_000)
        .map(|_| ask(&mut numbers, packet).unwrap())
        .collect();
    let count = |number| answers.iter().filter(|&&answer| answer == number).count();
    for number in [0, 2, 8, 9] {
        assert!(count(number) > 10, "{number}");
    }
    // Most are counted.
    assert!(count(0) > 1_000);
}
