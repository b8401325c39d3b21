//! Packets, and the figures that come with the goodbye (document 02, request 12).

use reference::blocks::{block, set, sound, updated, BLOCK_WORDS};
use reference::room::{Lent, ROOM_BYTES, ROOM_WORDS};
use reference::{answer, packet, Answer};

const OWN: &[u8] = b"[10.0.0.9]";
const BOUND: u64 = 1 << 35;

struct Gateway {
    table: [u32; 1522],
    blocks: [u32; BLOCK_WORDS],
}

impl Gateway {
    fn fresh() -> Self {
        Gateway {
            table: [0; 1522],
            blocks: [0; BLOCK_WORDS],
        }
    }

    fn answer(&mut self, own: &[u8], message: &[u8], reply: &mut [u8]) -> Answer {
        let (table, blocks) = (&mut self.table, &mut self.blocks);
        let mut room = Lent {
            words: &mut [0; ROOM_WORDS],
            bytes: &mut [0; ROOM_BYTES],
        };
        answer(8, message, table, &mut room, blocks, own, reply)
    }

    /// Runs a transaction: its `P=id{..}`.
    fn run(&mut self, transaction: &str) -> String {
        let mut reply = vec![0; 16_640];
        let message = ["!/1 [10.0.0.1] ", transaction].concat();
        let Answer::Taken(length) = self.answer(OWN, message.as_bytes(), &mut reply) else {
            panic!("turned down");
        };
        String::from_utf8(reply[15..length].to_vec()).unwrap()
    }

    fn packet(&mut self, n: u32, arrival: u32, stamp: u32) -> u32 {
        packet(8, &self.table, &mut self.blocks, n, arrival, stamp)
    }
}

/// "The first packet sets the transit and leaves J at 0", "transit differences are
/// taken modulo 2^32 and read as signed, their size d", "J becomes J + d − floor((J
/// + 8) / 16)", "held at 4294967295".
#[test]
fn one_packet() {
    assert_eq!(updated((0, 0, 0), 1000, 200), (1, 800, 0));
    assert_eq!(updated((0, 0, 0), 3, 5), (1, u32::MAX - 1, 0));
    assert_eq!(updated((1, 800, 0), 1180, 360), (2, 820, 20));
    assert_eq!(updated((1, 820, 0), 1160, 360), (2, 800, 20));
    assert_eq!(updated((2, 820, 20), 820, 0), (3, 820, 20 - 28 / 16));
    // Over the end of 32 bits.
    assert_eq!(updated((2, u32::MAX, 7), 0, 0), (3, 0, 8));
    assert_eq!(updated((2, u32::MAX, 8), 0, 0), (3, 0, 8));
    // A difference of 2^31 has that size.
    let half = 1 << 31;
    assert_eq!(updated((2, 0, 0), half, 0), (3, half, 1 << 31));
    assert_eq!(updated((2, 1, 0), half, 0), (3, half, (1 << 31) - 1));
    // The count is held, and J still moves; at the bound it stays.
    assert_eq!(updated((u32::MAX, 0, 0), 5, 0), (u32::MAX, 5, 5));
    assert_eq!(updated((9, 0, BOUND), half, 0), (10, half, BOUND));
    assert_eq!(updated((9, 0, BOUND), 0, 0).2, BOUND - (BOUND + 8) / 16);
}

/// "J never passes 2^35": from 0, by differences of 2^31, it comes to 2^35 - 8.
#[test]
fn jitter_is_bounded() {
    let mut figures = (0, 0, 0);
    for place in 0..1_000u32 {
        figures = updated(figures, place << 31, 0);
        assert!(figures.2 <= BOUND - 8);
    }
    assert_eq!(figures.2, BOUND - 8);
}

/// "Refusals: 2 .. after it 9 for an update of an absent ephemeral or a number
/// outside 1..64, nothing changed"; 8 before both.
#[test]
fn packets_refused() {
    let mut gateway = Gateway::fresh();
    gateway.run("T=1{C=${A=$,A=$}}");
    for n in [0, 3, 64, 65, u32::MAX] {
        assert_eq!(gateway.packet(n, 5, 3), 9, "{n}");
    }
    assert_eq!(gateway.blocks, [0; BLOCK_WORDS]);
    set(&mut gateway.blocks, 63, (1, 0, BOUND + 1));
    let held = gateway.blocks;
    assert_eq!((gateway.packet(1, 5, 3), gateway.packet(65, 5, 3)), (2, 2));
    assert_eq!(packet(0, &gateway.table, &mut gateway.blocks, 65, 5, 3), 8);
    assert_eq!(packet(9, &gateway.table, &mut [0; BLOCK_WORDS], 1, 5, 3), 2);
    assert_eq!(gateway.blocks, held);
    for length in [0, 252, 255, 257, 260] {
        assert_eq!(packet(8, &gateway.table, &mut vec![0; length], 1, 5, 3), 2);
    }
    // An absent ephemeral's block holds anything sound.
    set(&mut gateway.blocks, 63, (1, 0, BOUND));
    assert_eq!(gateway.packet(2, 5, 3), 0);
    assert_eq!(block(&gateway.blocks, 1), (1, 2, 0));
}

/// "or one with J over 2^35 or with no packets and not zero"; 2 is judged after 3
/// and before 4, and "a call turned down changes none".
#[test]
fn blocks_not_sound() {
    for (figures, is_sound) in [
        ((0, 0, 0), true),
        ((1, 0, 0), true),
        ((u32::MAX, u32::MAX, BOUND), true),
        ((1, 0, BOUND + 1), false),
        ((1, 0, 9 << 32), false),
        ((0, 1, 0), false),
        ((0, 0, 1), false),
        ((0, 0, 1 << 32), false),
    ] {
        for place in [0, 31, 63] {
            let mut gateway = Gateway::fresh();
            set(&mut gateway.blocks, place, figures);
            assert_eq!(sound(&gateway.blocks), is_sound, "{figures:?}");
            let held = gateway.blocks;
            let got = gateway.answer(b"", b"", &mut [0; 16_640]);
            let expected = [Answer::TableUnsound, Answer::MidUnfit][usize::from(is_sound)];
            assert_eq!(got, expected, "{figures:?}");
            let short = gateway.answer(b"", b"", &mut [0; 16_639]);
            assert_eq!(short, Answer::ReplyTooShort);
            assert_eq!(gateway.blocks, held);
        }
    }
}

/// "Subtract of an ephemeral returns `S=R/1{SA{rtp/pr=n,rtp/jit=n}}` .. and a new
/// ephemeral starts at zero; no message changes a block otherwise".
#[test]
fn figures_with_the_goodbye() {
    let mut gateway = Gateway::fresh();
    gateway.run("T=1{C=${A=L/1/1,A=$,A=$,A=$}}");
    for (n, arrival, stamp) in [(1, 1000, 200), (1, 1180, 360), (2, 7, 9)] {
        assert_eq!(gateway.packet(n, arrival, stamp), 0);
    }
    let held = gateway.blocks;
    let reply = gateway.run("T=2{C=1{MF=*,O-S=R/1{M},O-S=R/4},C=${MV=R/1},C=2{AV=*{AT{M}}}}");
    assert!(reply.contains("S=R/1{ER=447{}},S=R/4{ER=430{}}"));
    assert_eq!(gateway.blocks, held);
    // Each of a wildcard's, and the block stays; a line has no figures.
    assert_eq!(
        gateway.run("T=3{C=1{S=*},C=2{S=R/1}}"),
        "P=3{C=1{S=L/1/1,S=R/2{SA{rtp/pr=1,rtp/jit=0}},S=R/3{SA{rtp/pr=0,rtp/jit=0}}},\
         C=2{S=R/1{SA{rtp/pr=2,rtp/jit=1}}}}"
    );
    assert_eq!(gateway.blocks, held);
    // Made again, alone its own block is zero.
    assert_eq!(
        gateway.run("T=4{C=${A=$,S=R/1}}"),
        "P=4{C=1{A=R/1,S=R/1{SA{rtp/pr=0,rtp/jit=0}}}}"
    );
    let mut expected = held;
    set(&mut expected, 0, (0, 0, 0));
    assert_eq!(gateway.blocks, expected);
}
