//! The texts that the archive hands to the RTP card against those that the
//! reference reads: whose each is, its name and its bytes, and where both stand
//! in the message.

use cordafina::{texts, Side};
use differential::calls::Cases;
use reference::text::{keyword, read};

/// A message over 4,096 bytes is not taken, and has no text for the card.
const LONGEST: usize = 4096;

type Told<'m> = (Side, &'m [u8], &'m [u8]);

fn expected(message: &[u8]) -> Vec<Told<'_>> {
    let message = read(message).unwrap_or_default();
    let actions = message.transactions().flat_map(|one| &one.actions);
    let mut told = Vec::new();
    for command in actions.flat_map(|action| &action.commands) {
        for item in command.items.iter().flat_map(|item| &item.items) {
            let side = if keyword(item.word, b"Local", b"L") {
                Side::Local
            } else {
                Side::Remote
            };
            told.extend(item.text.map(|text| (side, command.termination, text)));
        }
    }
    told
}

#[test]
fn texts_of_messages() {
    let mut cases = Cases::new(1);
    let (mut local, mut remote, mut several) = (0, 0, 0);
    for _ in 0..20_000 {
        let message = cases.draw().message;
        let wanted = if message.len() > LONGEST {
            Vec::new()
        } else {
            expected(&message)
        };
        let given: Vec<Told> = texts(&message)
            .map(|text| (text.side, text.name, text.text))
            .collect();
        assert_eq!(given, wanted, "{}", message.escape_ascii());
        for (one, other) in given.iter().zip(&wanted) {
            assert_eq!(
                (one.1.as_ptr(), one.2.as_ptr()),
                (other.1.as_ptr(), other.2.as_ptr())
            );
            match one.0 {
                Side::Local => local += 1,
                Side::Remote => remote += 1,
            }
        }
        several += u32::from(given.len() > 1);
    }
    assert!(
        local > 500 && remote > 500 && several > 200,
        "{local} {remote} {several}"
    );
}
