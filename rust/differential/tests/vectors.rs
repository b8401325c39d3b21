//! Runs the recorded calls, packets and rows of the folder that the variable VECTORS
//! names (`calls.jsonl`, `packets.jsonl` and `rows.jsonl` if there is one) on the
//! reference and on the archive, and its listings (`listing/`) on the reference; without it, nothing
//! is run.

use std::fs;
use std::path::{Path, PathBuf};

use differential::calls::{archive_word, outcome, reference_word, Call, Case, GUARD};
use differential::packets::Counted;
use differential::rooms::{shown, Room};
use differential::rows::{self, Reads, Writes};
use reference::blocks::BLOCK_WORDS;
use reference::listing::listing;

fn folder() -> Option<PathBuf> {
    let folder = std::env::var_os("VECTORS").map(PathBuf::from);
    if folder.is_none() {
        println!("VECTORS is not set: the recorded calls are not run");
    }
    folder
}

fn read(path: &Path) -> Vec<u8> {
    fs::read(path).unwrap_or_else(|error| panic!("{}: {error}", path.display()))
}

/// One line of `calls.jsonl`: a call, and what comes of it.
struct Row {
    kind: String,
    case: Case,
    refusal: u64,
    reply: Vec<u8>,
    room: Room,
    blocks: Vec<u32>,
    after: Vec<u32>,
}

/// A reader of the one shape of JSON that the rows have: strings, numbers, and
/// lists of pairs, under fixed keys in a fixed order.
struct Json<'a>(&'a str);

impl<'a> Json<'a> {
    fn skip(&mut self, text: &str) {
        let rest = self.0.trim_start().strip_prefix(text);
        self.0 = rest.unwrap_or_else(|| panic!("no {text} at {:.40}", self.0));
    }

    fn take(&mut self, text: &str) -> bool {
        let rest = self.0.trim_start().strip_prefix(text);
        self.0 = rest.unwrap_or(self.0);
        rest.is_some()
    }

    fn key(&mut self, name: &str) {
        let string = self.string();
        assert_eq!(string, name);
        self.skip(":");
    }

    /// A string, with the character that each escape stands for.
    fn string(&mut self) -> String {
        self.skip("\"");
        let mut string = String::new();
        let mut rest = self.0.chars();
        loop {
            match rest.next().expect("a closing quote") {
                '"' => break,
                '\\' => string.push(Self::escaped(&mut rest)),
                plain => string.push(plain),
            }
        }
        self.0 = rest.as_str();
        string
    }

    /// What an escape stands for, from behind its backslash on.
    fn escaped(rest: &mut std::str::Chars) -> char {
        match rest.next().expect("an escape") {
            sign @ ('"' | '\\' | '/') => sign,
            'b' => '\u{8}',
            'f' => '\u{c}',
            'n' => '\n',
            'r' => '\r',
            't' => '\t',
            'u' => {
                let digits = rest.as_str().get(..4).expect("four digits");
                let number = u32::from_str_radix(digits, 16).expect("hex digits");
                rest.nth(3);
                // Half of a pair stands for no character by itself.
                char::from_u32(number).unwrap_or(char::REPLACEMENT_CHARACTER)
            }
            other => panic!("no escape \\{other}"),
        }
    }

    fn number<T: std::str::FromStr>(&mut self) -> T {
        let text = self.0.trim_start();
        let end = text.find(|c: char| !c.is_ascii_digit());
        let (digits, rest) = text.split_at(end.unwrap_or(text.len()));
        self.0 = rest;
        let Ok(number) = digits.parse() else {
            panic!("no number at {text:.40}");
        };
        number
    }

    fn hex(&mut self) -> Vec<u8> {
        let digits = self.string();
        assert_eq!(digits.len() % 2, 0);
        let pair = |at| u8::from_str_radix(&digits[at..at + 2], 16).expect("hex digits");
        (0..digits.len()).step_by(2).map(pair).collect()
    }

    /// The words that are not 0, as `[index, value]`.
    fn words(&mut self, length: usize) -> Vec<u32> {
        let mut words = vec![0; length];
        self.skip("[");
        if self.take("]") {
            return words;
        }
        loop {
            self.skip("[");
            let index: usize = self.number();
            self.skip(",");
            words[index] = self.number();
            self.skip("]");
            if !self.take(",") {
                break;
            }
        }
        self.skip("]");
        words
    }

    /// The blocks, 64 of zeros where a row has none, and the comma after them.
    fn blocks(&mut self, name: &str) -> Vec<u32> {
        if !self.take(&format!("\"{name}\":")) {
            return vec![0; BLOCK_WORDS];
        }
        if self.take("null") {
            self.take(",");
            return vec![0; BLOCK_WORDS];
        }
        self.skip("{");
        self.key("len");
        let length = self.number();
        self.skip(",");
        self.key("words");
        let words = self.words(length);
        self.skip("}");
        self.take(",");
        words
    }

    /// The room, an empty one where a row has none, and the comma after it.
    fn room(&mut self, name: &str) -> Room {
        if !self.take(&format!("\"{name}\":")) {
            return Room::empty();
        }
        if self.take("null") {
            self.take(",");
            return Room::empty();
        }
        self.skip("{");
        self.key("words_len");
        let length = self.number();
        self.skip(",");
        self.key("words");
        let words = self.words(length);
        self.skip(",");
        self.key("bytes_len");
        let length = self.number();
        self.skip(",");
        self.key("bytes");
        let bytes = self.pieces(length);
        self.skip("}");
        self.take(",");
        Room { words, bytes }
    }

    /// The bytes that are not 0, as `[place, hex]`.
    fn pieces(&mut self, length: usize) -> Vec<u8> {
        let mut bytes = vec![0; length];
        self.skip("[");
        if self.take("]") {
            return bytes;
        }
        loop {
            self.skip("[");
            let place: usize = self.number();
            self.skip(",");
            let piece = self.hex();
            bytes[place..place + piece.len()].copy_from_slice(&piece);
            self.skip("]");
            if !self.take(",") {
                break;
            }
        }
        self.skip("]");
        bytes
    }

    fn row(line: &'a str) -> Row {
        let mut json = Json(line);
        json.skip("{");
        json.key("kind");
        let kind = json.string();
        json.skip(",");
        json.key("message");
        let message = json.hex();
        json.skip(",");
        json.key("table_len");
        let length = json.number();
        json.skip(",");
        json.key("table");
        let table = json.words(length);
        json.skip(",");
        json.key("own");
        let own = json.hex();
        json.skip(",");
        json.key("buf");
        let reply_length = json.number();
        json.skip(",");
        // Rows of the base have no count of lines, and those before requests
        // 3 and 12 no kept replies and no blocks.
        let lines = match json.take("\"lines\":") {
            true => json.number(),
            false => 8,
        };
        json.take(",");
        let room = json.room("room");
        let blocks = json.blocks("blocks");
        json.key("refusal");
        let refusal = json.number();
        json.skip(",");
        json.key("reply");
        let reply = json.hex();
        json.skip(",");
        json.key("after");
        let after = json.words(length);
        json.take(",");
        let room_after = json.room("room_after");
        let blocks_after = json.blocks("blocks_after");
        json.skip("}");
        assert!(json.0.trim().is_empty());
        let case = Case {
            lines,
            message: message.into_boxed_slice(),
            table,
            room,
            blocks,
            own: own.into_boxed_slice(),
            reply: reply_length,
        };
        Row {
            kind,
            case,
            refusal,
            reply,
            after,
            room: room_after,
            blocks: blocks_after,
        }
    }
}

#[test]
fn escapes() {
    let mut json = Json(r#" "a\"b\\n\n\u0041\u00e9/\/" ,"#);
    assert_eq!(json.string(), "a\"b\\n\nA\u{e9}//");
    assert_eq!(json.0, " ,");
}

/// Lets a side answer one row; gives what differs.
fn differs(row: &Row, call: Call) -> Option<String> {
    let got = outcome(&row.case, call, GUARD);
    if got.refusal() != row.refusal {
        return Some(format!("refusal {}, not {}", got.refusal(), row.refusal));
    }
    if got.length() != row.reply.len() || got.text() != row.reply {
        return Some(format!(
            "reply {}, not {}",
            got.text().escape_ascii(),
            row.reply.escape_ascii()
        ));
    }
    if !got.stays_elsewhere(&row.case) {
        return Some("something past the reply or beside the buffers is written".to_string());
    }
    if got.blocks() != row.blocks {
        return Some("the blocks are others".to_string());
    }
    if got.room() != row.room {
        let (got, room) = (shown(&got.room()), shown(&row.room));
        return Some(format!("the room is {got}\n  not {room}"));
    }
    let table = got.table();
    let word = (0..table.len()).find(|&place| table[place] != row.after[place])?;
    Some(format!(
        "word {word} is {}, not {}",
        table[word], row.after[word]
    ))
}

/// Runs all rows on one side.
fn run(side: &str, call: Call) {
    let Some(folder) = folder() else { return };
    let text = String::from_utf8(read(&folder.join("calls.jsonl"))).unwrap();
    let mut rows = 0;
    let mut different = 0;
    for (number, line) in text.lines().enumerate() {
        let row = Json::row(line);
        rows += 1;
        if let Some(difference) = differs(&row, call) {
            different += 1;
            println!(
                "row {} ({}): {difference}\n  message {}",
                number + 1,
                row.kind,
                row.case.message.escape_ascii()
            );
        }
    }
    println!("{side}: {rows} calls, {different} different");
    assert!(rows > 0);
    assert_eq!(different, 0);
}

#[test]
fn calls_on_the_reference() {
    run("reference", reference_word);
}

#[test]
fn calls_on_the_archive() {
    run("archive", archive_word);
}

/// Has a side count the packet of one line of `packets.jsonl`; whether it did so
/// as recorded.
fn counted(line: &str, side: Counted) -> bool {
    /// More words than any table has; the length comes behind them.
    const MOST: usize = 4096;
    let mut json = Json(line);
    json.skip("{");
    json.key("lines");
    let lines = json.number();
    json.skip(",");
    let [table, blocks] = ["table", "blocks"].map(|name| {
        json.key(name);
        let words = json.words(MOST);
        json.skip(",");
        words
    });
    let [n, arrival, stamp, refusal] = ["n", "arrival", "stamp", "refusal"].map(|name| {
        json.key(name);
        let number: u32 = json.number();
        json.skip(",");
        number
    });
    json.key("after");
    let after = json.words(MOST);
    let [table_length, length, _] = ["table_len", "blocks_len", "after_len"].map(|name| {
        json.skip(",");
        json.key(name);
        json.number::<usize>()
    });
    json.skip("}");
    // The words past the blocks' length are not lent.
    let mut lent = blocks;
    let table = &table[..table_length];
    let answer = side(lines, table, &mut lent[..length], n, arrival, stamp);
    answer == refusal && lent == after
}

#[test]
fn packets() {
    let Some(path) = folder().map(|folder| folder.join("packets.jsonl")) else {
        return;
    };
    if !path.exists() {
        println!("no packets.jsonl: no packets are run");
        return;
    }
    let text = String::from_utf8(read(&path)).unwrap();
    for (name, side) in [
        ("reference", reference::packet as Counted),
        ("archive", cordafina::packet_word),
    ] {
        let different = text.lines().filter(|line| !counted(line, side)).count();
        println!(
            "{name}: {} packets, {different} different",
            text.lines().count()
        );
        assert!(!text.is_empty());
        assert_eq!(different, 0);
    }
}

/// Has a side write or read the row of one line of `rows.jsonl`; whether it did so as
/// recorded.
fn carried(line: &str, writes: Writes, reads: Reads) -> bool {
    /// More words than any table has; the length comes behind them.
    const MOST: usize = 4096;
    let mut json = Json(line);
    json.skip("{");
    json.key("what");
    let what = json.string();
    json.skip(",");
    json.key("lines");
    let lines = json.number();
    json.skip(",");
    if what == "write" {
        json.key("table");
        let table = json.words(MOST);
        json.skip(",");
        let [length, refusal] = ["out", "refusal"].map(|name| {
            json.key(name);
            let number: usize = json.number();
            json.skip(",");
            number
        });
        json.key("row");
        let row = json.hex();
        json.skip(",");
        json.key("table_len");
        let words: usize = json.number();
        let answer = (refusal as u64) << 32 | row.len() as u64;
        let (got, lent) = rows::written(lines, &table[..words], length, writes);
        // The row from the first byte on, and what stood there behind it.
        let mut left = rows::written(lines, &[], length, |_, _, _| 0).1;
        left[rows::GUARD..][..row.len()].copy_from_slice(&row);
        return got == answer && lent == left;
    }
    json.key("row");
    let row = json.hex();
    json.skip(",");
    let [length, refusal] = ["words", "refusal"].map(|name| {
        json.key(name);
        let number: usize = json.number();
        json.skip(",");
        number
    });
    json.key("table");
    let before = vec![7; length];
    let after = match refusal {
        0 => json.words(length),
        _ => before.clone(),
    };
    let left = rows::read(lines, &row, &after, |_, _, _| 0).1;
    rows::read(lines, &row, &before, reads) == (refusal as u32, left)
}

#[test]
fn table_rows() {
    let Some(path) = folder().map(|folder| folder.join("rows.jsonl")) else {
        return;
    };
    if !path.exists() {
        println!("no rows.jsonl: no rows are run");
        return;
    }
    let text = String::from_utf8(read(&path)).unwrap();
    let sides: [(&str, Writes, Reads); 2] = [
        ("reference", rows::reference_writes, rows::reference_reads),
        (
            "archive",
            cordafina::write_row_word,
            cordafina::read_row_word,
        ),
    ];
    for (name, writes, reads) in sides {
        let different = text
            .lines()
            .filter(|line| !carried(line, writes, reads))
            .count();
        println!(
            "{name}: {} rows, {different} different",
            text.lines().count()
        );
        assert!(!text.is_empty());
        assert_eq!(different, 0);
    }
}

#[test]
fn listings() {
    let Some(folder) = folder() else { return };
    let folder = folder.join("listing");
    let mut inputs: Vec<PathBuf> = fs::read_dir(&folder)
        .unwrap()
        .map(|entry| entry.unwrap().path())
        .filter(|path| path.extension().is_some_and(|kind| kind == "in"))
        .collect();
    inputs.sort();
    for input in &inputs {
        let mut out = Vec::new();
        listing(read(input).as_slice(), &mut out).unwrap();
        let expected = read(&input.with_extension("out"));
        assert!(out == expected, "{} differs", input.display());
    }
    println!("{} listings", inputs.len());
    assert!(!inputs.is_empty());
}
