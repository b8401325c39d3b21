//! Reading: the bytes of a message to a tree of slices borrowed from it.
//!
//! "The whole message is read before anything runs." The reader goes once over
//! the bytes from left to right, so the fault it stops at is the first one.

use std::ops::RangeInclusive;

/// A message that reads well: the sender's mId, and "1 to 8 transactions", K "as
/// one of the eight".
#[derive(Debug, Default)]
pub struct Message<'m> {
    pub sender: &'m [u8],
    pub parts: Vec<Part<'m>>,
}

impl<'m> Message<'m> {
    /// The transactions without the acknowledgements.
    pub fn transactions(&self) -> impl Iterator<Item = &Transaction<'m>> {
        self.parts.iter().filter_map(|part| match part {
            Part::Transaction(transaction) => Some(transaction),
            Part::Acknowledgement(_) => None,
        })
    }
}

#[derive(Debug)]
pub enum Part<'m> {
    Transaction(Transaction<'m>),
    /// `K{..}`: identifiers, each a range of one, and ranges.
    Acknowledgement(Vec<RangeInclusive<u32>>),
}

/// `T=id{..}`
#[derive(Debug)]
pub struct Transaction<'m> {
    pub id: u32,
    pub actions: Vec<Action<'m>>,
}

/// `C=id{..}`: "properties, then commands, .. at least one of either"
#[derive(Debug)]
pub struct Action<'m> {
    pub context: ContextId,
    pub properties: Vec<Property<'m>>,
    pub commands: Vec<Command<'m>>,
}

#[derive(Clone, Copy, Debug, PartialEq, Eq)]
pub enum ContextId {
    Number(u32),
    /// `-`
    Null,
    /// `$`
    Choose,
    /// `*`
    All,
}

/// A property of a context.
#[derive(Clone, Debug, PartialEq, Eq)]
pub enum Property<'m> {
    Priority(u32),
    Emergency,
    /// `TP{..}`
    Topology(Vec<Triple<'m>>),
}

/// "triples of two full names and Isolate/IS, Oneway/OW, Bothway/BW"
#[derive(Clone, Copy, Debug, PartialEq, Eq)]
pub struct Triple<'m> {
    pub names: [&'m [u8]; 2],
    pub direction: Direction,
}

#[derive(Clone, Copy, Debug, PartialEq, Eq)]
pub enum Direction {
    Isolate,
    Oneway,
    Bothway,
}

impl Direction {
    fn of(word: &[u8]) -> Option<Self> {
        if keyword(word, b"Isolate", b"IS") {
            Some(Direction::Isolate)
        } else if keyword(word, b"Oneway", b"OW") {
            Some(Direction::Oneway)
        } else if keyword(word, b"Bothway", b"BW") {
            Some(Direction::Bothway)
        } else {
            None
        }
    }
}

/// "optional `O-`, optional `W-`, word `=` termination, optional `{` items `}`"
#[derive(Debug)]
pub struct Command<'m> {
    pub optional: bool,
    /// `W-`, the wildcarded response.
    pub wildcarded: bool,
    pub word: &'m [u8],
    pub termination: &'m [u8],
    /// Empty for a command without braces, as empty braces are a fault.
    pub items: Vec<Item<'m>>,
}

/// "word, optional `/` word, optional `=` value, optional `{` items `}`"
#[derive(Debug)]
pub struct Item<'m> {
    pub word: &'m [u8],
    /// The word after `/`.
    pub second: Option<&'m [u8]>,
    pub value: Option<Value<'m>>,
    /// Whether it has braces: those of Audit may be empty.
    pub braces: bool,
    pub items: Vec<Item<'m>>,
    /// What Local or Remote of a level 1 Media has in braces, in place of items.
    pub text: Option<&'m [u8]>,
}

#[derive(Clone, Copy, Debug)]
pub enum Value<'m> {
    Plain(&'m [u8]),
    /// What stands between the quotes.
    Quoted(&'m [u8]),
}

/// How a message failed to read.
#[derive(Clone, Copy, Debug, PartialEq, Eq)]
pub enum Fault {
    /// 400
    Message,
    /// 406: "A header .. that reads well with a version other than 1"
    Version,
    /// 403: "between a transaction's opening and closing brace, or identifier 0"
    Transaction(u32),
}

/// Transactions and acknowledgements of a message.
const PARTS: usize = 8;
const ACTIONS: usize = 16;
const COMMANDS: usize = 64;
const LEVELS: u32 = 8;
const WORD_BYTES: usize = 64;
const NAME_BYTES: usize = 64;
const VALUE_BYTES: usize = 64;
const DOMAIN_BYTES: usize = 64;

// Classes of bytes.
const LETTER: u8 = 1;
const DIGIT: u8 = 2;
/// letters, digits, `_`
const WORD: u8 = 4;
/// letters, digits, `/` `*` `_` `$`
const NAME: u8 = 8;
/// SafeChar of Annex B
const SAFE: u8 = 16;
/// SafeChar, RestChar, space and tab
const QUOTED: u8 = 32;
/// tab and 0x20..0x7E
const COMMENT: u8 = 64;
/// letters, digits, `-`, `.`
const DOMAIN: u8 = 128;

static CLASS: [u8; 256] = classes();

const fn classes() -> [u8; 256] {
    let mut class = [0; 256];
    let mut byte = 0;
    while byte < 256 {
        class[byte] = match byte as u8 {
            b'A'..=b'Z' | b'a'..=b'z' => LETTER | WORD | NAME | SAFE | QUOTED | COMMENT | DOMAIN,
            b'0'..=b'9' => DIGIT | WORD | NAME | SAFE | QUOTED | COMMENT | DOMAIN,
            b'_' => WORD | NAME | SAFE | QUOTED | COMMENT,
            b'/' | b'*' | b'$' => NAME | SAFE | QUOTED | COMMENT,
            b'-' | b'.' => SAFE | QUOTED | COMMENT | DOMAIN,
            b'!' | b'%' | b'&' | b'\'' | b'(' | b')' | b'+' | b'?' | b'@' | b'\\' | b'^' | b'`'
            | b'|' | b'~' => SAFE | QUOTED | COMMENT,
            // RestChar
            b'#' | b',' | b':' | b';' | b'<' | b'=' | b'>' | b'[' | b']' | b'{' | b'}' => {
                QUOTED | COMMENT
            }
            b' ' | b'\t' => QUOTED | COMMENT,
            b'"' => COMMENT,
            _ => 0,
        };
        byte += 1;
    }
    class
}

fn is(byte: u8, class: u8) -> bool {
    CLASS[byte as usize] & class != 0
}

/// Whether `word` is the keyword of these two forms, in any letter case.
pub fn keyword(word: &[u8], long: &[u8], short: &[u8]) -> bool {
    word.eq_ignore_ascii_case(short) || word.eq_ignore_ascii_case(long)
}

/// Whether a run of name bytes is a path name: "optional `*`, a word, then
/// letters, digits, `/` `*` `_` `$`, 64 bytes in all".
fn is_path_name(name: &[u8]) -> bool {
    let rest = name.strip_prefix(b"*").unwrap_or(name);
    name.len() <= NAME_BYTES && rest.first().is_some_and(|&byte| is(byte, LETTER))
}

/// Whether the whole of `bytes` is an mId.
pub fn is_mid(bytes: &[u8]) -> bool {
    let mut reader = Reader::new(bytes);
    reader.mid().is_ok() && reader.at_end()
}

/// Reads a whole message to its parts, or finds its first fault.
pub fn read(message: &[u8]) -> Result<Message<'_>, Fault> {
    let mut reader = Reader::new(message);
    let sender = match reader.header() {
        Ok((1, sender)) => sender,
        Ok(_) => return Err(Fault::Version),
        Err(Broken) => return Err(Fault::Message),
    };
    let mut parts = Vec::new();
    loop {
        parts.push(reader.part()?);
        reader.white().map_err(|Broken| Fault::Message)?;
        if reader.at_end() {
            return Ok(Message { sender, parts });
        }
        if parts.len() == PARTS {
            return Err(Fault::Message);
        }
    }
}

/// The text does not read on from here; the caller knows the kind of fault.
struct Broken;

type Reads<T> = Result<T, Broken>;

struct Reader<'m> {
    bytes: &'m [u8],
    at: usize,
}

impl<'m> Reader<'m> {
    fn new(bytes: &'m [u8]) -> Self {
        Reader { bytes, at: 0 }
    }

    fn at_end(&self) -> bool {
        self.at == self.bytes.len()
    }

    fn peek(&self) -> Option<u8> {
        self.bytes.get(self.at).copied()
    }

    /// Takes `byte` if it is the next one.
    fn take(&mut self, byte: u8) -> bool {
        let found = self.peek() == Some(byte);
        self.at += usize::from(found);
        found
    }

    fn expect(&mut self, byte: u8) -> Reads<()> {
        if self.take(byte) {
            Ok(())
        } else {
            Err(Broken)
        }
    }

    /// Takes all bytes of a class that stand next.
    fn run_of(&mut self, class: u8) -> &'m [u8] {
        let rest = &self.bytes[self.at..];
        let length = rest.iter().take_while(|&&byte| is(byte, class)).count();
        self.at += length;
        &rest[..length]
    }

    /// Takes all white space that stands next and says whether there was any:
    /// "space, tab, CR, LF, and comments from `;` through a line end".
    fn white(&mut self) -> Reads<bool> {
        let start = self.at;
        loop {
            match self.peek() {
                Some(b' ' | b'\t' | b'\r' | b'\n') => self.at += 1,
                Some(b';') => {
                    self.run_of(COMMENT);
                    if !self.take(b'\r') && !self.take(b'\n') {
                        return Err(Broken);
                    }
                }
                _ => return Ok(self.at > start),
            }
        }
    }

    /// White space where at least one piece "must stand".
    fn separator(&mut self) -> Reads<()> {
        if self.white()? {
            Ok(())
        } else {
            Err(Broken)
        }
    }

    /// `=` with the white space on both sides.
    fn equals(&mut self) -> Reads<()> {
        self.white()?;
        self.expect(b'=')?;
        self.white()?;
        Ok(())
    }

    /// `{` with the white space before it; that after it stands inside.
    fn open(&mut self) -> Reads<()> {
        self.white()?;
        self.expect(b'{')
    }

    /// After one of several joined by commas: whether another follows, else
    /// the closing brace is taken.
    fn another(&mut self) -> Reads<bool> {
        self.white()?;
        if self.take(b',') {
            Ok(true)
        } else {
            self.expect(b'}').map(|()| false)
        }
    }

    /// A number of 1 to `digits` digits.
    fn number(&mut self, digits: usize) -> Reads<u64> {
        let run = self.run_of(DIGIT);
        if run.is_empty() || run.len() > digits {
            return Err(Broken);
        }
        Ok(run
            .iter()
            .fold(0, |value, byte| 10 * value + u64::from(byte - b'0')))
    }

    /// A number up to 4294967295, "at most 10 digits".
    fn number_32(&mut self) -> Reads<u32> {
        u32::try_from(self.number(10)?).map_err(|_| Broken)
    }

    /// "a letter, then up to 63 letters, digits, `_`"
    fn word(&mut self) -> Reads<&'m [u8]> {
        match self.peek() {
            Some(byte) if is(byte, LETTER) => {}
            _ => return Err(Broken),
        }
        let word = self.run_of(WORD);
        if word.len() > WORD_BYTES {
            return Err(Broken);
        }
        Ok(word)
    }

    fn path_name(&mut self) -> Reads<&'m [u8]> {
        let name = self.run_of(NAME);
        if is_path_name(name) {
            Ok(name)
        } else {
            Err(Broken)
        }
    }

    /// "`*`, `$`, or a path name"
    fn termination(&mut self) -> Reads<&'m [u8]> {
        let name = self.run_of(NAME);
        if matches!(name, b"*" | b"$") || is_path_name(name) {
            Ok(name)
        } else {
            Err(Broken)
        }
    }

    fn mid(&mut self) -> Reads<()> {
        if self.take(b'[') {
            self.byte_number()?;
            for _ in 0..3 {
                self.expect(b'.')?;
                self.byte_number()?;
            }
            self.expect(b']')?;
            self.port()
        } else if self.take(b'<') {
            let domain = self.run_of(DOMAIN);
            match domain.first() {
                Some(&byte) if is(byte, LETTER | DIGIT) && domain.len() <= DOMAIN_BYTES => {}
                _ => return Err(Broken),
            }
            self.expect(b'>')?;
            self.port()
        } else {
            self.path_name().map(|_| ())
        }
    }

    /// One of the "four numbers 0..255", of 1 to 3 digits.
    fn byte_number(&mut self) -> Reads<()> {
        if self.number(3)? > 255 {
            return Err(Broken);
        }
        Ok(())
    }

    /// "an optional `:` and port 0..65535 (1 to 5 digits)"
    fn port(&mut self) -> Reads<()> {
        if self.take(b':') && self.number(5)? > 65_535 {
            return Err(Broken);
        }
        Ok(())
    }

    /// The header "through all the white space after the mId"; gives the version
    /// and the sender's mId.
    fn header(&mut self) -> Reads<(u64, &'m [u8])> {
        self.white()?;
        if !self.take(b'!') && !self.word()?.eq_ignore_ascii_case(b"MEGACO") {
            return Err(Broken);
        }
        self.expect(b'/')?;
        let version = self.number(2)?;
        self.separator()?;
        let start = self.at;
        self.mid()?;
        let sender = &self.bytes[start..self.at];
        self.separator()?;
        Ok((version, sender))
    }

    fn part(&mut self) -> Result<Part<'m>, Fault> {
        let word = self.word().map_err(|Broken| Fault::Message)?;
        if keyword(word, b"Transaction", b"T") {
            self.transaction().map(Part::Transaction)
        } else if keyword(word, b"TransactionResponseAck", b"K") {
            // "any fault in K, a backward range or an identifier 0 too, is 400"
            let ranges = self.acknowledgement().map_err(|Broken| Fault::Message)?;
            Ok(Part::Acknowledgement(ranges))
        } else {
            Err(Fault::Message)
        }
    }

    /// "identifiers and ranges", joined by commas, in braces; Annex B has no white
    /// space about the sign of a range.
    fn acknowledgement(&mut self) -> Reads<Vec<RangeInclusive<u32>>> {
        let mut ranges = Vec::new();
        self.open()?;
        loop {
            self.white()?;
            let first = self.number_32()?;
            let last = if self.take(b'-') {
                self.number_32()?
            } else {
                first
            };
            if first == 0 || last < first {
                return Err(Broken);
            }
            ranges.push(first..=last);
            if !self.another()? {
                return Ok(ranges);
            }
        }
    }

    /// A transaction behind its word.
    fn transaction(&mut self) -> Result<Transaction<'m>, Fault> {
        let id = self.transaction_id().map_err(|Broken| Fault::Message)?;
        if id == 0 {
            return Err(Fault::Transaction(0));
        }
        self.open().map_err(|Broken| Fault::Message)?;
        match self.actions() {
            Ok(actions) => Ok(Transaction { id, actions }),
            Err(Broken) => Err(Fault::Transaction(id)),
        }
    }

    fn transaction_id(&mut self) -> Reads<u32> {
        self.equals()?;
        self.number_32()
    }

    /// "1 to 16 actions, comma between", through the closing brace.
    fn actions(&mut self) -> Reads<Vec<Action<'m>>> {
        let mut actions = Vec::new();
        loop {
            if actions.len() == ACTIONS {
                return Err(Broken);
            }
            self.white()?;
            actions.push(self.action()?);
            if !self.another()? {
                return Ok(actions);
            }
        }
    }

    fn action(&mut self) -> Reads<Action<'m>> {
        if !keyword(self.word()?, b"Context", b"C") {
            return Err(Broken);
        }
        self.equals()?;
        let context = self.context_id()?;
        self.open()?;
        let mut properties = Vec::new();
        let mut commands = Vec::new();
        loop {
            self.white()?;
            let optional = self.prefix(b'O');
            let wildcarded = self.prefix(b'W');
            let word = self.word()?;
            match self.property(word)? {
                // "these words are never commands"
                Some(_) if optional || wildcarded || !commands.is_empty() => return Err(Broken),
                Some(property) => properties.push(property),
                None if commands.len() == COMMANDS => return Err(Broken),
                None => {
                    self.equals()?;
                    let termination = self.termination()?;
                    let items = self.braces(LEVELS, false)?;
                    commands.push(Command {
                        optional,
                        wildcarded,
                        word,
                        termination,
                        items,
                    });
                }
            }
            if !self.another()? {
                return Ok(Action {
                    context,
                    properties,
                    commands,
                });
            }
        }
    }

    fn context_id(&mut self) -> Reads<ContextId> {
        let context = match self.peek() {
            Some(b'-') => ContextId::Null,
            Some(b'$') => ContextId::Choose,
            Some(b'*') => ContextId::All,
            _ => return self.number_32().map(ContextId::Number),
        };
        self.at += 1;
        Ok(context)
    }

    /// Takes `letter` and `-` if they stand next.
    fn prefix(&mut self, letter: u8) -> bool {
        match self.bytes[self.at..] {
            [first, b'-', ..] if first.eq_ignore_ascii_case(&letter) => {
                self.at += 2;
                true
            }
            _ => false,
        }
    }

    /// The property that `word` begins, if it begins one: "PR `=` 1 to 5
    /// digits; EG", and TP with its triples in braces.
    fn property(&mut self, word: &[u8]) -> Reads<Option<Property<'m>>> {
        if keyword(word, b"Priority", b"PR") {
            self.equals()?;
            // Five digits fit.
            let priority = self.number(5)? as u32;
            Ok(Some(Property::Priority(priority)))
        } else if keyword(word, b"Emergency", b"EG") {
            Ok(Some(Property::Emergency))
        } else if keyword(word, b"Topology", b"TP") {
            self.open()?;
            Ok(Some(Property::Topology(self.triples()?)))
        } else {
            Ok(None)
        }
    }

    /// One triple or more, joined by commas, through the closing brace.
    fn triples(&mut self) -> Reads<Vec<Triple<'m>>> {
        let mut triples = Vec::new();
        loop {
            self.white()?;
            let first = self.termination()?;
            self.comma()?;
            let second = self.termination()?;
            self.comma()?;
            let direction = Direction::of(self.word()?).ok_or(Broken)?;
            triples.push(Triple {
                names: [first, second],
                direction,
            });
            if !self.another()? {
                return Ok(triples);
            }
        }
    }

    /// `,` with the white space on both sides.
    fn comma(&mut self) -> Reads<()> {
        self.white()?;
        self.expect(b',')?;
        self.white()?;
        Ok(())
    }

    /// "optional `{` items `}`", with so many levels left; empty without braces.
    /// `media` for those of a level 1 Media.
    fn braces(&mut self, levels: u32, media: bool) -> Reads<Vec<Item<'m>>> {
        self.white()?;
        if !self.take(b'{') {
            return Ok(Vec::new());
        }
        if levels == 0 {
            return Err(Broken);
        }
        self.items(levels, media)
    }

    /// "Items are one or more, joined by commas", through the closing brace.
    fn items(&mut self, levels: u32, media: bool) -> Reads<Vec<Item<'m>>> {
        let mut items = Vec::new();
        loop {
            self.white()?;
            items.push(self.item(levels, media)?);
            if !self.another()? {
                return Ok(items);
            }
        }
    }

    fn item(&mut self, levels: u32, in_media: bool) -> Reads<Item<'m>> {
        let word = self.word()?;
        let second = if self.take(b'/') {
            Some(self.word()?)
        } else {
            None
        };
        self.white()?;
        let value = if self.take(b'=') {
            self.white()?;
            Some(self.value()?)
        } else {
            None
        };
        self.white()?;
        let braces = self.peek() == Some(b'{');
        let is = |long, short| second.is_none() && keyword(word, long, short);
        // "Accept Local/L and Remote/R in a level 1 Media; where a brace comes
        // next after the word, text runs"
        let speech = in_media && (is(b"Local", b"L") || is(b"Remote", b"R"));
        let text = if speech && braces && value.is_none() {
            Some(self.text()?)
        } else {
            None
        };
        // "Audit/AT may have empty braces, at level 1 of any command, document
        // 01's one exception"
        let audit = levels == LEVELS && is(b"Audit", b"AT");
        let items = if text.is_some() || audit && self.empty_braces()? {
            Vec::new()
        } else {
            self.braces(levels - 1, levels == LEVELS && is(b"Media", b"M"))?
        };
        Ok(Item {
            word,
            second,
            value,
            braces,
            items,
            text,
        })
    }

    /// The text in braces: "from after its white space up to the first `}` that
    /// has no backslash before it, byte 0 being a fault".
    fn text(&mut self) -> Reads<&'m [u8]> {
        self.expect(b'{')?;
        self.white()?;
        let start = self.at;
        // No white space ends in a backslash, nor does `{`.
        while self.peek() != Some(b'}') || self.bytes[self.at - 1] == b'\\' {
            match self.peek() {
                None | Some(0) => return Err(Broken),
                Some(_) => self.at += 1,
            }
        }
        let text = &self.bytes[start..self.at];
        self.at += 1;
        Ok(text)
    }

    /// Takes braces with nothing but white space inside, if such stand here.
    fn empty_braces(&mut self) -> Reads<bool> {
        let start = self.at;
        if !self.take(b'{') {
            return Ok(false);
        }
        self.white()?;
        if self.take(b'}') {
            return Ok(true);
        }
        self.at = start;
        Ok(false)
    }

    /// "1 to 64 SafeChar (Annex B), or a quoted string with 0 to 64 of
    /// SafeChar, RestChar, space and tab inside"
    fn value(&mut self) -> Reads<Value<'m>> {
        if self.take(b'"') {
            let inside = self.run_of(QUOTED);
            self.expect(b'"')?;
            if inside.len() > VALUE_BYTES {
                return Err(Broken);
            }
            Ok(Value::Quoted(inside))
        } else {
            let plain = self.run_of(SAFE);
            if plain.is_empty() || plain.len() > VALUE_BYTES {
                return Err(Broken);
            }
            Ok(Value::Plain(plain))
        }
    }
}
