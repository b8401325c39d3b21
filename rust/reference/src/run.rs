//! Running: "Transactions, actions and commands run in order."

use std::ops::ControlFlow::{self, Break, Continue};
use std::ops::Range;

use crate::blocks;
use crate::reply::Reply;
use crate::room::Room;
use crate::sdp;
use crate::table::{self, Name, Record, Session, Table, Values, MEMBERS, OUT_OF_SERVICE};
use crate::text::{
    keyword, Action, Command, ContextId, Direction, Item, Message, Part, Property, Transaction,
    Triple, Value,
};

/// The commands that are built.
#[derive(Clone, Copy, Debug, PartialEq, Eq)]
pub enum Kind {
    Add,
    Modify,
    Subtract,
    Move,
    AuditValue,
}

impl Kind {
    fn of(word: &[u8]) -> Option<Self> {
        if keyword(word, b"Add", b"A") {
            Some(Kind::Add)
        } else if keyword(word, b"Modify", b"MF") {
            Some(Kind::Modify)
        } else if keyword(word, b"Subtract", b"S") {
            Some(Kind::Subtract)
        } else if keyword(word, b"Move", b"MV") {
            Some(Kind::Move)
        } else if keyword(word, b"AuditValue", b"AV") {
            Some(Kind::AuditValue)
        } else {
            None
        }
    }

    /// The short form of the command's keyword.
    pub fn short(self) -> &'static [u8] {
        match self {
            Kind::Add => b"A",
            Kind::Modify => b"MF",
            Kind::Subtract => b"S",
            Kind::Move => b"MV",
            Kind::AuditValue => b"AV",
        }
    }
}

/// Runs the parts of a message in their turn.
pub fn run(
    message: &Message,
    table: &mut Table,
    room: &mut Room,
    blocks: &mut [u32],
    reply: &mut Reply,
) {
    let mut runner = Runner {
        table,
        blocks,
        reply,
        matches: Vec::new(),
    };
    let sender = message.sender;
    for part in &message.parts {
        match part {
            Part::Acknowledgement(ranges) => {
                for ids in ranges {
                    room.drop_acknowledged(sender, ids);
                }
            }
            // "a request whose pair is kept gets the same bytes and the table
            // stays"
            Part::Transaction(transaction) => match room.kept(sender, transaction.id) {
                Some(kept) => runner.reply.again(kept),
                None => {
                    runner.transaction(transaction);
                    room.keep(sender, transaction.id, runner.reply.last());
                }
            },
        }
    }
}

/// The context that an action's commands work on.
#[derive(Clone, Copy)]
enum Target {
    Null,
    Number(u32),
    /// `$` not yet a number, with what the context is given when it comes to be.
    Choose(Record),
}

impl Target {
    /// The context's number: 0 for null, and for a `$` that has none yet.
    fn number(self) -> u32 {
        match self {
            Target::Number(number) => number,
            Target::Null | Target::Choose(_) => 0,
        }
    }
}

/// What a command works on.
enum Subject {
    Root,
    Termination(usize),
    /// The terminations in `Runner::matches`.
    Matches,
}

/// What a command's items ask: the values to set, and whether Media is audited.
#[derive(Clone, Copy, Default)]
struct Request {
    values: Values,
    media: bool,
}

/// The code of an error.
type Code = u32;

struct Runner<'r, 't> {
    table: &'r mut Table<'t>,
    blocks: &'r mut [u32],
    reply: &'r mut Reply,
    /// The matches of the running wildcard.
    matches: Vec<usize>,
}

impl Runner<'_, '_> {
    fn transaction(&mut self, transaction: &Transaction) {
        self.reply.open_transaction(transaction.id);
        for action in &transaction.actions {
            if self.action(action).is_break() {
                break;
            }
        }
        self.reply.close_transaction(transaction.id);
    }

    /// Runs one action; `Break` ends the transaction.
    fn action(&mut self, action: &Action) -> ControlFlow<()> {
        let place = self.reply.open_action(action.context);
        let mut target = match self.start(action) {
            Ok(target) => target,
            Err(code) => {
                self.reply.action_error(code);
                self.reply.close_action(place, None);
                return Break(());
            }
        };
        if action.commands.is_empty() {
            // The properties were set, so the context exists.
            if let Some(context) = self.table.context(target.number()) {
                self.reply.properties(self.table.record(context));
            }
        }
        let flow = action
            .commands
            .iter()
            .try_for_each(|command| self.command(command, &mut target));
        let chosen = match (action.context, target) {
            (ContextId::Choose, Target::Number(number)) => Some(number as usize),
            _ => None,
        };
        self.reply.close_action(place, chosen);
        flow
    }

    /// The action errors at an action's start; then its properties are set.
    fn start(&mut self, action: &Action) -> Result<Target, Code> {
        let given = !action.properties.is_empty();
        let topology = || action.properties.iter().filter_map(triples_of).flatten();
        // A descriptor has a triple at least.
        let hears = topology().next().is_some();
        let mut target = match action.context {
            ContextId::All => return Err(421),
            ContextId::Null if given => return Err(421),
            // "In `$`, `-` or `*`: 421 at its old place."
            ContextId::Choose if given && (action.commands.is_empty() || hears) => return Err(421),
            ContextId::Null => Target::Null,
            ContextId::Choose => Target::Choose(Record::default()),
            ContextId::Number(number) => Target::Number(number),
        };
        if !given {
            return Ok(target);
        }
        // "449 for any priority over 15"
        let over_15 = |property: &Property| matches!(property, Property::Priority(16..));
        if action.properties.iter().any(over_15) {
            return Err(449);
        }
        match &mut target {
            Target::Null => {}
            Target::Choose(record) => set_properties(record, &action.properties),
            Target::Number(number) => {
                let context = self.table.context(*number).ok_or(411u32)?;
                // "The triples of every TP in the action are set in order
                // after 411, all or none."
                let places = topology()
                    .map(|triple| self.judge_triple(context, triple))
                    .collect::<Result<Vec<_>, Code>>()?;
                for ([from, to], direction) in places {
                    let (there, back) = match direction {
                        Direction::Isolate => (false, false),
                        // "Oneway of A, B: A flows to B and B doesn't to A."
                        Direction::Oneway => (true, false),
                        Direction::Bothway => (true, true),
                    };
                    self.table.set_flow(context, from, to, there);
                    self.table.set_flow(context, to, from, back);
                }
                let mut record = self.table.record(context);
                set_properties(&mut record, &action.properties);
                self.table.set_record(context, record);
            }
        }
        Ok(target)
    }

    /// The places of a triple's two members: "410 for a name twice in a triple,
    /// one with `*` or `$`, or ROOT; 430; 435 for one not in the context".
    fn judge_triple(
        &self,
        context: usize,
        triple: &Triple,
    ) -> Result<([usize; 2], Direction), Code> {
        let names = triple.names.map(|name| Name::of(self.table.lines(), name));
        let full = |name: &Name| matches!(name, Name::Termination(_) | Name::Unknown);
        if triple.names[0].eq_ignore_ascii_case(triple.names[1]) || !names.iter().all(full) {
            return Err(410);
        }
        let mut numbers = [0; 2];
        for (number, name) in numbers.iter_mut().zip(names) {
            match name {
                Name::Termination(termination) if self.table.exists(termination) => {
                    *number = termination;
                }
                _ => return Err(430),
            }
        }
        if numbers
            .iter()
            .any(|&number| self.table.context_of(number) != context)
        {
            return Err(435);
        }
        let places = numbers.map(|number| self.table.place(context, number));
        Ok((places, triple.direction))
    }

    /// Runs one command; `Break` ends the transaction.
    fn command(&mut self, command: &Command, target: &mut Target) -> ControlFlow<()> {
        // "443 unknown command or `W-`; 421 Add, Subtract or Move in `-`. Both
        // are action errors."
        let kind = match Kind::of(command.word) {
            Some(kind) if !command.wildcarded => kind,
            _ => {
                self.reply.action_error(443);
                return Break(());
            }
        };
        // "Tests and wildcards are as for Modify" (document 02, AuditValue).
        let stays = matches!(kind, Kind::Modify | Kind::AuditValue);
        if matches!(target, Target::Null) && !stays {
            self.reply.action_error(421);
            return Break(());
        }
        if self.attempts(kind, command, target) || command.optional {
            Continue(())
        } else {
            Break(())
        }
    }

    /// Makes and reports a command's attempts; says whether all succeeded.
    fn attempts(&mut self, kind: Kind, command: &Command, target: &mut Target) -> bool {
        let (subject, request) = match self.judge(kind, command, *target) {
            Ok(judged) => judged,
            Err(code) => {
                self.reply.failed(kind, command.termination, code);
                return false;
            }
        };
        match subject {
            Subject::Root => {
                self.reply.done_root(kind);
                true
            }
            Subject::Termination(termination) => {
                let outcome = self.attempt(kind, termination, request.values, target);
                match outcome {
                    Ok(()) => self.done(kind, termination, request),
                    Err(code) => self.reply.failed(kind, command.termination, code),
                }
                outcome.is_ok()
            }
            Subject::Matches => {
                let mut all = true;
                for place in 0..self.matches.len() {
                    let termination = self.matches[place];
                    match self.attempt(kind, termination, request.values, target) {
                        Ok(()) => self.done(kind, termination, request),
                        Err(code) => {
                            self.reply.failed_match(kind, termination, code);
                            all = false;
                        }
                    }
                }
                all
            }
        }
    }

    /// Reports a success. "`AV=L/1/1{AT{M}}` returns
    /// `AV=L/1/1{M{TS{SI=IV},O{MO=IN}}}` with the values held".
    fn done(&mut self, kind: Kind, termination: usize, request: Request) {
        let lines = self.table.lines().line_terminations();
        if kind == Kind::Subtract && termination >= lines {
            let (packets, _, jitter) = blocks::block(self.blocks, termination - lines);
            return self.reply.gone(termination, packets, jitter);
        }
        let held = request.media.then(|| self.table.values_of(termination));
        self.reply.done(kind, termination, held);
    }

    /// Tests 2 to 4 of a command.
    fn judge(
        &mut self,
        kind: Kind,
        command: &Command,
        target: Target,
    ) -> Result<(Subject, Request), Code> {
        // "411: the context does not exist now .., or `$` not yet a number for
        // Modify and Subtract"
        match target {
            Target::Number(number) if self.table.context(number).is_none() => return Err(411),
            Target::Choose(_) if !matches!(kind, Kind::Add | Kind::Move) => return Err(411),
            _ => {}
        }
        let mut request = Request::default();
        match kind {
            Kind::Subtract if command.items.is_empty() => {}
            Kind::Subtract => return Err(447),
            Kind::AuditValue => request.media = judge_audit(&command.items)?,
            Kind::Add | Kind::Modify | Kind::Move => request.values = judge_items(&command.items)?,
        }
        // "ROOT in `-` may have empty braces", "447 for ROOT with Media"
        let refuses_root = match kind {
            Kind::AuditValue => request.media,
            _ => !command.items.is_empty(),
        };
        let subject = match Name::of(self.table.lines(), command.termination) {
            Name::Root if !matches!(kind, Kind::Modify | Kind::AuditValue) => return Err(410),
            Name::Root if !matches!(target, Target::Null) => return Err(435),
            Name::Root if refuses_root => return Err(447),
            Name::Root => Subject::Root,
            Name::Choose | Name::BadChoose if kind != Kind::Add => return Err(410),
            Name::BadChoose => return Err(432),
            Name::Choose => {
                Subject::Termination(self.table.lowest_absent_ephemeral().ok_or(432u32)?)
            }
            Name::BadWildcard => return Err(431),
            Name::Wildcard(range) => {
                self.find_matches(kind, range, target);
                if self.matches.is_empty() {
                    return Err(431);
                }
                Subject::Matches
            }
            Name::Termination(termination) if self.table.exists(termination) => {
                Subject::Termination(termination)
            }
            Name::Termination(_) | Name::Unknown => return Err(430),
        };
        Ok((subject, request))
    }

    /// "The matches are fixed before the first attempt and tried in ascending
    /// number". Only existing terminations match: an ephemeral with context
    /// word 0 never does.
    fn find_matches(&mut self, kind: Kind, range: Range<usize>, target: Target) {
        let target = target.number();
        // Of the terminations in null, the lines alone exist.
        let stays = matches!(kind, Kind::Modify | Kind::AuditValue);
        let in_null = kind == Kind::Add || (stays && target == 0);
        let end = if in_null {
            range.end.min(self.table.lines().line_terminations())
        } else {
            range.end
        };
        let start = range.start.min(end);
        let numbered = (start..end).zip(self.table.contexts_of(start..end));
        self.matches.clear();
        match kind {
            Kind::Add => keep(&mut self.matches, numbered, |context| context == 0),
            Kind::Modify | Kind::Subtract | Kind::AuditValue => {
                keep(&mut self.matches, numbered, |context| context == target)
            }
            Kind::Move => keep(&mut self.matches, numbered, |context| {
                context != 0 && context != target
            }),
        }
    }

    /// Tests 5 and 6 for one termination, then what the command does with it.
    /// "A failed attempt changes nothing."
    fn attempt(
        &mut self,
        kind: Kind,
        termination: usize,
        values: Values,
        target: &mut Target,
    ) -> Result<(), Code> {
        let from = self.table.context_of(termination);
        let here = target.number() as usize;
        match kind {
            Kind::Add if from != 0 => return Err(433),
            Kind::Modify | Kind::Subtract | Kind::AuditValue if from != here => return Err(435),
            Kind::Move if from == 0 => return Err(435),
            Kind::Move if from == here => return Err(433),
            // "Judge the state held before the command's own items. Test state
            // may still move. Refusals: 503 (house), after Move's 435 and 433,
            // before 412."
            Kind::Move if self.table.state_of(termination) == OUT_OF_SERVICE => return Err(503),
            _ => {}
        }
        // "447 on a line, in Add, Modify and Move after the place test and 503"
        if termination < self.table.lines().line_terminations()
            && (values.local.is_some() || values.remote.is_some())
        {
            return Err(447);
        }
        match kind {
            Kind::Subtract => {
                self.table.subtract(termination);
                return Ok(());
            }
            // "The table stays."
            Kind::AuditValue => return Ok(()),
            Kind::Modify => {}
            Kind::Add | Kind::Move => {
                // Judged before a Move leaves, so that the number of the
                // context it leaves is not yet free.
                let to = match *target {
                    Target::Choose(record) => {
                        let to = self.table.lowest_absent_context().ok_or(412u32)?;
                        self.table.set_record(to, record);
                        *target = Target::Number(to as u32);
                        to
                    }
                    _ if self.table.members(here) == MEMBERS => return Err(434),
                    _ => here,
                };
                if kind == Kind::Move {
                    self.table.leave(termination);
                }
                self.table.enter(termination, to);
                // "a new ephemeral starts at zero"
                let lines = self.table.lines().line_terminations();
                if kind == Kind::Add && termination >= lines {
                    blocks::set(self.blocks, termination - lines, (0, 0, 0));
                }
            }
        }
        self.table.set_values(termination, values);
        Ok(())
    }
}

/// Keeps the numbers of the terminations whose context word fits.
fn keep<'w>(
    matches: &mut Vec<usize>,
    numbered: impl Iterator<Item = (usize, &'w u32)>,
    fits: impl Fn(u32) -> bool,
) {
    matches.extend(
        numbered
            .filter(|(_, context)| fits(**context))
            .map(|(termination, _)| termination),
    );
}

/// "Properties are then set, the last of a kind holding".
fn set_properties(record: &mut Record, properties: &[Property]) {
    for property in properties {
        match property {
            Property::Priority(priority) => record.priority = *priority,
            Property::Emergency => record.emergency = true,
            Property::Topology(_) => {}
        }
    }
}

fn triples_of<'p, 'm>(property: &'p Property<'m>) -> Option<&'p Vec<Triple<'m>>> {
    match property {
        Property::Topology(triples) => Some(triples),
        _ => None,
    }
}

/// Test 3 for Add, Modify and Move: "Items in reading order, an item before
/// those inside it". Gives the values to set.
fn judge_items(items: &[Item]) -> Result<Values, Code> {
    let mut values = Values::default();
    let mut media = false;
    for item in items {
        if !names(item, b"Media", b"M") {
            return Err(444);
        }
        once(&mut media)?;
        descriptor_shape(item)?;
        judge_media(&item.items, &mut values)?;
    }
    Ok(values)
}

/// Test 3 for AuditValue; says whether Media is audited. "447 for any item on
/// AV but Audit; 448 for a second Audit or Media; 442 for Audit with a value or
/// without braces, and Media with either; 444 for any audited item but Media;
/// 442 for no Audit, last."
fn judge_audit(items: &[Item]) -> Result<bool, Code> {
    let mut audit = false;
    let mut media = false;
    for item in items {
        if !names(item, b"Audit", b"AT") {
            return Err(447);
        }
        once(&mut audit)?;
        if item.value.is_some() || !item.braces {
            return Err(442);
        }
        for audited in &item.items {
            if !names(audited, b"Media", b"M") {
                return Err(444);
            }
            once(&mut media)?;
            if audited.value.is_some() || audited.braces {
                return Err(442);
            }
        }
    }
    if audit {
        Ok(media)
    } else {
        Err(442)
    }
}

fn judge_media(items: &[Item], values: &mut Values) -> Result<(), Code> {
    let mut local_control = false;
    let mut termination_state = false;
    let mut local = false;
    let mut remote = false;
    for item in items {
        if names(item, b"LocalControl", b"O") {
            once(&mut local_control)?;
            descriptor_shape(item)?;
            values.mode = judge_property(&item.items, b"Mode", b"MO", table::mode)?;
        } else if names(item, b"TerminationState", b"TS") {
            once(&mut termination_state)?;
            descriptor_shape(item)?;
            values.state = judge_property(&item.items, b"ServiceStates", b"SI", table::state)?;
        } else if names(item, b"Local", b"L") {
            once(&mut local)?;
            values.local = Some(judge_text(item)?);
        } else if names(item, b"Remote", b"R") {
            once(&mut remote)?;
            values.remote = Some(judge_text(item)?);
        } else {
            return Err(444);
        }
    }
    Ok(())
}

/// "442 for either word with a value or without braces, 449 for text outside the
/// subset". Gives the session, none where "empty text releases it".
fn judge_text(item: &Item) -> Result<Option<Session>, Code> {
    match item.text {
        None => Err(442),
        Some(b"") => Ok(None),
        Some(text) => sdp::session(text).map(Some).ok_or(449),
    }
}

/// The items of a descriptor that holds one property alone.
fn judge_property(
    items: &[Item],
    long: &[u8],
    short: &[u8],
    meaning: fn(&[u8]) -> Option<u32>,
) -> Result<Option<u32>, Code> {
    let mut given = None;
    for item in items {
        if !names(item, long, short) {
            return Err(445);
        }
        if given.is_some() {
            return Err(448);
        }
        // "the two properties a value and no braces"
        let value = match item.value {
            Some(value) if item.items.is_empty() => value,
            _ => return Err(442),
        };
        // "449 unknown or quoted value"
        given = match value {
            Value::Plain(word) => Some(meaning(word).ok_or(449u32)?),
            Value::Quoted(_) => return Err(449),
        };
    }
    Ok(given)
}

/// Whether an item has this keyword, "a name with `/` being unknown".
fn names(item: &Item, long: &[u8], short: &[u8]) -> bool {
    item.second.is_none() && keyword(item.word, long, short)
}

/// "448 repeated in its braces"
fn once(seen: &mut bool) -> Result<(), Code> {
    if std::mem::replace(seen, true) {
        Err(448)
    } else {
        Ok(())
    }
}

/// "442 wrong shape (the three descriptors have braces and no value ..)"
fn descriptor_shape(item: &Item) -> Result<(), Code> {
    if item.value.is_none() && !item.items.is_empty() {
        Ok(())
    } else {
        Err(442)
    }
}
