//! World scripts: facts, rows and events, line by line.

use crate::build::is_reserved;
use crate::output::Refusal;
use crate::scan::{canonical, is_identifier, Canonical, Map};
use crate::scripts::{Code, Codes, Comparison, Form, Value};
use std::rc::Rc;

const MOST_FACTS: usize = 1_024;
const MOST_ROWS: usize = 1_024;
const MOST_GOALS: usize = 64;
const MOST_NEEDS: usize = 16;
const MOST_EFFECTS: usize = 16;
const MOST_PORTS: usize = 8;
const MOST_OUTPUTS: usize = 8;
const MOST_EVENTS: usize = 100_000;
const MOST_RUNNERS: i64 = 16;
const LONGEST_NAME: usize = 64;
const LONGEST_OUTCOMES: usize = 64;
/// The latest moment, and the longest that an action lasts.
pub const LATEST: i64 = 1_000_000_000_000;
const LONGEST_TEXT: usize = 4_096;
/// In expressions the names below are input ports of the row, and the others facts.
pub const PORTS: u32 = MOST_PORTS as u32;

/// A fact.
pub struct Fact<'w> {
    /// Its name.
    pub name: &'w [u8],
    /// Its value at the beginning.
    pub opening: i64,
}

/// What a row does.
#[allow(missing_docs)]
pub enum Sort<'w> {
    Is { fact: u32, comparison: Comparison, value: i64 },
    When(Code),
    Timed { length: u64, fails: Option<Code> },
    TimedBy { length: Code, fails: Option<Code> },
    Replay { length: u64, outcomes: &'w [u8] },
    Gate(Code),
    Sensed,
    Told(Vec<&'w [u8]>),
}

/// What a leaf is told: whether it succeeds, and values of its outputs.
#[derive(Default)]
pub struct Telling<'w> {
    /// Whether it succeeds.
    pub succeeds: bool,
    /// The outputs by their names.
    pub outputs: Vec<(&'w [u8], Value)>,
}

/// An effect on a fact.
pub struct Effect {
    /// Which fact.
    pub fact: u32,
    /// Whether the number is added.
    pub adds: bool,
    /// The number.
    pub number: i64,
}

/// A row.
pub struct Row<'w> {
    /// Its ID.
    pub id: &'w [u8],
    /// Its input ports.
    pub ports: Vec<&'w [u8]>,
    /// What it does.
    pub sort: Sort<'w>,
    /// Its effects in order.
    pub effects: Vec<Effect>,
    /// Its outputs in order.
    pub outputs: Vec<(&'w [u8], Code)>,
    /// The rows that it needs, in order, each of which compares a fact.
    pub needs: Vec<u32>,
}

/// What happens.
#[derive(Clone, Copy)]
#[allow(missing_docs)]
pub enum What {
    Tick(u32),
    Halt(u32),
    Change { fact: u32, value: i64 },
    /// The telling of this number.
    Tell { runner: u32, uid: u32, telling: u32 },
}

/// An event and its moment.
#[derive(Clone, Copy)]
pub struct Event {
    /// When.
    pub at: u64,
    /// What.
    pub what: What,
}

/// A world that was read.
#[derive(Default)]
pub struct World<'w> {
    /// The facts in order.
    pub facts: Vec<Fact<'w>>,
    /// The rows in order.
    pub rows: Vec<Row<'w>>,
    /// The rows by their ID.
    pub row_of: Map<&'w [u8], u32>,
    /// The rows that are goals, in order, each of which compares a fact.
    pub goals: Vec<u32>,
    /// How many runners there are.
    pub runners: u32,
    /// The events in order.
    pub events: Vec<Event>,
    /// What leaves are told, in the order of the events.
    pub tellings: Vec<Telling<'w>>,
    /// The code of all expressions.
    pub codes: Codes,
}

/// What is wrong with a line, in the order in which it is answered.
#[derive(Clone, Copy, PartialEq, Eq, PartialOrd, Ord, Debug)]
enum Wrong {
    BadLine,
    Range,
    DoubleName,
    NoName,
    MomentBack,
    TooMany,
}

type Answer<T> = Result<T, Wrong>;

/// Reads a world script.
pub fn read(bytes: &[u8]) -> Result<World<'_>, Refusal> {
    let mut reader = Reader { world: World { runners: 1, ..World::default() }, ..Reader::default() };
    let text = bytes.strip_suffix(b"\n").unwrap_or(bytes);
    for (line, number) in text.split(|&it| it == b'\n').zip(1u32..) {
        let line = line.strip_suffix(b"\r").unwrap_or(line);
        if number == 1 {
            if line != b"bt-world 1" {
                return Err(Refusal::world("Header 1"));
            }
        } else {
            reader.line(line).map_err(|wrong| Refusal::world(format!("{wrong:?} {number}")))?;
        }
    }
    Ok(reader.world)
}

/// The words of a line that are left.
struct Words<'w> {
    rest: &'w [u8],
}

fn is_blank(byte: u8) -> bool {
    byte == b' ' || byte == b'\t'
}

impl<'w> Words<'w> {
    fn of(line: &'w [u8]) -> Words<'w> {
        let mut words = Words { rest: line };
        words.skip_blanks();
        words
    }

    fn skip_blanks(&mut self) {
        let blanks = self.rest.iter().take_while(|&&it| is_blank(it)).count();
        self.rest = &self.rest[blanks..];
    }

    fn next(&mut self) -> Answer<&'w [u8]> {
        let length = self.rest.iter().take_while(|&&it| !is_blank(it)).count();
        let (word, rest) = self.rest.split_at(length);
        self.rest = rest;
        self.skip_blanks();
        if word.is_empty() {
            Err(Wrong::BadLine)
        } else {
            Ok(word)
        }
    }

    fn end(&self) -> Answer<()> {
        must(self.rest.is_empty(), Wrong::BadLine)
    }

    /// The last word of the line.
    fn last(&mut self) -> Answer<&'w [u8]> {
        let word = self.next()?;
        self.end()?;
        Ok(word)
    }

    fn name(&mut self) -> Answer<&'w [u8]> {
        let word = self.next()?;
        must(is_name(word), Wrong::BadLine)?;
        Ok(word)
    }

    fn number(&mut self) -> Answer<Canonical> {
        canonical(self.next()?).ok_or(Wrong::BadLine)
    }

    /// An output, `NAME=VALUE`.
    fn output(&mut self) -> Answer<(&'w [u8], Told)> {
        let length = self.rest.iter().take_while(|&&it| it != b'=').count();
        let (name, rest) = self.rest.split_at(length);
        must(is_name(name) && !rest.is_empty(), Wrong::BadLine)?;
        self.rest = &rest[1..];
        let value = if let Some(inner) = self.rest.strip_prefix(b"'") {
            self.rest = inner;
            let text = self.text()?;
            must(self.rest.first().is_none_or(|&it| is_blank(it)), Wrong::BadLine)?;
            self.skip_blanks();
            Told::Text(text)
        } else {
            Told::Number(self.number()?)
        };
        Ok((name, value))
    }

    /// The rest of a text between quotes, up to and with its last quote.
    fn text(&mut self) -> Answer<Vec<u8>> {
        let mut text = Vec::new();
        loop {
            let (&byte, rest) = self.rest.split_first().ok_or(Wrong::BadLine)?;
            self.rest = rest;
            match byte {
                b'\'' => break,
                b'\\' => text.push(self.escape()?),
                b' '..=b'~' => text.push(byte),
                _ => return Err(Wrong::BadLine),
            }
        }
        must(std::str::from_utf8(&text).is_ok(), Wrong::BadLine)?;
        Ok(text)
    }

    /// What stands after a backslash.
    fn escape(&mut self) -> Answer<u8> {
        let (&byte, rest) = self.rest.split_first().ok_or(Wrong::BadLine)?;
        self.rest = rest;
        match byte {
            b'\'' | b'\\' => Ok(byte),
            b'n' => Ok(b'\n'),
            b'x' => {
                let (digits, rest) = self.rest.split_at_checked(2).ok_or(Wrong::BadLine)?;
                self.rest = rest;
                Ok(16 * digit(digits[0])? + digit(digits[1])?)
            }
            _ => Err(Wrong::BadLine),
        }
    }

    fn sign(&mut self, sign: &[u8]) -> Answer<()> {
        must(self.next()? == sign, Wrong::BadLine)
    }
}

/// A value that is told, as it is written.
enum Told {
    Number(Canonical),
    Text(Vec<u8>),
}

impl Told {
    /// The value, where it is in its range.
    fn kept(self) -> Value {
        match self {
            Told::Number(Canonical::Fits(number)) => Value::Int(number),
            Told::Number(Canonical::TooWide) => Value::Absent,
            Told::Text(text) => Value::Text(Rc::new(text.into())),
        }
    }
}

/// The number of a hexadecimal digit, whose letters are small.
fn digit(byte: u8) -> Answer<u8> {
    match byte {
        b'0'..=b'9' => Ok(byte - b'0'),
        b'a'..=b'f' => Ok(byte - b'a' + 10),
        _ => Err(Wrong::BadLine),
    }
}

fn must(holds: bool, wrong: Wrong) -> Answer<()> {
    if holds {
        Ok(())
    } else {
        Err(wrong)
    }
}

fn is_name(word: &[u8]) -> bool {
    word.len() <= LONGEST_NAME && is_identifier(word)
}

fn within(number: Canonical, least: i64, greatest: i64) -> Answer<i64> {
    match number {
        Canonical::Fits(number) if (least..=greatest).contains(&number) => Ok(number),
        _ => Err(Wrong::Range),
    }
}

/// An ID with its input ports, as it is written.
struct Head<'w> {
    id: &'w [u8],
    ports: Vec<&'w [u8]>,
}

/// An expression that was read, and whether all its names are known.
struct Expression {
    code: Code,
    is_known: bool,
}

impl Expression {
    fn known(self) -> Answer<Code> {
        must(self.is_known, Wrong::NoName)?;
        Ok(self.code)
    }
}

#[derive(Default)]
struct Reader<'w> {
    world: World<'w>,
    fact_of: Map<&'w [u8], u32>,
    /// Whether the line before, but for blanks and comments, was an action or belonged to one.
    is_in_action: bool,
    knows_runners: bool,
    moment: i64,
}

impl<'w> Reader<'w> {
    fn line(&mut self, line: &'w [u8]) -> Answer<()> {
        let mut words = Words::of(line);
        if matches!(words.rest.first(), None | Some(b'#')) {
            return Ok(());
        }
        must(line.iter().all(|&it| matches!(it, b' '..=b'~' | b'\t')), Wrong::BadLine)?;
        let word = words.next()?;
        match word {
            b"tick" | b"halt" => self.event(word, words),
            b"set" => self.change(words),
            b"tell" => self.tell(words),
            b"at" => self.at(words),
            b"every" => self.every(words),
            b"fails" | b"needs" | b"sets" | b"out" => return self.detail(word, words),
            b"fact" => self.fact(words),
            b"condition" => self.condition(words),
            b"action" => {
                self.action(words)?;
                self.is_in_action = true;
                return Ok(());
            }
            b"goal" => self.goal(words),
            b"runners" => self.runners(words),
            _ => Err(Wrong::BadLine),
        }?;
        self.is_in_action = false;
        Ok(())
    }

    fn event(&mut self, word: &[u8], mut words: Words<'w>) -> Answer<()> {
        let runner = words.number()?;
        words.end()?;
        let runner = within(runner, 1, i64::from(self.world.runners))? as u32;
        self.happens(if word == b"tick" { What::Tick(runner) } else { What::Halt(runner) })
    }

    fn change(&mut self, mut words: Words<'w>) -> Answer<()> {
        let name = words.name()?;
        let value = words.number()?;
        words.end()?;
        let value = within(value, i64::MIN, i64::MAX)?;
        let fact = self.known_fact(name)?;
        self.happens(What::Change { fact, value })
    }

    fn tell(&mut self, mut words: Words<'w>) -> Answer<()> {
        let runner = words.number()?;
        let uid = words.number()?;
        let succeeds = match words.next()? {
            b"SUCCESS" => true,
            b"FAILURE" => false,
            _ => return Err(Wrong::BadLine),
        };
        let mut written = Vec::new();
        while !words.rest.is_empty() {
            must(succeeds, Wrong::BadLine)?;
            written.push(words.output()?);
        }
        let runner = within(runner, 1, i64::from(self.world.runners))? as u32;
        let uid = within(uid, 0, i64::from(u32::MAX))? as u32;
        let all_fit = written.iter().all(|(_, it)| !matches!(it, Told::Number(Canonical::TooWide)));
        must(all_fit, Wrong::Range)?;
        must(crate::scan::are_different(written.iter().map(|it| &it.0)), Wrong::DoubleName)?;
        let all_short = written.iter().all(|(_, it)| !matches!(it, Told::Text(text) if text.len() > LONGEST_TEXT));
        must(written.len() <= MOST_OUTPUTS && all_short, Wrong::TooMany)?;
        let telling = self.world.tellings.len() as u32;
        self.happens(What::Tell { runner, uid, telling })?;
        let outputs = written.into_iter().map(|(name, value)| (name, value.kept())).collect();
        self.world.tellings.push(Telling { succeeds, outputs });
        Ok(())
    }

    fn happens(&mut self, what: What) -> Answer<()> {
        must(self.world.events.len() < MOST_EVENTS, Wrong::TooMany)?;
        self.world.events.push(Event { at: self.moment as u64, what });
        Ok(())
    }

    fn at(&mut self, mut words: Words<'w>) -> Answer<()> {
        let moment = words.number()?;
        words.end()?;
        let moment = within(moment, 0, LATEST)?;
        must(moment >= self.moment, Wrong::MomentBack)?;
        self.moment = moment;
        Ok(())
    }

    fn every(&mut self, mut words: Words<'w>) -> Answer<()> {
        let step = words.number()?;
        words.sign(b"until")?;
        let last = words.number()?;
        let mut written = Vec::new();
        while written.is_empty() || !words.rest.is_empty() {
            let what: fn(u32) -> What = match words.next()? {
                b"tick" => What::Tick,
                b"halt" => What::Halt,
                _ => return Err(Wrong::BadLine),
            };
            written.push((what, words.number()?));
        }
        let step = within(step, 1, LATEST)?;
        let last = within(last, 0, LATEST)?;
        let runners = i64::from(self.world.runners);
        let mut parts = Vec::new();
        for (what, runner) in written {
            parts.push(what(within(runner, 1, runners)? as u32));
        }
        must(last >= self.moment, Wrong::MomentBack)?;
        loop {
            for &what in &parts {
                self.happens(what)?;
            }
            if last - self.moment < step {
                return Ok(());
            }
            self.moment += step;
        }
    }

    fn fact(&mut self, mut words: Words<'w>) -> Answer<()> {
        let name = words.name()?;
        let opening = words.number()?;
        words.end()?;
        let opening = within(opening, i64::MIN, i64::MAX)?;
        must(!self.fact_of.contains_key(name), Wrong::DoubleName)?;
        must(self.world.facts.len() < MOST_FACTS, Wrong::TooMany)?;
        self.fact_of.insert(name, self.world.facts.len() as u32);
        self.world.facts.push(Fact { name, opening });
        Ok(())
    }

    fn known_fact(&self, name: &[u8]) -> Answer<u32> {
        self.fact_of.get(name).copied().ok_or(Wrong::NoName)
    }

    /// A row that compares a fact, by its ID.
    fn known_test(&self, id: &[u8]) -> Answer<u32> {
        let row = *self.world.row_of.get(id).ok_or(Wrong::NoName)?;
        // An action that is being read is not among the rows.
        let compares = self.world.rows.get(row as usize).is_some_and(|it| matches!(it.sort, Sort::Is { .. }));
        must(compares, Wrong::NoName)?;
        Ok(row)
    }

    fn goal(&mut self, mut words: Words<'w>) -> Answer<()> {
        let id = words.last()?;
        must(is_name(id), Wrong::BadLine)?;
        let row = self.known_test(id)?;
        must(!self.world.goals.contains(&row), Wrong::DoubleName)?;
        must(self.world.goals.len() < MOST_GOALS, Wrong::TooMany)?;
        self.world.goals.push(row);
        Ok(())
    }

    fn runners(&mut self, mut words: Words<'w>) -> Answer<()> {
        let number = words.number()?;
        words.end()?;
        must(self.world.events.is_empty(), Wrong::BadLine)?;
        let number = within(number, 1, MOST_RUNNERS)?;
        must(!self.knows_runners, Wrong::DoubleName)?;
        self.knows_runners = true;
        self.world.runners = number as u32;
        Ok(())
    }

    fn condition(&mut self, mut words: Words<'w>) -> Answer<()> {
        let head = head(words.next()?)?;
        match words.next()? {
            b"is" => {
                must(head.ports.is_empty(), Wrong::BadLine)?;
                let name = words.name()?;
                let comparison = Comparison::of(words.next()?).ok_or(Wrong::BadLine)?;
                let value = words.number()?;
                words.end()?;
                let value = within(value, i64::MIN, i64::MAX)?;
                self.must_be_new(&head)?;
                let fact = self.known_fact(name)?;
                self.row(head, Sort::Is { fact, comparison, value })
            }
            b"when" => {
                let test = self.expression(words.rest, &head.ports)?;
                self.must_be_new(&head)?;
                let sort = Sort::When(test.known()?);
                self.row(head, sort)
            }
            b"told" => {
                words.end()?;
                self.must_be_new(&head)?;
                self.row(head, Sort::Sensed)
            }
            _ => Err(Wrong::BadLine),
        }
    }

    fn action(&mut self, mut words: Words<'w>) -> Answer<()> {
        let head = head(words.next()?)?;
        match words.next()? {
            b"timed" if words.rest.starts_with(b"(") => {
                let length = self.expression(words.rest, &head.ports)?;
                must(is_group(words.rest), Wrong::BadLine)?;
                self.must_be_new(&head)?;
                let sort = Sort::TimedBy { length: length.known()?, fails: None };
                self.row(head, sort)
            }
            b"timed" => {
                let length = words.number()?;
                words.end()?;
                let length = within(length, 0, LATEST)? as u64;
                self.must_be_new(&head)?;
                self.row(head, Sort::Timed { length, fails: None })
            }
            b"replay" => {
                let length = words.number()?;
                let outcomes = words.last()?;
                let are_letters = outcomes.iter().all(|it| matches!(it, b'S' | b'F'));
                must(are_letters && outcomes.len() <= LONGEST_OUTCOMES, Wrong::BadLine)?;
                let length = within(length, 0, LATEST)? as u64;
                self.must_be_new(&head)?;
                self.row(head, Sort::Replay { length, outcomes })
            }
            b"gate" => {
                let test = self.expression(words.rest, &head.ports)?;
                self.must_be_new(&head)?;
                let sort = Sort::Gate(test.known()?);
                self.row(head, sort)
            }
            b"told" => {
                words.end()?;
                self.must_be_new(&head)?;
                self.row(head, Sort::Told(Vec::new()))
            }
            _ => Err(Wrong::BadLine),
        }
    }

    fn must_be_new(&self, head: &Head) -> Answer<()> {
        // A reserved name is ASCII, and so is each ID.
        let is_taken = self.world.row_of.contains_key(head.id) || std::str::from_utf8(head.id).is_ok_and(is_reserved);
        must(!is_taken && crate::scan::are_different(head.ports.iter()), Wrong::DoubleName)
    }

    fn row(&mut self, head: Head<'w>, sort: Sort<'w>) -> Answer<()> {
        must(self.world.rows.len() < MOST_ROWS && head.ports.len() <= MOST_PORTS, Wrong::TooMany)?;
        self.world.row_of.insert(head.id, self.world.rows.len() as u32);
        let (effects, outputs, needs) = Default::default();
        self.world.rows.push(Row { id: head.id, ports: head.ports, sort, effects, outputs, needs });
        Ok(())
    }

    /// A line that belongs to the action above.
    fn detail(&mut self, word: &[u8], mut words: Words<'w>) -> Answer<()> {
        let mut row = self.world.rows.pop().ok_or(Wrong::BadLine)?;
        let read = match word {
            _ if !self.is_in_action => Err(Wrong::BadLine),
            _ if matches!(row.sort, Sort::Told(_)) => told_out(&mut row, word, words),
            b"fails" => self.fails(&mut row, words.rest),
            b"needs" => self.needs(&mut row, words),
            b"sets" => self.sets(&mut row, words),
            _ => self.out(&mut row, &mut words),
        };
        self.world.rows.push(row);
        read
    }

    fn fails(&mut self, row: &mut Row<'w>, text: &'w [u8]) -> Answer<()> {
        let (Sort::Timed { fails, .. } | Sort::TimedBy { fails, .. }) = &mut row.sort else {
            return Err(Wrong::BadLine);
        };
        let test = self.expression(text, &row.ports)?;
        must(fails.is_none(), Wrong::DoubleName)?;
        *fails = Some(test.known()?);
        Ok(())
    }

    fn needs(&mut self, row: &mut Row<'w>, mut words: Words<'w>) -> Answer<()> {
        let id = words.last()?;
        must(is_name(id), Wrong::BadLine)?;
        let test = self.known_test(id)?;
        must(!row.needs.contains(&test), Wrong::DoubleName)?;
        must(row.needs.len() < MOST_NEEDS, Wrong::TooMany)?;
        row.needs.push(test);
        Ok(())
    }

    fn sets(&mut self, row: &mut Row<'w>, mut words: Words<'w>) -> Answer<()> {
        let name = words.name()?;
        let adds = match words.next()? {
            b"=" => false,
            b"+=" => true,
            _ => return Err(Wrong::BadLine),
        };
        let number = words.number()?;
        words.end()?;
        let number = within(number, i64::MIN, i64::MAX)?;
        let fact = self.known_fact(name)?;
        must(row.effects.iter().all(|it| it.fact != fact), Wrong::DoubleName)?;
        must(row.effects.len() < MOST_EFFECTS, Wrong::TooMany)?;
        row.effects.push(Effect { fact, adds, number });
        Ok(())
    }

    fn out(&mut self, row: &mut Row<'w>, words: &mut Words<'w>) -> Answer<()> {
        let port = words.name()?;
        words.sign(b"=")?;
        let value = self.expression(words.rest, &row.ports)?;
        must(row.outputs.iter().all(|it| it.0 != port), Wrong::DoubleName)?;
        let code = value.known()?;
        must(row.outputs.len() < MOST_OUTPUTS, Wrong::TooMany)?;
        row.outputs.push((port, code));
        Ok(())
    }

    /// Reads the expression that the rest of a line is.
    fn expression(&mut self, text: &'w [u8], ports: &[&'w [u8]]) -> Answer<Expression> {
        let blanks = text.iter().rev().take_while(|&&it| is_blank(it)).count();
        let text = &text[..text.len() - blanks];
        let mut is_known = true;
        let facts = &self.fact_of;
        let mut number_of = |name: &'w [u8]| {
            let port = ports.iter().position(|it| *it == name).map(|it| it as u32);
            port.or_else(|| facts.get(name).map(|it| it + PORTS)).unwrap_or_else(|| {
                is_known = false;
                0
            })
        };
        let code = self.world.codes.read(text, Form::Expression, &mut number_of).map_err(|_| Wrong::BadLine)?;
        Ok(Expression { code, is_known })
    }
}

/// Whether an expression stands in parentheses: the first one ends with the text.
fn is_group(text: &[u8]) -> bool {
    let mut open = 0;
    let end = text.iter().position(|byte| {
        open += i32::from(*byte == b'(') - i32::from(*byte == b')');
        open == 0
    });
    end.is_some_and(|place| text[place + 1..].iter().all(|&it| is_blank(it)))
}

/// Reads an output of an action that is told how it ended: its name alone.
fn told_out<'w>(row: &mut Row<'w>, word: &[u8], mut words: Words<'w>) -> Answer<()> {
    must(word == b"out", Wrong::BadLine)?;
    let port = words.last()?;
    must(is_name(port), Wrong::BadLine)?;
    let Sort::Told(outs) = &mut row.sort else {
        return Err(Wrong::BadLine);
    };
    must(!outs.contains(&port), Wrong::DoubleName)?;
    must(outs.len() < MOST_OUTPUTS, Wrong::TooMany)?;
    outs.push(port);
    Ok(())
}

/// Reads `ID` or `ID(p,q)`.
fn head(word: &[u8]) -> Answer<Head<'_>> {
    let Some(open) = word.iter().position(|&it| it == b'(') else {
        must(is_name(word), Wrong::BadLine)?;
        return Ok(Head { id: word, ports: Vec::new() });
    };
    let id = &word[..open];
    let inner = word[open + 1..].strip_suffix(b")").ok_or(Wrong::BadLine)?;
    let ports: Vec<&[u8]> = inner.split(|&it| it == b',').collect();
    must(is_name(id) && ports.iter().all(|it| is_name(it)), Wrong::BadLine)?;
    Ok(Head { id, ports })
}
