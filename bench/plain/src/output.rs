//! What is written: one buffer for all lines, refusals, the lines of a trace, and the counts of a load.

use crate::build::Tree;
use crate::engine::{Answer, Notes, Status};
use crate::scripts::{Cause, Value};
use crate::world::World;
use std::fmt::Display;
use std::io::Write;

/// How the program ends.
#[derive(Clone, Copy, PartialEq)]
#[allow(missing_docs)]
pub enum Exit {
    Done = 0,
    Words = 2,
    Tree = 3,
    World = 4,
    Fault = 5,
    NoPlan = 6,
    Read = 7,
    Write = 8,
}

/// A refusal: its line, and how the program then ends.
pub struct Refusal {
    /// The line without its end.
    pub line: String,
    /// The exit.
    pub exit: Exit,
}

impl Refusal {
    /// A refusal of the tree file.
    pub fn tree(what: impl Display) -> Refusal {
        Refusal { line: format!("refused tree {what}"), exit: Exit::Tree }
    }

    /// A refusal of the world script, or of the two together.
    pub fn world(what: impl Display) -> Refusal {
        Refusal { line: format!("refused world {what}"), exit: Exit::World }
    }
}

/// A text in single quotes, as refusals and boards show it.
pub fn quoted(text: &[u8]) -> String {
    let mut quoted = vec![b'\''];
    for &byte in text {
        match byte {
            b'\'' => quoted.extend(b"\\'"),
            b'\\' => quoted.extend(b"\\\\"),
            b'\n' => quoted.extend(b"\\n"),
            0..=31 => quoted.extend(format!("\\x{byte:02x}").bytes()),
            _ => quoted.push(byte),
        }
    }
    quoted.push(b'\'');
    String::from_utf8_lossy(&quoted).into_owned()
}

/// The word of a cause, without what it names.
pub fn plain_cause(cause: Cause) -> &'static str {
    match cause {
        Cause::NoEntry(_) => "NoEntry",
        Cause::NoInput(_) => "NoInput",
        Cause::Overflow => "Overflow",
        Cause::ZeroDivisor => "ZeroDivisor",
        Cause::NotWhole => "NotWhole",
        Cause::Mixed => "Mixed",
        Cause::TextTooLong => "TextTooLong",
        Cause::Range => "Range",
        Cause::BadPort(_) => "BadPort",
    }
}

const ROOM: usize = 1 << 16;
/// The longest half of a line that has two.
const HALF: usize = 16;

/// The buffer before standard output.
pub struct Output {
    buffer: Vec<u8>,
    used: usize,
    has_failed: bool,
}

impl Output {
    /// An empty one.
    pub fn new() -> Output {
        Output { buffer: vec![0; ROOM], used: 0, has_failed: false }
    }

    /// Writes what is in the buffer. What does not go out is lost, and is remembered as a failure.
    pub fn flush(&mut self) {
        let mut out = std::io::stdout().lock();
        let written = out.write_all(&self.buffer[..self.used]).and_then(|()| out.flush());
        self.has_failed |= written.is_err();
        self.used = 0;
    }

    /// Whether a write has failed.
    pub fn has_failed(&self) -> bool {
        self.has_failed
    }

    /// Appends bytes.
    pub fn bytes(&mut self, bytes: &[u8]) {
        let mut rest = bytes;
        while rest.len() > ROOM - self.used {
            let (now, later) = rest.split_at(ROOM - self.used);
            self.buffer[self.used..].copy_from_slice(now);
            self.used = ROOM;
            self.flush();
            rest = later;
        }
        self.buffer[self.used..self.used + rest.len()].copy_from_slice(rest);
        self.used += rest.len();
    }

    /// Appends so many blanks.
    pub fn blanks(&mut self, count: usize) {
        let mut rest = count;
        while rest > ROOM - self.used {
            rest -= ROOM - self.used;
            self.buffer[self.used..].fill(b' ');
            self.used = ROOM;
            self.flush();
        }
        self.buffer[self.used..self.used + rest].fill(b' ');
        self.used += rest;
    }

    /// Appends a text.
    pub fn text(&mut self, text: &str) {
        self.bytes(text.as_bytes());
    }

    /// Appends a number in decimal.
    pub fn number(&mut self, number: i64) {
        let mut digits = [0; 20];
        let mut at = digits.len();
        let mut rest = number.unsigned_abs();
        loop {
            at -= 1;
            digits[at] = b'0' + (rest % 10) as u8;
            rest /= 10;
            if rest == 0 {
                break;
            }
        }
        if number < 0 {
            at -= 1;
            digits[at] = b'-';
        }
        self.bytes(&digits[at..]);
    }

    /// Appends a short line of two halves.
    #[inline]
    fn halves(&mut self, first: &Half, second: &Half) {
        if ROOM - self.used < 2 * HALF {
            self.flush();
        }
        let room = &mut self.buffer[self.used..self.used + 2 * HALF];
        let middle = first.length & (2 * HALF - 1);
        room[..HALF].copy_from_slice(&first.bytes);
        if let Some(place) = room.get_mut(middle..middle + HALF) {
            place.copy_from_slice(&second.bytes);
        }
        self.used += first.length + second.length;
    }
}

/// Half a line, padded so that it is copied without a loop.
#[derive(Clone, Copy)]
struct Half {
    bytes: [u8; HALF],
    length: usize,
}

const fn half(text: &str) -> Half {
    let text = text.as_bytes();
    let mut bytes = [0; HALF];
    let mut at = 0;
    while at < text.len() {
        bytes[at] = text[at];
        at += 1;
    }
    Half { bytes, length: text.len() }
}

/// The ends of `node` lines, by the old status and the new one.
static CHANGES: [[Half; 4]; 4] = [
    [half("IDLE IDLE\n"), half("IDLE RUNNING\n"), half("IDLE SUCCESS\n"), half("IDLE FAILURE\n")],
    [half("RUNNING IDLE\n"), half("RUNNING RUNNING\n"), half("RUNNING SUCCESS\n"), half("RUNNING FAILURE\n")],
    [half("SUCCESS IDLE\n"), half("SUCCESS RUNNING\n"), half("SUCCESS SUCCESS\n"), half("SUCCESS FAILURE\n")],
    [half("FAILURE IDLE\n"), half("FAILURE RUNNING\n"), half("FAILURE SUCCESS\n"), half("FAILURE FAILURE\n")],
];
static STARTED: [Half; 4] = [half("start SKIPPED\n"), half("start RUNNING\n"), half("start SUCCESS\n"), half("start FAILURE\n")];
static RAN: [Half; 4] = [half("running SKIPPED\n"), half("running RUNNING\n"), half("running SUCCESS\n"), half("running FAILURE\n")];
static HALTED: Half = half("halted\n");
static ANSWERS: [&str; 4] = ["SKIPPED\n", "RUNNING\n", "SUCCESS\n", "FAILURE\n"];

/// The lines of a trace.
pub struct Trace<'t> {
    out: &'t mut Output,
    tree: &'t Tree<'t>,
    world: &'t World<'t>,
    /// The beginnings `node UID ` and `call UID ` of each node's lines.
    beginnings: Vec<(Half, Half)>,
}

impl<'t> Trace<'t> {
    /// The lines of a tree's run over a world.
    pub fn new(out: &'t mut Output, tree: &'t Tree<'t>, world: &'t World<'t>) -> Trace<'t> {
        let beginnings = (1..=tree.nodes.len()).map(|uid| (half(&format!("node {uid} ")), half(&format!("call {uid} "))));
        Trace { beginnings: beginnings.collect(), out, tree, world }
    }

    fn words(&mut self, word: &str, first: u32, second: &str) {
        self.out.text(word);
        self.out.number(i64::from(first));
        self.out.text(second);
    }

    /// The input port of a leaf's row at a place.
    fn input(&self, node: u32, place: u32) -> &'t [u8] {
        let id = self.tree.specs[self.tree.nodes[node as usize].spec as usize].id;
        let row = self.world.row_of.get(id.as_bytes()).map(|&it| &self.world.rows[it as usize]);
        row.and_then(|it| it.ports.get(place as usize)).copied().unwrap_or_default()
    }

    fn header(&mut self, word: &str, runner: u32, at: u64) {
        self.words(word, runner, " at ");
        self.out.number(at as i64);
        self.out.text("\n");
    }
}

impl Notes for Trace<'_> {
    fn tick(&mut self, runner: u32, at: u64) {
        self.header("tick ", runner, at);
    }

    fn halt(&mut self, runner: u32, at: u64) {
        self.header("halt ", runner, at);
    }

    fn finish(&mut self, runner: u32, at: u64) {
        self.header("finish ", runner, at);
    }

    fn change(&mut self, fact: u32, value: i64, at: u64) {
        self.out.text("set ");
        self.out.bytes(self.world.facts[fact as usize].name);
        self.out.text(" ");
        self.out.number(value);
        self.out.text(" at ");
        self.out.number(at as i64);
        self.out.text("\n");
    }

    fn tell(&mut self, runner: u32, uid: u32, succeeds: bool, at: u64) {
        self.out.text("tell ");
        self.out.number(i64::from(runner));
        self.out.text(" ");
        self.out.number(i64::from(uid));
        self.out.text(if succeeds { " SUCCESS at " } else { " FAILURE at " });
        self.out.number(at as i64);
        self.out.text("\n");
    }

    #[inline]
    fn changed(&mut self, node: u32, old: Status, new: Status) {
        self.out.halves(&self.beginnings[node as usize].0, &CHANGES[old as usize & 3][new as usize & 3]);
    }

    #[inline]
    fn called(&mut self, node: u32, starts: bool, answer: Answer) {
        let ends = if starts { &STARTED } else { &RAN };
        self.out.halves(&self.beginnings[node as usize].1, &ends[answer as usize & 3]);
    }

    fn halted(&mut self, node: u32) {
        self.out.halves(&self.beginnings[node as usize].1, &HALTED);
    }

    fn root(&mut self, runner: u32, answer: Answer) {
        self.words("root ", runner, " ");
        self.out.text(ANSWERS[answer as usize]);
    }

    fn fault(&mut self, runner: u32, node: u32, cause: Cause) {
        self.words("fault ", runner, " ");
        self.out.number(i64::from(node) + 1);
        let line = match cause {
            Cause::NoEntry(slot) => {
                let cell = &self.tree.cells[slot as usize];
                format!(" NoEntry {} {}\n", cell.scope, cell.key)
            }
            Cause::NoInput(place) => format!(" NoInput {}\n", String::from_utf8_lossy(self.input(node, place))),
            Cause::BadPort(port) => format!(" BadPort {}\n", port.name()),
            other => format!(" {}\n", plain_cause(other)),
        };
        self.out.text(&line);
    }

    fn quenched(&mut self, runner: u32, node: u32) {
        self.words("quench ", runner, " ");
        self.out.number(i64::from(node) + 1);
        self.out.text("\n");
    }

    fn fact(&mut self, fact: u32, value: i64) {
        self.out.text("fact ");
        self.out.bytes(self.world.facts[fact as usize].name);
        self.out.text(" ");
        self.out.number(value);
        self.out.text("\n");
    }

    fn entry(&mut self, runner: u32, slot: u32, value: &Value) {
        let cell = &self.tree.cells[slot as usize];
        self.words("board ", runner, " ");
        self.words("", cell.scope, " ");
        self.out.text(cell.key);
        self.out.text(" ");
        match value {
            Value::Absent => {}
            Value::Int(number) => self.out.number(*number),
            Value::Text(text) => self.out.text(&quoted(text)),
        }
        self.out.text("\n");
    }

    fn has_failed(&self) -> bool {
        self.out.has_failed()
    }
}

/// The counts of a load, which writes no blocks.
#[derive(Default)]
#[allow(missing_docs)]
pub struct Counts {
    pub starts: u64,
    pub runs: u64,
    pub halts: u64,
    pub successes: u64,
}

impl Notes for Counts {
    fn called(&mut self, _: u32, starts: bool, _: Answer) {
        self.starts += u64::from(starts);
        self.runs += u64::from(!starts);
    }

    fn halted(&mut self, _: u32) {
        self.halts += 1;
    }

    fn root(&mut self, _: u32, answer: Answer) {
        self.successes += u64::from(answer == Answer::Success);
    }
}
