//! Scripts and expressions: one pass from the text to postfix code with jumps, and the machine that runs it.

use crate::scan::{is_letter, is_word_byte};
use std::fmt;
use std::rc::Rc;

/// The most bytes of a script and of a text value.
pub const LONGEST: usize = 4_096;
/// The height that an expression may have.
const HIGHEST: u32 = 64;

/// A value of a blackboard, or none.
#[derive(Clone, PartialEq, Default)]
pub enum Value {
    /// There is no entry.
    #[default]
    Absent,
    /// A number.
    Int(i64),
    /// A text.
    Text(Rc<Box<[u8]>>),
}

/// Why a script or an expression has no value.
#[derive(Clone, Copy, PartialEq)]
pub enum Cause {
    /// The entry of this slot is missing.
    NoEntry(u32),
    /// The input at this place is missing.
    NoInput(u32),
    /// A number outside 64 bits.
    Overflow,
    /// A division by 0.
    ZeroDivisor,
    /// A division that leaves a remainder.
    NotWhole,
    /// A number and a text together, or a text where a number is needed.
    Mixed,
    /// A text of too many bytes.
    TextTooLong,
    /// A length of an action that is negative or too long.
    Range,
    /// The key of this port has no number that the port takes.
    BadPort(Setting),
}

/// A port of a built-in node that takes a number.
#[derive(Clone, Copy, PartialEq)]
#[allow(missing_docs)]
pub enum Setting {
    SuccessCount,
    FailureCount,
    NumberOfRetries,
    NumAttempts,
    NumCycles,
    Msec,
    DelayMsec,
    ThenSkip,
    Hz,
}

impl Setting {
    /// Its name.
    pub fn name(self) -> &'static str {
        match self {
            Setting::SuccessCount => "success_count",
            Setting::FailureCount => "failure_count",
            Setting::NumberOfRetries => "number_of_retries",
            Setting::NumAttempts => "num_attempts",
            Setting::NumCycles => "num_cycles",
            Setting::Msec => "msec",
            Setting::DelayMsec => "delay_msec",
            Setting::ThenSkip => "then_skip",
            Setting::Hz => "hz",
        }
    }
}

/// Why a text is no script; each but `TooLong` has its place in the text.
pub enum ScriptFault {
    /// More bytes than a script may have.
    TooLong,
    /// No script goes on so.
    Syntax(usize),
    /// Decimal digits and a point or an exponent.
    RealNumber(usize),
    /// A number above the greatest.
    NumberTooWide(usize),
    /// The expression of the statement that begins here is too high.
    TooNested(usize),
}

impl fmt::Display for ScriptFault {
    fn fmt(&self, f: &mut fmt::Formatter) -> fmt::Result {
        match self {
            ScriptFault::TooLong => write!(f, "TooLong"),
            ScriptFault::Syntax(place) => write!(f, "Syntax {place}"),
            ScriptFault::RealNumber(place) => write!(f, "RealNumber {place}"),
            ScriptFault::NumberTooWide(place) => write!(f, "NumberTooWide {place}"),
            ScriptFault::TooNested(place) => write!(f, "TooNested {place}"),
        }
    }
}

/// An instruction. Jumps tell the place in the list of all instructions.
#[derive(Clone, Copy)]
enum Op {
    Number(i64),
    Text(u32),
    Load(u32),
    Neg,
    Not,
    Flip,
    Binary(Binary),
    /// An operator whose right operand is a number.
    WithNumber(Binary, i64),
    /// An operator whose right operand is a name.
    WithName(Binary, u32),
    /// Leaves a 0 and jumps where a 0 is on top, and else drops it.
    And(u32),
    /// Leaves a 1 and jumps where no 0 is on top, and else drops it.
    Or(u32),
    /// Makes a 1 or a 0 of the number on top.
    Truth,
    /// Drops the number on top, and jumps where it is 0.
    Unless(u32),
    Jump(u32),
}

#[derive(Clone, Copy, PartialEq)]
enum Binary {
    Add,
    Sub,
    Mul,
    Div,
    BitAnd,
    BitOr,
    BitXor,
    Equal,
    Differ,
    Less,
    AtMost,
    More,
    AtLeast,
}

/// What a statement does with the value of its expression.
#[derive(Clone, Copy)]
enum Ending {
    Plain,
    /// Writes the entry of the name, new or not.
    Create(u32),
    /// Writes the entry of the name, which must be there.
    Assign(u32),
}

#[derive(Clone, Copy)]
struct Statement {
    ops: (u32, u32),
    ending: Ending,
    /// Whether it has a text literal.
    has_texts: bool,
}

/// A script or an expression that was read: its statements among all.
#[derive(Clone, Copy)]
pub struct Code {
    first: u32,
    end: u32,
}

/// All code that was read of one file. Names are the numbers that the reader's caller gave them.
#[derive(Default)]
pub struct Codes {
    ops: Vec<Op>,
    statements: Vec<Statement>,
    texts: Vec<Rc<Box<[u8]>>>,
}

/// What may be read.
#[derive(Clone, Copy, PartialEq)]
pub enum Form {
    /// Statements with semicolons between.
    Script,
    /// One expression without text literals.
    Expression,
}

impl Codes {
    /// Reads a text. `number_of` gives a name its number.
    pub fn read<'t>(&mut self, text: &'t [u8], form: Form, number_of: &mut dyn FnMut(&'t [u8]) -> u32) -> Result<Code, ScriptFault> {
        if text.len() > LONGEST {
            return Err(ScriptFault::TooLong);
        }
        let first = self.statements.len() as u32;
        let reader = Reader {
            form,
            codes: self,
            number_of,
            tokens: Tokens { text, at: 0 },
            open: Vec::new(),
            heights: Vec::new(),
            too_nested: None,
        };
        reader.statements()?;
        Ok(Code { first, end: self.statements.len() as u32 })
    }
}

/// A sign between two operands.
#[derive(Clone, Copy, PartialEq)]
enum Infix {
    Plain(Binary),
    And,
    Or,
}

#[derive(Clone, Copy, PartialEq)]
enum Token<'t> {
    Name(&'t [u8]),
    Number(i64),
    Text(&'t [u8]),
    Infix(Infix, u8),
    Not,
    Flip,
    Question,
    Colon,
    Left,
    Right,
    Semicolon,
    /// `:=`
    Create,
    /// `=`
    Assign,
    /// `+=` and the like
    Change(Binary),
    End,
}

/// The levels of the signs that stand between operands; the tightest is the last.
mod level {
    pub const OR: u8 = 1;
    pub const AND: u8 = 2;
    pub const BIT_OR: u8 = 3;
    pub const BIT_XOR: u8 = 4;
    pub const BIT_AND: u8 = 5;
    pub const EQUAL: u8 = 6;
    pub const ORDER: u8 = 7;
    pub const SUM: u8 = 8;
    pub const PRODUCT: u8 = 9;
}

struct Tokens<'t> {
    text: &'t [u8],
    at: usize,
}

impl<'t> Tokens<'t> {
    /// The next token and its place.
    fn next(&mut self) -> Result<(Token<'t>, usize), ScriptFault> {
        while self.text.get(self.at).is_some_and(|&it| crate::scan::is_space(it)) {
            self.at += 1;
        }
        let place = self.at;
        let rest = &self.text[place..];
        let Some(&byte) = rest.first() else {
            return Ok((Token::End, place));
        };
        let token = match byte {
            b'0'..=b'9' => self.number()?,
            b'\'' => {
                let length = rest[1..].iter().position(|&it| it == b'\'').ok_or(ScriptFault::Syntax(place))?;
                self.at += length + 2;
                Token::Text(&rest[1..=length])
            }
            _ if is_letter(byte) => {
                let length = rest.iter().take_while(|&&it| is_word_byte(it)).count();
                self.at += length;
                Token::Name(&rest[..length])
            }
            _ => {
                let (token, length) = sign(byte, rest.get(1).copied()).ok_or(ScriptFault::Syntax(place))?;
                self.at += length;
                token
            }
        };
        Ok((token, place))
    }

    fn number(&mut self) -> Result<Token<'t>, ScriptFault> {
        let place = self.at;
        let rest = &self.text[place..];
        let is_hexadecimal = matches!(rest, [b'0', b'x' | b'X', ..]);
        let (start, base) = if is_hexadecimal { (2, 16) } else { (0, 10) };
        let length = rest[start..].iter().take_while(|&&it| char::from(it).is_digit(base)).count();
        let after = rest.get(start + length).copied().unwrap_or(b' ');
        let is_real = !is_hexadecimal && matches!(after, b'.' | b'e' | b'E');
        if length == 0 || (is_letter(after) && !is_real) {
            return Err(ScriptFault::Syntax(place));
        }
        if is_real {
            return Err(ScriptFault::RealNumber(place));
        }
        self.at += start + length;
        let mut number = 0i64;
        for &digit in &rest[start..start + length] {
            let digit = i64::from(char::from(digit).to_digit(base).unwrap_or(0));
            let next = number.checked_mul(i64::from(base)).and_then(|it| it.checked_add(digit));
            number = next.ok_or(ScriptFault::NumberTooWide(place))?;
        }
        Ok(Token::Number(number))
    }
}

/// The longest sign that begins with these bytes, and its length.
fn sign(byte: u8, next: Option<u8>) -> Option<(Token<'static>, usize)> {
    use Binary::*;
    let plain = |it, level| Token::Infix(Infix::Plain(it), level);
    Some(match (byte, next) {
        (b':', Some(b'=')) => (Token::Create, 2),
        (b'=', Some(b'=')) => (plain(Equal, level::EQUAL), 2),
        (b'!', Some(b'=')) => (plain(Differ, level::EQUAL), 2),
        (b'<', Some(b'=')) => (plain(AtMost, level::ORDER), 2),
        (b'>', Some(b'=')) => (plain(AtLeast, level::ORDER), 2),
        (b'+', Some(b'=')) => (Token::Change(Add), 2),
        (b'-', Some(b'=')) => (Token::Change(Sub), 2),
        (b'*', Some(b'=')) => (Token::Change(Mul), 2),
        (b'/', Some(b'=')) => (Token::Change(Div), 2),
        (b'&', Some(b'&')) => (Token::Infix(Infix::And, level::AND), 2),
        (b'|', Some(b'|')) => (Token::Infix(Infix::Or, level::OR), 2),
        (b'=', _) => (Token::Assign, 1),
        (b'+', _) => (plain(Add, level::SUM), 1),
        (b'-', _) => (plain(Sub, level::SUM), 1),
        (b'*', _) => (plain(Mul, level::PRODUCT), 1),
        (b'/', _) => (plain(Div, level::PRODUCT), 1),
        (b'&', _) => (plain(BitAnd, level::BIT_AND), 1),
        (b'|', _) => (plain(BitOr, level::BIT_OR), 1),
        (b'^', _) => (plain(BitXor, level::BIT_XOR), 1),
        (b'<', _) => (plain(Less, level::ORDER), 1),
        (b'>', _) => (plain(More, level::ORDER), 1),
        (b'!', _) => (Token::Not, 1),
        (b'~', _) => (Token::Flip, 1),
        (b'?', _) => (Token::Question, 1),
        (b':', _) => (Token::Colon, 1),
        (b'(', _) => (Token::Left, 1),
        (b')', _) => (Token::Right, 1),
        (b';', _) => (Token::Semicolon, 1),
        _ => return None,
    })
}

/// What waits for its last operand.
enum Open {
    Paren,
    Unary(Op),
    Infix(Infix, u8, usize),
    /// Between `?` and `:`, with the jump to the other part.
    Question(usize),
    /// After `:`, with the jump over this part.
    Colon(usize),
}

struct Reader<'r, 't> {
    form: Form,
    codes: &'r mut Codes,
    number_of: &'r mut dyn FnMut(&'t [u8]) -> u32,
    tokens: Tokens<'t>,
    open: Vec<Open>,
    /// The heights of the operands that were read and not joined yet.
    heights: Vec<u32>,
    /// The place of the first statement that is too high.
    too_nested: Option<usize>,
}

impl<'t> Reader<'_, 't> {
    fn statements(mut self) -> Result<(), ScriptFault> {
        let first = self.codes.statements.len();
        loop {
            let (token, place) = self.tokens.next()?;
            match token {
                Token::Semicolon if self.form == Form::Script => {}
                Token::End if self.codes.statements.len() > first => break,
                _ => {
                    if self.statement(token, place)? == Token::End {
                        break;
                    }
                }
            }
        }
        self.too_nested.map_or(Ok(()), |place| Err(ScriptFault::TooNested(place)))
    }

    /// Reads a statement of which this is the first token, and tells the token that ends it.
    fn statement(&mut self, mut token: Token<'t>, start: usize) -> Result<Token<'t>, ScriptFault> {
        let from = self.codes.ops.len();
        let texts = self.codes.texts.len();
        let mut place = start;
        let mut ending = Ending::Plain;
        // The name that may still turn out to be what the statement writes.
        let mut target = None;
        if let Token::Name(name) = token {
            target = (!matches!(name, b"true" | b"false")).then_some(name);
        }
        // The operator of a change, whose other operand is the old value.
        let mut change = None;
        let mut wants_operand = true;
        loop {
            if wants_operand {
                wants_operand = self.operand(token, place)?;
            } else if let (Some(name), Token::Create | Token::Assign | Token::Change(_)) = (target, token) {
                if self.form == Form::Expression {
                    return Err(ScriptFault::Syntax(place));
                }
                self.heights.clear();
                let number = (self.number_of)(name);
                ending = if token == Token::Create { Ending::Create(number) } else { Ending::Assign(number) };
                if let Token::Change(operator) = token {
                    change = Some(operator);
                } else {
                    self.codes.ops.truncate(from);
                }
                target = None;
                wants_operand = true;
            } else {
                target = None;
                if self.after_operand(token, place)? {
                    break;
                }
                wants_operand = token != Token::Right;
            }
            (token, place) = self.tokens.next()?;
        }
        if let Some(operator) = change {
            self.push_binary(operator);
        }
        if self.heights.pop().is_some_and(|it| it > HIGHEST) {
            self.too_nested.get_or_insert(start);
        }
        let ops = (from as u32, self.codes.ops.len() as u32);
        self.codes.statements.push(Statement { ops, ending, has_texts: self.codes.texts.len() > texts });
        Ok(token)
    }

    /// Takes a token where an operand is to begin. Says whether one is still to begin.
    fn operand(&mut self, token: Token<'t>, place: usize) -> Result<bool, ScriptFault> {
        let op = match token {
            Token::Left => {
                self.open.push(Open::Paren);
                return Ok(true);
            }
            Token::Not | Token::Flip | Token::Infix(Infix::Plain(Binary::Sub), _) => {
                let op = if token == Token::Not {
                    Op::Not
                } else if token == Token::Flip {
                    Op::Flip
                } else {
                    Op::Neg
                };
                self.open.push(Open::Unary(op));
                return Ok(true);
            }
            Token::Number(number) => Op::Number(number),
            Token::Name(b"true") => Op::Number(1),
            Token::Name(b"false") => Op::Number(0),
            Token::Name(name) => Op::Load((self.number_of)(name)),
            Token::Text(text) if self.form == Form::Script => {
                self.codes.texts.push(Rc::new(text.into()));
                Op::Text(self.codes.texts.len() as u32 - 1)
            }
            _ => return Err(ScriptFault::Syntax(place)),
        };
        self.codes.ops.push(op);
        self.heights.push(1);
        Ok(false)
    }

    /// Takes a token after an operand. Says whether it ends the statement.
    fn after_operand(&mut self, token: Token<'t>, place: usize) -> Result<bool, ScriptFault> {
        match token {
            Token::Infix(infix, level) => {
                self.join(|it| matches!(it, Open::Unary(_)) || matches!(it, Open::Infix(_, other, _) if *other >= level));
                let jump = match infix {
                    Infix::Plain(_) => 0,
                    Infix::And => self.push(Op::And(0)),
                    Infix::Or => self.push(Op::Or(0)),
                };
                self.open.push(Open::Infix(infix, level, jump));
            }
            Token::Question => {
                self.join(|it| matches!(it, Open::Unary(_) | Open::Infix(..)));
                let jump = self.push(Op::Unless(0));
                self.open.push(Open::Question(jump));
            }
            Token::Colon => {
                self.join_part();
                let Some(Open::Question(test)) = self.open.pop() else {
                    return Err(ScriptFault::Syntax(place));
                };
                let jump = self.push(Op::Jump(0));
                self.land(test);
                self.open.push(Open::Colon(jump));
            }
            Token::Right => {
                self.join_part();
                let (Some(Open::Paren), Some(height)) = (self.open.pop(), self.heights.last_mut()) else {
                    return Err(ScriptFault::Syntax(place));
                };
                *height += 1;
            }
            Token::End | Token::Semicolon if token == Token::End || self.form == Form::Script => {
                self.join_part();
                return if self.open.is_empty() { Ok(true) } else { Err(ScriptFault::Syntax(place)) };
            }
            _ => return Err(ScriptFault::Syntax(place)),
        }
        Ok(false)
    }

    fn push(&mut self, op: Op) -> usize {
        self.codes.ops.push(op);
        self.codes.ops.len() - 1
    }

    /// Emits an operator. A right operand of height 1 is one instruction, the last one, which is taken into the operator.
    fn push_binary(&mut self, operator: Binary) {
        let op = match (self.heights.last(), self.codes.ops.last()) {
            (Some(1), Some(&Op::Number(number))) => Op::WithNumber(operator, number),
            (Some(1), Some(&Op::Load(name))) => Op::WithName(operator, name),
            _ => {
                self.push(Op::Binary(operator));
                return;
            }
        };
        self.codes.ops.pop();
        self.push(op);
    }

    /// Lets a jump that was emitted lead to what is emitted next.
    fn land(&mut self, jump: usize) {
        let here = self.codes.ops.len() as u32;
        if let Op::And(to) | Op::Or(to) | Op::Unless(to) | Op::Jump(to) = &mut self.codes.ops[jump] {
            *to = here;
        }
    }

    /// Joins all that is open down to a parenthesis or a question.
    fn join_part(&mut self) {
        self.join(|it| !matches!(it, Open::Paren | Open::Question(_)));
    }

    /// Joins what is open with its operands, from the innermost on, as long as the test holds.
    fn join(&mut self, test: impl Fn(&Open) -> bool) {
        while self.open.last().is_some_and(&test) {
            let operands = match self.open.pop() {
                Some(Open::Unary(op)) => {
                    self.push(op);
                    1
                }
                Some(Open::Infix(Infix::Plain(operator), ..)) => {
                    self.push_binary(operator);
                    2
                }
                Some(Open::Infix(_, _, jump)) => {
                    self.push(Op::Truth);
                    self.land(jump);
                    2
                }
                Some(Open::Colon(jump)) => {
                    self.land(jump);
                    3
                }
                _ => return,
            };
            let highest = self.heights.drain(self.heights.len() - operands..).max().unwrap_or(0);
            self.heights.push(highest + 1);
        }
    }
}

/// Why the machine of numbers stopped.
pub enum Stop {
    /// A fault of the code.
    Fault(Cause),
    /// A text was met, which it has no place for.
    Text,
}

impl From<Cause> for Stop {
    fn from(cause: Cause) -> Stop {
        Stop::Fault(cause)
    }
}

/// The entries that a script reads and writes.
pub trait Cells {
    /// The entry of a name.
    fn get(&self, name: u32) -> &Value;
    /// Writes the entry of a name.
    fn put(&mut self, name: u32, value: Value);
    /// The fault of a name without an entry.
    fn missing(&self, name: u32) -> Cause;
}

/// The stacks of both machines, made once.
pub struct Stacks {
    numbers: [i64; 128],
    values: Vec<Value>,
}

impl Stacks {
    /// Empty ones.
    pub fn new() -> Stacks {
        Stacks { numbers: [0; 128], values: Vec::with_capacity(80) }
    }
}

impl Codes {
    /// Runs a script: the number of its last statement, or none where that is a text. A statement runs on numbers alone as
    /// long as it meets no text.
    pub fn run(&self, code: Code, cells: &mut impl Cells, stacks: &mut Stacks) -> Result<Option<i64>, Cause> {
        let mut last = None;
        for statement in &self.statements[code.first as usize..code.end as usize] {
            last = if statement.has_texts {
                self.statement_of_values(statement, cells, stacks)?
            } else {
                match self.numbers(statement, |name| number_of(cells, name), stacks) {
                    Ok(number) => {
                        store(statement, Value::Int(number), cells)?;
                        Some(number)
                    }
                    Err(Stop::Fault(cause)) => return Err(cause),
                    Err(Stop::Text) => self.statement_of_values(statement, cells, stacks)?,
                }
            };
        }
        Ok(last)
    }

    fn statement_of_values(&self, statement: &Statement, cells: &mut impl Cells, stacks: &mut Stacks) -> Result<Option<i64>, Cause> {
        let value = self.values(statement, cells, stacks)?;
        let number = if let Value::Int(number) = value { Some(number) } else { None };
        store(statement, value, cells)?;
        Ok(number)
    }

    /// Evaluates an expression over numbers.
    pub fn number(&self, code: Code, load: impl Fn(u32) -> Result<i64, Stop>, stacks: &mut Stacks) -> Result<i64, Cause> {
        self.numbers(&self.statements[code.first as usize], load, stacks).map_err(|stop| match stop {
            Stop::Fault(cause) => cause,
            Stop::Text => Cause::Mixed,
        })
    }

    /// The instructions of a statement from a place on.
    fn ops_from(&self, place: u32, statement: &Statement) -> std::slice::Iter<'_, Op> {
        self.ops[place as usize..statement.ops.1 as usize].iter()
    }

    /// The machine of numbers. The topmost one is kept apart, the others are in the stack below.
    #[inline(never)]
    fn numbers(&self, statement: &Statement, load: impl Fn(u32) -> Result<i64, Stop>, stacks: &mut Stacks) -> Result<i64, Stop> {
        let stack = &mut stacks.numbers;
        let mut rest = self.ops_from(statement.ops.0, statement);
        let mut below = 0usize;
        let mut top = 0i64;
        while let Some(op) = rest.next() {
            match *op {
                Op::Number(number) => {
                    stack[below & 127] = top;
                    below += 1;
                    top = number;
                }
                Op::Load(name) => {
                    stack[below & 127] = top;
                    below += 1;
                    top = load(name)?;
                }
                Op::Text(_) => return Err(Stop::Text),
                Op::Neg => top = top.checked_neg().ok_or(Cause::Overflow)?,
                Op::Not => top = i64::from(top == 0),
                Op::Flip => top = !top,
                Op::Truth => top = i64::from(top != 0),
                Op::Binary(operator) => {
                    below = below.wrapping_sub(1);
                    top = operator.of_numbers(stack[below & 127], top)?;
                }
                Op::WithNumber(operator, number) => top = operator.of_numbers(top, number)?,
                Op::WithName(operator, name) => top = operator.of_numbers(top, load(name)?)?,
                Op::And(to) if top == 0 => rest = self.ops_from(to, statement),
                Op::Or(to) if top != 0 => {
                    top = 1;
                    rest = self.ops_from(to, statement);
                }
                Op::And(_) | Op::Or(_) => {
                    below = below.wrapping_sub(1);
                    top = stack[below & 127];
                }
                Op::Unless(to) => {
                    if top == 0 {
                        rest = self.ops_from(to, statement);
                    }
                    below = below.wrapping_sub(1);
                    top = stack[below & 127];
                }
                Op::Jump(to) => rest = self.ops_from(to, statement),
            }
        }
        Ok(top)
    }

    /// The machine of values, which runs all code. It stays out of the way of the machine of numbers.
    #[inline(never)]
    fn values(&self, statement: &Statement, cells: &impl Cells, stacks: &mut Stacks) -> Result<Value, Cause> {
        let stack = &mut stacks.values;
        stack.clear();
        let mut rest = self.ops_from(statement.ops.0, statement);
        while let Some(op) = rest.next() {
            let value = match *op {
                Op::Number(number) => Value::Int(number),
                Op::Text(text) => Value::Text(self.texts[text as usize].clone()),
                Op::Load(name) => loaded(cells, name)?,
                Op::Neg => Value::Int(popped(stack)?.checked_neg().ok_or(Cause::Overflow)?),
                Op::Not => Value::Int(i64::from(popped(stack)? == 0)),
                Op::Flip => Value::Int(!popped(stack)?),
                Op::Truth => Value::Int(i64::from(popped(stack)? != 0)),
                Op::Binary(operator) => {
                    let right = stack.pop().unwrap_or_default();
                    let left = stack.pop().unwrap_or_default();
                    operator.of_values(left, right)?
                }
                Op::WithNumber(operator, number) => operator.of_values(stack.pop().unwrap_or_default(), Value::Int(number))?,
                Op::WithName(operator, name) => {
                    let right = loaded(cells, name)?;
                    operator.of_values(stack.pop().unwrap_or_default(), right)?
                }
                Op::And(to) => {
                    if popped(stack)? != 0 {
                        continue;
                    }
                    rest = self.ops_from(to, statement);
                    Value::Int(0)
                }
                Op::Or(to) => {
                    if popped(stack)? == 0 {
                        continue;
                    }
                    rest = self.ops_from(to, statement);
                    Value::Int(1)
                }
                Op::Unless(to) => {
                    if popped(stack)? == 0 {
                        rest = self.ops_from(to, statement);
                    }
                    continue;
                }
                Op::Jump(to) => {
                    rest = self.ops_from(to, statement);
                    continue;
                }
            };
            stack.push(value);
        }
        Ok(stack.pop().unwrap_or_default())
    }
}

/// The number of a name.
#[inline(always)]
fn number_of(cells: &impl Cells, name: u32) -> Result<i64, Stop> {
    match cells.get(name) {
        Value::Int(number) => Ok(*number),
        Value::Absent => Err(Stop::Fault(cells.missing(name))),
        Value::Text(_) => Err(Stop::Text),
    }
}

/// Does with a value what a statement says.
#[inline(always)]
fn store(statement: &Statement, value: Value, cells: &mut impl Cells) -> Result<(), Cause> {
    match statement.ending {
        Ending::Plain => {}
        Ending::Create(name) => cells.put(name, value),
        Ending::Assign(name) => {
            if let Value::Absent = cells.get(name) {
                return Err(cells.missing(name));
            }
            cells.put(name, value);
        }
    }
    Ok(())
}

/// The value of a name.
fn loaded(cells: &impl Cells, name: u32) -> Result<Value, Cause> {
    match cells.get(name) {
        Value::Absent => Err(cells.missing(name)),
        value => Ok(value.clone()),
    }
}

/// The number on top.
fn popped(stack: &mut Vec<Value>) -> Result<i64, Cause> {
    match stack.pop() {
        Some(Value::Int(number)) => Ok(number),
        _ => Err(Cause::Mixed),
    }
}

impl Binary {
    #[inline(always)]
    fn of_numbers(self, left: i64, right: i64) -> Result<i64, Cause> {
        Ok(match self {
            Binary::Add => left.checked_add(right).ok_or(Cause::Overflow)?,
            Binary::Sub => left.checked_sub(right).ok_or(Cause::Overflow)?,
            Binary::Mul => left.checked_mul(right).ok_or(Cause::Overflow)?,
            Binary::Div => {
                if right == 0 {
                    return Err(Cause::ZeroDivisor);
                }
                let quotient = left.checked_div(right).ok_or(Cause::Overflow)?;
                if quotient * right != left {
                    return Err(Cause::NotWhole);
                }
                quotient
            }
            Binary::BitAnd => left & right,
            Binary::BitOr => left | right,
            Binary::BitXor => left ^ right,
            _ => i64::from(self.holds(&left, &right)),
        })
    }

    /// Whether a comparison holds.
    fn holds<T: PartialOrd + ?Sized>(self, left: &T, right: &T) -> bool {
        match self {
            Binary::Equal => left == right,
            Binary::Differ => left != right,
            Binary::Less => left < right,
            Binary::AtMost => left <= right,
            Binary::More => left > right,
            _ => left >= right,
        }
    }

    fn of_values(self, left: Value, right: Value) -> Result<Value, Cause> {
        match (left, right) {
            (Value::Int(left), Value::Int(right)) => self.of_numbers(left, right).map(Value::Int),
            (Value::Text(left), Value::Text(right)) => match self {
                Binary::Add if left.len() + right.len() > LONGEST => Err(Cause::TextTooLong),
                Binary::Add => Ok(Value::Text(Rc::new([&left[..], &right[..]].concat().into()))),
                Binary::Sub | Binary::Mul | Binary::Div | Binary::BitAnd | Binary::BitOr | Binary::BitXor => Err(Cause::Mixed),
                _ => Ok(Value::Int(i64::from(self.holds(&left[..], &right[..])))),
            },
            _ => Err(Cause::Mixed),
        }
    }
}

/// A comparison of world scripts.
#[derive(Clone, Copy)]
pub struct Comparison(Binary);

impl Comparison {
    /// The comparison that a sign says.
    pub fn of(sign: &[u8]) -> Option<Comparison> {
        Some(Comparison(match sign {
            b"==" => Binary::Equal,
            b"!=" => Binary::Differ,
            b"<" => Binary::Less,
            b"<=" => Binary::AtMost,
            b">" => Binary::More,
            b">=" => Binary::AtLeast,
            _ => return None,
        }))
    }

    /// Whether it holds of two numbers.
    pub fn holds(self, left: i64, right: i64) -> bool {
        self.0.holds(&left, &right)
    }

    /// The numbers that compare so with this one, on the circle of all numbers: the first one, and how many come after it.
    pub fn range(self, right: i64) -> Option<(i64, u64)> {
        let (first, end) = match self.0 {
            Binary::Equal => (right, right.wrapping_add(1)),
            Binary::Differ => (right.wrapping_add(1), right),
            Binary::Less => (i64::MIN, right),
            Binary::AtMost => (i64::MIN, right.wrapping_add(1)),
            Binary::More => (right.wrapping_add(1), i64::MIN),
            _ => (right, i64::MIN),
        };
        // The range is empty where no number compares so, and it may hold them all.
        let last = end.wrapping_sub(1);
        self.holds(last, right).then_some((first, last.wrapping_sub(first) as u64))
    }

    /// Whether adding this number may make it true of a fact.
    pub fn is_neared_by(self, number: i64) -> bool {
        number != 0 && (matches!(self.0, Binary::Equal) || self.holds(number, 0))
    }

    /// Whether adding this number may make it false of a fact.
    pub fn is_left_by(self, number: i64) -> bool {
        number != 0 && (matches!(self.0, Binary::Differ) || !self.holds(number, 0))
    }
}
