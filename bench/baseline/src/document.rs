//! A document: where its policy part ends, and the command lines of its script.

use crate::names::{NameId, Names};
use crate::policy::{is_name, Side, Value, GREATEST, MEMBERS};
use std::fmt;
use std::rc::Rc;

const LINES: usize = 262_144;
const LINE_BYTES: usize = 8192;
const LAST_CLIENT: u64 = 63;

pub enum Command {
    /// A new subject or object.
    Add(Side, NameId),
    Set {
        side: Side,
        entity: NameId,
        attribute: NameId,
        value: Value,
    },
    Env {
        variable: NameId,
        value: Value,
    },
    Tick(i64),
    Act {
        subject: NameId,
        action: NameId,
        object: NameId,
    },
    Try {
        subject: NameId,
        right: NameId,
        object: NameId,
    },
    Again(u32),
    Beat(u32),
    End(u32),
    Look(u32),
    Value {
        side: Side,
        entity: NameId,
        attribute: NameId,
    },
}

pub struct Line {
    pub caller: u8,
    pub command: Command,
    /// Where the command stands in its bytes, from and up to.
    pub text: (u32, u32),
}

pub enum LineFault {
    TooLong,
    NoWord,
    UnknownWord,
    WrongCount,
    BadWord,
}

/// Why a script is none, each with the number of its line from 1.
pub enum ScriptFault {
    BadHeading(u32),
    TooManyClients(u32),
    TooManyLines(u32),
    Line(u32, LineFault),
}

impl fmt::Display for ScriptFault {
    fn fmt(&self, out: &mut fmt::Formatter) -> fmt::Result {
        let (why, line) = match self {
            ScriptFault::BadHeading(line) => ("bad heading", line),
            ScriptFault::TooManyClients(line) => ("too many clients", line),
            ScriptFault::TooManyLines(line) => ("too many lines", line),
            ScriptFault::Line(line, LineFault::TooLong) => ("too long", line),
            ScriptFault::Line(line, LineFault::NoWord) => ("no word", line),
            ScriptFault::Line(line, LineFault::UnknownWord) => ("unknown word", line),
            ScriptFault::Line(line, LineFault::WrongCount) => ("wrong count", line),
            ScriptFault::Line(line, LineFault::BadWord) => ("bad word", line),
        };
        write!(out, "{why} at line {line}")
    }
}

/// A number as it is spelled, without needless zeros.
pub fn number(digits: &[u8], most: u64) -> Option<u64> {
    if digits.is_empty() || (digits[0] == b'0' && digits.len() > 1) {
        return None;
    }
    let mut number: u64 = 0;
    for digit in digits {
        if !digit.is_ascii_digit() {
            return None;
        }
        number = number.checked_mul(10)?.checked_add(u64::from(digit - b'0'))?;
    }
    (number <= most).then_some(number)
}

/// The client that a word names. Both a heading and a journal's record have it.
pub fn client(digits: &[u8]) -> Option<u8> {
    number(digits, LAST_CLIENT).map(|client| client as u8)
}

fn int(word: &[u8]) -> Option<i64> {
    match word.strip_prefix(b"-") {
        Some(digits) => number(digits, GREATEST as u64).filter(|number| *number > 0).map(|number| -(number as i64)),
        None => number(word, GREATEST as u64).map(|number| number as i64),
    }
}

/// A text in quotes at the front, and what stands behind it.
fn text(bytes: &[u8]) -> Option<(&[u8], &[u8])> {
    let bytes = bytes.strip_prefix(b"\"")?;
    let end = bytes.iter().position(|byte| *byte == b'"')?;
    let text = &bytes[..end];
    (end <= 64 && text.iter().all(|byte| (0x20..=0x7e).contains(byte))).then_some((text, &bytes[end + 1..]))
}

fn set(word: &[u8], names: &mut Names) -> Option<Vec<NameId>> {
    let mut members = Vec::new();
    if word == b"{}" {
        return Some(members);
    }
    let mut rest = word;
    let mut last: Option<&[u8]> = None;
    loop {
        // The first byte is the brace, or the comma behind a member.
        let (member, behind) = text(&rest[1..])?;
        if last.is_some_and(|last| last >= member) || members.len() == MEMBERS {
            return None;
        }
        last = Some(member);
        members.push(names.intern(member));
        rest = behind;
        match rest {
            b"}" => return Some(members),
            [b',', ..] => {}
            _ => return None,
        }
    }
}

fn value(word: &[u8], names: &mut Names) -> Option<Value> {
    match word.first()? {
        b'"' => {
            let (text, behind) = text(word)?;
            behind.is_empty().then(|| Value::Text(names.intern(text)))
        }
        b'{' => set(word, names).map(|members| Value::Set(Rc::new(members))),
        _ => int(word).map(Value::Int),
    }
}

fn name(word: &[u8], names: &mut Names) -> Option<NameId> {
    is_name(word).then(|| names.intern(word))
}

fn side(word: &[u8]) -> Option<Side> {
    match word {
        b"s" => Some(Side::Subject),
        b"o" => Some(Side::Object),
        _ => None,
    }
}

fn session(word: &[u8]) -> Option<u32> {
    number(word, u64::from(u32::MAX)).map(|session| session as u32)
}

/// Cuts a line at single spaces into so many words. The last takes all that is left where it may hold spaces.
fn cut(line: &[u8], count: usize, last_is_rest: bool) -> Option<[&[u8]; 5]> {
    let mut words: [&[u8]; 5] = [b""; 5];
    let mut rest = line;
    for word in &mut words[..count - 1] {
        let end = rest.iter().position(|byte| *byte == b' ')?;
        *word = &rest[..end];
        rest = &rest[end + 1..];
    }
    words[count - 1] = rest;
    (last_is_rest || !rest.contains(&b' ')).then_some(words)
}

#[derive(Clone, Copy, PartialEq)]
enum Form {
    Subject,
    Object,
    Set,
    Env,
    Tick,
    Act,
    Try,
    Again,
    Beat,
    End,
    Look,
    Value,
}

/// The form that a first word names, and how many words it has.
fn form_of(word: &[u8]) -> Option<(Form, usize)> {
    Some(match word {
        b"subject" => (Form::Subject, 2),
        b"object" => (Form::Object, 2),
        b"set" => (Form::Set, 5),
        b"env" => (Form::Env, 3),
        b"tick" => (Form::Tick, 2),
        b"act" => (Form::Act, 4),
        b"try" => (Form::Try, 4),
        b"again" => (Form::Again, 2),
        b"beat" => (Form::Beat, 2),
        b"end" => (Form::End, 2),
        b"look" => (Form::Look, 2),
        b"value" => (Form::Value, 4),
        _ => return None,
    })
}

pub fn command(line: &[u8], names: &mut Names) -> Result<Command, LineFault> {
    if line.len() > LINE_BYTES {
        return Err(LineFault::TooLong);
    }
    let first = &line[..line.iter().position(|byte| *byte == b' ').unwrap_or(line.len())];
    if first.is_empty() {
        return Err(LineFault::NoWord);
    }
    let (form, count) = form_of(first).ok_or(LineFault::UnknownWord)?;
    let words = cut(line, count, matches!(form, Form::Set | Form::Env)).ok_or(LineFault::WrongCount)?;
    command_of(form, words, names).ok_or(LineFault::BadWord)
}

fn command_of(form: Form, words: [&[u8]; 5], names: &mut Names) -> Option<Command> {
    let [_, one, two, three, four] = words;
    Some(match form {
        Form::Subject => Command::Add(Side::Subject, name(one, names)?),
        Form::Object => Command::Add(Side::Object, name(one, names)?),
        Form::Set => Command::Set {
            side: side(one)?,
            entity: name(two, names)?,
            attribute: name(three, names)?,
            value: value(four, names)?,
        },
        Form::Env => Command::Env { variable: name(one, names)?, value: value(two, names)? },
        Form::Tick => Command::Tick(int(one)?),
        Form::Act => {
            Command::Act { subject: name(one, names)?, action: name(two, names)?, object: name(three, names)? }
        }
        Form::Try => Command::Try { subject: name(one, names)?, right: name(two, names)?, object: name(three, names)? },
        Form::Again => Command::Again(session(one)?),
        Form::Beat => Command::Beat(session(one)?),
        Form::End => Command::End(session(one)?),
        Form::Look => Command::Look(session(one)?),
        Form::Value => Command::Value { side: side(one)?, entity: name(two, names)?, attribute: name(three, names)? },
    })
}

fn line_end(bytes: &[u8], start: usize) -> usize {
    bytes[start..].iter().position(|byte| *byte == b'\n').map_or(bytes.len(), |len| start + len)
}

/// Where a document's policy part ends, where its script begins, and the number of the script's first line.
pub struct Parts {
    pub policy_end: usize,
    pub script_start: usize,
    first_line: u32,
}

pub fn divide(bytes: &[u8]) -> Parts {
    let (mut start, mut line) = (0, 1);
    while start < bytes.len() {
        let end = line_end(bytes, start);
        if &bytes[start..end] == b"%%" {
            let script_start = (end + 1).min(bytes.len());
            return Parts { policy_end: start, script_start, first_line: line + 1 };
        }
        start = end + 1;
        line += 1;
    }
    Parts { policy_end: bytes.len(), script_start: bytes.len(), first_line: line }
}

/// The client of a heading, or why it is none.
fn heading(line: &[u8], number_of_line: u32) -> Result<u8, ScriptFault> {
    let digits = line.get(7..).unwrap_or(b"");
    client(digits).ok_or_else(|| {
        let is_number = digits.iter().all(u8::is_ascii_digit) && digits.first().is_some_and(|digit| *digit != b'0');
        if is_number {
            ScriptFault::TooManyClients(number_of_line)
        } else {
            ScriptFault::BadHeading(number_of_line)
        }
    })
}

pub fn script(bytes: &[u8], parts: &Parts, names: &mut Names) -> Result<Vec<Line>, ScriptFault> {
    let mut lines = Vec::with_capacity((bytes.len() - parts.script_start) / 24);
    let mut start = parts.script_start;
    let mut number = parts.first_line;
    let mut caller = None;
    while start < bytes.len() {
        let end = line_end(bytes, start);
        let line = &bytes[start..end];
        if line == b"client" || line.starts_with(b"client ") {
            caller = Some(heading(line, number)?);
        } else if !line.is_empty() && line[0] != b'#' {
            let Some(caller) = caller else { return Err(ScriptFault::BadHeading(number)) };
            if lines.len() == LINES {
                return Err(ScriptFault::TooManyLines(number));
            }
            let command = command(line, names).map_err(|fault| ScriptFault::Line(number, fault))?;
            lines.push(Line { caller, command, text: (start as u32, end as u32) });
        }
        start = end + 1;
        number += 1;
    }
    Ok(lines)
}
