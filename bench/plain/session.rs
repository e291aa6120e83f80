//! Bracket lines: the reader, and the answers with their text, from the rules in docs/.

use crate::bus::{frame_units, Refusal};
use crate::master::{Figures, Master};
use crate::policy::{Policy, Selector};
use std::fmt;

const MOST_BYTES_IN_LINE: usize = 120;

enum Form {
    Window(u8),
    Policy(Selector),
    Drop(u8),
    Next(u8),
    Which,
    Frame(u16, u8),
    Add(u8, Figures),
    Alter(u8, Figures),
}

/// The place of the first byte that cannot continue a form.
fn check_shape(line: &[u8]) -> Result<(), Refusal> {
    #[derive(PartialEq)]
    enum At {
        Start,
        WordDue,
        Word,
        ItemDue,
        Number,
        End,
    }
    let mut at = At::Start;
    for (place, byte) in line.iter().enumerate() {
        at = match (at, byte) {
            (At::Start, b'(') => At::WordDue,
            (At::WordDue | At::Word | At::ItemDue, b'a'..=b'z') => At::Word,
            (At::ItemDue | At::Number, b'0'..=b'9') => At::Number,
            (At::Word | At::Number, b' ') => At::ItemDue,
            (At::Word | At::Number, b')') => At::End,
            _ => return Err(Refusal::BadSign(place)),
        };
    }
    if at == At::End { Ok(()) } else { Err(Refusal::BadSign(line.len())) }
}

/// The items of a well-shaped line, with their places.
struct Items<'a> {
    line: &'a [u8],
    at: usize,
}

impl<'a> Iterator for Items<'a> {
    type Item = (usize, &'a [u8]);

    fn next(&mut self) -> Option<Self::Item> {
        let start = self.at;
        let rest = self.line.get(start..)?;
        let length = rest.iter().position(|byte| matches!(byte, b' ' | b')'))?;
        self.at = start + length + 1;
        Some((start, &rest[..length]))
    }
}

fn policy_named(text: &[u8]) -> Option<Selector> {
    match text {
        b"rm" => Some(Selector::RateMonotonic),
        b"dm" => Some(Selector::DeadlineMonotonic),
        b"pr" => Some(Selector::FixedPriority),
        b"edf" => Some(Selector::EarliestDeadline),
        _ => None,
    }
}

fn number(place: usize, digits: &[u8], most: u32) -> Result<u32, Refusal> {
    if digits.len() > 1 && digits[0] == b'0' {
        return Err(Refusal::BadNumber(place));
    }
    let mut value = 0;
    for digit in digits {
        value = value * 10 + u32::from(digit - b'0');
        if value > most {
            return Err(Refusal::BadNumber(place));
        }
    }
    Ok(value)
}

/// The numbers of a line, as many as its form has: first their kind, then their values.
fn numbers<const N: usize>(mut items: Items, most: [u32; N]) -> Result<[u32; N], Refusal> {
    let last = items.line.len() - 1;
    let mut found = [(0, &[][..]); N];
    for slot in &mut found {
        let (place, text) = items.next().ok_or(Refusal::BadItem(last))?;
        if !text[0].is_ascii_digit() {
            return Err(Refusal::BadItem(place));
        }
        *slot = (place, text);
    }
    if let Some((place, _)) = items.next() {
        return Err(Refusal::BadItem(place));
    }
    let mut values = [0; N];
    for k in 0..N {
        values[k] = number(found[k].0, found[k].1, most[k])?;
    }
    Ok(values)
}

fn message(items: Items) -> Result<(u8, Figures), Refusal> {
    let [row, duration, period, deadline, phase, priority] = numbers(items, [255; 6])?.map(|n| n as u8);
    Ok((row, Figures { duration, period, deadline, phase, priority }))
}

fn read_form(line: &[u8]) -> Result<Form, Refusal> {
    check_shape(line)?;
    let last = line.len() - 1;
    let mut items = Items { line, at: 1 };
    let (_, word) = items.next().ok_or(Refusal::BadItem(1))?;
    let one = |items| numbers(items, [255]).map(|[n]| n as u8);
    match word {
        b"window" => Ok(Form::Window(one(items)?)),
        b"drop" => Ok(Form::Drop(one(items)?)),
        b"next" => Ok(Form::Next(one(items)?)),
        b"which" => numbers(items, []).map(|_: [u32; 0]| Form::Which),
        b"frame" => numbers(items, [65_535, 255]).map(|[bits, bytes]| Form::Frame(bits as u16, bytes as u8)),
        b"add" => message(items).map(|(row, figures)| Form::Add(row, figures)),
        b"alter" => message(items).map(|(row, figures)| Form::Alter(row, figures)),
        b"policy" => {
            let (place, name) = items.next().ok_or(Refusal::BadItem(last))?;
            let policy = policy_named(name).ok_or(Refusal::BadItem(place))?;
            match items.next() {
                Some((place, _)) => Err(Refusal::BadItem(place)),
                None => Ok(Form::Policy(policy)),
            }
        }
        _ => Err(Refusal::BadItem(1)),
    }
}

pub enum Answer {
    Made,
    Units(u8),
    Label(u8),
    Send(u32),
    Refused(u32, Refusal),
}

impl fmt::Display for Answer {
    fn fmt(&self, f: &mut fmt::Formatter) -> fmt::Result {
        match *self {
            Answer::Made => write!(f, "(ok)"),
            Answer::Units(units) => write!(f, "(units {units})"),
            Answer::Label(label) => write!(f, "(label {label})"),
            Answer::Send(word) => {
                let [a, b, c, d] = word.to_le_bytes();
                write!(f, "(send {a:02x} {b:02x} {c:02x} {d:02x})")
            }
            Answer::Refused(line, refusal) => {
                let number = refusal.number();
                match refusal {
                    Refusal::BadSign(place) | Refusal::BadItem(place) | Refusal::BadNumber(place) => {
                        write!(f, "(fault {number} (line {line}) (place {place}))")
                    }
                    Refusal::OutOfRange(field) => write!(f, "(declined 4 (field {field}))"),
                    Refusal::AboveWindow(row) => write!(f, "(declined 5 (row {row}))"),
                    Refusal::Late(row, cycle) => write!(f, "(declined 7 (row {row}) (cycle {cycle}))"),
                    _ => write!(f, "(declined {number})"),
                }
            }
        }
    }
}

pub enum Reply {
    Nothing,
    Line(Answer),
    Cycles(u8),
}

pub struct Session {
    master: Master<Selector>,
}

impl Session {
    pub fn new() -> Session {
        Session { master: Master::new(Selector::RateMonotonic) }
    }

    fn obey(&mut self, form: Form) -> Result<Reply, Refusal> {
        match form {
            Form::Window(window) => self.master.set_window(window)?,
            Form::Policy(policy) => self.master.set_policy(policy)?,
            Form::Drop(row) => self.master.drop_row(row)?,
            Form::Add(row, figures) => self.master.add(row, figures)?,
            Form::Alter(row, figures) => self.master.alter(row, figures)?,
            Form::Next(cycles) => return Ok(Reply::Cycles(cycles)),
            Form::Which => return Ok(Reply::Line(Answer::Label(self.master.policy().label()))),
            Form::Frame(bits, bytes) => return Ok(Reply::Line(Answer::Units(frame_units(bits, bytes.into())?))),
        }
        Ok(Reply::Line(Answer::Made))
    }

    fn read_and_obey(&mut self, line: &[u8]) -> Result<Reply, Refusal> {
        if line.len() > MOST_BYTES_IN_LINE {
            return Err(Refusal::BadSign(MOST_BYTES_IN_LINE));
        }
        self.obey(read_form(line)?)
    }

    pub fn answer(&mut self, line: &[u8], number: u32) -> Reply {
        if line.is_empty() {
            return Reply::Nothing;
        }
        match self.read_and_obey(line) {
            Ok(reply) => reply,
            Err(refusal) => Reply::Line(Answer::Refused(number, refusal)),
        }
    }

    pub fn cycle(&mut self) -> Answer {
        let word = self.master.next();
        self.master.sent();
        Answer::Send(word)
    }
}
