//! Lists of calls and of lines that are drawn from a seed, to compare two masters by the checksum of all answers.

use crate::bus::{frame_units, read_trigger, write_trigger, Refusal};
use crate::master::{Change, Figures, Master};
use crate::policy::{Pinned, Policy, Selector, Urgent};
use crate::session::{Answer, Reply, Session};
use crate::sum::{Random, Sum, Text};
use std::fmt::Write;

const PERIODS: [u8; 16] = [1, 2, 3, 4, 5, 6, 8, 10, 12, 15, 20, 24, 30, 0, 127, 200];

pub trait Drawn: Policy {
    fn drawn(random: &mut Random) -> Self;
}

impl Drawn for Selector {
    fn drawn(random: &mut Random) -> Selector {
        Selector::from_code(random.byte(4)).unwrap_or(Selector::RateMonotonic)
    }
}

impl Drawn for Urgent<Pinned<Selector>> {
    fn drawn(random: &mut Random) -> Urgent<Pinned<Selector>> {
        let limit = random.byte(8);
        let row = random.byte(40);
        Urgent { limit, below: Pinned { row, below: Selector::drawn(random) } }
    }
}

/// A message that leaves no room for another in its cycle; about sixteen of them fill the bus.
fn tight_figures(random: &mut Random) -> Figures {
    let period = if random.below(8) == 0 { 32 } else { 16 };
    Figures { duration: 130, period, deadline: period, phase: random.byte(24), priority: random.byte(4) }
}

fn drawn_figures(random: &mut Random) -> Figures {
    if random.is_tight && random.below(8) != 0 {
        return tight_figures(random);
    }
    let duration = random.byte(24);
    let period = PERIODS[random.below(16) as usize];
    let deadline = if random.below(2) == 0 { period } else { random.byte(u32::from(period) + 2) };
    let phase = if random.below(8) == 0 { random.byte(256) } else { random.byte(12) };
    let priority = random.byte(4);
    Figures { duration, period, deadline, phase, priority }
}

fn drawn_change<P: Drawn>(random: &mut Random) -> Change<P> {
    match random.below(5) {
        0 => Change::Add(random.byte(34), drawn_figures(random)),
        1 => Change::Alter(random.byte(34), drawn_figures(random)),
        2 => Change::Drop(random.byte(34)),
        3 => Change::Window(random.byte(if random.is_tight { 256 } else { 80 })),
        _ => Change::Policy(P::drawn(random)),
    }
}

fn note_refusal(sum: &mut Sum, refusal: Refusal) {
    sum.add(u32::from(refusal.number()));
    match refusal {
        Refusal::OutOfRange(field) => sum.add(u32::from(field)),
        Refusal::AboveWindow(row) => sum.add(u32::from(row)),
        Refusal::Late(row, cycle) => {
            sum.add(u32::from(row));
            sum.add(cycle);
        }
        _ => {}
    }
}

fn note(sum: &mut Sum, answer: Result<(), Refusal>) {
    match answer {
        Ok(()) => sum.add(0),
        Err(refusal) => note_refusal(sum, refusal),
    }
}

fn make<P: Drawn>(master: &mut Master<P>, change: Change<P>) -> Result<(), Refusal> {
    match change {
        Change::Add(row, figures) => master.add(row, figures),
        Change::Alter(row, figures) => master.alter(row, figures),
        Change::Drop(row) => master.drop_row(row),
        Change::Window(window) => master.set_window(window),
        Change::Policy(policy) => master.set_policy(policy),
    }
}

fn cycles<P: Drawn>(master: &mut Master<P>, random: &mut Random, sum: &mut Sum) {
    for _ in 0..random.below(24) {
        sum.add(master.next());
        if random.below(3) == 0 {
            master.lost();
        } else {
            master.sent();
        }
    }
    sum.add(u32::from(master.lost_in_a_row()));
}

fn plan<P: Drawn>(master: &Master<P>, random: &mut Random, sum: &mut Sum) {
    let mut words = [7; 260];
    let length = if random.below(4) == 0 { random.below(261) } else { random.below(20) } as usize;
    note(sum, master.plan(&mut words[..length]));
    for word in words {
        sum.add(word);
    }
}

fn question<P: Drawn>(master: &Master<P>, random: &mut Random, sum: &mut Sum) {
    match master.row(random.byte(34)) {
        Ok(figures) => {
            sum.add(u32::from(figures.duration));
            sum.add(u32::from(figures.period));
            sum.add(u32::from(figures.deadline));
            sum.add(u32::from(figures.phase));
            sum.add(u32::from(figures.priority));
        }
        Err(refusal) => note_refusal(sum, refusal),
    }
    sum.add(u32::from(master.policy().label()));
    let fresh = Master::new(P::drawn(random));
    sum.add(u32::from(master.alike(&fresh)));
}

fn bus(random: &mut Random, sum: &mut Sum) {
    match frame_units(random.below(3_000) as u16, random.below(11) as usize) {
        Ok(units) => sum.add(u32::from(units)),
        Err(refusal) => note_refusal(sum, refusal),
    }
    let mut buffer = [3; 12];
    let word = random.below(65_536) << 16 | random.below(65_536);
    let offset = random.below(12) as usize;
    note(sum, write_trigger(word, &mut buffer, offset));
    sum.add_bytes(&buffer);
    match read_trigger(&buffer, random.below(12) as usize) {
        Ok(word) => sum.add(word),
        Err(refusal) => note_refusal(sum, refusal),
    }
}

/// So many calls on a fresh master.
pub fn calls<P: Drawn>(count: u32, seed: u32, sum: &mut Sum) {
    let mut random = Random::new(seed);
    let mut master = Master::new(P::drawn(&mut random));
    for _ in 0..count {
        match random.below(16) {
            0..=3 => note(sum, master.add(random.byte(34), drawn_figures(&mut random))),
            4 => note(sum, master.drop_row(random.byte(34))),
            5..=8 => note(sum, make(&mut master, drawn_change(&mut random))),
            9 => note(sum, master.trial(&drawn_change(&mut random))),
            10 => plan(&master, &mut random, sum),
            11 => question(&master, &mut random, sum),
            12 => bus(&mut random, sum),
            _ => cycles(&mut master, &mut random, sum),
        }
    }
}

/// A line that says something, before anything is spoiled.
fn drawn_line(random: &mut Random) -> Text {
    let mut text = Text::new();
    let _ = match random.below(8) {
        0 => write!(text, "(window {})", random.below(90)),
        1 => write!(text, "(policy {})", ["rm", "dm", "pr", "edf"][random.below(4) as usize]),
        2 => write!(text, "(drop {})", random.below(34)),
        3 => write!(text, "(next {})", random.below(12)),
        4 => write!(text, "(which)"),
        5 => write!(text, "(frame {} {})", random.below(3_000), random.below(11)),
        other => {
            let word = if other == 6 { "add" } else { "alter" };
            let row = random.below(34);
            let Figures { duration, period, deadline, phase, priority } = drawn_figures(random);
            write!(text, "({word} {row} {duration} {period} {deadline} {phase} {priority})")
        }
    };
    text
}

const SIGNS: [u8; 16] = *b"() 0129azeqAR\r\xff\0";

/// Spoils some lines: another byte somewhere, an early end, more behind it, a larger number, too long a line.
fn spoil(text: &mut Text, random: &mut Random) {
    let length = text.bytes().len() as u32;
    match random.below(16) {
        0 => text.replace(random.below(length) as usize, SIGNS[random.below(16) as usize]),
        1 => text.cut(random.below(length + 1) as usize),
        2 => text.push(SIGNS[random.below(16) as usize]),
        3 => {
            text.cut((length - 1) as usize);
            let _ = write!(text, "{})", random.below(100));
        }
        4 => {
            text.cut((length - 1) as usize);
            let _ = write!(text, " {})", random.below(100));
        }
        5 => {
            text.cut((length - 1) as usize);
            for _ in 0..random.below(130) {
                text.push(b'0');
            }
            text.push(b')');
        }
        _ => {}
    }
}

fn note_answer(sum: &mut Sum, answer: Answer) {
    let mut text = Text::new();
    let _ = writeln!(text, "{answer}");
    sum.add_bytes(text.bytes());
}

/// So many lines of a fresh session.
pub fn lines(count: u32, seed: u32, sum: &mut Sum) {
    let mut random = Random::new(seed);
    let mut session = Session::new();
    for number in 0..count {
        let mut line = drawn_line(&mut random);
        spoil(&mut line, &mut random);
        match session.answer(line.bytes(), number) {
            Reply::Nothing => {}
            Reply::Line(answer) => note_answer(sum, answer),
            Reply::Cycles(cycles) => {
                for _ in 0..cycles {
                    note_answer(sum, session.cycle());
                }
            }
        }
    }
}
