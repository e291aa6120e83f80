//! A plain master beside the proved one: the same scenarios, arguments and checksums as crates/bench.
//! `plain SCENARIO REPEATS SIZE`

mod bus;
mod calls;
mod master;
mod policy;
mod session;
mod sum;

use master::{Change, Figures, Master};
use policy::{FixedPriority, Pinned, Policy, RateMonotonic, Selector, Urgent};
use session::{Reply, Session};
use std::fmt::Write;
use std::hint::black_box;
use sum::{Sum, Text};

fn figures(duration: u8, period: u8, deadline: u8, phase: u8, priority: u8) -> Figures {
    Figures { duration, period, deadline, phase, priority }
}

/// The order of the priorities: against the rows, or across them.
const REVERSED: u8 = 1;
const MIXED: u8 = 13;

/// So many rows that all wait in every cycle and all fit.
fn full<P: Policy>(policy: P, rows: u8, order: u8) -> Master<P> {
    let mut master = Master::new(policy);
    for row in 0..rows {
        let priority = 31u8.saturating_sub(row).wrapping_mul(order) % 32;
        let _ = master.add(row, figures(6, 1, 1, 0, priority));
    }
    master
}

/// The table of 26 rows: how many, their period and their deadline.
const CART: [(u8, u8, u8); 5] = [(8, 1, 1), (2, 2, 2), (4, 10, 4), (6, 20, 20), (6, 200, 200)];

fn cart<P: Policy>(policy: P) -> Master<P> {
    let mut master = Master::new(policy);
    let _ = master.set_window(230);
    let mut row = 0;
    for (count, period, deadline) in CART {
        for _ in 0..count {
            let _ = master.add(row, figures(23, period, deadline, 0, 0));
            row += 1;
        }
    }
    master
}

/// 31 rows that take the whole window each, and settle; the last row then overloads the round by one.
const CROWD: [(u8, u8); 4] = [(17, 36), (5, 24), (1, 16), (8, 35)];

fn crowd() -> Master<Selector> {
    let mut master = Master::new(Selector::EarliestDeadline);
    let mut row = 0;
    for (count, period) in CROWD {
        for _ in 0..count {
            let _ = master.add(row, figures(255, period, period, row, 0));
            row += 1;
        }
    }
    master
}

/// 16 rows by turns of two periods, whose least common multiple is the round.
fn periods_for(round: u32) -> (u8, u8) {
    match round {
        10 => (10, 5),
        100 => (25, 4),
        200 => (200, 8),
        1_000 => (125, 8),
        2_520 => (63, 40),
        5_040 => (144, 35),
        _ => (1, 1),
    }
}

fn two_periods(round: u32) -> Master<RateMonotonic> {
    let (even, odd) = periods_for(round);
    let mut master = Master::new(RateMonotonic);
    for row in 0..16 {
        let period = if row % 2 == 0 { even } else { odd };
        let _ = master.add(row, figures(15, period, period, 0, 0));
    }
    master
}

fn run_cycles<P: Policy>(master: &mut Master<P>, cycles: u32, sum: &mut Sum) {
    for _ in 0..cycles {
        sum.add(black_box(&mut *master).next());
        master.sent();
    }
}

fn note(sum: &mut Sum, answer: Result<(), bus::Refusal>) {
    match answer {
        Ok(()) => sum.add(0),
        Err(refusal) => sum.add(u32::from(refusal.number())),
    }
}

fn run_trials<P: Policy>(master: &mut Master<P>, repeats: u32, row: u8, new: Figures, sum: &mut Sum) {
    for turn in 0..repeats {
        let change = Change::Add(row, Figures { priority: (turn & 255) as u8, ..new });
        note(sum, black_box(&*master).trial(black_box(&change)));
    }
}

/// A 27th row beside the table of 26, after so many cycles.
fn run_admissions<P: Policy>(policy: P, repeats: u32, size: u32, sum: &mut Sum) {
    let mut master = cart(policy);
    run_cycles(&mut master, size, sum);
    run_trials(&mut master, repeats, 26, figures(23, 200, 200, 0, 0), sum);
}

fn run_pairs<P: Policy>(policy: P, repeats: u32, size: u32, sum: &mut Sum) {
    let mut master = cart(policy);
    run_cycles(&mut master, size, sum);
    for turn in 0..repeats {
        let new = figures(23, 200, 200, 0, (turn & 255) as u8);
        note(sum, black_box(&mut master).add(26, new));
        note(sum, black_box(&mut master).drop_row(26));
    }
}

fn run_rehearsals<P: Policy + Copy>(master: &mut Master<P>, policy: P, repeats: u32, sum: &mut Sum) {
    for _ in 0..repeats {
        let change = Change::Policy(policy);
        note(sum, black_box(&*master).trial(black_box(&change)));
    }
}

fn run_line(repeats: u32, size: u32, sum: &mut Sum) {
    let line: &[u8] = match size {
        0 => b"(add 0 1 1 1 0 0)",
        1 => b"(frame 2500 8)",
        _ => b"(add 0 1 1 1 x 0)",
    };
    let mut session = Session::new();
    let _ = session.answer(b"(add 0 1 1 1 0 0)", 1);
    let mut text = Text::new();
    for turn in 0..repeats {
        text.cut(0);
        if let Reply::Line(answer) = black_box(&mut session).answer(black_box(line), turn & 1) {
            let _ = writeln!(text, "{answer}");
        }
        sum.add(text.bytes().len() as u32);
    }
    sum.add_bytes(text.bytes());
}

fn run_layers(repeats: u32, size: u32, sum: &mut Sum) {
    let none = RateMonotonic;
    let one = Urgent { limit: 1, below: none };
    let two = Pinned { row: 31, below: one };
    let three = Urgent { limit: 0, below: two };
    let four = Pinned { row: 16, below: three };
    match size {
        0 => run_cycles(&mut full(none, 32, REVERSED), repeats, sum),
        1 => run_cycles(&mut full(one, 32, REVERSED), repeats, sum),
        2 => run_cycles(&mut full(two, 32, REVERSED), repeats, sum),
        3 => run_cycles(&mut full(three, 32, REVERSED), repeats, sum),
        _ => run_cycles(&mut full(four, 32, REVERSED), repeats, sum),
    }
}

fn run(scenario: &str, repeats: u32, size: u32, sum: &mut Sum) {
    let rows = (size & 255) as u8;
    let rm = Selector::RateMonotonic;
    match scenario {
        "full-rm" => run_cycles(&mut full(RateMonotonic, rows, REVERSED), repeats, sum),
        "full-rm-selector" => run_cycles(&mut full(rm, rows, REVERSED), repeats, sum),
        "full-pr" => run_cycles(&mut full(FixedPriority, rows, REVERSED), repeats, sum),
        "full-pr-selector" => run_cycles(&mut full(Selector::FixedPriority, rows, REVERSED), repeats, sum),
        "full-mixed" => run_cycles(&mut full(FixedPriority, rows, MIXED), repeats, sum),
        "layers" => run_layers(repeats, size, sum),
        "steady" => run_cycles(&mut cart(RateMonotonic), repeats, sum),
        "steady-selector" => run_cycles(&mut cart(rm), repeats, sum),
        "trial" => run_admissions(RateMonotonic, repeats, size, sum),
        "trial-selector" => run_admissions(rm, repeats, size, sum),
        "pair" => run_pairs(RateMonotonic, repeats, size, sum),
        "pair-selector" => run_pairs(rm, repeats, size, sum),
        "longest" => run_trials(&mut crowd(), repeats, 31, figures(255, 35, 35, 255, 0), sum),
        "round" => run_rehearsals(&mut two_periods(size), RateMonotonic, repeats, sum),
        "line" => run_line(repeats, size, sum),
        "calls" => calls::calls::<Selector>(repeats, size, sum),
        "layered-calls" => calls::calls::<Urgent<Pinned<Selector>>>(repeats, size, sum),
        "lines" => calls::lines(repeats, size, sum),
        _ => {}
    }
}

fn main() {
    let words: Vec<String> = std::env::args().collect();
    let number = |k: usize| words.get(k).and_then(|word| word.parse().ok()).unwrap_or(0);
    let scenario = words.get(1).map_or("", |word| word.as_str());
    let mut sum = Sum::new();
    run(scenario, number(2), number(3), &mut sum);
    println!("{}", sum.0);
}
