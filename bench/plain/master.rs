//! The table, its cycle, the rehearsal and the calls, from the rules in docs/.

use crate::bus::Refusal;
use crate::policy::Policy;

pub const ROWS: usize = 32;
const MOST_CYCLES_IN_ROUND: u32 = 5_040;
const MOST_ROUNDS: u32 = 4;

#[derive(Clone, Copy, PartialEq, Eq)]
pub struct Figures {
    pub duration: u8,
    pub period: u8,
    pub deadline: u8,
    pub phase: u8,
    pub priority: u8,
}

#[derive(Clone, Copy)]
pub struct Row {
    pub figures: Figures,
    pub wait: u8,
    pub left: u8,
}

impl Row {
    fn new(figures: Figures) -> Row {
        Row { figures, wait: figures.phase, left: 0 }
    }
}

type Table = [Option<Row>; ROWS];

/// One cycle: the schedule, and the lowest late row.
fn run_cycle<P: Policy>(rows: &mut Table, window: u8, policy: &P) -> (u32, Option<u8>) {
    // the ranks and rows of what waits
    let mut waiting = [(0u32, 0u8); ROWS];
    let mut count = 0;
    for (r, slot) in rows.iter_mut().enumerate() {
        if let Some(row) = slot {
            if row.wait == 0 {
                row.left = row.figures.deadline;
                row.wait = row.figures.period;
            }
            if row.left > 0 {
                waiting[count] = (policy.rank(r, row), r as u8);
                count += 1;
            }
        }
    }
    let waiting = &mut waiting[..count];
    waiting.sort_unstable_by_key(|w| w.0);

    let mut word = 0;
    let mut used = 0;
    for (_, r) in waiting.iter() {
        if let Some(row) = &mut rows[usize::from(*r)] {
            used += u32::from(row.figures.duration);
            if used > u32::from(window) {
                break;
            }
            word |= 1 << r;
            row.left = 0;
        }
    }

    let mut late = None;
    for (r, slot) in rows.iter_mut().enumerate() {
        if let Some(row) = slot {
            if row.left > 0 {
                row.left -= 1;
                if row.left == 0 && late.is_none() {
                    late = Some(r as u8);
                }
            }
            row.wait -= 1;
        }
    }
    (word, late)
}

fn gcd(a: u32, b: u32) -> u32 {
    if b == 0 { a } else { gcd(b, a % b) }
}

fn round_of(rows: &Table) -> Result<u32, Refusal> {
    let mut round = 1;
    for row in rows.iter().flatten() {
        let period = u32::from(row.figures.period);
        round = round / gcd(round, period) * period;
        if round > MOST_CYCLES_IN_ROUND {
            return Err(Refusal::RoundTooLong);
        }
    }
    Ok(round)
}

fn waiting_rows(rows: &Table) -> u32 {
    let mut word = 0;
    for (r, slot) in rows.iter().enumerate() {
        if slot.is_some_and(|row| row.left > 0) {
            word |= 1 << r;
        }
    }
    word
}

fn rehearse<P: Policy>(rows: &Table, window: u8, policy: &P) -> Result<(), Refusal> {
    let round = round_of(rows)?;
    let lead_in = rows.iter().flatten().map(|row| row.wait).max().unwrap_or(0);
    let mut rows = *rows;
    let mut cycle = 0;
    for _ in 0..lead_in {
        cycle += 1;
        if let (_, Some(late)) = run_cycle(&mut rows, window, policy) {
            return Err(Refusal::Late(late, cycle));
        }
    }
    for _ in 0..MOST_ROUNDS {
        let before = waiting_rows(&rows);
        for _ in 0..round {
            cycle += 1;
            if let (_, Some(late)) = run_cycle(&mut rows, window, policy) {
                return Err(Refusal::Late(late, cycle));
            }
        }
        if waiting_rows(&rows) & !before == 0 {
            return Ok(());
        }
    }
    Err(Refusal::Unsettled)
}

pub enum Change<P> {
    Add(u8, Figures),
    Alter(u8, Figures),
    Drop(u8),
    Window(u8),
    Policy(P),
}

pub struct Master<P> {
    rows: Table,
    window: u8,
    policy: P,
    lost: u8,
}

impl<P: Policy> Master<P> {
    pub fn new(policy: P) -> Master<P> {
        Master { rows: [None; ROWS], window: 255, policy, lost: 0 }
    }

    fn slot(&self, row: u8) -> Result<&Option<Row>, Refusal> {
        self.rows.get(usize::from(row)).ok_or(Refusal::RowAbove31)
    }

    fn judge_message(&self, row: u8, figures: Figures) -> Result<(), Refusal> {
        if figures.duration == 0 {
            return Err(Refusal::OutOfRange(1));
        }
        if figures.period == 0 {
            return Err(Refusal::OutOfRange(2));
        }
        if figures.deadline == 0 || figures.deadline > figures.period {
            return Err(Refusal::OutOfRange(3));
        }
        if figures.duration > self.window {
            return Err(Refusal::AboveWindow(row));
        }
        let mut rows = self.rows;
        rows[usize::from(row)] = Some(Row::new(figures));
        rehearse(&rows, self.window, &self.policy)
    }

    fn judge_add(&self, row: u8, figures: Figures) -> Result<(), Refusal> {
        if self.slot(row)?.is_some() {
            return Err(Refusal::RowUsed);
        }
        self.judge_message(row, figures)
    }

    fn judge_alter(&self, row: u8, figures: Figures) -> Result<(), Refusal> {
        self.judge_drop(row)?;
        self.judge_message(row, figures)
    }

    fn judge_drop(&self, row: u8) -> Result<(), Refusal> {
        if self.slot(row)?.is_none() {
            return Err(Refusal::RowEmpty);
        }
        Ok(())
    }

    fn judge_window(&self, window: u8) -> Result<(), Refusal> {
        if window == 0 {
            return Err(Refusal::OutOfRange(4));
        }
        if window >= self.window {
            return Ok(());
        }
        for (r, slot) in self.rows.iter().enumerate() {
            if slot.is_some_and(|row| row.figures.duration > window) {
                return Err(Refusal::AboveWindow(r as u8));
            }
        }
        rehearse(&self.rows, window, &self.policy)
    }

    fn judge_policy(&self, policy: &P) -> Result<(), Refusal> {
        rehearse(&self.rows, self.window, policy)
    }

    pub fn add(&mut self, row: u8, figures: Figures) -> Result<(), Refusal> {
        self.judge_add(row, figures)?;
        self.rows[usize::from(row)] = Some(Row::new(figures));
        Ok(())
    }

    pub fn alter(&mut self, row: u8, figures: Figures) -> Result<(), Refusal> {
        self.judge_alter(row, figures)?;
        self.rows[usize::from(row)] = Some(Row::new(figures));
        Ok(())
    }

    pub fn drop_row(&mut self, row: u8) -> Result<(), Refusal> {
        self.judge_drop(row)?;
        self.rows[usize::from(row)] = None;
        Ok(())
    }

    pub fn set_window(&mut self, window: u8) -> Result<(), Refusal> {
        self.judge_window(window)?;
        self.window = window;
        Ok(())
    }

    pub fn set_policy(&mut self, policy: P) -> Result<(), Refusal> {
        self.judge_policy(&policy)?;
        self.policy = policy;
        Ok(())
    }

    pub fn next(&mut self) -> u32 {
        run_cycle(&mut self.rows, self.window, &self.policy).0
    }

    pub fn sent(&mut self) {
        self.lost = 0;
    }

    pub fn lost(&mut self) {
        self.lost = self.lost.saturating_add(1);
    }

    pub fn lost_in_a_row(&self) -> u8 {
        self.lost
    }

    pub fn trial(&self, change: &Change<P>) -> Result<(), Refusal> {
        match change {
            Change::Add(row, figures) => self.judge_add(*row, *figures),
            Change::Alter(row, figures) => self.judge_alter(*row, *figures),
            Change::Drop(row) => self.judge_drop(*row),
            Change::Window(window) => self.judge_window(*window),
            Change::Policy(policy) => self.judge_policy(policy),
        }
    }

    pub fn plan(&self, words: &mut [u32]) -> Result<(), Refusal> {
        if words.is_empty() || words.len() > 256 {
            return Err(Refusal::PlanLength);
        }
        let mut rows = self.rows;
        for word in words {
            *word = run_cycle(&mut rows, self.window, &self.policy).0;
        }
        Ok(())
    }

    pub fn policy(&self) -> &P {
        &self.policy
    }

    pub fn row(&self, row: u8) -> Result<Figures, Refusal> {
        self.slot(row)?.map(|used| used.figures).ok_or(Refusal::RowEmpty)
    }

    pub fn alike(&self, other: &Master<P>) -> bool {
        self.window == other.window
            && self.rows.iter().zip(&other.rows).all(|(a, b)| a.map(|row| row.figures) == b.map(|row| row.figures))
    }
}
