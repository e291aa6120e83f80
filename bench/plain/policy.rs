//! The orders, each as a number by which waiting rows are sorted.

use crate::master::Row;

pub trait Policy {
    /// How many bits a rank has.
    const BITS: u32;

    /// The smaller rank goes first; no two rows have the same.
    fn rank(&self, row: usize, message: &Row) -> u32;

    fn label(&self) -> u8;
}

fn by_key(key: u8, row: usize) -> u32 {
    u32::from(key) << 5 | row as u32
}

const KEY_BITS: u32 = 13;

#[derive(Clone, Copy)]
pub struct RateMonotonic;

impl Policy for RateMonotonic {
    const BITS: u32 = KEY_BITS;

    fn rank(&self, row: usize, message: &Row) -> u32 {
        by_key(message.figures.period, row)
    }

    fn label(&self) -> u8 {
        0
    }
}

#[derive(Clone, Copy)]
pub struct FixedPriority;

impl Policy for FixedPriority {
    const BITS: u32 = KEY_BITS;

    fn rank(&self, row: usize, message: &Row) -> u32 {
        by_key(message.figures.priority, row)
    }

    fn label(&self) -> u8 {
        2
    }
}

#[derive(Clone, Copy)]
pub enum Selector {
    RateMonotonic,
    DeadlineMonotonic,
    FixedPriority,
    EarliestDeadline,
}

impl Selector {
    pub fn from_code(code: u8) -> Option<Selector> {
        match code {
            0 => Some(Selector::RateMonotonic),
            1 => Some(Selector::DeadlineMonotonic),
            2 => Some(Selector::FixedPriority),
            3 => Some(Selector::EarliestDeadline),
            _ => None,
        }
    }
}

impl Policy for Selector {
    const BITS: u32 = KEY_BITS;

    fn rank(&self, row: usize, message: &Row) -> u32 {
        let key = match self {
            Selector::RateMonotonic => message.figures.period,
            Selector::DeadlineMonotonic => message.figures.deadline,
            Selector::FixedPriority => message.figures.priority,
            Selector::EarliestDeadline => message.left,
        };
        by_key(key, row)
    }

    fn label(&self) -> u8 {
        *self as u8
    }
}

#[derive(Clone, Copy)]
pub struct Urgent<P> {
    pub limit: u8,
    pub below: P,
}

impl<P: Policy> Policy for Urgent<P> {
    const BITS: u32 = P::BITS + 1;

    fn rank(&self, row: usize, message: &Row) -> u32 {
        u32::from(message.left > self.limit) << P::BITS | self.below.rank(row, message)
    }

    fn label(&self) -> u8 {
        4
    }
}

#[derive(Clone, Copy)]
pub struct Pinned<P> {
    pub row: u8,
    pub below: P,
}

impl<P: Policy> Policy for Pinned<P> {
    const BITS: u32 = P::BITS + 1;

    fn rank(&self, row: usize, message: &Row) -> u32 {
        u32::from(row != usize::from(self.row)) << P::BITS | self.below.rank(row, message)
    }

    fn label(&self) -> u8 {
        5
    }
}
