//! Frame durations, trigger bytes and refusals, from the rules in docs/.

#[derive(Clone, Copy, PartialEq, Eq, Debug)]
pub enum Refusal {
    RowAbove31,
    RowUsed,
    RowEmpty,
    OutOfRange(u8),
    AboveWindow(u8),
    RoundTooLong,
    Late(u8, u32),
    Unsettled,
    PlanLength,
    OffsetTooHigh,
    TooManyDataBytes,
    FrameTooLong,
    BadSign(usize),
    BadItem(usize),
    BadNumber(usize),
}

impl Refusal {
    pub fn number(self) -> u8 {
        use Refusal::*;
        match self {
            RowAbove31 => 1,
            RowUsed => 2,
            RowEmpty => 3,
            OutOfRange(_) => 4,
            AboveWindow(_) => 5,
            RoundTooLong => 6,
            Late(..) => 7,
            Unsettled => 8,
            PlanLength => 9,
            OffsetTooHigh => 10,
            TooManyDataBytes => 11,
            FrameTooLong => 12,
            BadSign(_) => 13,
            BadItem(_) => 14,
            BadNumber(_) => 15,
        }
    }
}

pub fn frame_units(cycle_bits: u16, data_bytes: usize) -> Result<u8, Refusal> {
    if data_bytes > 8 {
        return Err(Refusal::TooManyDataBytes);
    }
    let frame_bits = 47 + 8 * data_bytes as u32;
    let cycle_bits = u32::from(cycle_bits);
    if frame_bits > cycle_bits {
        return Err(Refusal::FrameTooLong);
    }
    Ok(((255 * frame_bits + cycle_bits - 1) / cycle_bits) as u8)
}

pub fn write_trigger(word: u32, buffer: &mut [u8], offset: usize) -> Result<(), Refusal> {
    let end = offset.checked_add(4).ok_or(Refusal::OffsetTooHigh)?;
    let part = buffer.get_mut(offset..end).ok_or(Refusal::OffsetTooHigh)?;
    part.copy_from_slice(&word.to_le_bytes());
    Ok(())
}

pub fn read_trigger(buffer: &[u8], offset: usize) -> Result<u32, Refusal> {
    let end = offset.checked_add(4).ok_or(Refusal::OffsetTooHigh)?;
    let part = buffer.get(offset..end).ok_or(Refusal::OffsetTooHigh)?;
    Ok(u32::from_le_bytes(part.try_into().unwrap()))
}
