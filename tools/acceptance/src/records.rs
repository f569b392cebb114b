//! The records of a transcript, counted by document 01's form; what they say of samples is not judged here.

use crate::reader::mode_of;

#[derive(Debug, Default)]
pub struct Counted {
    pub records: u64,
    /// the sum of the clipped counts
    pub clipped: u64,
}

/// All records of a transcript that holds nothing else.
pub fn counted(transcript: &[u8]) -> Result<Counted, String> {
    let mut numbers = Numbers(transcript);
    let mut counted = Counted::default();
    while !numbers.0.is_empty() {
        counted.records += 1;
        counted.clipped += numbers.record()?;
    }
    Ok(counted)
}

struct Numbers<'a>(&'a [u8]);

impl Numbers<'_> {
    fn next(&mut self) -> Result<u64, String> {
        let length = 1 + self.0.iter().take_while(|&&byte| byte >= 128).count();
        let (number, rest) = self.0.split_at_checked(length).ok_or("a transcript ends inside a number")?;
        self.0 = rest;
        Ok(number.iter().rev().fold(0, |value, &byte| value << 7 | u64::from(byte & 127)))
    }

    fn pass(&mut self, count: u64) -> Result<(), String> {
        (0..count).try_for_each(|_| self.next().map(drop))
    }

    /// Passes a record; its clipped count.
    fn record(&mut self) -> Result<u64, String> {
        self.pass(2)?;
        let mode = self.next()?;
        if mode == 0 {
            return Ok(0);
        }
        let partitions = u32::try_from(mode).ok().and_then(mode_of).ok_or(format!("mode {mode} in a transcript"))?;
        self.pass(1)?;
        let clipped = self.next()?;
        self.pass(2 * partitions.num_motion_vectors() as u64)?;
        let pattern = self.next()?;
        let (luma, class) = (pattern % 16, pattern / 16);
        let levels = 64 * u64::from(luma.count_ones()) + [0, 8, 128].get(class as usize).ok_or("a pattern past 47")?;
        self.pass(1 + levels)?;
        Ok(clipped)
    }
}
