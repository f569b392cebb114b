//! A macroblock of a fixed list: its question, the published answer, and both as a record.

use crate::reader::mode_of;
use crate::record::Record;
use crate::run::Call;
use crate::start::{HEAD, Lent, Start, planes, run_of, vector_bytes};
use crate::text::{hex, join};
use crate::transcript::step;

/// A record of the list.
pub enum Case {
    Start(Start),
    Cells(Start),
    Macroblock(Box<Macroblock>),
}

#[derive(Clone)]
pub struct Macroblock {
    /// The state before.
    pub start: Start,
    pub lent: Lent,
    /// 1 half, 2 third, 4 delta-enable.
    pub flags: u32,
    /// Through the entry that moves on the caller's place and quantiser.
    pub thin: bool,
    pub call: [u32; 3],
    pub bits: Vec<u8>,
    /// The transcript's bytes, and how many are used.
    pub room: usize,
    pub fill: usize,
    pub answer: Answer,
}

#[derive(Clone)]
pub enum Answer {
    Refused { number: u8, detail: i64 },
    Accepted { place: u64, quantiser: u32, record: Vec<u8>, after: Box<Start> },
}

impl Macroblock {
    pub fn plain(start: &Start, flags: u32, quantiser: u32, call: [u32; 3], bits: Vec<u8>, place: u64) -> Self {
        let lent = Lent::of(start, quantiser, bits.len(), place);
        let answer = Answer::Refused { number: 0, detail: 0 };
        Self { start: start.clone(), lent, flags, thin: false, call, bits, room: 2100, fill: 5, answer }
    }

    /// Document 01's questions 1 to 8 first, then the published macroblock.
    pub fn ask(&self) -> Answer {
        let free = self.room.saturating_sub(self.fill);
        if let Some(number) = self.lent.call(self.call, free) {
            return Answer::Refused { number, detail: 0 };
        }
        let [column, row, mode] = self.call;
        let call = Call { column, row, mode: mode_of(mode).expect("a mode") };
        let run = run_of(&self.start, &self.lent, self.flags, &self.bits, vec![call]);
        match step(&run) {
            Err(refusal) => Answer::Refused { number: refusal.number, detail: refusal.detail },
            Ok((made, record)) => {
                let mut after = self.start.clone();
                after.keep(&made.left);
                Answer::Accepted {
                    place: made.left.place,
                    quantiser: made.left.quantiser,
                    record,
                    after: Box::new(after),
                }
            }
        }
    }

    fn head(&self) -> Vec<u8> {
        let mut out = vec![3, self.flags as u8 + if self.thin { 8 } else { 0 }, 0, 0];
        let (mut number, mut detail) = (0, 0);
        let (mut place, mut quantiser, mut length) = (self.lent.place, self.lent.quantiser, 0);
        match &self.answer {
            Answer::Refused { number: n, detail: d } => (number, detail) = (*n, *d),
            Answer::Accepted { place: p, quantiser: q, record, .. } => {
                (place, quantiser, length) = (*p, *q, record.len());
            }
        }
        out[2] = number;
        out[3] = u8::from(detail < 0);
        let numbers = [self.lent.grid.0, self.lent.grid.1, self.call[0], self.call[1], self.call[2]];
        out.extend(numbers.into_iter().chain([self.lent.quantiser, quantiser]).flat_map(u32::to_le_bytes));
        out.extend([self.lent.place, place, u64::from(detail as u32)].into_iter().flat_map(u64::to_le_bytes));
        out.extend([self.bits.len(), length, self.room, self.fill].into_iter().flat_map(short));
        out.extend(self.lent.lengths.into_iter().flat_map(short));
        assert_eq!(out.len(), HEAD);
        out
    }
}

pub fn short(value: usize) -> [u8; 2] {
    u16::try_from(value).expect("16 bits").to_le_bytes()
}

/// A macroblock's 384 samples, 16 vectors and 16 marks.
fn block_bytes(state: &Start, column: usize, row: usize) -> Vec<u8> {
    let square = |plane: &[u8], side: usize| -> Vec<u8> {
        let stride = side * state.columns;
        (0..side).flat_map(|r| plane[(side * row + r) * stride + side * column..][..side].to_vec()).collect()
    };
    let cells = (0..16).map(|i| (4 * row + i / 4) * 4 * state.columns + 4 * column + i % 4);
    let vectors: Vec<_> = cells.clone().map(|cell| state.vectors[cell]).collect();
    let marks: Vec<_> = cells.map(|cell| state.marks[cell]).collect();
    let picture = &state.picture;
    let samples = [square(picture.luma(), 16), square(picture.cb(), 8), square(picture.cr(), 8)];
    [samples.concat(), vector_bytes(&vectors), marks].concat()
}

impl Record for Case {
    /// A macroblock is the query `run` of one call, with what is lent behind it.
    fn line(&self) -> String {
        let m = match self {
            Self::Start(start) | Self::Cells(start) => return format!("start {} {}", start.columns, start.rows),
            Self::Macroblock(m) => m,
        };
        let start = &m.start;
        let vectors = join(start.vectors.iter().map(|(x, y)| format!("{x},{y}")), ",");
        let head = [m.lent.grid.0, m.lent.grid.1, m.flags & 3, m.flags / 4, m.lent.quantiser];
        format!(
            "run {} {} {} {vectors} {} {} {} {} lent={} room={} fill={}",
            join(head, " "),
            hex(&planes(&start.reference)),
            hex(&planes(&start.picture)),
            hex(&start.marks),
            hex(&m.bits),
            m.lent.place,
            join(m.call, ","),
            join(m.lent.lengths, ","),
            m.room,
            m.fill
        )
    }

    fn answer(&self) -> String {
        let Self::Macroblock(m) = self else { return "-".into() };
        match &m.answer {
            Answer::Refused { number, detail } => format!("refused={number}:{detail}"),
            Answer::Accepted { place, quantiser, record, after } => {
                let block = block_bytes(after, m.call[0] as usize, m.call[1] as usize);
                format!("place={place} quantiser={quantiser} record={} block={}", hex(record), hex(&block))
            }
        }
    }

    fn bytes(&self) -> Vec<u8> {
        match self {
            Self::Start(start) => start.bytes(),
            Self::Cells(start) => start.cells_bytes(),
            Self::Macroblock(m) => {
                let mut out = [m.head(), m.bits.clone()].concat();
                if let Answer::Accepted { record, after, .. } = &m.answer {
                    out.extend(record);
                    out.extend(block_bytes(after, m.call[0] as usize, m.call[1] as usize));
                }
                out
            }
        }
    }
}
