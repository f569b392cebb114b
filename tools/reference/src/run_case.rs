//! A run or a replay of a fixed list: its question, the published answer, and both as a record.

use crate::macroblock::short;
use crate::reader::mode_of;
use crate::record::Record;
use crate::replay::{calls, records};
use crate::run::{Call, made};
use crate::start::{HEAD, Lent, Start, run_of};
use crate::text::{hex, join};
use crate::transcript::step;

/// A record of the list.
pub enum Case {
    Start(Start),
    Cells(Start),
    Run(Box<RunCase>),
    Replay(Box<ReplayCase>),
}

/// A run of a list of calls from a start.
#[derive(Clone)]
pub struct RunCase {
    pub start: Start,
    pub lent: Lent,
    /// 1 half, 2 third, 4 delta-enable.
    pub flags: u32,
    pub list: Vec<u8>,
    pub bits: Vec<u8>,
    /// The transcript's bytes.
    pub room: usize,
}

/// What it leaves: the refusal that stopped it, and the replay's of its transcript.
pub struct RunAnswer {
    pub number: u8,
    pub detail: i64,
    pub accepted: u32,
    pub place: u64,
    pub quantiser: u32,
    /// The records of the accepted calls.
    pub records: Vec<Vec<u8>>,
    pub replay: u8,
    /// None: all is as it was.
    pub after: Option<Start>,
}

impl RunAnswer {
    pub fn transcript(&self) -> Vec<u8> {
        self.records.concat()
    }
}

impl RunCase {
    pub fn plain(start: &Start, flags: u32, quantiser: u32, list: Vec<u8>, bits: Vec<u8>, place: u64) -> Self {
        let lent = Lent::of(start, quantiser, bits.len(), place);
        Self { start: start.clone(), lent, flags, list, bits, room: 8000 }
    }

    /// The calls in order, each after document 01's questions, until one is refused.
    pub fn ask(&self) -> RunAnswer {
        let mut out = RunAnswer {
            number: 0,
            detail: 0,
            accepted: 0,
            place: self.lent.place,
            quantiser: self.lent.quantiser,
            records: Vec::new(),
            replay: self.lent.replay().unwrap_or(0),
            after: None,
        };
        match calls(&self.list) {
            Err(number) => out.number = number,
            Ok(all) if all.is_empty() => out.number = self.lent.run().unwrap_or(0),
            Ok(all) => self.make(&all, &mut out),
        }
        self.confirm(&out);
        out
    }

    fn make(&self, all: &[[u32; 3]], out: &mut RunAnswer) {
        let mut state = self.start.clone();
        for &call in all {
            let lent = Lent { quantiser: out.quantiser, place: out.place, ..self.lent.clone() };
            if let Some(number) = lent.call(call, self.room.saturating_sub(out.transcript().len())) {
                out.number = number;
                return;
            }
            match step(&run_of(&state, &lent, self.flags, &self.bits, vec![call_of(call)])) {
                Err(refusal) => {
                    (out.number, out.detail) = (refusal.number, refusal.detail);
                    return;
                }
                Ok((result, record)) => {
                    state.keep(&result.left);
                    (out.place, out.quantiser) = (result.left.place, result.left.quantiser);
                    out.accepted += 1;
                    out.records.push(record);
                    out.after = Some(state.clone());
                }
            }
        }
    }

    /// The accepted calls made by the Rust in one go, and the transcript replayed, leave the same.
    fn confirm(&self, out: &RunAnswer) {
        let Some(after) = &out.after else { return };
        let all = calls(&self.list).expect("a list in form");
        let accepted = all[..out.accepted as usize].iter().map(|&call| call_of(call)).collect();
        let whole = made(&run_of(&self.start, &self.lent, self.flags, &self.bits, accepted));
        assert_eq!((whole.left.place, whole.left.quantiser), (out.place, out.quantiser));
        let mut state = self.start.clone();
        state.keep(&whole.left);
        assert_eq!(state.left_bytes(), after.left_bytes());
        let mut again = self.start.clone();
        let mut quantiser = self.lent.quantiser;
        for record in records(&out.transcript(), self.lent.grid).expect("a transcript in form") {
            quantiser = record.apply(&mut again, quantiser);
        }
        assert_eq!(quantiser, out.quantiser);
        assert_eq!(again.left_bytes(), after.left_bytes());
    }

    fn bytes(&self) -> Vec<u8> {
        let answer = self.ask();
        let macroblocks = answer.after.as_ref().map_or(0, Start::macroblocks);
        let consumed = u32::try_from(answer.place - self.lent.place).expect("few bits");
        let mut out = vec![4, self.flags as u8, answer.number, u8::from(answer.detail < 0)];
        let numbers = [self.lent.grid.0, self.lent.grid.1, answer.accepted, consumed, answer.replay.into()];
        out.extend(numbers.into_iter().chain([self.lent.quantiser, answer.quantiser]).flat_map(u32::to_le_bytes));
        out.extend([self.lent.place, answer.place].into_iter().flat_map(u64::to_le_bytes));
        out.extend((answer.detail as u32).to_le_bytes());
        let transcript = answer.transcript();
        let lengths = [self.list.len(), macroblocks, self.bits.len(), transcript.len(), self.room, 0];
        out.extend(lengths.into_iter().chain(self.lent.lengths).flat_map(short));
        assert_eq!(out.len(), HEAD);
        let after = answer.after.as_ref().map_or(Vec::new(), Start::left_bytes);
        [out, self.list.clone(), self.bits.clone(), transcript, after].concat()
    }
}

fn call_of([column, row, mode]: [u32; 3]) -> Call {
    Call { column, row, mode: mode_of(mode).expect("a mode") }
}

/// A replay of a transcript from a start.
#[derive(Clone)]
pub struct ReplayCase {
    pub start: Start,
    pub lent: Lent,
    pub transcript: Vec<u8>,
}

/// The replay's refusal, the transcript check's, and what is left.
pub struct ReplayAnswer {
    pub number: u8,
    pub check: u8,
    pub records: u32,
    pub quantiser: u32,
    pub after: Option<Start>,
}

impl ReplayCase {
    pub fn plain(start: &Start, quantiser: u32, transcript: Vec<u8>) -> Self {
        Self { start: start.clone(), lent: Lent::of(start, quantiser, 0, 0), transcript }
    }

    pub fn ask(&self) -> ReplayAnswer {
        let grid = if self.lent.grid_right() { Ok(()) } else { Err(1) };
        let read = grid.and_then(|()| records(&self.transcript, self.lent.grid));
        let (check, records) = match &read {
            Ok(all) => (0, all.len() as u32),
            Err(number) => (*number, 0),
        };
        let quantiser = self.lent.quantiser;
        let mut out =
            ReplayAnswer { number: self.lent.replay().unwrap_or(check), check, records, quantiser, after: None };
        if out.number == 0 {
            let mut state = self.start.clone();
            for record in read.expect("no refusal") {
                out.quantiser = record.apply(&mut state, out.quantiser);
            }
            out.after = Some(state);
        }
        out
    }

    fn bytes(&self) -> Vec<u8> {
        let answer = self.ask();
        let macroblocks = answer.after.as_ref().map_or(0, Start::macroblocks);
        let mut out = vec![5, 0, answer.number, answer.check];
        let numbers = [self.lent.grid.0, self.lent.grid.1, answer.records, 0, 0, self.lent.quantiser, answer.quantiser];
        out.extend(numbers.into_iter().flat_map(u32::to_le_bytes));
        out.extend([0; 20]);
        let lengths = [0, macroblocks, 0, self.transcript.len(), 0, 0];
        out.extend(lengths.into_iter().chain(self.lent.lengths).flat_map(short));
        assert_eq!(out.len(), HEAD);
        let after = answer.after.as_ref().map_or(Vec::new(), Start::left_bytes);
        [out, self.transcript.clone(), after].concat()
    }
}

impl Record for Case {
    fn line(&self) -> String {
        match self {
            Self::Start(start) | Self::Cells(start) => format!("start {} {}", start.columns, start.rows),
            Self::Run(run) => format!(
                "run {:?} flags={} quantiser={} place={} lent={} room={} list={} bits={}",
                run.lent.grid,
                run.flags,
                run.lent.quantiser,
                run.lent.place,
                join(run.lent.lengths, ","),
                run.room,
                hex(&run.list),
                hex(&run.bits)
            ),
            Self::Replay(replay) => format!(
                "replay {:?} quantiser={} lent={} transcript={}",
                replay.lent.grid,
                replay.lent.quantiser,
                join(replay.lent.lengths, ","),
                hex(&replay.transcript)
            ),
        }
    }

    fn answer(&self) -> String {
        match self {
            Self::Start(_) | Self::Cells(_) => "-".into(),
            Self::Run(run) => {
                let a = run.ask();
                let transcript = hex(&a.transcript());
                format!(
                    "refused={}:{} accepted={} place={} quantiser={} {transcript}",
                    a.number, a.detail, a.accepted, a.place, a.quantiser
                )
            }
            Self::Replay(replay) => {
                let a = replay.ask();
                format!("refused={} check={} records={} quantiser={}", a.number, a.check, a.records, a.quantiser)
            }
        }
    }

    fn bytes(&self) -> Vec<u8> {
        match self {
            Self::Start(start) => start.bytes(),
            Self::Cells(start) => start.cells_bytes(),
            Self::Run(run) => run.bytes(),
            Self::Replay(replay) => replay.bytes(),
        }
    }
}
