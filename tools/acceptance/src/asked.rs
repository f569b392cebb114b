//! Questions 1 to 8, of which the Rust has only the third: a model of them, and starts that are wrong.

use crate::case::Case;
use crate::compare::RECORD;
use crate::draw::Draw;
use crate::ours::{BEFORE, OUTPUT_ROOM, Start, Told, call_list};
use crate::tally::Tally;

/// What one call is given besides the start.
#[derive(Clone, Debug)]
struct Given {
    call: [u32; 3],
    bits: usize,
    place: u64,
    fill: u64,
}

/// The first question of 1 to 4 that is answered with no, or 0.
fn start_question(s: &Start) -> i64 {
    let side = |n: u64| (1..=4096).contains(&n);
    if !side(s.cols) || !side(s.rows) {
        return 1;
    }
    let n = (s.cols * s.rows) as usize;
    let sized =
        |planes: &[Vec<u8>; 3]| planes[0].len() == 256 * n && planes[1].len() == 64 * n && planes[2].len() == 64 * n;
    if !sized(&s.picture) || s.mv.len() != 32 * n || s.marks.len() != 16 * n {
        return 2;
    }
    if s.reference.iter().all(Vec::is_empty) {
        return 3;
    }
    if sized(&s.reference) { 0 } else { 4 }
}

fn place_right(given: &Given) -> bool {
    u128::from(given.place) <= 8 * given.bits as u128
}

/// Of a call: 1 to 8.
fn call_question(s: &Start, given: &Given) -> i64 {
    let [column, row, mode] = given.call;
    match start_question(s) {
        0 if mode > 7 || u64::from(column) >= s.cols || u64::from(row) >= s.rows => 5,
        0 if s.quantiser > 31 => 6,
        0 if !place_right(given) => 7,
        0 if u128::from(given.fill) + RECORD as u128 > s.transcript.len() as u128 => 8,
        no => no,
    }
}

/// Of a run with no call: 1 to 4, 6, 7. Of a replay: 1 to 4, 6.
fn quantiser_question(s: &Start) -> i64 {
    match start_question(s) {
        0 if s.quantiser > 31 => 6,
        no => no,
    }
}

fn empty_run_question(s: &Start, given: &Given) -> i64 {
    match quantiser_question(s) {
        0 if !place_right(given) => 7,
        no => no,
    }
}

/// A start with one to three things wrong, asked of every entry.
pub fn wrong_start(case: &Case, draw: &mut Draw, tally: &mut Tally) -> Result<(), String> {
    if case.run.columns * case.run.rows > 16 {
        return Ok(());
    }
    let mut start = Start::of(&case.run, RECORD);
    let call = case.calls.first().copied().unwrap_or([0, 0, 1]);
    let mut given = Given { call, bits: case.run.bits.len(), place: case.run.place, fill: 0 };
    let wrong: Vec<&str> = (0..1 + draw.below(3)).map(|_| spoil(&mut start, &mut given, draw)).collect();
    let asked = Asked { case, start: &start, given: &given };
    asked.call(tally).and_then(|()| asked.others(tally)).map_err(|what| {
        let Start { cols, rows, quantiser, .. } = &start;
        format!("{what}, with {wrong:?} wrong: {given:?}, {cols} by {rows}, quantiser {quantiser}\n{}", case.line())
    })?;
    short_counts(case, draw, tally)
}

struct Asked<'a> {
    case: &'a Case,
    start: &'a Start,
    given: &'a Given,
}

impl Asked<'_> {
    /// An entry's answer: minus the number that is due, counts as due, and nothing changed.
    fn is(&self, entry: &str, due: i64, told: Told, counts: &[u64], left: &Start) -> Result<(), String> {
        if told.code == -due && told.counts == counts && left == self.start {
            return Ok(());
        }
        let kept = if left == self.start { "nothing" } else { "something" };
        Err(format!("{entry} answers {told:?} where -{due} and {counts:?} are due, {kept} changed"))
    }

    /// One call, and the same as the first of a run.
    fn call(&self, tally: &mut Tally) -> Result<(), String> {
        let (given, quantiser, bits) = (self.given, self.start.quantiser.into(), &self.case.run.bits);
        let due = call_question(self.start, given);
        if due == 0 {
            return Ok(());
        }
        let mut left = self.start.clone();
        let told = left.macroblock(given.call, bits, given.place, given.fill, 5);
        self.is("svq3_macroblock", due, told, &[given.place, quantiser, given.fill, 0, 0], &left)?;
        tally.add("first question answered with no (0 none)", format!("{due} of a call"));
        if given.fill == 0 {
            let told = left.run(&call_list(&[given.call, [0, 0, 0]]), bits, given.place, 5);
            self.is("svq3_run", due, told, &[0, 0, 0, quantiser, 0], &left)?;
            tally.add("first question answered with no (0 none)", format!("{due} of a run"));
        }
        Ok(())
    }

    /// A run with no call, one whose list is out of form, and a replay of nothing.
    fn others(&self, tally: &mut Tally) -> Result<(), String> {
        let (given, quantiser, bits) = (self.given, self.start.quantiser.into(), &self.case.run.bits);
        let mut left = self.start.clone();
        let due = empty_run_question(self.start, given);
        let told = left.run(&[], bits, given.place, 5);
        self.is("svq3_run without a call", due, told, &[0, 0, 0, quantiser, 0], &left)?;
        tally.add("first question answered with no (0 none)", format!("{due} of a run with no call"));
        // 14 comes before question 1
        let told = left.run(&[0, 0, 1, 0x80], bits, given.place, 5);
        self.is("svq3_run of a list out of form", 14, told, &[0, 0, 0, quantiser, 0], &left)?;
        let due = quantiser_question(self.start);
        let told = left.replay(&[], 2);
        self.is("svq3_replay", due, told, &[0, quantiser], &left)?;
        tally.add("first question answered with no (0 none)", format!("{due} of a replay"));
        let due = if (1..=4096).contains(&left.cols) && (1..=4096).contains(&left.rows) { 0 } else { 1 };
        if left.check(&[]) != -due {
            return Err(format!("svq3_check_transcript answers {} where -{due} is due", left.check(&[])));
        }
        Ok(())
    }
}

/// One thing of the start or of what is given, drawn.
fn spoil(start: &mut Start, given: &mut Given, draw: &mut Draw) -> &'static str {
    if draw.below(10) < 6 { spoil_start(start, draw) } else { spoil_given(start, given, draw) }
}

fn spoil_start(s: &mut Start, draw: &mut Draw) -> &'static str {
    match draw.below(6) {
        0 => {
            let side = draw.pick(&[0, 4097, 1 << 32, (1 << 32) + 1, u64::MAX, 4096, 2]);
            if draw.bit() {
                s.cols = side
            } else {
                s.rows = side
            }
            "the grid"
        }
        1 => {
            another_length(&mut s.picture[draw.below(3) as usize], draw);
            "a picture plane"
        }
        2 => {
            let length = if draw.bit() { s.mv.len() + 1 } else { s.mv.len().saturating_sub(1) };
            s.mv.resize(length, 0);
            "the vectors"
        }
        3 => {
            another_length(&mut s.marks, draw);
            "the marks"
        }
        4 => {
            s.reference.iter_mut().for_each(Vec::clear);
            "every reference plane"
        }
        _ => {
            another_length(&mut s.reference[draw.below(3) as usize], draw);
            "a reference plane"
        }
    }
}

fn spoil_given(s: &mut Start, given: &mut Given, draw: &mut Draw) -> &'static str {
    match draw.below(4) {
        0 => {
            let most = draw.pick(&[0, 4, 7, 8, 255, u32::MAX]);
            given.call[draw.below(3) as usize] = most;
            "the call"
        }
        1 => {
            s.quantiser = draw.pick(&[31, 32, 33, 255, u32::MAX]);
            "the quantiser"
        }
        2 => {
            let total = 8 * given.bits as u64;
            given.place = draw.pick(&[total, total + 1, total + 8, u64::MAX, 1 << 63, 1 << 61]);
            "the place"
        }
        _ => {
            given.fill = draw.pick(&[0, 1, RECORD as u64, u64::MAX, u64::MAX - 2088]);
            "the fill"
        }
    }
}

fn another_length(of: &mut Vec<u8>, draw: &mut Draw) {
    match draw.below(3) {
        0 => of.clear(),
        1 => of.push(1),
        _ => drop(of.pop()),
    }
}

/// Fewer counts than an entry writes: nothing is done.
fn short_counts(case: &Case, draw: &mut Draw, tally: &mut Tally) -> Result<(), String> {
    if draw.below(8) != 0 {
        return Ok(());
    }
    let s = Start::of(&case.run, RECORD);
    let mut ours = s.clone();
    let n = draw.below(5) as usize;
    let told = match draw.below(3) {
        0 => ours.macroblock([0, 0, 0], &case.run.bits, case.run.place, 0, n),
        1 => ours.run(&[0, 0, 0], &case.run.bits, case.run.place, n),
        _ => ours.replay(&[0, 0, 0], n % 2),
    };
    if told.code != OUTPUT_ROOM || ours != s || told.counts.iter().any(|&count| count != BEFORE) {
        return Err(format!("{n} counts: {told:?}\n{}", case.line()));
    }
    tally.add("counts too short", "refused");
    Ok(())
}
