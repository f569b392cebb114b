//! Unique reading: two runs of the library from one start, the second with other calls, bits, place or room. Equal
//! accepted calls and consumed bits have equal transcripts; where one of the two clips no component, only these have.

use crate::bits::Bits;
use crate::case::Case;
use crate::compare::RECORD;
use crate::draw::Draw;
use crate::ours::{Start, call_list};
use crate::records;
use crate::tally::Tally;
use crate::text::hex;

/// What a run is given besides the start.
struct Given {
    calls: Vec<[u32; 3]>,
    bits: Vec<u8>,
    place: u64,
    room: usize,
}

/// What a run is compared by.
struct Reading {
    calls: Vec<[u32; 3]>,
    bits: Vec<bool>,
    transcript: Vec<u8>,
    clipped: bool,
}

/// A drawn run and another one from its start.
pub fn drawn(case: &Case, draw: &mut Draw, tally: &mut Tally) -> Result<(), String> {
    let first = given(case);
    let read = reading(case, &first)?;
    let (kind, second) = another(case, &first, &read, draw);
    tally.add("second run of a pair", kind);
    compared(case, &read, &second, tally)
}

/// A run and, for each of its bits, the same with that bit turned.
pub fn each_turned(case: &Case, bits: &Bits, tally: &mut Tally) -> Result<(), String> {
    let first = given(case);
    let read = reading(case, &first)?;
    for n in 0..bits.len() {
        let mut turned = bits.clone();
        turned.0[n] ^= true;
        tally.add("second run of a pair", "each bit turned");
        compared(case, &read, &Given { bits: turned.bytes(), ..given(case) }, tally)?;
    }
    Ok(())
}

fn given(case: &Case) -> Given {
    let room = RECORD * case.calls.len();
    Given { calls: case.calls.clone(), bits: case.run.bits.clone(), place: case.run.place, room }
}

fn reading(case: &Case, given: &Given) -> Result<Reading, String> {
    let Given { calls, bits, place, room } = given;
    let mut ours = Start::of(&case.run, *room);
    let told = ours.run(&call_list(calls), bits, *place, 5);
    let (accepted, consumed) = (told.counts[0] as usize, told.counts[1]);
    let bit = |n: u64| bits[(n / 8) as usize] >> (7 - n % 8) & 1 == 1;
    let transcript = ours.transcript[..told.counts[2] as usize].to_vec();
    let counted = records::counted(&transcript)?;
    if counted.records != accepted as u64 {
        return Err(format!(
            "{counted:?} where {accepted} calls are accepted\n{}",
            case.line_with(calls, bits, *place)
        ));
    }
    let bits = (*place..place + consumed).map(bit).collect();
    Ok(Reading { calls: calls[..accepted].to_vec(), bits, transcript, clipped: counted.clipped > 0 })
}

fn compared(case: &Case, first: &Reading, given: &Given, tally: &mut Tally) -> Result<(), String> {
    let second = reading(case, given)?;
    let (calls, bits) = (first.calls == second.calls, first.bits == second.bits);
    let alike = first.transcript == second.transcript;
    let clipped = first.clipped && second.clipped;
    // Equal readings have one transcript, clipped or not.
    if (calls && bits) != alike && !(clipped && alike) {
        return Err(format!(
            "calls alike: {calls}, bits alike: {bits}, transcripts alike: {alike}: {} and {}\n{}\n{}",
            hex(&first.transcript),
            hex(&second.transcript),
            case.line(),
            case.line_with(&given.calls, &given.bits, given.place)
        ));
    }
    if clipped {
        let kind = if alike && !(calls && bits) { "one transcript of two readings" } else { "others" };
        tally.add("pairs of which both clip a component", kind);
        return Ok(());
    }
    let kind = match (calls, bits) {
        (true, true) if first.calls.is_empty() => "equal without a call",
        (true, true) => "equal",
        (true, false) => "other bits",
        (false, true) => "other calls",
        (false, false) => "other calls and bits",
    };
    tally.add("pairs of runs from one start", kind);
    Ok(())
}

/// The second run, at another place, with one thing changed.
fn another(case: &Case, first: &Given, read: &Reading, draw: &mut Draw) -> (&'static str, Given) {
    let Given { mut calls, room, .. } = given(case);
    let mut room = room + draw.below(2) as usize * RECORD;
    let mut bits = Bits(
        first
            .bits
            .iter()
            .flat_map(|byte| (0..8).rev().map(move |n| byte >> n & 1 == 1))
            .skip(first.place as usize)
            .collect(),
    );
    let kind = match draw.below(12) {
        0 => "another place alone",
        1 => {
            room = draw.below(1 + (read.transcript.len() + RECORD).min(65_535) as u32) as usize;
            "other room"
        }
        2 => {
            bits.0.truncate(read.bits.len());
            let more = draw.below(100) as usize;
            bits = bits.then(&Bits::drawn(draw, more));
            "other bits behind"
        }
        3..7 => {
            turn(&mut bits, read.bits.len(), draw);
            "bits turned"
        }
        _ if calls.is_empty() => {
            calls.push([0, 0, draw.below(8)]);
            "a call more"
        }
        7..9 => {
            other_mode(&mut calls, draw);
            "another mode"
        }
        9..11 => {
            let n = draw.below(calls.len() as u32) as usize;
            // One past the grid is refused by 5.
            calls[n][0] = draw.below(1 + case.run.columns as u32);
            calls[n][1] = draw.below(1 + case.run.rows as u32);
            "another place of a call"
        }
        _ => other_list(&mut calls, draw),
    };
    let before = draw.below(24) as usize;
    let bits = Bits::drawn(draw, before).then(&bits).bytes();
    (kind, Given { calls, bits, place: before as u64, room })
}

/// One to three of the consumed bits.
fn turn(bits: &mut Bits, consumed: usize, draw: &mut Draw) {
    for _ in 0..if consumed == 0 { 0 } else { 1 + draw.below(3) } {
        bits.0[draw.below(consumed.min(65_535) as u32) as usize] ^= true;
    }
}

/// Half of the time one with as many partitions, so that the same bits are read.
fn other_mode(calls: &mut [[u32; 3]], draw: &mut Draw) {
    let mode = &mut calls[draw.below(calls.len() as u32) as usize][2];
    *mode = match *mode {
        2 | 3 if draw.bit() => 5 - *mode,
        5 | 6 if draw.bit() => 11 - *mode,
        _ => (*mode + 1 + draw.below(7)) % 8,
    };
}

fn other_list(calls: &mut Vec<[u32; 3]>, draw: &mut Draw) -> &'static str {
    let n = draw.below(calls.len() as u32) as usize;
    match draw.below(4) {
        0 => {
            calls.remove(n);
            "a call less"
        }
        1 => {
            calls.insert(n, calls[n]);
            "a call twice"
        }
        2 => {
            calls.truncate(n);
            "a shorter list"
        }
        _ => {
            let last = calls.len() - 1;
            calls.swap(n, last);
            "two calls exchanged"
        }
    }
}
