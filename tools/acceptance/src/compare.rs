//! A run on both sides, compared after every call; then as a whole, and its transcript replayed.

use crate::case::Case;
use crate::draw::Draw;
use crate::ours::{Start, call_list};
use crate::reader::{mode_of, reader_at};
use crate::records;
use crate::refusal::Refusal;
use crate::tally::Tally;
use crate::text::{hex, join};
use published::bitreader::BitReader;
use published::svq3_frame::{Access, access_header};
use published::svq3_picture::Svq3Picture;

/// The most bytes of a record: question 8.
pub const RECORD: usize = 2089;

/// After so many refusals of one run nothing new is met.
const REFUSALS: usize = 3;

/// Where a run stopped: after so many calls, with the refusal's number and detail, or 0.
pub struct Stop {
    pub accepted: u64,
    place: u64,
    fill: u64,
    pub code: i64,
    detail: i64,
    left: Start,
}

impl Stop {
    pub fn transcript(&self) -> &[u8] {
        &self.left.transcript[..self.fill as usize]
    }
}

pub fn whole(case: &Case, draw: &mut Draw, tally: &mut Tally) -> Result<(), String> {
    // Room for every call, mostly; else it ends at some call.
    let most = RECORD * case.calls.len();
    let room = if draw.below(12) == 0 { draw.below(1 + 3 * RECORD as u32) as usize } else { most };
    with_room(case, room, draw, tally).map(drop)
}

/// Where the run stopped, with `room` transcript bytes.
pub fn with_room(case: &Case, room: usize, draw: &mut Draw, tally: &mut Tally) -> Result<Stop, String> {
    let start = Start::of(&case.run, room);
    let stop = call_by_call(case, &start, tally)?;
    run_at_once(case, &start, &stop, tally)?;
    replayed(case, &start, &stop, draw, tally)?;
    Ok(stop)
}

/// Both sides between two calls: the Rust's picture and reader, and ours.
struct Walk<'a> {
    case: &'a Case,
    access: Access<'a>,
    reader: BitReader<'a>,
    /// what the reader's count of bits is to be raised by
    raise: u64,
    ours: Start,
    place: u64,
    fill: u64,
    accepted: u64,
    refusals: usize,
    stop: Option<Stop>,
}

/// Every call on both sides. After a refusal the Rust is set back to where ours is, and the calls go on.
fn call_by_call(case: &Case, start: &Start, tally: &mut Tally) -> Result<Stop, String> {
    let run = &case.run;
    let header = access_header(run.columns, run.rows, run.half, run.third);
    let mut access = Access::new(&header, run.reference.as_ref()).expect("the grid is not empty");
    access.start(run.delta_enable, run.quantiser, run.picture.clone(), run.vectors.clone(), run.marks.clone());
    let (reader, raise) = reader_at(&run.bits, run.place);
    let (ours, place) = (start.clone(), run.place);
    let mut walk = Walk { case, access, reader, raise, ours, place, fill: 0, accepted: 0, refusals: 0, stop: None };
    for &call in &case.calls {
        let (before, place) = (walk.ours.clone(), walk.place);
        let on = walk.step(call, &before, tally);
        if !on.map_err(|what| format!("{what}\n{}", single(case, &before, place, call)))? {
            break;
        }
    }
    let Walk { ours, place, fill, accepted, stop, .. } = walk;
    Ok(stop.unwrap_or(Stop { accepted, place, fill, code: 0, detail: 0, left: ours }))
}

impl Walk<'_> {
    /// One call on both sides; whether the calls go on.
    fn step(&mut self, call: [u32; 3], before: &Start, tally: &mut Tally) -> Result<bool, String> {
        let told = self.ours.macroblock(call, &self.case.run.bits, self.place, self.fill, 5);
        let room = self.ours.transcript.len() as u64 - self.fill;
        let (code, detail) = if self.case.run.reference.is_some() && room < RECORD as u64 {
            tally.add("first question answered with no (0 none)", "8 in a run");
            (8, 0)
        } else {
            theirs(&mut self.access, &mut self.reader, call, tally)
        };
        if told.code != -code {
            return Err(format!("ours answers {}, -{code} is due (detail {detail})", told.code));
        }
        if code != 0 {
            return self.refused(before, &told.counts, code, detail);
        }
        if before.cols.max(before.rows) > 64 {
            let last = [u64::from(call[0]) + 1, u64::from(call[1]) + 1] == [before.cols, before.rows];
            tally.add("accepted on a long grid", if last { "last macroblock" } else { "other macroblocks" });
        }
        self.accepted(before, &told.counts)
    }

    fn accepted(&mut self, before: &Start, counts: &[u64]) -> Result<bool, String> {
        let after = self.raise + self.reader.bits_consumed() as u64;
        self.ours.quantiser = counts[1] as u32;
        if let Some(what) = apart(&self.access, &self.ours) {
            return Err(format!("{what} differ"));
        }
        if counts[0] != after || counts[4] != 0 {
            return Err(format!("counts {counts:?} where the place is {after}"));
        }
        let (fill, filled) = (self.fill, counts[2]);
        if !(fill < filled && filled <= fill + RECORD as u64) || others_changed(before, &self.ours, fill, filled) {
            return Err(format!("the transcript's fill goes from {fill} to {filled}, or bytes of others change"));
        }
        let record = records::counted(&self.ours.transcript[fill as usize..filled as usize])?;
        if (record.records, record.clipped) != (1, counts[3]) {
            return Err(format!("{record:?} in the transcript where one and {} are due", counts[3]));
        }
        (self.place, self.fill) = (after, filled);
        self.accepted += u64::from(self.stop.is_none());
        Ok(true)
    }

    fn refused(&mut self, before: &Start, counts: &[u64], code: i64, detail: i64) -> Result<bool, String> {
        if self.ours != *before {
            return Err(format!("refused by {code}, and something has changed"));
        }
        if counts != [self.place, before.quantiser.into(), self.fill, 0, detail as u64] {
            return Err(format!("refused by {code} with counts {counts:?}, detail {detail} is due"));
        }
        let (accepted, place, fill) = (self.accepted, self.place, self.fill);
        self.stop.get_or_insert_with(|| Stop { accepted, place, fill, code, detail, left: before.clone() });
        self.refusals += 1;
        set_back(&mut self.access, self.case, before);
        (self.reader, self.raise) = reader_at(&self.case.run.bits, place);
        Ok(self.refusals < REFUSALS && code != 8 && code != 3)
    }
}

/// What the published Rust answers.
fn theirs(access: &mut Access<'_>, reader: &mut BitReader<'_>, call: [u32; 3], tally: &mut Tally) -> (i64, i64) {
    let quantiser = access.quantiser();
    let mode = mode_of(call[2]).expect("a mode of 0 to 7");
    match access.decode_inter_mb(reader, call[0], call[1], mode) {
        Ok(()) => {
            tally.add("accepted in mode", call[2]);
            (0, 0)
        }
        Err(error) => {
            let refusal = Refusal::of(error, quantiser);
            tally.add("refused while reading", refusal.number);
            (refusal.number.into(), refusal.detail)
        }
    }
}

fn apart(access: &Access<'_>, ours: &Start) -> Option<&'static str> {
    let picture = access.picture();
    let vectors = access.vectors();
    let pairs = [
        ("luma samples", picture.luma() == ours.picture[0]),
        ("cb samples", picture.cb() == ours.picture[1]),
        ("cr samples", picture.cr() == ours.picture[2]),
        (
            "vectors",
            vectors.len() * 2 == ours.mv.len() && vectors.iter().zip(ours.mv.chunks(2)).all(|(&(x, y), m)| [x, y] == m),
        ),
        ("marks", access.marks() == ours.marks),
        ("quantisers", access.quantiser() == ours.quantiser),
    ];
    pairs.iter().find(|pair| !pair.1).map(|pair| pair.0)
}

/// Bytes outside the record's own have changed.
fn others_changed(before: &Start, after: &Start, fill: u64, filled: u64) -> bool {
    let (fill, filled) = (fill as usize, filled as usize);
    before.transcript[..fill] != after.transcript[..fill] || before.transcript[filled..] != after.transcript[filled..]
}

fn set_back(access: &mut Access<'_>, case: &Case, to: &Start) {
    let mut picture = Svq3Picture::new(case.run.columns, case.run.rows);
    picture.luma_mut().copy_from_slice(&to.picture[0]);
    picture.cb_mut().copy_from_slice(&to.picture[1]);
    picture.cr_mut().copy_from_slice(&to.picture[2]);
    let vectors = to.mv.chunks(2).map(|pair| (pair[0], pair[1])).collect();
    access.start(case.run.delta_enable, to.quantiser, picture, vectors, to.marks.clone());
}

/// The run as one call is its calls.
fn run_at_once(case: &Case, start: &Start, stop: &Stop, tally: &mut Tally) -> Result<(), String> {
    let run = &case.run;
    let mut ours = start.clone();
    let told = ours.run(&call_list(&case.calls), &run.bits, run.place, 5);
    ours.quantiser = stop.left.quantiser;
    // A run with no call asks the questions on the start all the same.
    let code = if case.calls.is_empty() && run.reference.is_none() { 3 } else { stop.code };
    let counts = [stop.accepted, stop.place - run.place, stop.fill, stop.left.quantiser.into(), stop.detail as u64];
    if told.code != -code || told.counts != counts {
        return Err(format!("the run answers {told:?} where -{code} and {counts:?} are due\n{}", case.line()));
    }
    if ours != stop.left {
        return Err(format!("the run leaves another state than its calls\n{}", case.line()));
    }
    tally.add("run", if code == 0 { "accepted" } else { "refused" });
    Ok(())
}

/// The transcript replayed from the start gives the state back; a damaged one, refused, changes nothing.
fn replayed(case: &Case, start: &Start, stop: &Stop, draw: &mut Draw, tally: &mut Tally) -> Result<(), String> {
    if case.run.reference.is_none() {
        return Ok(());
    }
    let transcript = stop.transcript();
    let mut ours = start.clone();
    let told = ours.replay(transcript, 2);
    if told.code != 0 || told.counts != [stop.accepted, stop.left.quantiser.into()] {
        return Err(format!("the replay of {} answers {told:?}\n{}", hex(transcript), case.line()));
    }
    if start.check(transcript) != stop.accepted as i64 {
        return Err(format!("the check of {} answers {}\n{}", hex(transcript), start.check(transcript), case.line()));
    }
    ours.quantiser = stop.left.quantiser;
    if let Some(what) = ours.differs(&stop.left) {
        return Err(format!("the replay of {} leaves other {what}\n{}", hex(transcript), case.line()));
    }
    tally.add("replay", "as the run left");
    if transcript.is_empty() {
        return Ok(());
    }
    let mut damaged = transcript.to_vec();
    let at = draw.below(damaged.len().min(65_535) as u32) as usize;
    match draw.below(3) {
        0 => damaged.truncate(at),
        1 => damaged[at] ^= 1 << draw.below(8),
        _ => damaged[at] = draw.below(256) as u8,
    }
    let mut ours = start.clone();
    let told = ours.replay(&damaged, 2);
    if told.code != 0
        && (ours != *start || told.counts != [0, start.quantiser.into()] || ![-14, -15].contains(&told.code))
    {
        return Err(format!(
            "the refused replay of {} answers {told:?} or changes something\n{}",
            hex(&damaged),
            case.line()
        ));
    }
    let checked = if told.code == 0 { told.counts[0] as i64 } else { told.code };
    if start.check(&damaged) != checked {
        return Err(format!("the check of {} answers {}\n{}", hex(&damaged), start.check(&damaged), case.line()));
    }
    tally.add("damaged transcript", if told.code == 0 { "accepted".into() } else { format!("refused {}", -told.code) });
    Ok(())
}

/// The one call from the state before it, as a query line.
fn single(case: &Case, before: &Start, place: u64, call: [u32; 3]) -> String {
    let planes = |p: &[Vec<u8>; 3]| join(p.iter().map(|plane| hex(plane)), ",");
    let reference = if case.run.reference.is_some() { planes(&before.reference) } else { "none".into() };
    let head = [before.cols, before.rows, before.flags.into(), before.delta.into(), before.quantiser.into()];
    let state = [reference, planes(&before.picture), join(&before.mv, ","), hex(&before.marks), hex(&case.run.bits)];
    format!("run {} {} {place} {}", join(head, " "), join(state, " "), join(call, ","))
}
