//! Drawn runs: a start, a list of calls and bits, as a query line of tools/reference and read back from it.

use crate::bits::Bits;
use crate::draw::Draw;
use crate::reader::mode_of;
use crate::run::{Run, made};
use crate::run_list::{self, Film};
use crate::tally::Tally;
use crate::text::{Words, hex, join};

pub struct Case {
    /// the start's words of a query line
    start: String,
    pub run: Run,
    pub calls: Vec<[u32; 3]>,
}

impl Case {
    fn new(start: String, calls: Vec<[u32; 3]>, bits: &[u8], place: u64) -> Self {
        let line = query(&start, &calls, bits, place);
        let mut words = Words::new(&line);
        let run = words.word().and_then(|_| Run::parse(&mut words)).expect("the line is in form");
        Self { start, run, calls }
    }

    pub fn line(&self) -> String {
        self.line_with(&self.calls, &self.run.bits, self.run.place)
    }

    /// Other calls and bits from this start.
    pub fn line_with(&self, calls: &[[u32; 3]], bits: &[u8], place: u64) -> String {
        query(&self.start, calls, bits, place)
    }

    /// The same calls from this start, on other bits.
    pub fn on(&self, bits: Vec<u8>, place: u64) -> Self {
        let run = Run { bits, place, ..self.run.clone() };
        Self { start: self.start.clone(), run, calls: self.calls.clone() }
    }
}

fn query(start: &str, calls: &[[u32; 3]], bits: &[u8], place: u64) -> String {
    let listed = join(calls.iter().map(|call| join(call, ",")), ";");
    let listed = if listed.is_empty() { "-" } else { &listed };
    format!("run {start} {} {place} {listed}", hex(bits))
}

/// What the bits are.
#[derive(Clone, Copy)]
enum Stream {
    /// as a writer would make them
    Sound,
    /// some of them turned
    Damaged,
    /// ended at a bit
    Truncated,
    /// sound, then drawn
    Spliced,
    /// drawn
    Random,
}

pub fn drawn(draw: &mut Draw, tally: &mut Tally) -> Case {
    let (columns, rows) = grid(draw, tally);
    let calls = calls(draw, columns, rows);
    let stream = stream(draw);
    from(draw, tally, [columns, rows], calls, stream)
}

/// On a grid of one row or one column of 65 macroblocks or more: one to four calls, the first on the last macroblock.
pub fn long(draw: &mut Draw, tally: &mut Tally, columns: u32, rows: u32) -> Case {
    tally.add(
        "grid",
        if columns.max(rows) < 4096 { "65 to 4095 in a line".into() } else { format!("{columns} by {rows}") },
    );
    let along = |draw: &mut Draw, n: u32, side: u32| match draw.below(4) {
        _ if n == 0 => side - 1,
        0 => side - 1,
        1 => side.max(2) - 2,
        2 => 0,
        _ => draw.below(side),
    };
    let calls =
        (0..1 + draw.below(4)).map(|n| [along(draw, n, columns), along(draw, n, rows), draw.below(8)]).collect();
    from(draw, tally, [columns, rows], calls, Stream::Sound)
}

/// One to three calls and bits as a writer would make them, all accepted by the Rust; with these bits alone.
pub fn sound(draw: &mut Draw, tally: &mut Tally) -> (Case, Bits) {
    tally.add("bits", "sound at each bit");
    tally.add("grid", "to 2 by 2");
    loop {
        let head = [1 + draw.below(2), 1 + draw.below(2), draw.below(4), draw.below(2), draw.below(32)];
        let [columns, rows, flags, delta_enable, quantiser] = head;
        let calls: Vec<[u32; 3]> =
            (0..1 + draw.below(3)).map(|_| [draw.below(columns), draw.below(rows), draw.below(8)]).collect();
        let small = draw.below(4) != 0;
        let bits = written(draw, flags, delta_enable == 1, quantiser, &calls, small);
        let reference = planes(draw);
        let start = start(draw, head, reference);
        let case = Case::new(start, calls, &bits.bytes(), 0);
        if bits.len() > 0 && made(&case.run).refused.is_none() {
            return (case, bits);
        }
    }
}

fn from(draw: &mut Draw, tally: &mut Tally, grid: [u32; 2], calls: Vec<[u32; 3]>, stream: Stream) -> Case {
    let [columns, rows] = grid;
    let (flags, delta_enable, quantiser) = (draw.below(4), draw.bit(), draw.below(32));
    let small = draw.bit();
    let sound = written(draw, flags, delta_enable, quantiser, &calls, small);
    let (bits, place) = placed(draw, tally, stream, sound);
    let reference = if draw.below(40) == 0 { "none".into() } else { planes(draw) };
    let start = start(draw, [columns, rows, flags, delta_enable.into(), quantiser], reference);
    Case::new(start, calls, &bits, place as u64)
}

fn start(draw: &mut Draw, head: [u32; 5], reference: String) -> String {
    let cells = 16 * head[0] * head[1];
    let state = [reference, planes(draw), run_list::vectors(draw, cells), run_list::marks(draw, cells)];
    format!("{} {}", join(head, " "), join(state, " "))
}

fn grid(draw: &mut Draw, tally: &mut Tally) -> (u32, u32) {
    let (kind, columns, rows) = match draw.below(60) {
        0 => ("64 by 1", 64, 1),
        1 => ("1 by 64", 1, 64),
        2..10 => ("1 by 1", 1, 1),
        _ => ("to 4 by 4", 1 + draw.below(4), 1 + draw.below(4)),
    };
    tally.add("grid", kind);
    (columns, rows)
}

/// Samples anywhere, all alike, or at the limits.
fn planes(draw: &mut Draw) -> String {
    match draw.below(8) {
        0 => format!("fill:{}", draw.pick(&[0, 1, 127, 128, 254, 255])),
        _ => format!("seed:{}", draw.word()),
    }
}

/// Every place in order, or any places, again and again; one mode, or all.
fn calls(draw: &mut Draw, columns: u32, rows: u32) -> Vec<[u32; 3]> {
    let only = (draw.below(4) == 0).then(|| draw.below(8));
    let mode = |draw: &mut Draw| only.unwrap_or_else(|| draw.below(8));
    if draw.below(3) == 0 {
        return (0..columns * rows).map(|n| [n % columns, n / columns, mode(draw)]).collect();
    }
    (0..draw.below(13)).map(|_| [draw.below(columns), draw.below(rows), mode(draw)]).collect()
}

/// The calls' bits as a writer would make them; with `small` no difference is so large that a component is clipped.
fn written(draw: &mut Draw, flags: u32, delta_enable: bool, quantiser: u32, calls: &[[u32; 3]], small: bool) -> Bits {
    let mut film = Film { flags, delta_enable, quantiser: quantiser as i32, bits: Bits::default(), draw };
    for call in calls {
        if small { small_differences(&mut film, call[2]) } else { film.macroblock(call[2]) }
    }
    film.bits
}

fn small_differences(film: &mut Film<'_>, mode: u32) {
    let Some(mode) = mode_of(mode).filter(|_| mode != 0) else { return };
    film.precision();
    for _ in 0..2 * mode.num_motion_vectors() {
        let most = film.draw.pick(&[1, 12, 400]);
        let difference = film.draw.between(-most, most);
        film.signed(difference);
    }
    let code = film.draw.below(48);
    film.residual(code);
}

fn stream(draw: &mut Draw) -> Stream {
    match draw.below(20) {
        0..10 => Stream::Sound,
        10..13 => Stream::Damaged,
        13..16 => Stream::Truncated,
        16..18 => Stream::Spliced,
        _ => Stream::Random,
    }
}

/// Bits made of sound ones, and the place of the first call.
fn placed(draw: &mut Draw, tally: &mut Tally, stream: Stream, mut bits: Bits) -> (Vec<u8>, usize) {
    let length = bits.len();
    let at = draw.below(length.clamp(1, 65_535) as u32) as usize;
    let name = match stream {
        Stream::Sound => "sound",
        Stream::Damaged => {
            for _ in 0..if length == 0 { 0 } else { 1 + draw.below(3) } {
                let turned = draw.below(length.min(65_535) as u32) as usize;
                bits.0[turned] ^= true;
            }
            "damaged"
        }
        Stream::Truncated => {
            bits.0.truncate(at);
            "truncated"
        }
        Stream::Spliced => {
            bits.0.truncate(at);
            let more = 50 + draw.below(400) as usize;
            bits = bits.then(&biased(draw, more));
            "spliced"
        }
        Stream::Random => {
            let length = draw.below(800) as usize;
            bits = biased(draw, length);
            "random"
        }
    };
    tally.add("bits", name);
    // So that the last bit is the slice's last, or anywhere with 0 bits behind it.
    let before = if draw.below(4) == 0 {
        draw.below(20) as usize
    } else {
        (8 - bits.len() % 8) % 8 + 8 * draw.below(3) as usize
    };
    (Bits::drawn(draw, before).then(&bits).bytes(), before)
}

/// Drawn bits with more or fewer ones: codes are short where there are many.
fn biased(draw: &mut Draw, length: usize) -> Bits {
    let ones = draw.pick(&[1, 2, 5, 8, 10]);
    Bits((0..length).map(|_| draw.below(12) < ones).collect())
}
