//! Drawn inputs of the printer: sound ones, and what is made of them.

use crate::bits::Bits;
use crate::draw::Draw;
use crate::printer::INPUT;
use crate::reader::mode_of;
use crate::run_list::Film;
use crate::transcript::number;
use published::svq3_cbp::INTER_CBP_TABLE;
use published::svq3_coeff::{ResidualBook, resolve_level_run};

/// What an input is, in the order of the counts.
pub const KINDS: [&str; 10] = [
    "sound",
    "damaged bits",
    "drawn bits",
    "drawn bytes",
    "mutated",
    "ended at each byte",
    "number at a limit",
    "joined",
    "about 32768 bytes",
    "long codes",
];

/// Numbers and bits apart, so that one number can be another.
struct Parts {
    /// Columns, rows, flags, delta-enable, quantiser, call count, then three for each call.
    numbers: Vec<Vec<u8>>,
    bits: Vec<u8>,
}

impl Parts {
    fn bytes(&self) -> Vec<u8> {
        [self.numbers.concat(), self.bits.clone()].concat()
    }
}

/// Inputs of one kind: one, or all beginnings of one.
pub fn drawn(draw: &mut Draw) -> (usize, Vec<Vec<u8>>) {
    let kind = match draw.below(100) {
        0..25 => 0,
        25..35 => 1,
        35..45 => 2,
        45..50 => 3,
        50..75 => 4,
        75 => 5,
        76..90 => 6,
        90..96 => 7,
        96..98 => 8,
        _ => 9,
    };
    let one = match kind {
        0 => sound(draw).bytes(),
        1 => damaged(draw).bytes(),
        2 => drawn_bits(draw).bytes(),
        3 => {
            let length = draw.below(80) as usize;
            draw.bytes(length)
        }
        4 => mutated(draw),
        5 => {
            let whole = sound(draw).bytes();
            return (kind, (0..=whole.len().min(300)).map(|length| whole[..length].to_vec()).collect());
        }
        6 => at_limit(draw),
        7 => joined(draw),
        8 => about_limit(draw),
        _ => film(draw, long_codes).bytes(),
    };
    (kind, vec![one])
}

fn sound(draw: &mut Draw) -> Parts {
    film(draw, |film, mode| film.macroblock(mode))
}

/// A header, calls and the bits that `write` makes for each call's mode.
fn film(draw: &mut Draw, write: fn(&mut Film<'_>, u32)) -> Parts {
    let (columns, rows) = (1 + draw.below(4), 1 + draw.below(4));
    let (flags, delta, quantiser) = (draw.below(4), draw.below(2), draw.below(32));
    let most = draw.pick(&[3, 6, 17]);
    let count = draw.below(most);
    let calls: Vec<[u32; 3]> = (0..count).map(|_| [draw.below(columns), draw.below(rows), draw.below(8)]).collect();
    let header = [columns, rows, flags, delta, quantiser, count];
    let numbers = header.into_iter().chain(calls.iter().copied().flatten()).map(number).collect();
    let bits = Bits::default();
    let mut film = Film { flags, delta_enable: delta == 1, quantiser: quantiser as i32, bits, draw };
    for call in &calls {
        write(&mut film, call[2]);
    }
    Parts { numbers, bits: film.bits.bytes() }
}

fn damaged(draw: &mut Draw) -> Parts {
    let mut parts = sound(draw);
    for _ in 0..1 + draw.below(3) {
        if !parts.bits.is_empty() {
            let at = draw.below(parts.bits.len().min(65_535) as u32) as usize;
            parts.bits[at] ^= 1 << draw.below(8);
        }
    }
    parts
}

/// With more or fewer ones: codes are short where there are many.
fn drawn_bits(draw: &mut Draw) -> Parts {
    let mut parts = sound(draw);
    let (ones, length) = (draw.pick(&[1, 2, 5, 8, 10]), draw.below(1600) as usize);
    parts.bits = Bits((0..length).map(|_| draw.below(12) < ones).collect()).bytes();
    parts
}

/// One to four places turned, set, inserted, removed, doubled or cut.
fn mutated(draw: &mut Draw) -> Vec<u8> {
    let mut bytes = sound(draw).bytes();
    for _ in 0..1 + draw.below(4) {
        // Half of them in the header and the list.
        let length = if draw.bit() { bytes.len().min(20) } else { bytes.len().min(65_535) };
        let at = draw.below(length as u32 + 1) as usize;
        let byte = if draw.bit() { draw.below(256) as u8 } else { draw.pick(&[0, 1, 7, 8, 127, 128, 129, 255]) };
        match draw.below(6) {
            0 if at < bytes.len() => bytes[at] ^= 1 << draw.below(8),
            1 if at < bytes.len() => bytes[at] = byte,
            2 => bytes.insert(at, byte),
            3 if at < bytes.len() => drop(bytes.remove(at)),
            4 => {
                let end = bytes.len().min(at + 1 + draw.below(8) as usize);
                let piece = bytes[at..end].to_vec();
                bytes.splice(at..at, piece);
            }
            _ => bytes.truncate(at),
        }
    }
    bytes
}

/// A number of the header or the list at a limit, or in another form than the shortest.
fn at_limit(draw: &mut Draw) -> Vec<u8> {
    let mut parts = sound(draw);
    let at = draw.below(parts.numbers.len() as u32) as usize;
    let value = match draw.below(4) {
        0 => draw.word(),
        _ => draw.pick(&[0, 1, 2, 3, 4, 5, 7, 8, 9, 15, 16, 17, 31, 32, 127, 128, 16_383, 16_384, 1 << 31, u32::MAX]),
    };
    let mut form = number(value);
    match draw.below(8) {
        // longer than it need be, by one byte or up to ten
        0 => longer(&mut form, 1),
        1 => longer(&mut form, 1 + draw.below(10) as usize),
        // past 32 bits
        2 => form = [255, 255, 255, 255, draw.pick(&[16, 31, 127])].to_vec(),
        3 => form = [vec![255; 5 + draw.below(8) as usize], vec![1]].concat(),
        // with no end
        4 => *form.last_mut().expect("a byte") |= 128,
        _ => {}
    }
    parts.numbers[at] = form;
    parts.bytes()
}

fn longer(form: &mut Vec<u8>, by: usize) {
    for _ in 0..by {
        *form.last_mut().expect("a byte") |= 128;
        form.push(0);
    }
}

/// Two or three inputs behind one another, and one whose header goes with another's list and bits.
fn joined(draw: &mut Draw) -> Vec<u8> {
    let (one, other) = (sound(draw), sound(draw));
    match draw.below(4) {
        0 => [one.bytes(), other.bytes()].concat(),
        1 => [one.bytes(), one.bytes(), other.bytes()].concat(),
        2 => [one.numbers.concat(), other.bits].concat(),
        _ => [one.numbers[..6].concat(), other.numbers[6..].concat(), one.bits].concat(),
    }
}

/// Bytes behind a sound input up to, and past, those that are read.
fn about_limit(draw: &mut Draw) -> Vec<u8> {
    let mut bytes = sound(draw).bytes();
    let length = match draw.below(4) {
        0 => INPUT + draw.below(30_000) as usize,
        1 => INPUT - 1000 + draw.below(2000) as usize,
        _ => INPUT - 2 + draw.below(5) as usize,
    };
    let behind = length.saturating_sub(bytes.len());
    bytes.extend(draw.bytes(behind));
    // A number that goes on to the end of what is read, or past it.
    if draw.below(4) == 0 {
        let at = draw.below(16) as usize;
        bytes[at..].fill(128);
    }
    bytes
}

/// All lists full, with codes of up to 31 data bits: records near the longest, and bits past the input's end.
fn long_codes(film: &mut Film<'_>, mode: u32) {
    if mode == 0 {
        return;
    }
    let partitions = mode_of(mode).map_or(0, |mode| mode.num_motion_vectors());
    film.precision();
    for _ in 0..2 * partitions {
        film.difference();
    }
    // Pattern 47: all that can be coded.
    let all = INTER_CBP_TABLE.iter().position(|&pattern| pattern == 47).expect("a code");
    film.code(all as u32);
    if film.delta_enable {
        film.signed(0);
    }
    for list in 0..16 + 2 + 8 {
        let (book, room) = match list {
            0..16 => (ResidualBook::NormalScan, 16),
            16..18 => (ResidualBook::ChromaDc, 4),
            _ => (ResidualBook::NormalScan, 15),
        };
        for _ in 0..room {
            let code = no_run(film.draw, book);
            film.code(code);
        }
        film.code(0);
    }
}

/// A code of run 0.
fn no_run(draw: &mut Draw, book: ResidualBook) -> u32 {
    loop {
        let code = (draw.word() >> draw.pick(&[0, 0, 0, 0, 8, 24])).clamp(1, u32::MAX - 1);
        if resolve_level_run(book, code).is_some_and(|(_, run)| run == 0) {
            return code;
        }
    }
}
