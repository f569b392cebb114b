//! Drawn films of one picture: every place of the grid in order, and the bits of its macroblocks.

use crate::bits::Bits;
use crate::draw::Draw;
use crate::ours::call_list;
use crate::reader::mode_of;
use crate::run::{Call, Run};
use published::svq3_cbp::INTER_CBP_TABLE;
use published::svq3_coeff::{ResidualBook, resolve_level_run};
use published::svq3_picture::Svq3Picture;

#[derive(Clone, Copy, PartialEq)]
pub enum Kind {
    /// All modes alike; seven vectors of ten in thirds; half of the luma quadrants coded.
    Heavy,
    /// Seven of ten skipped, a quarter moved by whole samples, a twentieth as in a heavy film.
    Light,
    Skip,
}

/// Both flags and the quantiser's delta are on.
const FLAGS: u32 = 3;
const QUANTISER: u32 = 12;

pub struct Film {
    pub run: Run,
    /// the calls in number form
    pub list: Vec<u8>,
}

pub fn film(kind: Kind, columns: usize, rows: usize) -> Film {
    let mut draw = Draw::new(7);
    let mut picture = || {
        let mut picture = Svq3Picture::new(columns, rows);
        picture.luma_mut().fill_with(|| draw.below(256) as u8);
        picture.cb_mut().fill_with(|| draw.below(256) as u8);
        picture.cr_mut().fill_with(|| draw.below(256) as u8);
        picture
    };
    let (reference, picture) = (picture(), picture());
    let mut writer = Writer { bits: Bits::default(), draw };
    let (mut calls, mut listed) = (Vec::new(), Vec::new());
    for place in 0..columns * rows {
        let mode = match (kind, writer.draw.below(20)) {
            (Kind::Heavy, _) => writer.heavy(),
            (Kind::Light, 19) => writer.heavy(),
            (Kind::Light, 14..) => writer.whole(),
            _ => 0,
        };
        let (column, row) = ((place % columns) as u32, (place / columns) as u32);
        listed.push([column, row, mode]);
        calls.push(Call { column, row, mode: mode_of(mode).expect("a mode") });
    }
    let cells = 16 * columns * rows;
    let run = Run {
        columns,
        rows,
        half: FLAGS & 1 == 1,
        third: FLAGS & 2 == 2,
        delta_enable: true,
        quantiser: QUANTISER,
        reference: Some(reference),
        picture,
        vectors: vec![(0, 0); cells],
        marks: vec![0; cells],
        bits: writer.bits.bytes(),
        place: 0,
        calls,
    };
    Film { run, list: call_list(&listed) }
}

struct Writer {
    bits: Bits,
    draw: Draw,
}

impl Writer {
    fn code(&mut self, k: u32) {
        self.bits = std::mem::take(&mut self.bits).code(k);
    }

    fn signed(&mut self, value: i32) {
        self.code(if value > 0 { 2 * value.unsigned_abs() - 1 } else { 2 * value.unsigned_abs() });
    }

    /// A macroblock of any mode; answers the mode.
    fn heavy(&mut self) -> u32 {
        let mode = self.draw.below(8);
        if mode == 0 {
            return mode;
        }
        // With both flags on: 0 third, 10 half, 11 full.
        match self.draw.below(20) {
            0..14 => self.bits.0.push(false),
            14..17 => self.bits.0.extend([true, false]),
            _ => self.bits.0.extend([true, true]),
        }
        for _ in 0..2 * mode_of(mode).map_or(0, |mode| mode.num_motion_vectors()) {
            let difference = self.draw.between(-9, 9);
            self.signed(difference);
        }
        let pattern = self.draw.below(48) as u8;
        self.pattern(pattern);
        if pattern != 0 {
            self.signed(0);
        }
        self.lists(pattern);
        mode
    }

    /// A macroblock moved by whole samples, with no levels.
    fn whole(&mut self) -> u32 {
        self.bits.0.extend([true, true]);
        for _ in 0..2 {
            let difference = self.draw.between(-2, 2);
            self.signed(difference);
        }
        self.pattern(0);
        1
    }

    fn pattern(&mut self, pattern: u8) {
        let code = INTER_CBP_TABLE.iter().position(|&listed| listed == pattern);
        self.code(code.expect("a pattern") as u32);
    }

    fn lists(&mut self, pattern: u8) {
        let class = pattern / 16;
        for _ in 0..4 * (pattern % 16).count_ones() {
            self.list(ResidualBook::NormalScan, 16);
        }
        for _ in 0..if class > 0 { 2 } else { 0 } {
            self.list(ResidualBook::ChromaDc, 4);
        }
        for _ in 0..if class == 2 { 8 } else { 0 } {
            self.list(ResidualBook::NormalScan, 15);
        }
    }

    /// One to five levels, as far as they have room.
    fn list(&mut self, book: ResidualBook, mut room: u32) {
        for _ in 0..1 + self.draw.below(5) {
            let code = 1 + self.draw.below(10);
            let taken = resolve_level_run(book, code).map_or(0, |(_, run)| run + 1);
            if taken <= room {
                self.code(code);
                room -= taken;
            }
        }
        self.code(0);
    }
}
