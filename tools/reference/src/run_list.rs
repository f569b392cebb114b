//! Drawn runs as queries: whole films of a few macroblocks, most of them sound, some damaged.

use crate::bits::Bits;
use crate::draw::Draw;
use crate::reader::mode_of;
use crate::text::{hex, join};
use published::svq3_cbp::INTER_CBP_TABLE;
use published::svq3_coeff::{ResidualBook, resolve_level_run};

/// `count` query lines, the same for the same seed.
pub fn queries(count: usize, seed: u32) -> String {
    let mut draw = Draw::new(seed);
    (0..count).map(|_| query(&mut draw) + "\n").collect()
}

fn query(draw: &mut Draw) -> String {
    let (columns, rows) = (1 + draw.below(3), 1 + draw.below(3));
    let (flags, delta_enable, quantiser) = (draw.below(4), draw.bit(), draw.below(32));
    let count = draw.below(9);
    let calls: Vec<[u32; 3]> = (0..count).map(|_| [draw.below(columns), draw.below(rows), draw.below(8)]).collect();
    let place = draw.below(20) as usize;
    let mut film = Film { flags, delta_enable, quantiser: quantiser as i32, bits: Bits::drawn(draw, place), draw };
    for call in &calls {
        film.macroblock(call[2]);
    }
    film.damage(place);
    let bits = film.bits.bytes();
    let cells = 16 * columns * rows;
    let start = [
        if draw.below(20) == 0 { "none".into() } else { format!("seed:{}", draw.word()) },
        format!("seed:{}", draw.word()),
        vectors(draw, cells),
        marks(draw, cells),
    ];
    let calls = join(calls.iter().map(|call| join(call, ",")), ";");
    let calls = if calls.is_empty() { "-" } else { &calls };
    let head = [columns, rows, flags, delta_enable.into(), quantiser];
    format!("run {} {} {} {place} {calls}", join(head, " "), join(start, " "), hex(&bits))
}

pub fn vectors(draw: &mut Draw, cells: u32) -> String {
    match draw.below(3) {
        0 => "zero".into(),
        1 => format!("seed:{}", draw.word()),
        _ => join((0..2 * cells).map(|_| component(draw)), ","),
    }
}

/// A stored component: small, anywhere, or at a limit.
pub fn component(draw: &mut Draw) -> i32 {
    match draw.below(4) {
        0 => draw.word() as i32,
        1 => draw.pick(&[i32::MIN, i32::MIN + 1, -1, 0, 1, i32::MAX - 1, i32::MAX]),
        _ => draw.between(-200, 200),
    }
}

pub fn marks(draw: &mut Draw, cells: u32) -> String {
    match draw.below(4) {
        0 => "fill:0".into(),
        1 => "fill:1".into(),
        2 => format!("seed:{}", draw.word()),
        _ => hex(&(0..cells).map(|_| draw.pick(&[0, 1, 5, 255])).collect::<Vec<u8>>()),
    }
}

/// Bits as they are written, and the quantiser that they lead to.
pub struct Film<'a> {
    pub flags: u32,
    pub delta_enable: bool,
    pub quantiser: i32,
    pub bits: Bits,
    pub draw: &'a mut Draw,
}

impl Film<'_> {
    pub fn code(&mut self, k: u32) {
        self.bits = std::mem::take(&mut self.bits).code(k);
    }

    pub fn signed(&mut self, value: i32) {
        self.code(if value > 0 { 2 * value.unsigned_abs() - 1 } else { 2 * value.unsigned_abs() });
    }

    pub fn macroblock(&mut self, mode: u32) {
        if mode == 0 {
            return;
        }
        self.precision();
        for _ in 0..mode_of(mode).map_or(0, |mode| mode.num_motion_vectors()) {
            self.difference();
            self.difference();
        }
        let most = if self.draw.below(60) == 0 { 60 } else { 48 };
        let code = self.draw.below(most);
        self.residual(code);
    }

    /// A pattern's code and what it asks for.
    pub fn residual(&mut self, code: u32) {
        self.code(code);
        let pattern = INTER_CBP_TABLE.get(code as usize).copied().unwrap_or(0);
        if pattern != 0 && self.delta_enable {
            self.delta();
        }
        self.lists(pattern);
    }

    /// The selector: no bit without a flag, and a second one only behind a 1 with both flags.
    pub fn precision(&mut self) {
        let (first, second) = (self.draw.bit(), self.draw.bit());
        match self.flags {
            0 => {}
            3 if first => self.bits.0.extend([first, second]),
            _ => self.bits.0.push(first),
        }
    }

    /// A difference up to a limit of 32 bits, mostly small.
    pub fn difference(&mut self) {
        let value = match self.draw.below(40) {
            0 => self.draw.pick(&[-i32::MAX, 1 - i32::MAX, i32::MAX - 1, i32::MAX]),
            1 => (self.draw.word() as i32).max(-i32::MAX),
            2..6 => self.draw.between(-400, 400),
            _ => self.draw.between(-12, 12),
        };
        self.signed(value);
    }

    /// To a quantiser in range, mostly; else just past it or as far as a code goes.
    pub fn delta(&mut self) {
        let delta = match self.draw.below(40) {
            0 => self.draw.pick(&[-1 - self.quantiser, 32 - self.quantiser, -i32::MAX, i32::MAX, i32::MAX - 9]),
            1..10 => 0,
            _ => self.draw.between(0, 31) - self.quantiser,
        };
        self.signed(delta);
        self.quantiser = self.quantiser.saturating_add(delta).clamp(0, 31);
    }

    pub fn lists(&mut self, pattern: u8) {
        let class = pattern / 16;
        for _ in 0..4 * (pattern % 16).count_ones() {
            self.list(ResidualBook::NormalScan, 16);
        }
        for _ in 0..if class > 0 { 2 } else { 0 } {
            self.list(ResidualBook::ChromaDc, 4);
        }
        for _ in 0..if class == 2 { 8 } else { 0 } {
            self.list(ResidualBook::NormalScan, 15);
        }
    }

    /// Some levels within a list's room, seldom one past it, and the end code.
    pub fn list(&mut self, book: ResidualBook, mut room: u32) {
        let most = if self.draw.below(20) == 0 { 17 } else { 4 };
        for _ in 0..self.draw.below(most) {
            let code = match self.draw.below(60) {
                0 => self.draw.word().clamp(1, u32::MAX - 1),
                1..8 => 1 + self.draw.below(200),
                _ => 1 + self.draw.below(10),
            };
            let taken = resolve_level_run(book, code).map_or(0, |(_, run)| run + 1);
            if taken <= room || self.draw.below(300) == 0 {
                self.code(code);
                room = room.saturating_sub(taken);
            }
        }
        self.code(0);
    }

    /// One film in six ends early, has a bit turned, or goes on with bits that nobody wrote.
    pub fn damage(&mut self, from: usize) {
        let length = self.bits.len();
        if length == from {
            return;
        }
        let at = from + self.draw.below((length - from) as u32) as usize;
        match self.draw.below(18) {
            0 => self.bits.0.truncate(at),
            1 => self.bits.0[at] ^= true,
            2 => {
                self.bits.0.truncate(at);
                let more = Bits::drawn(self.draw, 200);
                self.bits = std::mem::take(&mut self.bits).then(&more);
            }
            _ => {}
        }
    }
}
