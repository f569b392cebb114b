//! The fixed list of macroblocks: every mode, flag, pattern and refusal, from sound and hostile states.

use crate::bits::Bits;
use crate::draw::Draw;
use crate::macroblock::{Answer, Case, Macroblock};
use crate::reader::mode_of;
use crate::run_list::Film;
use crate::start::Start;
use published::svq3_cbp::INTER_CBP_TABLE;
use published::svq3_coeff::{ResidualBook, resolve_level_run};

pub const GRIDS: [(usize, usize); 8] = [(1, 1), (2, 1), (1, 2), (2, 2), (3, 1), (1, 3), (3, 2), (2, 3)];

pub fn cases() -> Vec<Case> {
    let mut draw = Draw::new(3);
    let state = Start::drawn(&mut draw, 1, 1);
    let mut list = List { draw, all: Vec::new(), state, asked: 0, refused: [0; 16] };
    list.patterns();
    list.hostile();
    list.skips();
    list.cut();
    list.long_codes();
    list.pattern_codes();
    list.quantisers();
    list.level_positions();
    list.questions();
    list.largest();
    list.drawn();
    assert!((1..14).all(|number| list.refused[number] > 0), "{:?}", list.refused);
    list.all
}

struct List {
    draw: Draw,
    all: Vec<Case>,
    state: Start,
    asked: usize,
    refused: [usize; 16],
}

impl List {
    fn new_start(&mut self) {
        let (columns, rows) = GRIDS[self.all.len() % 8];
        self.state = Start::drawn(&mut self.draw, columns, rows);
        self.state.draw_cells(&mut self.draw);
        self.all.push(Case::Start(self.state.clone()));
    }

    fn new_cells(&mut self) {
        self.state.draw_cells(&mut self.draw);
        self.all.push(Case::Cells(self.state.clone()));
    }

    /// A new start now and then, new vectors and marks more often.
    fn refresh(&mut self) {
        match self.asked {
            n if n % 30 == 0 => self.new_start(),
            n if n % 5 == 0 => self.new_cells(),
            _ => {}
        }
    }

    fn put(&mut self, mut m: Macroblock) {
        m.thin = self.asked % 3 == 1;
        m.answer = m.ask();
        match &m.answer {
            Answer::Accepted { after, .. } => self.state = Start::clone(after),
            Answer::Refused { number, .. } => self.refused[*number as usize] += 1,
        }
        self.asked += 1;
        self.all.push(Case::Macroblock(Box::new(m)));
    }

    fn place_in_grid(&mut self) -> (u32, u32) {
        (self.draw.below(self.state.columns as u32), self.draw.below(self.state.rows as u32))
    }

    /// A call at a drawn place of the grid, with bits, in a transcript with just the room or a little more.
    fn call(&mut self, flags: u32, quantiser: u32, mode: u32, bits: Vec<u8>, place: u64) -> Macroblock {
        let (column, row) = self.place_in_grid();
        let mut m = Macroblock::plain(&self.state, flags, quantiser, [column, row, mode], bits, place);
        m.fill = self.draw.below(40) as usize;
        m.room = m.fill + 2089 + self.draw.below(3) as usize;
        m
    }

    /// Bits of a macroblock up to its pattern, from a drawn place on; `difference` draws the components.
    fn motion(&mut self, flags: u32, mode: u32, difference: fn(&mut Draw) -> i32) -> (Bits, u64) {
        let place = self.draw.below(20) as usize;
        let bits = Bits::drawn(&mut self.draw, place);
        let mut film =
            Film { flags: flags & 3, delta_enable: flags & 4 == 4, quantiser: 0, bits, draw: &mut self.draw };
        film.precision();
        for _ in 0..2 * mode_of(mode).expect("a mode").num_motion_vectors() {
            let value = difference(film.draw);
            film.signed(value);
        }
        (film.bits, place as u64)
    }

    fn residual(&mut self, flags: u32, quantiser: u32, bits: Bits, code: u32) -> Bits {
        let quantiser = quantiser as i32;
        let mut film = Film { flags: flags & 3, delta_enable: flags & 4 == 4, quantiser, bits, draw: &mut self.draw };
        film.residual(code);
        film.bits
    }

    /// Up to two bytes that the macroblock does not read.
    fn closed(&mut self, bits: Bits) -> Vec<u8> {
        let more = self.draw.below(17) as usize;
        bits.then(&Bits::drawn(&mut self.draw, more)).bytes()
    }

    fn sound(&mut self, flags: u32, quantiser: u32, mode: u32, code: u32, difference: fn(&mut Draw) -> i32) {
        self.refresh();
        let (bits, place) = self.motion(flags, mode, difference);
        let bits = self.residual(flags, quantiser, bits, code);
        let bits = self.closed(bits);
        let m = self.call(flags, quantiser, mode, bits, place);
        self.put(m);
    }

    /// Every mode with every pattern; flags and delta-enable go round.
    fn patterns(&mut self) {
        for mode in 1..8 {
            for code in 0..48 {
                let (flags, quantiser) = ((mode + code) % 8, self.draw.below(32));
                self.sound(flags, quantiser, mode, code, near);
            }
        }
        // Every quantiser, luma and chroma both.
        for quantiser in 0..32 {
            self.sound(quantiser % 4, quantiser, 1, 15, near);
            self.sound(quantiser % 4, quantiser, 2, 2 + quantiser % 46, near);
        }
    }

    /// Differences and vectors about the limits of 32 bits: sums and products saturate.
    fn hostile(&mut self) {
        for turn in 0..280 {
            let (mode, quantiser) = (1 + turn % 7, self.draw.below(32));
            let code = if turn % 4 == 3 { self.draw.below(48) } else { 0 };
            self.sound(turn / 7 % 8, quantiser, mode, code, if turn % 2 == 0 { far } else { farthest });
        }
    }

    /// Copies, also with no bit left and with no bits at all.
    fn skips(&mut self) {
        for turn in 0..60 {
            self.refresh();
            let bytes = self.draw.below(4) as usize;
            let bits = self.draw.bytes(bytes);
            let place = if turn % 2 == 0 { 8 * bytes as u64 } else { 0 };
            let quantiser = self.draw.below(32);
            let m = self.call(turn % 8, quantiser, 0, bits, place);
            self.put(m);
        }
    }

    /// The bits of one macroblock up to a length, as the last of the slice.
    fn cut_at(&mut self, flags: u32, quantiser: u32, mode: u32, bits: &Bits, length: usize) {
        self.refresh();
        let (bytes, place) = bits.first(length).at_end(&mut self.draw);
        let m = self.call(flags, quantiser, mode, bytes, place);
        self.put(m);
    }

    /// Cut at every bit: 9 before the end, accepted at it.
    fn cut(&mut self) {
        for (flags, mode, code) in [(7, 1, 20), (3, 2, 2), (6, 4, 3), (5, 7, 0)] {
            let place = self.motion(flags, mode, near);
            let bits = Bits(place.0.0[place.1 as usize..].to_vec());
            let bits = self.residual(flags, 9, bits, code);
            let step = 1 + bits.len() / 60;
            for length in (0..bits.len()).step_by(step).chain([bits.len() - 1, bits.len()]) {
                self.cut_at(flags, 9, mode, &bits, length);
            }
        }
    }

    /// A code of 32 data bits wherever one is read: 10; with 31 and a 0 behind and no more, 10 too.
    fn long_codes(&mut self) {
        let long = |bits: Bits, draw: &mut Draw| {
            let data: Vec<bool> = (0..31).map(|_| draw.bit()).collect();
            let mut bits = bits.unended(&data);
            bits.0.push(false);
            let more = draw.below(30) as usize;
            bits.then(&Bits::drawn(draw, more))
        };
        for turn in 0..48 {
            self.refresh();
            let (flags, mode) = (turn % 8, 1 + turn % 7);
            let mut place = self.draw.below(9) as usize;
            let mut bits = Bits::drawn(&mut self.draw, place);
            // In a vector, in the pattern, in the delta or a level.
            if turn % 3 == 0 {
                let draw = &mut self.draw;
                let mut film = Film { flags: flags & 3, delta_enable: false, quantiser: 0, bits, draw };
                film.precision();
                for _ in 0..film.draw.below(2 * mode_of(mode).expect("a mode").num_motion_vectors()) {
                    film.signed(1);
                }
                bits = film.bits;
            } else {
                let motion = self.motion(flags, mode, near);
                (bits, place) = (motion.0, motion.1 as usize);
                if turn % 3 == 2 {
                    bits = bits.code(2 + turn % 40);
                }
            }
            let bits = long(bits, &mut self.draw).bytes();
            let m = self.call(flags, 7, mode, bits, place as u64);
            self.put(m);
        }
    }

    /// Pattern codes with no entry: 11.
    fn pattern_codes(&mut self) {
        for code in [48, 49, 50, 63, 64, 255, 256, 65_535, 1 << 20, i32::MAX as u32, 1 << 31, u32::MAX - 1] {
            self.refresh();
            let (flags, mode) = (self.draw.below(8), 1 + self.draw.below(7));
            let (bits, place) = self.motion(flags, mode, near);
            let bits = self.closed(bits.code(code));
            let m = self.call(flags, 3, mode, bits, place);
            self.put(m);
        }
    }

    /// Every quantiser with a delta to each side of the range, and as far as a code goes: 12.
    fn quantisers(&mut self) {
        for quantiser in 0..32 {
            let q = quantiser as i32;
            for delta in [-q - 1, -q, 31 - q, 32 - q, -i32::MAX, i32::MAX] {
                if delta.abs() > 99 && quantiser % 8 != 0 && quantiser != 31 {
                    continue;
                }
                self.refresh();
                let (flags, mode) = (4 + self.draw.below(4), 1 + self.draw.below(4));
                let (bits, place) = self.motion(flags, mode, near);
                let code = self.draw.pick(&[2, 3, 5]);
                let mut film = Film { flags: flags & 3, delta_enable: true, quantiser: 0, bits, draw: &mut self.draw };
                film.code(code);
                film.signed(delta);
                film.lists(INTER_CBP_TABLE[code as usize]);
                let bits = film.bits;
                let bits = self.closed(bits);
                let m = self.call(flags, quantiser, mode, bits, place);
                self.put(m);
            }
        }
    }

    /// Runs that leave their list at every position: 13.
    fn level_positions(&mut self) {
        for turn in 0..48 {
            self.refresh();
            let (flags, mode) = (self.draw.below(4), 1 + self.draw.below(7));
            let (bits, place) = self.motion(flags, mode, near);
            let mut bits = bits.code(15);
            // Luma, chroma DC or chroma AC, by how many lists end before; a full list and a level more, or runs.
            let lists = self.draw.pick(&[0, 3, 15, 16, 17, 18, 20, 25]);
            for _ in 0..lists {
                bits = bits.code(0);
            }
            for _ in 0..1 + self.draw.below(17) {
                bits = bits.code(1 + self.draw.below(if turn % 3 == 0 { 2 } else { 60 }));
            }
            let bits = self.closed(bits.code(0));
            let m = self.call(flags, 11, mode, bits, place);
            self.put(m);
        }
    }

    /// Records about as long as they can be: every level that there is, as large as a code goes.
    fn largest(&mut self) {
        for (turn, top) in [u32::MAX - 1, u32::MAX - 17, 1 << 31, 1 << 25].into_iter().enumerate() {
            self.refresh();
            let (bits, place) = self.motion(3, 7, farthest);
            let mut bits = bits.code(INTER_CBP_TABLE.iter().position(|&pattern| pattern == 47).expect("47") as u32);
            for list in 0..26 {
                let (book, room) = match list {
                    0..16 => (ResidualBook::NormalScan, 16),
                    16..18 => (ResidualBook::ChromaDc, 4),
                    _ => (ResidualBook::NormalScan, 15),
                };
                for i in 0..room {
                    let code = (0..64)
                        .map(|n| top - 2 * i - n)
                        .find(|&code| resolve_level_run(book, code).is_some_and(|(_, run)| run == 0));
                    bits = bits.code(code.expect("a code without a run"));
                }
                bits = bits.code(0);
            }
            let bits = self.closed(bits);
            let m = self.call(3, 8 * turn as u32, 7, bits, place);
            self.put(m);
        }
    }

    /// Questions 1 to 8, each broken alone and some together.
    fn questions(&mut self) {
        for mode in [0, 1, 4] {
            self.new_start();
            let (bits, place) = self.motion(0, mode, near);
            let bits = self.closed(bits.code(0));
            let sound = self.call(0, 5, mode, bits, place);
            self.questions_of(&sound);
        }
        for turn in 0..60 {
            self.refresh();
            let (bits, place) = self.motion(0, 1, near);
            let bits = self.closed(bits.code(0));
            let mut m = self.call(turn % 8, 5, 1, bits, place);
            for _ in 0..2 {
                self.spoil(&mut m);
            }
            self.put(m);
        }
    }

    fn spoil(&mut self, m: &mut Macroblock) {
        let which = self.draw.below(8) as usize;
        match self.draw.below(8) {
            0 => m.lent.grid = (self.draw.pick(&[0, 4097, u32::MAX, 1]), self.draw.pick(&[1, 0, 4097])),
            1 | 2 => m.lent.lengths[which] = m.lent.lengths[which] * self.draw.below(2) as usize / 2,
            3 => m.lent.lengths[5..].fill(0),
            4 => m.call[self.draw.below(3) as usize] = 8,
            5 => m.lent.quantiser = 32,
            6 => m.lent.place = 8 * m.bits.len() as u64 + 1,
            _ => m.room = m.fill + 2088,
        }
    }

    fn questions_of(&mut self, sound: &Macroblock) {
        let mut all = vec![sound.clone()];
        let mut with = |change: &dyn Fn(&mut Macroblock)| {
            let mut m = sound.clone();
            change(&mut m);
            all.push(m);
        };
        for side in [0, 4097, u32::MAX] {
            with(&|m| m.lent.grid.0 = side);
            with(&|m| m.lent.grid.1 = side);
        }
        // A grid that is right, of another size than what is lent.
        with(&|m| m.lent.grid.0 += 1);
        with(&|m| m.lent.grid.1 = 4096);
        for which in 0..8 {
            with(&|m| m.lent.lengths[which] -= 1);
            with(&|m| m.lent.lengths[which] += 1);
            with(&|m| m.lent.lengths[which] = 0);
        }
        with(&|m| m.lent.lengths[5..].fill(0));
        with(&|m| m.lent.lengths[6..].fill(0));
        for far in [0, 1, u32::MAX] {
            with(&|m| m.call[0] = (m.start.columns as u32).saturating_add(far));
            with(&|m| m.call[1] = (m.start.rows as u32).saturating_add(far));
            with(&|m| m.call[2] = 8u32.saturating_add(far));
            with(&|m| m.lent.quantiser = 32u32.saturating_add(far));
            with(&|m| m.lent.place = (8 * m.bits.len() as u64 + 1).saturating_add(far.into()));
        }
        with(&|m| m.lent.place = 8 * m.bits.len() as u64);
        with(&|m| m.lent.place = u64::MAX);
        with(&|m| m.lent.place = 1 << 61);
        for (room, fill) in [(2088, 0), (2089, 0), (2089, 1), (2094, 5), (2093, 5), (0, 0), (5, 9), (4000, 4001)] {
            with(&|m| (m.room, m.fill) = (room, fill));
        }
        for m in all {
            let mut m = m;
            m.start = self.state.clone();
            self.put(m);
        }
    }

    /// Whole films on one slice of bits, each macroblock where the last ended, some of them damaged.
    fn drawn(&mut self) {
        while self.asked < 1900 {
            self.refresh();
            let (flags, quantiser) = (self.draw.below(8), self.draw.below(32));
            let from = self.draw.below(20) as usize;
            let modes: Vec<u32> = (0..1 + self.draw.below(4)).map(|_| self.draw.below(8)).collect();
            let bits = Bits::drawn(&mut self.draw, from);
            let mut film = Film {
                flags: flags & 3,
                delta_enable: flags & 4 == 4,
                quantiser: quantiser as i32,
                bits,
                draw: &mut self.draw,
            };
            for &mode in &modes {
                film.macroblock(mode);
            }
            film.damage(from);
            let bits = film.bits.bytes();
            let (mut place, mut quantiser) = (from as u64, quantiser);
            for mode in modes {
                let m = self.call(flags, quantiser, mode, bits.clone(), place);
                self.put(m);
                if let Some(Case::Macroblock(m)) = self.all.last()
                    && let Answer::Accepted { place: p, quantiser: q, .. } = &m.answer
                {
                    (place, quantiser) = (*p, *q);
                }
            }
        }
    }
}

fn near(draw: &mut Draw) -> i32 {
    if draw.below(8) == 0 { draw.between(-300, 300) } else { draw.between(-9, 9) }
}

/// About a limit of 32 bits, or of one of the products.
pub fn far(draw: &mut Draw) -> i32 {
    let limit = draw.pick(&[i32::MAX, i32::MAX / 2, i32::MAX / 3, i32::MAX / 6]);
    let value = limit.saturating_add(draw.between(-3, 3));
    if draw.bit() { value } else { -value }
}

fn farthest(draw: &mut Draw) -> i32 {
    match draw.below(3) {
        0 => draw.pick(&[i32::MAX, -i32::MAX]),
        1 => (draw.word() as i32).max(-i32::MAX),
        _ => near(draw),
    }
}
