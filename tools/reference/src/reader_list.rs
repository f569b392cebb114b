//! The fixed list of reader questions: document 01's "Bit codes", precision bits and partitions.

use crate::bits::Bits;
use crate::draw::Draw;
use crate::reader::{Kind, Question};

/// Data bits that make the ends of a length's range: all 0, all 1, drawn.
const FILLS: [Option<bool>; 3] = [Some(false), Some(true), None];

/// The largest code, 2^32 - 2: 31 data bits, all 1.
const LAST: u32 = u32::MAX - 1;

pub fn questions() -> Vec<Question> {
    let mut list = List { draw: Draw::new(1), all: Vec::new() };
    list.codes();
    list.signed();
    list.precisions();
    list.patterns();
    list.levels();
    list.residual_lists(0);
    list.residual_lists(1);
    list.chroma_lists();
    list.partitions();
    list.all
}

struct List {
    draw: Draw,
    all: Vec<Question>,
}

/// A code of `n` data bits with this fill: 2^n - 1 and the data above it.
fn code_of(n: u32, fill: Option<bool>, draw: &mut Draw) -> u32 {
    let data = match fill {
        Some(false) => 0,
        Some(true) => (1 << n) - 1,
        None => draw.word() & ((1 << n) - 1),
    };
    (1u32 << n) - 1 + data
}

/// Codes one behind the other, closed by the end code where `ended`.
fn list_of(codes: &[u32], ended: bool) -> Bits {
    let bits = codes.iter().fold(Bits::default(), |bits, &code| bits.code(code));
    if ended { bits.code(0) } else { bits }
}

/// A code of the normal book with that run: the first escape with it, raised by `step` levels, + or -.
fn normal_escape(run: u32, step: u32, negative: bool) -> u32 {
    // 31 and 32 have run 0; each pair of codes the next run, and 16 runs later the next level.
    31 + 32 * step + 2 * run + u32::from(negative)
}

/// A code of the chroma DC book with that run: run 0 escapes at 23, and each pair of codes has the next run.
fn chroma_escape(run: u32, step: u32, negative: bool) -> u32 {
    23 + 8 * step + 2 * run + u32::from(negative)
}

impl List {
    /// The bits at a drawn offset below 8.
    fn ask(&mut self, kind: Kind, bits: &Bits) {
        let offset = self.draw.below(8) as usize;
        self.ask_at(kind, bits, offset);
    }

    fn ask_at(&mut self, kind: Kind, bits: &Bits, offset: usize) {
        let given = bits.at(offset, &mut self.draw);
        self.all.push(Question::new(kind, given));
    }

    /// The bits cut at every length below their own, as the last of their slice.
    fn ask_cut(&mut self, kind: Kind, bits: &Bits) {
        for length in 0..bits.len() {
            let given = bits.first(length).at_end(&mut self.draw);
            self.all.push(Question::new(kind, given));
        }
    }

    /// Places at the end of the bits and past it, up to the last that 64 bits hold.
    fn ask_past(&mut self, kind: Kind, lengths: &[usize]) {
        for &length in lengths {
            let bits = self.draw.bytes(length);
            let end = 8 * length as u64;
            let far = [1 << 31, 1 << 32, 1 << 61, (1 << 63) - 1, 1 << 63, u64::MAX];
            for place in [end, end + 1, end + 7, end + 8].into_iter().chain(far) {
                self.all.push(Question::new(kind, (bits.clone(), place)));
            }
        }
    }

    /// 31 data bits and a marker 0 behind them, with and without a bit to follow.
    fn ask_long(&mut self, kind: Kind, before: &Bits) {
        for fill in FILLS {
            let data: Vec<bool> = (0..31).map(|_| fill.unwrap_or_else(|| self.draw.bit())).collect();
            let long = before.clone().unended(&data).then(&Bits(vec![false]));
            self.ask(kind, &long);
            let given = long.at_end(&mut self.draw);
            self.all.push(Question::new(kind, given));
        }
    }

    fn codes(&mut self) {
        for n in 0..=31 {
            for &fill in &FILLS[..if n == 0 { 1 } else { 3 }] {
                for offset in 0..8 {
                    let code = code_of(n, fill, &mut self.draw);
                    self.ask_at(Kind::Code, &list_of(&[code], false), offset);
                }
            }
            let code = code_of(n, None, &mut self.draw);
            self.ask_cut(Kind::Code, &list_of(&[code], false));
        }
        for _ in 0..4 {
            self.ask_long(Kind::Code, &Bits::default());
        }
        self.ask_past(Kind::Code, &[0, 1, 2, 5]);
        // Any bits at any place: mostly short codes.
        for _ in 0..100 {
            let length = 1 + self.draw.below(12);
            let bits = self.draw.bytes(length as usize);
            let place = self.draw.below(8 * length).into();
            self.all.push(Question::new(Kind::Code, (bits, place)));
        }
    }

    fn signed(&mut self) {
        for code in (0..=40).chain(LAST - 7..=LAST) {
            self.ask(Kind::Signed, &list_of(&[code], false));
        }
        for n in 1..=31 {
            for fill in FILLS {
                let code = code_of(n, fill, &mut self.draw);
                self.ask(Kind::Signed, &list_of(&[code], false));
            }
        }
        for code in [1, 6, 1000, LAST] {
            self.ask_cut(Kind::Signed, &list_of(&[code], false));
        }
        self.ask_long(Kind::Signed, &Bits::default());
        self.ask_past(Kind::Signed, &[0]);
    }

    fn precisions(&mut self) {
        for (half, third) in [(false, false), (true, false), (false, true), (true, true)] {
            let kind = Kind::Precision { half, third };
            for offset in 0..8 {
                for two in [[false, false], [false, true], [true, false], [true, true]] {
                    self.ask_at(kind, &Bits(two.to_vec()), offset);
                }
            }
            // One bit left of a slice, then none.
            for last in [false, true] {
                self.ask_cut(kind, &Bits(vec![last, last]));
            }
            self.ask_past(kind, &[0, 2]);
        }
    }

    fn patterns(&mut self) {
        for code in (0..48).chain(0..48).chain(48..64).chain([100, 1 << 16, i32::MAX as u32, LAST - 1, LAST]) {
            self.ask(Kind::Pattern, &list_of(&[code], false));
        }
        for code in [12, 47, 48] {
            self.ask_cut(Kind::Pattern, &list_of(&[code], false));
        }
        self.ask_long(Kind::Pattern, &Bits::default());
        self.ask_past(Kind::Pattern, &[0]);
    }

    /// By code: each table, its first escapes of every run, and as many in the middle and at the end of the codes.
    fn levels(&mut self) {
        for (chroma, tabled, cycle) in [(false, 31, 32), (true, 23, 8)] {
            let kind = Kind::Level { chroma };
            let first = 0..tabled + 2 * cycle;
            let middle = [1 << 16, 1 << 24, 1 << 31].into_iter().flat_map(|code| code..code + cycle);
            for code in first.chain(middle).chain(LAST - cycle + 1..=LAST) {
                self.all.push(Question::of(kind, code.into()));
            }
        }
    }

    fn residual_lists(&mut self, start: u8) {
        let kind = Kind::List { start };
        let room = 16 - u32::from(start);
        self.ask(kind, &list_of(&[], true));
        // One level: every table entry and the first escape of every run, then large ones of every run.
        for code in 1..=62 {
            self.ask(kind, &list_of(&[code], true));
        }
        for run in 0..16 {
            for negative in [false, true] {
                let step = self.draw.word() >> 6;
                self.ask(kind, &list_of(&[normal_escape(run, step, negative)], true));
                let last = (1 << 27) - 2;
                self.ask(kind, &list_of(&[normal_escape(run, last, negative)], true));
            }
        }
        for _ in 0..20 {
            self.full_list(kind, room);
        }
        for _ in 0..50 {
            self.mixed_list(kind, false, 16, start.into());
        }
        for run in 0..16 {
            self.past_full(kind, room, normal_escape(run, 0, run % 2 == 0));
            self.past_middle(kind, start, run);
        }
        for _ in 0..3 {
            let codes: Vec<u32> = (0..4).map(|_| 1 + self.draw.below(12)).collect();
            self.ask_cut(kind, &list_of(&codes, true));
        }
        let full: Vec<u32> = (0..room).map(|_| 1 + self.draw.below(2)).collect();
        self.ask_cut(kind, &list_of(&full, true));
        self.ask_long(kind, &list_of(&[1, 4], false));
        self.ask_past(kind, &[0]);
    }

    fn chroma_lists(&mut self) {
        let kind = Kind::ChromaDc;
        self.ask(kind, &list_of(&[], true));
        for code in 1..=38 {
            self.ask(kind, &list_of(&[code], true));
        }
        for run in 0..4 {
            for negative in [false, true] {
                for step in [self.draw.word() >> 4, (1 << 29) - 4] {
                    self.ask(kind, &list_of(&[chroma_escape(run, step, negative)], true));
                }
            }
        }
        for _ in 0..20 {
            self.full_list(kind, 4);
        }
        for _ in 0..60 {
            self.mixed_list(kind, true, 4, 0);
        }
        for run in 0..4 {
            for negative in [false, true] {
                self.past_full(kind, 4, chroma_escape(run, 0, negative));
                for before in 1..4 {
                    let mut codes = vec![1; before];
                    codes.push(chroma_escape(run, before as u32, negative));
                    self.ask(kind, &list_of(&codes, true));
                }
            }
        }
        for codes in [vec![5], vec![1, 2, 3, 4], vec![23, 11], vec![40, 1]] {
            self.ask_cut(kind, &list_of(&codes, true));
        }
        self.ask_long(kind, &list_of(&[3], false));
        self.ask_past(kind, &[0]);
    }

    /// Every position holds a level, and the end code follows.
    fn full_list(&mut self, kind: Kind, room: u32) {
        // The codes of run 0 in both books.
        let codes: Vec<u32> = (0..room).map(|_| self.draw.pick(&[1, 2, 7, 8])).collect();
        self.ask(kind, &list_of(&codes, true));
    }

    /// Every position holds a level, and one more comes.
    fn past_full(&mut self, kind: Kind, room: u32, code: u32) {
        let mut codes = vec![1; room as usize];
        codes.push(code);
        self.ask(kind, &list_of(&codes, true));
    }

    /// Some positions hold a level, and a run leads past the last.
    fn past_middle(&mut self, kind: Kind, start: u8, run: u32) {
        for back in 1..=run.min(4) {
            let levels = 16 - i64::from(start) - i64::from(back);
            let mut codes = vec![2; levels as usize];
            codes.push(normal_escape(run, back, back % 2 == 0));
            self.ask(kind, &list_of(&codes, true));
        }
    }

    /// Drawn codes while they stay within `length` positions, then the end.
    fn mixed_list(&mut self, kind: Kind, chroma: bool, length: u32, start: u32) {
        let (mut codes, mut position) = (Vec::new(), start);
        for _ in 0..1 + self.draw.below(8) {
            let run = self.draw.below(length.min(6));
            if position + run >= length {
                break;
            }
            let (step, negative) = (self.draw.below(40), self.draw.bit());
            codes.push(if chroma { chroma_escape(run, step, negative) } else { normal_escape(run, step, negative) });
            position += run + 1;
        }
        self.ask(kind, &list_of(&codes, true));
    }

    fn partitions(&mut self) {
        for mode in 0..8 {
            self.all.push(Question::of(Kind::Partitions { mode }, 0));
        }
    }
}
