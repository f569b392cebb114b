//! The fixed list of sample questions: document 01's "Compensation" and "Residual and store".

use crate::draw::Draw;
use crate::sample::{Block, Plane, Question};
use published::svq3_dequant::{DEQUANT_COEFF_TABLE, chroma_quantiser_index, dequantize_transform_luma_block_with_dc};
use std::rc::Rc;

/// The partition sizes in luma samples; chroma blocks have half of each.
const SIZES: [(u8, u8); 7] = [(16, 16), (8, 16), (16, 8), (8, 8), (4, 8), (8, 4), (4, 4)];

pub fn questions() -> Vec<Question> {
    let mut list = List { draw: Draw::new(2), all: Vec::new(), plane: Plane::default() };
    list.compensation();
    list.luma_residuals();
    list.chroma_planes();
    list.all
}

struct List {
    draw: Draw,
    all: Vec<Question>,
    plane: Plane,
}

/// All 36 pairs of phases.
fn phases() -> impl Iterator<Item = (i32, i32)> {
    (0..36).map(|n| (n % 6, n / 6))
}

/// The least and the greatest vectors that 32 bits hold, all their phases, and three about 0.
fn limits() -> Vec<i32> {
    (0..6).flat_map(|n| [i32::MIN + n, i32::MAX - n]).chain([-1, 0, 1]).collect()
}

// Compensation.
impl List {
    fn compensation(&mut self) {
        let drawn = self.draw.bytes(24 * 20);
        self.set_plane(24, 20, drawn);
        self.all_phases();
        self.edges();
        self.limit_vectors();
        self.limit_places();
        self.odd_sizes();

        // Rounding: neighbours as far apart as they can be, then the four taps of document 01's case.
        self.set_plane(16, 16, (0..256).map(|i| if (i / 16 + i) % 2 == 0 { 0 } else { 255 }).collect());
        self.phases_of(&[(16, 16), (4, 4)]);
        self.set_plane(2, 2, vec![0, 100, 1, 101]);
        self.phases_of(&[(4, 4), (2, 2)]);

        // One row, one column, one sample.
        for (width, height) in [(24, 1), (1, 20), (1, 1)] {
            let drawn = self.draw.bytes(width * height);
            self.set_plane(width, height, drawn);
            self.phases_of(&[(8, 8), (4, 4)]);
            self.phases_of(&[(1, 1)]);
        }
    }

    fn set_plane(&mut self, width: usize, height: usize, samples: Vec<u8>) {
        assert_eq!(samples.len(), width * height);
        self.plane = Plane { width, height, samples: Rc::new(samples) };
        self.all.push(Question::Plane(self.plane.clone()));
    }

    fn ask(&mut self, chroma: bool, (x, y): (i32, i32), (width, height): (u8, u8), vector: (i32, i32)) {
        let block = Block { x, y, width, height, vector };
        self.all.push(Question::Block { chroma, block, plane: self.plane.clone() });
    }

    /// A place from three samples before the first that a span can touch to three behind the last.
    fn near(&mut self, span: u8, extent: usize) -> i32 {
        self.draw.between(-i32::from(span) - 3, extent as i32 + 3)
    }

    fn place_near(&mut self, (width, height): (u8, u8)) -> (i32, i32) {
        (self.near(width, self.plane.width), self.near(height, self.plane.height))
    }

    /// Some vector of that phase, up to four samples long.
    fn of_phase(&mut self, phase: i32) -> i32 {
        6 * self.draw.between(-4, 4) + phase
    }

    /// A luma vector that chroma halves to one of that phase: to an odd one there are two ways, toward zero.
    fn halving_to_phase(&mut self, phase: i32) -> i32 {
        let half = self.of_phase(phase);
        2 * half + half.signum() * self.draw.between(0, 1)
    }

    fn phases_of(&mut self, sizes: &[(u8, u8)]) {
        for (px, py) in phases() {
            for &size in sizes {
                let vector = (self.of_phase(px), self.of_phase(py));
                let place = self.place_near(size);
                self.ask(false, place, size, vector);
            }
        }
    }

    /// Every pair of phases with every size, luma and chroma, within the plane and about it.
    fn all_phases(&mut self) {
        for (px, py) in phases() {
            for size in SIZES {
                let inside =
                    (self.draw.between(0, 24 - i32::from(size.0)), self.draw.between(0, 20 - i32::from(size.1)));
                for place in [inside, self.place_near(size)] {
                    let vector = (self.of_phase(px), self.of_phase(py));
                    self.ask(false, place, size, vector);
                    let vector = (self.halving_to_phase(px), self.halving_to_phase(py));
                    // The chroma place is half of this one, toward zero: odd and negative places count.
                    self.ask(true, (2 * place.0 + 1, 2 * place.1 - 1), size, vector);
                }
            }
        }
    }

    /// Just before, at and behind every edge, both ways together.
    fn edges(&mut self) {
        for size in [(4, 4), (8, 4), (8, 8), (16, 16)] {
            let about = |span: u8, extent: i32| {
                let span = i32::from(span);
                [-span - 1, -span, 1 - span, -1, 0, 1, extent - span - 1, extent - span, extent - 1, extent, extent + 1]
            };
            for x in about(size.0, 24) {
                for y in about(size.1, 20) {
                    let vector = (self.draw.between(0, 5), self.draw.between(0, 5));
                    self.ask(false, (x, y), size, vector);
                }
            }
        }
    }

    fn limit_vectors(&mut self) {
        for vx in limits() {
            for vy in limits() {
                let place = (self.draw.between(0, 20), self.draw.between(0, 16));
                self.ask(false, place, (4, 4), (vx, vy));
                self.ask(true, place, (8, 4), (vx, vy));
            }
        }
    }

    /// Places at the limits of 32 bits: with a vector of the other sign the sum is taken exactly.
    fn limit_places(&mut self) {
        let places = [i32::MIN, i32::MIN + 1, -1, 0, i32::MAX - 1, i32::MAX];
        for x in places {
            for y in places {
                for v in [i32::MIN, -7, 0, 7, i32::MAX] {
                    let vector = (v, self.draw.pick(&[i32::MIN, -9, 3, i32::MAX]));
                    self.ask(false, (x, y), (4, 4), vector);
                    self.ask(true, (x, y), (8, 8), vector);
                }
            }
        }
        // A vector's whole part that leads back to the plane, nearly as far as one can.
        for part in [i32::MIN / 6 + 2, i32::MAX / 6 - 2] {
            for v in [-8, -1, 4, 9] {
                self.ask(false, (-part - 1, -part + 5), (8, 8), (6 * part + v, 6 * part + v / 2));
            }
        }
    }

    /// Every span from 1 to 16, of which no partition has most.
    fn odd_sizes(&mut self) {
        for span in 1..=16 {
            for _ in 0..3 {
                let size = (span, 1 + self.draw.below(16) as u8);
                let (place, vector) = (self.place_near(size), (self.draw.between(-40, 40), self.draw.between(-40, 40)));
                self.ask(false, place, size, vector);
                self.ask(false, (place.1, place.0), (size.1, size.0), vector);
            }
        }
    }
}

// Residuals.
impl List {
    /// Sixteen samples: drawn, or at one end where a hold at 0 or 255 shows.
    fn samples<const N: usize>(&mut self) -> [u8; N] {
        match self.draw.below(4) {
            0 => [0; N],
            1 => [255; N],
            _ => self.draw.bytes(N).try_into().expect("N bytes"),
        }
    }

    fn residual(&mut self, quantiser: u8, levels: [i32; 16]) {
        let samples = self.samples();
        self.all.push(Question::Residual { quantiser, samples, levels });
    }

    /// Up to `most` either way, at each place.
    fn levels(&mut self, most: i32) -> [i32; 16] {
        [(); 16].map(|_| match most {
            ..=9999 => self.draw.between(-most, most),
            _ => self.draw.pick(&[-most, most, 0, most - 1, 1 - most]),
        })
    }

    fn one_level(&mut self, level: i32) -> [i32; 16] {
        let mut levels = [0; 16];
        levels[self.draw.below(16) as usize] = level;
        levels
    }

    fn luma_residuals(&mut self) {
        for quantiser in 0..32 {
            self.residual(quantiser, [0; 16]);
            for place in 0..16 {
                for level in [1, -1] {
                    let mut levels = [0; 16];
                    levels[place] = level;
                    let samples = self.draw.bytes(16).try_into().expect("16 bytes");
                    self.all.push(Question::Residual { quantiser, samples, levels });
                }
            }
            for most in [1, 3, 40, 900, 1 << 27, 1 << 29, i32::MAX] {
                let levels = self.levels(most);
                self.residual(quantiser, levels);
            }
            for level in [300, -300, 1 << 27, -(1 << 27), 1 << 29, -(1 << 29), i32::MAX, i32::MIN] {
                let levels = self.one_level(level);
                self.residual(quantiser, levels);
            }
            let alternating = std::array::from_fn(|i| if (i / 4 + i) % 2 == 0 { i32::MIN } else { i32::MAX });
            for levels in [[i32::MAX; 16], [i32::MIN; 16], alternating] {
                self.residual(quantiser, levels);
            }
            for pair in saturating_pairs(quantiser.into()) {
                let row = self.draw.below(4) as usize;
                let samples = self.draw.bytes(16).try_into().expect("16 bytes");
                self.all.push(Question::Residual { quantiser, samples, levels: in_row(pair, row) });
            }
        }
    }

    fn chroma_plane(&mut self, quantiser: u8, dc: [i32; 4], mut ac: [[i32; 16]; 4]) {
        // Lists of chroma blocks start at position 1: place 0 has no level of its own.
        for block in &mut ac {
            block[0] = 0;
        }
        let samples = self.samples();
        self.all.push(Question::ChromaPlane { quantiser, samples, dc, ac });
    }

    fn blocks(&mut self, most: i32) -> [[i32; 16]; 4] {
        [(); 4].map(|_| self.levels(most))
    }

    fn dc(&mut self, most: i32) -> [i32; 4] {
        let levels = self.levels(most);
        [levels[0], levels[1], levels[2], levels[3]]
    }

    fn chroma_planes(&mut self) {
        let none = [[0; 16]; 4];
        for quantiser in 0..32 {
            self.chroma_plane(quantiser, [0; 4], none);
            self.chroma_plane(quantiser, [1, 0, 0, 0], none);
            for (dc_most, ac_most) in [(2, 1), (30, 4), (400, 60), (1 << 29, 1 << 27), (i32::MAX, 3), (9, i32::MAX)] {
                let (dc, ac) = (self.dc(dc_most), self.blocks(ac_most));
                self.chroma_plane(quantiser, dc, ac);
            }
            let dc = self.dc(i32::MAX);
            self.chroma_plane(quantiser, dc, none);
            let pairs = saturating_pairs(chroma_quantiser_index(quantiser.into()));
            let ac = std::array::from_fn(|block| in_row(pairs[block], 1 + block % 3));
            self.chroma_plane(quantiser, [0; 4], ac);
            self.toward_zero(quantiser);
        }
    }

    /// Up to two planes whose samples differ between halving toward zero and flooring. Few multiples of an entry lie
    /// so near a rounding boundary, so levels are drawn as large as samples leave room for; an even entry has none.
    fn toward_zero(&mut self, quantiser: u8) {
        let index = chroma_quantiser_index(quantiser.into());
        let room = (1 << 20) / DEQUANT_COEFF_TABLE[index as usize] as i32;
        let shown = |draw: &mut Self| {
            let (dc, mut ac) = (draw.dc(room), draw.blocks(room / 6 + 1));
            ac.iter_mut().for_each(|block| block[0] = 0);
            halving_shows(index, dc, &ac).then_some((dc, ac))
        };
        let mut found = 0;
        for _ in 0..20_000 {
            if found == 2 {
                break;
            }
            if let Some((dc, ac)) = shown(self) {
                // Samples in the middle: the hold hides nothing.
                self.all.push(Question::ChromaPlane { quantiser, samples: [128; 64], dc, ac });
                found += 1;
            }
        }
    }
}

/// Levels of one sign about the first whose product with the ladder's entry saturates, and far past it.
fn saturating_pairs(index: u32) -> [(i32, i32); 6] {
    let first = i32::MAX / DEQUANT_COEFF_TABLE[index as usize] as i32 + 1;
    [
        (first, first - 1),
        (first, first + 7),
        (1 - first, -first - 1),
        (1 << 27, 1 << 29),
        (i32::MAX, first),
        (i32::MIN, -first - 2),
    ]
}

/// Two levels in a row where the transform takes their difference: saturated products cancel, exact ones would not.
fn in_row(pair: (i32, i32), row: usize) -> [i32; 16] {
    let mut levels = [0; 16];
    (levels[4 * row], levels[4 * row + 2]) = pair;
    levels
}

/// Whether flooring the halved sums would move a sample that starts at 128.
fn halving_shows(index: u32, dc: [i32; 4], ac: &[[i32; 16]; 4]) -> bool {
    let entry = i64::from(DEQUANT_COEFF_TABLE[index as usize]);
    let [a, b, c, d] = dc.map(|level| i64::from(level) * entry);
    let sums = [a + b + c + d, a - b + c - d, a + b - c - d, a - b - c + d];
    sums.iter().zip(ac).any(|(sum, block)| {
        let residual = |half: i64| dequantize_transform_luma_block_with_dc(index, *block, 169 * half);
        let pairs = residual(sum / 2).into_iter().zip(residual(sum >> 1));
        pairs.into_iter().any(|(zero, floor)| zero != floor && (-127..128).contains(&zero))
    })
}
