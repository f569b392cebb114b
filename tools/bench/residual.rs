//! A macroblock's residual: our replay of a record whose lists are all coded and whose vector is 0, and the published
//! compensation and reconstruction on the same levels. The replay reads the record too, and asks its questions.

use crate::ours::{Start, numbers};
use crate::timing::Row;
use published::svq3_mc::{ReferencePlane, motion_compensate_block, motion_compensate_chroma_block};
use published::svq3_recon::{add_luma_residual_blocks, reconstruct_chroma_plane_with_prediction};
use std::hint::black_box;

const COUNTS: usize = 2;
/// How many times as fast as the Rust the residual has to be.
const BAR: f64 = 2.5;

/// The blocks as the Rust takes them, luma by raster; a chroma block's first level is its DC's place.
struct Levels {
    luma: [[i32; 16]; 16],
    dc: [[i32; 4]; 2],
    ac: [[[i32; 16]; 4]; 2],
}

pub fn rows(show: &mut impl FnMut(f64, Row)) {
    // At quantiser 12 every product lies within ±800,000, the bound of the exact sums. Levels that saturate are shown, not judged.
    let cases = [("residual, quantiser 12", 12, 30, BAR), ("residual, levels that saturate", 31, 40_000, 0.0)];
    for (name, q, most, bar) in cases {
        let levels = Levels::drawn(most);
        let transcript = levels.transcript(q);
        let mut state = one_macroblock(q);
        let left = reference(&state.reference, &levels, q);
        let told = state.replay(&transcript, COUNTS);
        assert_eq!((told.code, told.counts), (0, vec![1, q.into()]), "{name}: the replay is refused");
        assert!(state.picture == left, "{name}: results differ");
        let planes = state.reference.clone();
        let row = Row::measure(
            name.to_string(),
            || drop(black_box(reference(black_box(&planes), black_box(&levels), black_box(q)))),
            || drop(black_box(state.replay(black_box(&transcript), COUNTS))),
        );
        assert!(state.picture == left, "{name}: results differ");
        show(bar, row);
    }
}

/// A picture of one macroblock.
fn one_macroblock(quantiser: u32) -> Start {
    Start {
        cols: 1,
        rows: 1,
        flags: 0,
        delta: 0,
        quantiser,
        reference: [vec![100; 256], vec![90; 64], vec![160; 64]],
        picture: [vec![0; 256], vec![0; 64], vec![0; 64]],
        mv: vec![0; 32],
        marks: vec![0; 16],
        transcript: Vec::new(),
    }
}

impl Levels {
    /// Six of a block's sixteen levels are drawn.
    fn drawn(most: i32) -> Self {
        let mut s = 11u32;
        let mut level = |n: usize| {
            s = s.wrapping_mul(1_664_525).wrapping_add(1_013_904_223);
            if n < 6 { ((s >> 8) as i32) % (2 * most + 1) - most } else { 0 }
        };
        let luma = [(); 16].map(|()| std::array::from_fn(&mut level));
        let dc = [(); 2].map(|()| std::array::from_fn(&mut level));
        let ac = [(); 2].map(|()| [(); 4].map(|()| std::array::from_fn(|n| if n == 0 { 0 } else { level(n) })));
        Self { luma, dc, ac }
    }

    /// One record: place 0 0, mode 1, full precision, nothing clipped, vector 0 0, pattern 47, the quantiser and the levels,
    /// luma quadrant by quadrant.
    fn transcript(&self, q: u32) -> Vec<u8> {
        let raster = |b: usize| 8 * (b / 8) + 2 * (b / 4 % 2) + 4 * (b / 2 % 2) + b % 2;
        let luma = (0..16).flat_map(|b| self.luma[raster(b)]);
        let ac = self.ac.as_flattened().iter().flat_map(|block| &block[1..]);
        let levels = luma.chain(self.dc.as_flattened().iter().copied()).chain(ac.copied());
        let signed = levels.map(|level| 2 * level.unsigned_abs() - u32::from(level < 0));
        numbers([0, 0, 1, 0, 0, 0, 0, 47, q].into_iter().chain(signed))
    }
}

/// The three planes of the one macroblock.
fn reference(planes: &[Vec<u8>; 3], levels: &Levels, q: u32) -> [Vec<u8>; 3] {
    let plane = |n: usize, side| ReferencePlane::new(&planes[n], side, side).expect("samples");
    let mut luma: [u8; 256] =
        motion_compensate_block(&plane(0, 16), 0, 0, 16, 16, 0, 0).try_into().expect("256 samples");
    add_luma_residual_blocks(&mut luma, &levels.luma, q);
    let chroma = |n: usize| {
        let moved = motion_compensate_chroma_block(&plane(1 + n, 8), 0, 0, 16, 16, 0, 0);
        let moved: [u8; 64] = moved.try_into().expect("64 samples");
        reconstruct_chroma_plane_with_prediction(&moved, levels.dc[n], &levels.ac[n], q).to_vec()
    };
    [luma.to_vec(), chroma(0), chroma(1)]
}
