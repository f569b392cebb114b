//! Starts of macroblocks and of runs: planes, vectors and marks of a grid, what is lent of them, and document 01's
//! questions 1 to 8 on that.

use crate::draw::Draw;
use crate::run::{Left, Run};
use crate::run_list::component;
use published::svq3_picture::Svq3Picture;

/// Every record of macroblocks, runs and starts begins with this many bytes.
pub const HEAD: usize = 80;

#[derive(Clone)]
pub struct Start {
    pub columns: usize,
    pub rows: usize,
    pub reference: Svq3Picture,
    pub picture: Svq3Picture,
    pub vectors: Vec<(i32, i32)>,
    pub marks: Vec<u8>,
}

impl Start {
    pub fn drawn(draw: &mut Draw, columns: usize, rows: usize) -> Self {
        let cells = 16 * columns * rows;
        let (reference, picture) = (drawn_picture(draw, columns, rows), drawn_picture(draw, columns, rows));
        Self { columns, rows, reference, picture, vectors: vec![(0, 0); cells], marks: vec![0; cells] }
    }

    pub fn macroblocks(&self) -> usize {
        self.columns * self.rows
    }

    /// Vectors and marks anew: small, anywhere or at the limits of 32 bits; none, all or some cells marked, by any mark.
    pub fn draw_cells(&mut self, draw: &mut Draw) {
        let limits = [i32::MIN, i32::MIN + 1, i32::MAX - 1, i32::MAX];
        let kind = draw.below(4);
        for vector in &mut self.vectors {
            let mut one = || match kind {
                0 => draw.between(-40, 40),
                1 => draw.pick(&limits),
                _ => component(draw),
            };
            *vector = (one(), one());
        }
        let kind = draw.below(6);
        for mark in &mut self.marks {
            *mark = match kind {
                0 => 0,
                1 => 1,
                2 => 2 + draw.below(254) as u8,
                3 => draw.below(2) as u8,
                _ => draw.pick(&[0, 0, 1, 2, 3, 128, 254, 255]),
            };
        }
    }

    /// The lengths that belong to the grid: luma, Cb, Cr, vectors, marks, and the reference's luma, Cb, Cr.
    pub fn lengths(&self) -> [usize; 8] {
        let n = self.macroblocks();
        [256 * n, 64 * n, 64 * n, 32 * n, 16 * n, 256 * n, 64 * n, 64 * n]
    }

    pub fn keep(&mut self, left: &Left) {
        self.picture.luma_mut().copy_from_slice(&left.planes[0]);
        self.picture.cb_mut().copy_from_slice(&left.planes[1]);
        self.picture.cr_mut().copy_from_slice(&left.planes[2]);
        self.vectors.clone_from(&left.vectors);
        self.marks.clone_from(&left.marks);
    }

    /// Kind 1: the whole start.
    pub fn bytes(&self) -> Vec<u8> {
        let mut out = self.head(1);
        out.extend(planes(&self.reference));
        out.extend(planes(&self.picture));
        out.extend(self.cells());
        out
    }

    /// Kind 2: its vectors and marks.
    pub fn cells_bytes(&self) -> Vec<u8> {
        [self.head(2), self.cells()].concat()
    }

    /// What a run or a replay leaves: planes, vectors, marks.
    pub fn left_bytes(&self) -> Vec<u8> {
        [planes(&self.picture), self.cells()].concat()
    }

    fn head(&self, kind: u8) -> Vec<u8> {
        let mut out = vec![0; HEAD];
        out[0] = kind;
        out[4..8].copy_from_slice(&(self.macroblocks() as u32).to_le_bytes());
        out
    }

    fn cells(&self) -> Vec<u8> {
        [vector_bytes(&self.vectors), self.marks.clone()].concat()
    }
}

pub fn planes(picture: &Svq3Picture) -> Vec<u8> {
    [picture.luma(), picture.cb(), picture.cr()].concat()
}

pub fn vector_bytes(vectors: &[(i32, i32)]) -> Vec<u8> {
    vectors.iter().flat_map(|&(x, y)| [x.to_le_bytes(), y.to_le_bytes()]).flatten().collect()
}

/// Smooth in parts, drawn in others, so that both small and large steps between samples occur.
fn drawn_picture(draw: &mut Draw, columns: usize, rows: usize) -> Svq3Picture {
    let mut picture = Svq3Picture::new(columns, rows);
    let step = 1 + draw.below(40) as usize;
    for plane in [0, 1, 2] {
        let samples = match plane {
            0 => picture.luma_mut(),
            1 => picture.cb_mut(),
            _ => picture.cr_mut(),
        };
        let noise = draw.pick(&[0, 3, 256]);
        for (i, sample) in samples.iter_mut().enumerate() {
            let drawn = if noise == 0 { 0 } else { draw.below(noise) };
            *sample = (i * step / 7) as u8 ^ drawn as u8;
        }
    }
    picture
}

/// All that the questions before a call are about.
#[derive(Clone)]
pub struct Lent {
    pub grid: (u32, u32),
    pub lengths: [usize; 8],
    pub quantiser: u32,
    pub bytes: usize,
    pub place: u64,
}

impl Lent {
    pub fn of(start: &Start, quantiser: u32, bytes: usize, place: u64) -> Self {
        let grid = (start.columns as u32, start.rows as u32);
        Self { grid, lengths: start.lengths(), quantiser, bytes, place }
    }

    pub fn grid_right(&self) -> bool {
        let (columns, rows) = self.grid;
        (1..=4096).contains(&columns) && (1..=4096).contains(&rows)
    }

    /// Questions 1 to 4.
    fn start(&self) -> Option<u8> {
        let n = self.grid.0 as usize * self.grid.1 as usize;
        let [y, cb, cr, mv, marks, ry, rcb, rcr] = self.lengths;
        if !self.grid_right() {
            return Some(1);
        }
        if [y, cb, cr, mv, marks] != [256 * n, 64 * n, 64 * n, 32 * n, 16 * n] {
            return Some(2);
        }
        if [ry, rcb, rcr] == [0; 3] {
            return Some(3);
        }
        ([ry, rcb, rcr] != [256 * n, 64 * n, 64 * n]).then_some(4)
    }

    fn quantiser(&self) -> Option<u8> {
        (self.quantiser > 31).then_some(6)
    }

    fn place(&self) -> Option<u8> {
        (u128::from(self.place) > 8 * self.bytes as u128).then_some(7)
    }

    /// Of a call, with that many transcript bytes free.
    pub fn call(&self, [column, row, mode]: [u32; 3], free: usize) -> Option<u8> {
        let range = || (mode > 7 || column >= self.grid.0 || row >= self.grid.1).then_some(5);
        let room = || (free < 2089).then_some(8);
        self.start().or_else(range).or_else(|| self.quantiser()).or_else(|| self.place()).or_else(room)
    }

    /// Of a run with no call.
    pub fn run(&self) -> Option<u8> {
        self.replay().or_else(|| self.place())
    }

    pub fn replay(&self) -> Option<u8> {
        self.start().or_else(|| self.quantiser())
    }
}

/// The run of one call from a start that answers all questions with yes.
pub fn run_of(start: &Start, lent: &Lent, flags: u32, bits: &[u8], calls: Vec<crate::run::Call>) -> Run {
    Run {
        columns: start.columns,
        rows: start.rows,
        half: flags & 1 == 1,
        third: flags & 2 == 2,
        delta_enable: flags & 4 == 4,
        quantiser: lent.quantiser,
        reference: Some(start.reference.clone()),
        picture: start.picture.clone(),
        vectors: start.vectors.clone(),
        marks: start.marks.clone(),
        bits: bits.to_vec(),
        place: lent.place,
        calls,
    }
}
