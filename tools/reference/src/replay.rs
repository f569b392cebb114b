//! A transcript read by document 01's rules, and its records done by the published compensation and reconstruction.

use crate::reader::mode_of;
use crate::start::Start;
use crate::transcript::cells_of;
use published::svq3::macroblock_position;
use published::svq3_mb::{INTRA_4X4_BLOCK_RASTER, PFrameInterMode};
use published::svq3_mc::{motion_compensate_block, motion_compensate_chroma_block};
use published::svq3_picture::ChromaSelect;
use published::svq3_recon::{
    ChromaPlane, LumaMacroblock, add_luma_residual_blocks, reconstruct_chroma_plane_with_prediction,
};

/// Numbers of a list or a transcript, one after another; a refusal is its number, 14 or 15.
pub struct Numbers<'a>(pub &'a [u8]);

impl Numbers<'_> {
    /// Seven bits a byte, lowest first, shortest form, at most 32 bits.
    pub fn number(&mut self) -> Result<u32, u8> {
        let last = self.0.iter().position(|&byte| byte < 128).ok_or(14)?;
        let (bytes, rest) = self.0.split_at(last + 1);
        self.0 = rest;
        if last > 4 || last > 0 && bytes[last] == 0 {
            return Err(14);
        }
        let value = bytes.iter().rev().fold(0, |value: u64, &byte| value << 7 | u64::from(byte & 127));
        u32::try_from(value).map_err(|_| 14)
    }

    fn field(&mut self, most: u32) -> Result<u32, u8> {
        self.number().and_then(|value| if value <= most { Ok(value) } else { Err(15) })
    }

    fn signed(&mut self) -> Result<i32, u8> {
        let value = i64::from(self.number()?);
        Ok(if value % 2 == 0 { value / 2 } else { -(value + 1) / 2 } as i32)
    }

    pub fn call(&mut self) -> Result<[u32; 3], u8> {
        Ok([self.number()?, self.number()?, self.number()?])
    }

    fn levels<const N: usize>(&mut self, start: usize) -> Result<[i32; N], u8> {
        let mut levels = [0; N];
        for level in &mut levels[start..] {
            *level = self.signed()?;
        }
        Ok(levels)
    }

    fn record(&mut self, columns: u32, rows: u32) -> Result<Record, u8> {
        let [column, row, mode] = self.call()?;
        let mode = mode_of(mode).filter(|_| mode < 8 && column < columns && row < rows).ok_or(15)?;
        let mut record = Record::of(column, row, mode);
        if mode == PFrameInterMode::Skip {
            return Ok(record);
        }
        self.field(2)?;
        self.field(2 * mode.num_motion_vectors())?;
        for _ in 0..mode.num_motion_vectors() {
            record.vectors.push((self.signed()?, self.signed()?));
        }
        let pattern = self.field(47)?;
        record.quantiser = self.field(31)?;
        for quadrant in (0..4).filter(|quadrant| pattern >> quadrant & 1 == 1) {
            for block in 0..4 {
                record.luma[usize::from(INTRA_4X4_BLOCK_RASTER[4 * quadrant + block])] = self.levels(0)?;
            }
        }
        if pattern > 15 {
            record.dc = [self.levels(0)?, self.levels(0)?];
        }
        if pattern > 31 {
            for block in record.ac.as_flattened_mut() {
                *block = self.levels(1)?;
            }
        }
        Ok(record)
    }
}

/// The calls of a list.
pub fn calls(list: &[u8]) -> Result<Vec<[u32; 3]>, u8> {
    let (mut numbers, mut all) = (Numbers(list), Vec::new());
    while !numbers.0.is_empty() {
        all.push(numbers.call()?);
    }
    Ok(all)
}

pub fn records(transcript: &[u8], (columns, rows): (u32, u32)) -> Result<Vec<Record>, u8> {
    let (mut numbers, mut all) = (Numbers(transcript), Vec::new());
    while !numbers.0.is_empty() {
        all.push(numbers.record(columns, rows)?);
    }
    Ok(all)
}

pub struct Record {
    column: u32,
    row: u32,
    mode: PFrameInterMode,
    vectors: Vec<(i32, i32)>,
    quantiser: u32,
    luma: [[i32; 16]; 16],
    dc: [[i32; 4]; 2],
    ac: [[[i32; 16]; 4]; 2],
}

impl Record {
    fn of(column: u32, row: u32, mode: PFrameInterMode) -> Self {
        let (luma, dc, ac) = ([[0; 16]; 16], [[0; 4]; 2], [[[0; 16]; 4]; 2]);
        Self { column, row, mode, vectors: Vec::new(), quantiser: 0, luma, dc, ac }
    }

    /// The record's work; the quantiser afterwards.
    pub fn apply(&self, state: &mut Start, quantiser: u32) -> u32 {
        let columns = state.columns as u32;
        let position = macroblock_position(self.row * columns + self.column, columns).expect("a place");
        let (x, y) = (16 * self.column, 16 * self.row);
        if self.mode == PFrameInterMode::Skip {
            let reference = state.reference.clone();
            state.picture.copy_macroblock_from(&reference, position);
            state.store(x, y, 16, 16, (0, 0));
            return quantiser;
        }
        let (w, h) = self.mode.partition_size();
        let mut luma = LumaMacroblock::new();
        let mut chroma = [[0; 64]; 2];
        for ((ox, oy), &vector) in self.mode.partition_offsets().into_iter().zip(&self.vectors) {
            state.store(x + ox, y + oy, w, h, vector);
            let (place, size) = (((x + ox) as i32, (y + oy) as i32), (w as usize, h as usize));
            let plane = state.reference.luma_reference();
            let block = motion_compensate_block(&plane, place.0, place.1, size.0, size.1, vector.0, vector.1);
            put(&mut luma.samples, 16, (ox as usize, oy as usize), &block, size.0);
            for (samples, which) in chroma.iter_mut().zip([ChromaSelect::Cb, ChromaSelect::Cr]) {
                let plane = state.reference.chroma_reference(which);
                let block =
                    motion_compensate_chroma_block(&plane, place.0, place.1, size.0, size.1, vector.0, vector.1);
                put(samples, 8, (ox as usize / 2, oy as usize / 2), &block, size.0 / 2);
            }
        }
        add_luma_residual_blocks(&mut luma.samples, &self.luma, self.quantiser);
        state.picture.blit_luma(position, &luma);
        for (i, which) in [ChromaSelect::Cb, ChromaSelect::Cr].into_iter().enumerate() {
            let mut plane = ChromaPlane::new();
            let (dc, ac) = (self.dc[i], &self.ac[i]);
            plane.samples = reconstruct_chroma_plane_with_prediction(&chroma[i], dc, ac, self.quantiser);
            state.picture.blit_chroma(position, which, &plane);
        }
        self.quantiser
    }
}

fn put(samples: &mut [u8], stride: usize, (x, y): (usize, usize), block: &[u8], width: usize) {
    for (i, &sample) in block.iter().enumerate() {
        samples[(y + i / width) * stride + x + i % width] = sample;
    }
}

impl Start {
    fn store(&mut self, x: u32, y: u32, w: u32, h: u32, vector: (i32, i32)) {
        for cell in cells_of(self.columns, x, y, w, h) {
            self.vectors[cell] = vector;
            self.marks[cell] = 1;
        }
    }
}
