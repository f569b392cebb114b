//! Questions about samples: compensated blocks and residuals.

use crate::record::{HEAD, Record};
use crate::text::{Words, bytes_of, hex, join};
use published::svq3_mc::{ReferencePlane, motion_compensate_block, motion_compensate_chroma_block};
use published::svq3_recon::{add_luma_residual_blocks, reconstruct_chroma_plane_with_prediction};
use std::rc::Rc;

#[derive(Clone, Default)]
pub struct Plane {
    pub width: usize,
    pub height: usize,
    pub samples: Rc<Vec<u8>>,
}

/// Place and size of a block, in luma samples when it is asked for chroma, and the vector in sixths.
#[derive(Clone, Copy)]
pub struct Block {
    pub x: i32,
    pub y: i32,
    pub width: u8,
    pub height: u8,
    pub vector: (i32, i32),
}

#[derive(Clone)]
pub enum Question {
    /// Sets the plane for the block questions that follow.
    Plane(Plane),
    Block {
        chroma: bool,
        block: Block,
        plane: Plane,
    },
    Residual {
        quantiser: u8,
        samples: [u8; 16],
        levels: [i32; 16],
    },
    ChromaPlane {
        quantiser: u8,
        samples: [u8; 64],
        dc: [i32; 4],
        ac: [[i32; 16]; 4],
    },
}

pub struct Answer(pub Vec<u8>);

impl Question {
    pub fn ask(&self) -> Answer {
        Answer(match self {
            Question::Plane(_) => Vec::new(),
            Question::Block { chroma, block, plane } => compensated(*chroma, block, plane),
            Question::Residual { quantiser, samples, levels } => luma_residual(*quantiser, samples, levels),
            Question::ChromaPlane { quantiser, samples, dc, ac } => {
                reconstruct_chroma_plane_with_prediction(samples, *dc, ac, (*quantiser).into()).to_vec()
            }
        })
    }

    /// The query of this kind, or nothing when `kind` names none; `last` is what the plane `=` stands for.
    pub fn parse(kind: &str, words: &mut Words, last: &Plane) -> Result<Option<Self>, String> {
        let question = match kind {
            "plane" => Question::Plane(Plane::parse(words, last)?),
            "block" | "chroma" => {
                let plane = Plane::parse(words, last)?;
                Question::Block { chroma: kind == "chroma", block: Block::parse(words)?, plane }
            }
            "residual" => {
                Question::Residual { quantiser: words.number()?, samples: words.array()?, levels: words.numbers()? }
            }
            "chromaplane" => {
                let (quantiser, samples, dc) = (words.number()?, words.array()?, words.numbers()?);
                let mut ac = [[0; 16]; 4];
                for block in &mut ac {
                    *block = words.numbers()?;
                }
                Question::ChromaPlane { quantiser, samples, dc, ac }
            }
            _ => return Ok(None),
        };
        words.end()?;
        Ok(Some(question))
    }
}

impl Plane {
    fn parse(words: &mut Words, last: &Plane) -> Result<Self, String> {
        let (width, height) = (words.number()?, words.number()?);
        let word = words.word()?;
        let plane = if word == "=" {
            last.clone()
        } else {
            let length = usize::checked_mul(width, height).ok_or("the plane is too large")?;
            Plane { width, height, samples: Rc::new(bytes_of(word, length, 256)?) }
        };
        if plane.samples.is_empty() || (plane.width, plane.height) != (width, height) {
            return Err("the plane is empty or of another size".into());
        }
        Ok(plane)
    }
}

impl Block {
    fn parse(words: &mut Words) -> Result<Self, String> {
        Ok(Self {
            x: words.number()?,
            y: words.number()?,
            width: words.number()?,
            height: words.number()?,
            vector: (words.number()?, words.number()?),
        })
    }
}

fn compensated(chroma: bool, block: &Block, plane: &Plane) -> Vec<u8> {
    let plane = ReferencePlane::new(&plane.samples, plane.width, plane.height).expect("no empty plane is asked about");
    let compensate = if chroma { motion_compensate_chroma_block } else { motion_compensate_block };
    let (width, height) = (block.width.into(), block.height.into());
    compensate(&plane, block.x, block.y, width, height, block.vector.0, block.vector.1)
}

/// The block as the first raster cell of a macroblock whose other cells have no levels.
fn luma_residual(quantiser: u8, samples: &[u8; 16], levels: &[i32; 16]) -> Vec<u8> {
    let mut macroblock = [0; 256];
    let mut blocks = [[0; 16]; 16];
    blocks[0] = *levels;
    for row in 0..4 {
        macroblock[16 * row..16 * row + 4].copy_from_slice(&samples[4 * row..4 * row + 4]);
    }
    add_luma_residual_blocks(&mut macroblock, &blocks, quantiser.into());
    (0..4).flat_map(|row| macroblock[16 * row..16 * row + 4].to_vec()).collect()
}

impl Answer {
    pub fn line(&self) -> String {
        format!("ok {}", hex(&self.0))
    }
}

impl Record for Question {
    fn line(&self) -> String {
        match self {
            Question::Plane(plane) => format!("plane {} {} {}", plane.width, plane.height, hex(&plane.samples)),
            Question::Block { chroma, block: b, plane } => {
                let name = if *chroma { "chroma" } else { "block" };
                let numbers = [b.x, b.y, b.width.into(), b.height.into(), b.vector.0, b.vector.1];
                format!("{name} {} {} = {}", plane.width, plane.height, join(numbers, " "))
            }
            Question::Residual { quantiser, samples, levels } => {
                format!("residual {quantiser} {} {}", hex(samples), join(levels, " "))
            }
            Question::ChromaPlane { quantiser, samples, dc, ac } => {
                format!("chromaplane {quantiser} {} {} {}", hex(samples), join(dc, " "), join(ac.as_flattened(), " "))
            }
        }
    }

    fn answer(&self) -> String {
        self.ask().line()
    }

    /// Head: kind, quantiser, width, height, length of the question's bytes; x, y, vector; length of the answer; 0.
    /// Then the question's bytes and the answer's.
    fn bytes(&self) -> Vec<u8> {
        let le = |numbers: &[i32]| numbers.iter().flat_map(|n| n.to_le_bytes()).collect::<Vec<u8>>();
        let (kind, quantiser, size, numbers, given) = match self {
            Question::Plane(p) => (16, 0, (0, 0), [p.width as i32, p.height as i32, 0, 0], p.samples.to_vec()),
            Question::Block { chroma, block: b, .. } => {
                let numbers = [b.x, b.y, b.vector.0, b.vector.1];
                (if *chroma { 18 } else { 17 }, 0, (b.width, b.height), numbers, Vec::new())
            }
            Question::Residual { quantiser, samples, levels } => {
                (19, *quantiser, (4, 4), [0; 4], [samples.to_vec(), le(levels)].concat())
            }
            Question::ChromaPlane { quantiser, samples, dc, ac } => {
                (20, *quantiser, (8, 8), [0; 4], [samples.to_vec(), le(dc), le(ac.as_flattened())].concat())
            }
        };
        let answer = self.ask().0;
        let mut out = vec![kind, quantiser, size.0, size.1];
        out.extend((given.len() as u32).to_le_bytes());
        out.extend(le(&numbers));
        out.extend((answer.len() as u32).to_le_bytes());
        out.extend([0; 4]);
        assert_eq!(out.len(), HEAD);
        out.extend(given);
        out.extend(answer);
        out
    }
}
