//! A run of `decode_inter_mb` calls from any start, and all that it left.

use crate::draw::Draw;
use crate::reader::{mode_of, reader_at};
use crate::refusal::Refusal;
use crate::text::{Words, bytes_of, hex, join, number};
use published::svq3_frame::{Access, access_header};
use published::svq3_mb::PFrameInterMode;
use published::svq3_picture::Svq3Picture;

#[derive(Clone)]
pub struct Call {
    pub column: u32,
    pub row: u32,
    pub mode: PFrameInterMode,
}

/// The start, by document 01's list, and what the run is given.
#[derive(Clone)]
pub struct Run {
    pub columns: usize,
    pub rows: usize,
    pub half: bool,
    pub third: bool,
    pub delta_enable: bool,
    pub quantiser: u32,
    pub reference: Option<Svq3Picture>,
    pub picture: Svq3Picture,
    pub vectors: Vec<(i32, i32)>,
    pub marks: Vec<u8>,
    pub bits: Vec<u8>,
    pub place: u64,
    pub calls: Vec<Call>,
}

impl Run {
    pub fn parse(words: &mut Words) -> Result<Self, String> {
        let (columns, rows): (usize, usize) = (words.number()?, words.number()?);
        if !(1..=4096).contains(&columns) || !(1..=4096).contains(&rows) {
            return Err("the grid is not 1 to 4096 both ways".into());
        }
        let flags: u8 = words.number()?;
        let delta_enable = words.flag()?;
        let quantiser = words.number()?;
        let reference = match words.word()? {
            "none" => None,
            word => Some(picture_of(word, columns, rows)?),
        };
        let picture = picture_of(words.word()?, columns, rows)?;
        let cells = 16 * columns * rows;
        let vectors = vectors_of(words.word()?, cells)?;
        let marks = bytes_of(words.word()?, cells, 2)?;
        let (bits, place) = (words.hex()?, words.number()?);
        let calls = calls_of(words.word()?, columns, rows)?;
        words.end()?;
        let (half, third) = (flags & 1 == 1, flags & 2 == 2);
        Ok(Self {
            columns,
            rows,
            half,
            third,
            delta_enable,
            quantiser,
            reference,
            picture,
            vectors,
            marks,
            bits,
            place,
            calls,
        })
    }
}

/// Three planes: `fill:N`, `seed:N` (one generator through luma, Cb and Cr) or three hexadecimals with commas between.
fn picture_of(word: &str, columns: usize, rows: usize) -> Result<Svq3Picture, String> {
    let mut picture = Svq3Picture::new(columns, rows);
    let macroblocks = columns * rows;
    let all = match word.split(',').collect::<Vec<_>>().as_slice() {
        [luma, cb, cr] => [
            bytes_of(luma, 256 * macroblocks, 256)?,
            bytes_of(cb, 64 * macroblocks, 256)?,
            bytes_of(cr, 64 * macroblocks, 256)?,
        ]
        .concat(),
        _ => bytes_of(word, 384 * macroblocks, 256)?,
    };
    picture.luma_mut().copy_from_slice(&all[..256 * macroblocks]);
    picture.cb_mut().copy_from_slice(&all[256 * macroblocks..320 * macroblocks]);
    picture.cr_mut().copy_from_slice(&all[320 * macroblocks..]);
    Ok(picture)
}

/// `zero`, `seed:N` (each component a draw below 601 less 300, horizontal first) or numbers with commas between.
pub fn vectors_of(word: &str, cells: usize) -> Result<Vec<(i32, i32)>, String> {
    if word == "zero" {
        return Ok(vec![(0, 0); cells]);
    }
    if let Some(seed) = word.strip_prefix("seed:") {
        let mut draw = Draw::new(number(seed)?);
        return Ok((0..cells).map(|_| (draw.between(-300, 300), draw.between(-300, 300))).collect());
    }
    let numbers = word.split(',').map(number).collect::<Result<Vec<i32>, _>>()?;
    if numbers.len() != 2 * cells {
        return Err(format!("{} vector components where {} are due", numbers.len(), 2 * cells));
    }
    Ok(numbers.chunks(2).map(|pair| (pair[0], pair[1])).collect())
}

/// `-`, or column, row and mode with commas between and semicolons between calls; all within range.
fn calls_of(word: &str, columns: usize, rows: usize) -> Result<Vec<Call>, String> {
    if word == "-" {
        return Ok(Vec::new());
    }
    word.split(';')
        .map(|call| {
            let numbers = call.split(',').map(number).collect::<Result<Vec<u32>, _>>()?;
            let &[column, row, mode] = numbers.as_slice() else {
                return Err(format!("{call} is not three numbers"));
            };
            let mode = mode_of(mode).filter(|_| (column as usize) < columns && (row as usize) < rows);
            Ok(Call { column, row, mode: mode.ok_or(format!("{call} is outside the grid or the modes"))? })
        })
        .collect()
}

/// All that a call may change, read back.
pub struct Left {
    pub place: u64,
    pub quantiser: u32,
    pub planes: [Vec<u8>; 3],
    pub vectors: Vec<(i32, i32)>,
    pub marks: Vec<u8>,
}

impl Left {
    fn of(access: &Access<'_>, place: u64) -> Self {
        let picture = access.picture();
        Self {
            place,
            quantiser: access.quantiser(),
            planes: [picture.luma().to_vec(), picture.cb().to_vec(), picture.cr().to_vec()],
            vectors: access.vectors().to_vec(),
            marks: access.marks().to_vec(),
        }
    }
}

/// Place and quantiser behind each accepted call and what the last left; the refusal and what the Rust kept after it.
pub struct Made {
    pub accepted: Vec<(u64, u32)>,
    pub left: Left,
    pub refused: Option<(Refusal, Left)>,
}

/// Makes the calls in order with one reader and stops at the first refusal.
pub fn made(run: &Run) -> Made {
    let header = access_header(run.columns, run.rows, run.half, run.third);
    let mut access = Access::new(&header, run.reference.as_ref()).expect("the grid is not empty");
    access.start(run.delta_enable, run.quantiser, run.picture.clone(), run.vectors.clone(), run.marks.clone());
    let (mut reader, raise) = reader_at(&run.bits, run.place);
    let mut accepted = Vec::new();
    let mut left = Left::of(&access, run.place);
    for call in &run.calls {
        let quantiser = access.quantiser();
        let answer = access.decode_inter_mb(&mut reader, call.column, call.row, call.mode);
        let now = Left::of(&access, raise + reader.bits_consumed() as u64);
        if let Err(error) = answer {
            return Made { accepted, left, refused: Some((Refusal::of(error, quantiser), now)) };
        }
        accepted.push((now.place, now.quantiser));
        left = now;
    }
    Made { accepted, left, refused: None }
}

/// One line of `key=value` words.
pub fn answer(run: &Run) -> String {
    let result = made(run);
    let left = &result.left;
    let mut words = vec![
        format!("accepted={}", result.accepted.len()),
        format!("calls={}", join(result.accepted.iter().map(|(place, quantiser)| format!("{place}:{quantiser}")), ";")),
        format!("place={}", left.place),
        format!("quantiser={}", left.quantiser),
        format!("luma={}", hex(&left.planes[0])),
        format!("cb={}", hex(&left.planes[1])),
        format!("cr={}", hex(&left.planes[2])),
        format!("vectors={}", vectors_line(&left.vectors)),
        format!("marks={}", hex(&left.marks)),
    ];
    if let Some((refusal, kept)) = &result.refused {
        words.push(format!("refused={}:{}:{}", refusal.name, refusal.detail, refusal.number));
        words.push(format!("kept_place={}", kept.place));
        words.push(format!("kept_quantiser={}", kept.quantiser));
        words.push(format!("kept_vectors={}", vectors_line(&kept.vectors)));
        words.push(format!("kept_marks={}", hex(&kept.marks)));
        words.push(format!("kept_planes={}", if kept.planes == left.planes { "same" } else { "changed" }));
    }
    words.join(" ")
}

fn vectors_line(vectors: &[(i32, i32)]) -> String {
    join(vectors.iter().map(|(x, y)| format!("{x},{y}")), ",")
}
