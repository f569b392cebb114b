//! Document 01's transcript record of a macroblock, made with the published readers.

use crate::reader::reader_at;
use crate::refusal::Refusal;
use crate::run::{Made, Run, made};
use published::bitreader::BitReader;
use published::svq3_cbp::{CodedBlockPattern, read_cbp_inter};
use published::svq3_coeff::{decode_chroma_dc_2x2, decode_residual_4x4_normal};
use published::svq3_frame::{Access, access_convert_predictor, access_header};
use published::svq3_mb::{PFrameInterMode, Svq3MvPrecision, read_inter_mv_precision_p_frame};
use published::svq3_mv::{read_mv_difference, read_quantiser_delta};
use published::svq3_scan::NORMAL_ZIGZAG_4X4_SCAN;

/// Groups of seven bits, lowest first, the top bit set when another follows.
pub fn number(mut value: u32) -> Vec<u8> {
    let mut out = Vec::new();
    while value > 127 {
        out.push(value as u8 | 128);
        value >>= 7;
    }
    out.push(value as u8);
    out
}

pub fn signed(value: i32) -> Vec<u8> {
    let twice = 2 * i64::from(value);
    number(if value < 0 { -twice - 1 } else { twice } as u32)
}

pub fn call_bytes(call: [u32; 3]) -> Vec<u8> {
    call.map(number).concat()
}

/// What a run's only call leaves, with its record, or why it is refused.
pub fn step(run: &Run) -> Result<(Made, Vec<u8>), Refusal> {
    let result = made(run);
    if let Some((refusal, _)) = result.refused {
        return Err(refusal);
    }
    let record = record(run, &result);
    Ok((result, record))
}

fn record(run: &Run, result: &Made) -> Vec<u8> {
    let call = &run.calls[0];
    let mut out = call_bytes([call.column, call.row, call.mode as u32]);
    if call.mode == PFrameInterMode::Skip {
        return out;
    }
    let (mut reader, raise) = reader_at(&run.bits, run.place);
    let again = "read once already";
    let precision = read_inter_mv_precision_p_frame(&mut reader, run.third, run.half).expect(again);
    let (number_of, scale) = match precision {
        Svq3MvPrecision::Fullpel => (0, 6),
        Svq3MvPrecision::Halfpel => (1, 3),
        Svq3MvPrecision::Thirdpel => (2, 2),
    };
    let motion = motion(run, &mut reader, precision, scale);
    // The vectors made here are those that the Rust stored.
    assert_eq!((&motion.vectors, &motion.marks), (&result.left.vectors, &result.left.marks));
    out.extend(number(number_of));
    out.extend(number(motion.clipped));
    out.extend(motion.stored.into_iter().flat_map(signed));
    let pattern = read_cbp_inter(&mut reader).expect(again);
    out.extend(number(pattern.value().into()));
    if pattern.value() != 0 && run.delta_enable {
        let delta = read_quantiser_delta(&mut reader).expect(again);
        assert_eq!(i64::from(run.quantiser) + i64::from(delta), result.left.quantiser.into());
    }
    out.extend(number(result.left.quantiser));
    out.extend(levels(&mut reader, pattern).into_iter().flat_map(signed));
    assert_eq!(raise + reader.bits_consumed() as u64, result.left.place);
    out
}

/// The stored vectors of a macroblock, and the cells behind them.
struct Motion {
    stored: Vec<i32>,
    clipped: u32,
    vectors: Vec<(i32, i32)>,
    marks: Vec<u8>,
}

fn motion(run: &Run, reader: &mut BitReader<'_>, precision: Svq3MvPrecision, scale: i64) -> Motion {
    let header = access_header(run.columns, run.rows, run.half, run.third);
    let call = &run.calls[0];
    let (w, h) = call.mode.partition_size();
    let mut motion = Motion { stored: Vec::new(), clipped: 0, vectors: run.vectors.clone(), marks: run.marks.clone() };
    for (ox, oy) in call.mode.partition_offsets() {
        let difference = read_mv_difference(reader).expect("read once already");
        let (x, y) = (16 * call.column + ox, 16 * call.row + oy);
        let mut access = Access::new(&header, run.reference.as_ref()).expect("the grid is not empty");
        let cells = (motion.vectors.clone(), motion.marks.clone());
        access.start(run.delta_enable, run.quantiser, run.picture.clone(), cells.0, cells.1);
        let (px, py) = access.predict_mv(x, y, w, h);
        let mut component = |predictor: i32, difference: i32| {
            let units = i64::from(access_convert_predictor(predictor, precision));
            let (value, clipped) = held(units + i64::from(difference), scale);
            motion.clipped += u32::from(clipped);
            motion.stored.push(value);
            value
        };
        let vector = (component(px, difference.dx), component(py, difference.dy));
        for cell in cells_of(run.columns, x, y, w, h) {
            motion.vectors[cell] = vector;
            motion.marks[cell] = 1;
        }
    }
    motion
}

/// A sum and its product, each held in 32 bits, and whether one of them had to be.
fn held(sum: i64, scale: i64) -> (i32, bool) {
    let hold = |v: i64| v.clamp(i32::MIN.into(), i32::MAX.into());
    let product = hold(sum) * scale;
    (hold(product) as i32, hold(sum) != sum || hold(product) != product)
}

pub fn cells_of(columns: usize, x: u32, y: u32, w: u32, h: u32) -> Vec<usize> {
    let at = move |row: u32| (x / 4..(x + w) / 4).map(move |column| row as usize * 4 * columns + column as usize);
    (y / 4..(y + h) / 4).flat_map(at).collect()
}

/// The levels in the order of a transcript.
fn levels(reader: &mut BitReader<'_>, pattern: CodedBlockPattern) -> Vec<i32> {
    let mut out = Vec::new();
    let list = |reader: &mut BitReader<'_>, start: usize| {
        let mut block = [0; 16];
        decode_residual_4x4_normal(reader, &NORMAL_ZIGZAG_4X4_SCAN, start, &mut block).expect("read once already");
        block[start..].to_vec()
    };
    for _ in 0..4 * pattern.luma.count_ones() {
        out.extend(list(reader, 0));
    }
    for _ in 0..if pattern.chroma > 0 { 2 } else { 0 } {
        let mut dc = [0; 4];
        decode_chroma_dc_2x2(reader, &mut dc).expect("read once already");
        out.extend(dc);
    }
    for _ in 0..if pattern.chroma == 2 { 8 } else { 0 } {
        out.extend(list(reader, 1));
    }
    out
}
