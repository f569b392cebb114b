//! A macroblock's compensation: 16 × 16 luma samples and the two blocks of 8 × 8 chroma samples.

use crate::timing::Row;
use published::svq3_mc::{ReferencePlane, motion_compensate_block, motion_compensate_chroma_block};
use std::hint::black_box;

unsafe extern "C" {
    // include/svq3_desk.h; a slice is a pointer and a length.
    fn svq3_compensate_block(
        plane: *const u8,
        plane_len: usize,
        width: u64,
        height: u64,
        x: i32,
        y: i32,
        w: u64,
        h: u64,
        mv_x: i32,
        mv_y: i32,
        out: *mut u8,
        out_len: usize,
    ) -> i64;
}

/// Luma columns and rows; chroma has half of each.
const WIDTH: usize = 320;
const HEIGHT: usize = 240;

struct Planes {
    luma: Vec<u8>,
    cb: Vec<u8>,
    cr: Vec<u8>,
}

/// A macroblock's place and vector.
#[derive(Clone, Copy)]
struct Place {
    x: i32,
    y: i32,
    vector: (i32, i32),
}

#[derive(Clone, PartialEq)]
struct Blocks {
    luma: [u8; 256],
    cb: [u8; 64],
    cr: [u8; 64],
}

/// How many times as fast the library has to be.
const BAR: f64 = 5.0;

pub fn rows(show: &mut impl FnMut(f64, Row)) {
    let planes = Planes::drawn();
    let phases = [(0, 0), (3, 3), (2, 4), (1, 3)];
    // Vectors of whole luma and chroma samples, to which the phases are added.
    let places = [
        ("inside", Place { x: 64, y: 64, vector: (36, 24) }),
        ("across an edge", Place { x: 0, y: 0, vector: (-36, -24) }),
    ];
    for (side, place) in places {
        for (px, py) in phases {
            let place = Place { vector: (place.vector.0 + px, place.vector.1 + py), ..place };
            let name = format!("compensation, phases ({px},{py}), {side}");
            assert!(reference(&planes, place) == proved(&planes, place), "{name}: results differ");
            let row = Row::measure(
                name,
                || drop(black_box(reference(&planes, black_box(place)))),
                || drop(black_box(proved(&planes, black_box(place)))),
            );
            show(BAR, row);
        }
    }
}

impl Planes {
    fn drawn() -> Self {
        let mut s = 7u32;
        let mut draw = |n: usize| -> Vec<u8> {
            let step = |_| {
                s = s.wrapping_mul(1_664_525).wrapping_add(1_013_904_223);
                (s >> 16) as u8
            };
            (0..n).map(step).collect()
        };
        Self { luma: draw(WIDTH * HEIGHT), cb: draw(WIDTH * HEIGHT / 4), cr: draw(WIDTH * HEIGHT / 4) }
    }
}

fn reference(planes: &Planes, at: Place) -> Blocks {
    let luma = ReferencePlane::new(&planes.luma, WIDTH, HEIGHT).expect("samples");
    let cb = ReferencePlane::new(&planes.cb, WIDTH / 2, HEIGHT / 2).expect("samples");
    let cr = ReferencePlane::new(&planes.cr, WIDTH / 2, HEIGHT / 2).expect("samples");
    let (vx, vy) = at.vector;
    let taken = |block: Vec<u8>, out: &mut [u8]| out.copy_from_slice(&block);
    let mut blocks = Blocks::empty();
    taken(motion_compensate_block(&luma, at.x, at.y, 16, 16, vx, vy), &mut blocks.luma);
    taken(motion_compensate_chroma_block(&cb, at.x, at.y, 16, 16, vx, vy), &mut blocks.cb);
    taken(motion_compensate_chroma_block(&cr, at.x, at.y, 16, 16, vx, vy), &mut blocks.cr);
    blocks
}

fn proved(planes: &Planes, at: Place) -> Blocks {
    let (vx, vy) = at.vector;
    let mut blocks = Blocks::empty();
    block(&planes.luma, WIDTH, HEIGHT, at.x, at.y, 16, vx, vy, &mut blocks.luma);
    block(&planes.cb, WIDTH / 2, HEIGHT / 2, at.x / 2, at.y / 2, 8, vx / 2, vy / 2, &mut blocks.cb);
    block(&planes.cr, WIDTH / 2, HEIGHT / 2, at.x / 2, at.y / 2, 8, vx / 2, vy / 2, &mut blocks.cr);
    blocks
}

#[allow(clippy::too_many_arguments)]
fn block(plane: &[u8], width: usize, height: usize, x: i32, y: i32, span: u64, vx: i32, vy: i32, out: &mut [u8]) {
    let (width, height) = (width as u64, height as u64);
    // SAFETY: both slices are whole and apart.
    let answer = unsafe {
        svq3_compensate_block(
            plane.as_ptr(),
            plane.len(),
            width,
            height,
            x,
            y,
            span,
            span,
            vx,
            vy,
            out.as_mut_ptr(),
            out.len(),
        )
    };
    assert_eq!(answer, 0);
}

impl Blocks {
    fn empty() -> Self {
        Self { luma: [0; 256], cb: [0; 64], cr: [0; 64] }
    }
}
