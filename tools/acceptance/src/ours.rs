//! The proved library behind its C entries (include/svq3_desk.h).

use crate::run::Run;

#[rustfmt::skip]
unsafe extern "C" {
    fn svq3_macroblock(
        cols: u64, rows: u64, flags: u32, delta_enable: u32, quantiser: u32,
        ref_y: *const u8, ref_y_len: usize, ref_cb: *const u8, ref_cb_len: usize, ref_cr: *const u8, ref_cr_len: usize,
        pic_y: *mut u8, pic_y_len: usize, pic_cb: *mut u8, pic_cb_len: usize, pic_cr: *mut u8, pic_cr_len: usize,
        mv: *mut i32, mv_len: usize, marks: *mut u8, marks_len: usize,
        column: u32, row: u32, mode: u32, bits: *const u8, bits_len: usize, place: u64,
        transcript: *mut u8, transcript_len: usize, fill: u64, counts: *mut u64, counts_len: usize,
    ) -> i64;
    fn svq3_run(
        cols: u64, rows: u64, flags: u32, delta_enable: u32, quantiser: u32,
        ref_y: *const u8, ref_y_len: usize, ref_cb: *const u8, ref_cb_len: usize, ref_cr: *const u8, ref_cr_len: usize,
        pic_y: *mut u8, pic_y_len: usize, pic_cb: *mut u8, pic_cb_len: usize, pic_cr: *mut u8, pic_cr_len: usize,
        mv: *mut i32, mv_len: usize, marks: *mut u8, marks_len: usize,
        calls: *const u8, calls_len: usize, bits: *const u8, bits_len: usize, place: u64,
        transcript: *mut u8, transcript_len: usize, counts: *mut u64, counts_len: usize,
    ) -> i64;
    fn svq3_replay(
        cols: u64, rows: u64, quantiser: u32,
        ref_y: *const u8, ref_y_len: usize, ref_cb: *const u8, ref_cb_len: usize, ref_cr: *const u8, ref_cr_len: usize,
        pic_y: *mut u8, pic_y_len: usize, pic_cb: *mut u8, pic_cb_len: usize, pic_cr: *mut u8, pic_cr_len: usize,
        mv: *mut i32, mv_len: usize, marks: *mut u8, marks_len: usize,
        transcript: *const u8, transcript_len: usize, counts: *mut u64, counts_len: usize,
    ) -> i64;
    fn svq3_check_transcript(cols: u64, rows: u64, bytes: *const u8, len: usize) -> i64;
}

/// All that is lent to a call, or that one is told of the start.
#[derive(Clone, PartialEq)]
pub struct Start {
    pub cols: u64,
    pub rows: u64,
    pub flags: u32,
    pub delta: u32,
    pub quantiser: u32,
    pub reference: [Vec<u8>; 3],
    pub picture: [Vec<u8>; 3],
    pub mv: Vec<i32>,
    pub marks: Vec<u8>,
    pub transcript: Vec<u8>,
}

/// What an entry answered: 0, or minus the refusal's number; and its counts.
#[derive(Debug, PartialEq)]
pub struct Told {
    pub code: i64,
    pub counts: Vec<u64>,
}

/// The answer where there are fewer counts than an entry writes.
pub const OUTPUT_ROOM: i64 = -18;

/// What the counts hold before a call.
pub const BEFORE: u64 = 0x5a5a;

impl Start {
    /// The start of a run, with `room` transcript bytes.
    pub fn of(run: &Run, room: usize) -> Self {
        let planes = |p: &published::svq3_picture::Svq3Picture| [p.luma().to_vec(), p.cb().to_vec(), p.cr().to_vec()];
        Self {
            cols: run.columns as u64,
            rows: run.rows as u64,
            flags: u32::from(run.half) + 2 * u32::from(run.third),
            delta: run.delta_enable.into(),
            quantiser: run.quantiser,
            reference: run.reference.as_ref().map_or_else(Default::default, planes),
            picture: planes(&run.picture),
            mv: run.vectors.iter().flat_map(|&(x, y)| [x, y]).collect(),
            marks: run.marks.clone(),
            transcript: vec![0xa5; room],
        }
    }

    #[rustfmt::skip]
    pub fn macroblock(&mut self, call: [u32; 3], bits: &[u8], place: u64, fill: u64, counts: usize) -> Told {
        let mut counts = vec![BEFORE; counts];
        let [ry, rcb, rcr] = &self.reference;
        let [y, cb, cr] = &mut self.picture;
        let (mv, marks, t) = (&mut self.mv, &mut self.marks, &mut self.transcript);
        // SAFETY: the slices are whole and apart.
        let code = unsafe {
            svq3_macroblock(
                self.cols, self.rows, self.flags, self.delta, self.quantiser,
                ry.as_ptr(), ry.len(), rcb.as_ptr(), rcb.len(), rcr.as_ptr(), rcr.len(),
                y.as_mut_ptr(), y.len(), cb.as_mut_ptr(), cb.len(), cr.as_mut_ptr(), cr.len(),
                mv.as_mut_ptr(), mv.len(), marks.as_mut_ptr(), marks.len(),
                call[0], call[1], call[2], bits.as_ptr(), bits.len(), place,
                t.as_mut_ptr(), t.len(), fill, counts.as_mut_ptr(), counts.len(),
            )
        };
        Told { code, counts }
    }

    #[rustfmt::skip]
    pub fn run(&mut self, calls: &[u8], bits: &[u8], place: u64, counts: usize) -> Told {
        let mut counts = vec![BEFORE; counts];
        let [ry, rcb, rcr] = &self.reference;
        let [y, cb, cr] = &mut self.picture;
        let (mv, marks, t) = (&mut self.mv, &mut self.marks, &mut self.transcript);
        // SAFETY: as above.
        let code = unsafe {
            svq3_run(
                self.cols, self.rows, self.flags, self.delta, self.quantiser,
                ry.as_ptr(), ry.len(), rcb.as_ptr(), rcb.len(), rcr.as_ptr(), rcr.len(),
                y.as_mut_ptr(), y.len(), cb.as_mut_ptr(), cb.len(), cr.as_mut_ptr(), cr.len(),
                mv.as_mut_ptr(), mv.len(), marks.as_mut_ptr(), marks.len(),
                calls.as_ptr(), calls.len(), bits.as_ptr(), bits.len(), place,
                t.as_mut_ptr(), t.len(), counts.as_mut_ptr(), counts.len(),
            )
        };
        Told { code, counts }
    }

    #[rustfmt::skip]
    pub fn replay(&mut self, transcript: &[u8], counts: usize) -> Told {
        let mut counts = vec![BEFORE; counts];
        let [ry, rcb, rcr] = &self.reference;
        let [y, cb, cr] = &mut self.picture;
        let (mv, marks) = (&mut self.mv, &mut self.marks);
        // SAFETY: as above.
        let code = unsafe {
            svq3_replay(
                self.cols, self.rows, self.quantiser,
                ry.as_ptr(), ry.len(), rcb.as_ptr(), rcb.len(), rcr.as_ptr(), rcr.len(),
                y.as_mut_ptr(), y.len(), cb.as_mut_ptr(), cb.len(), cr.as_mut_ptr(), cr.len(),
                mv.as_mut_ptr(), mv.len(), marks.as_mut_ptr(), marks.len(),
                transcript.as_ptr(), transcript.len(), counts.as_mut_ptr(), counts.len(),
            )
        };
        Told { code, counts }
    }

    /// The number of a transcript's records, or minus the refusal's number.
    pub fn check(&self, transcript: &[u8]) -> i64 {
        // SAFETY: as above.
        unsafe { svq3_check_transcript(self.cols, self.rows, transcript.as_ptr(), transcript.len()) }
    }

    /// Place by place, what differs from another state: the pictures, vectors, marks and the quantiser.
    pub fn differs(&self, other: &Self) -> Option<&'static str> {
        let pairs = [
            ("luma", self.picture[0] == other.picture[0]),
            ("cb", self.picture[1] == other.picture[1]),
            ("cr", self.picture[2] == other.picture[2]),
            ("vectors", self.mv == other.mv),
            ("marks", self.marks == other.marks),
            ("quantiser", self.quantiser == other.quantiser),
            ("reference", self.reference == other.reference),
        ];
        pairs.iter().find(|pair| !pair.1).map(|pair| pair.0)
    }
}

/// A list of calls in number form.
pub fn call_list(calls: &[[u32; 3]]) -> Vec<u8> {
    numbers(calls.iter().flatten().copied())
}

/// Numbers one after another in number form.
pub fn numbers(all: impl IntoIterator<Item = u32>) -> Vec<u8> {
    let mut bytes = Vec::new();
    for number in all {
        let mut rest = number;
        while rest >= 128 {
            bytes.push(rest as u8 | 128);
            rest >>= 7;
        }
        bytes.push(rest as u8);
    }
    bytes
}
