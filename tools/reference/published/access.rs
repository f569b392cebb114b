
// ---------------------------------------------------------------------------------------------------------------
// Access for the comparison. All above is the published file; all below only sets and reads its private state.

/// A picture decode that starts from any state and is read back after each call, also after an error.
pub struct Access<'a>(PictureState<'a>);

/// The stream header of a grid with its two precision flags; every other field is unread by inter macroblocks.
/// 4,096 macroblocks are 65,536 samples: the widest header that is published says 65,535 and rounds up.
pub fn access_header(columns: usize, rows: usize, half: bool, third: bool) -> Svq3SequenceHeader {
    let samples = |macroblocks: usize| u16::try_from(macroblocks * 16).unwrap_or(u16::MAX);
    Svq3SequenceHeader {
        frame_size_code: 7,
        width: samples(columns),
        height: samples(rows),
        has_halfpel: half,
        has_thirdpel: third,
        postfilter_hint: false,
        extended_mode: false,
        reserved_5_6: 3,
        no_b_frames: true,
        reserved_8: false,
        optional_bytes: Vec::new(),
        protected: false,
        header_end_bit: 0,
    }
}

impl<'a> Access<'a> {
    pub fn new(header: &'a Svq3SequenceHeader, reference: Option<&'a Svq3Picture>) -> Result<Self> {
        PictureState::new(header, reference, Svq3FrameType::Predicted).map(Self)
    }

    /// Sets everything that document 01 names under Start and that `new` was not given.
    pub fn start(
        &mut self,
        delta_enable: bool,
        quantiser: u32,
        picture: Svq3Picture,
        vectors: Vec<(i32, i32)>,
        marks: Vec<u8>,
    ) {
        self.0.mb_qp_delta_enable = delta_enable;
        self.0.qp = quantiser;
        self.0.picture = picture;
        self.0.mv = vectors;
        self.0.block_map = marks;
    }

    /// The same in the buffers that it has; they are of these lengths.
    pub fn start_again(&mut self, quantiser: u32, picture: &Svq3Picture, vectors: &[(i32, i32)], marks: &[u8]) {
        self.0.qp = quantiser;
        self.0.picture.luma_mut().copy_from_slice(picture.luma());
        self.0.picture.cb_mut().copy_from_slice(picture.cb());
        self.0.picture.cr_mut().copy_from_slice(picture.cr());
        self.0.mv.copy_from_slice(vectors);
        self.0.block_map.copy_from_slice(marks);
    }

    pub fn decode_inter_mb(
        &mut self,
        br: &mut BitReader<'_>,
        column: u32,
        row: u32,
        mode: PFrameInterMode,
    ) -> Result<()> {
        let columns = self.0.mb_cols as u32;
        self.0.decode_inter_mb(br, macroblock_position(row * columns + column, columns)?, mode)
    }

    pub fn quantiser(&self) -> u32 {
        self.0.qp
    }

    pub fn picture(&self) -> &Svq3Picture {
        &self.0.picture
    }

    pub fn vectors(&self) -> &[(i32, i32)] {
        &self.0.mv
    }

    pub fn marks(&self) -> &[u8] {
        &self.0.block_map
    }

    /// The predictor in sixths of the partition of `w` by `h` samples at luma place (`x`, `y`), held in the picture.
    pub fn predict_mv(&self, x: u32, y: u32, w: u32, h: u32) -> (i32, i32) {
        self.0.predict_mv(x, y, w, h)
    }
}

/// A predictor in sixths converted to the precision's unit.
pub fn access_convert_predictor(p: i32, precision: Svq3MvPrecision) -> i32 {
    convert_predictor(p, precision)
}
