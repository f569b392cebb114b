//! Stand-in: the intra prediction tables by name only. No inter macroblock reads them.

pub const SVQ3_INTRA4X4_PRED_MODE_ILLEGAL: u8 = 255;
pub const SVQ3_INTRA4X4_PRED_MODE_CONTEXT: [[[u8; 5]; 6]; 6] = [[[SVQ3_INTRA4X4_PRED_MODE_ILLEGAL; 5]; 6]; 6];
pub const SVQ3_INTRA4X4_PRED_MODE_PAIRS: [(u8, u8); 25] = [(0, 0); 25];
