//! Stand-in: the edge filter of intra pictures by name only. No inter macroblock calls it.

use crate::svq3_picture::Svq3Picture;

pub fn filter_intra_picture(_: &mut Svq3Picture, _: u32) {
    unreachable!("only inter macroblocks are decoded here")
}
