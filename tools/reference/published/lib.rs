//! The published modules that an inter macroblock is decoded with, and our stand-ins for three that are not published.

pub mod bitreader;
pub mod error;
pub mod svq3;
pub mod svq3_cbp;
pub mod svq3_coeff;
pub mod svq3_dequant;
pub mod svq3_filter;
pub mod svq3_frame;
pub mod svq3_mb;
pub mod svq3_mc;
pub mod svq3_mv;
pub mod svq3_picture;
pub mod svq3_pred;
pub mod svq3_recon;
pub mod svq3_scan;
pub mod svq3_tables;

pub use error::{Error, Result};
