//! Questions about vectors: the predictor of a partition, and its conversion to the precision's unit.

use crate::run::vectors_of;
use crate::text::{Words, bytes_of};
use published::svq3_frame::{Access, access_convert_predictor, access_header};
use published::svq3_mb::Svq3MvPrecision;
use published::svq3_picture::Svq3Picture;

pub enum Question {
    Convert { precision: Svq3MvPrecision, predictor: i32 },
    Predict { grid: (usize, usize), vectors: Vec<(i32, i32)>, marks: Vec<u8>, partition: [u32; 4] },
}

impl Question {
    /// The query of this kind, or nothing when `kind` names none.
    pub fn parse(kind: &str, words: &mut Words) -> Result<Option<Self>, String> {
        let question = match kind {
            "convert" => Question::Convert { precision: precision(words.word()?)?, predictor: words.number()? },
            "predict" => {
                let grid: (usize, usize) = (words.number()?, words.number()?);
                if !(1..=4096).contains(&grid.0) || !(1..=4096).contains(&grid.1) {
                    return Err("the grid is not 1 to 4096 both ways".into());
                }
                let cells = 16 * grid.0 * grid.1;
                let vectors = vectors_of(words.word()?, cells)?;
                let marks = bytes_of(words.word()?, cells, 2)?;
                Question::Predict { grid, vectors, marks, partition: words.numbers()? }
            }
            _ => return Ok(None),
        };
        words.end()?;
        Ok(Some(question))
    }

    pub fn answer(&self) -> String {
        match self {
            Question::Convert { precision, predictor } => {
                format!("ok {}", access_convert_predictor(*predictor, *precision))
            }
            Question::Predict { grid, vectors, marks, partition: [x, y, w, h] } => {
                let header = access_header(grid.0, grid.1, false, false);
                let mut access = Access::new(&header, None).expect("the grid is not empty");
                access.start(false, 0, Svq3Picture::new(1, 1), vectors.clone(), marks.clone());
                let (px, py) = access.predict_mv(*x, *y, *w, *h);
                format!("ok {px} {py}")
            }
        }
    }
}

fn precision(word: &str) -> Result<Svq3MvPrecision, String> {
    match word {
        "0" => Ok(Svq3MvPrecision::Fullpel),
        "1" => Ok(Svq3MvPrecision::Halfpel),
        "2" => Ok(Svq3MvPrecision::Thirdpel),
        other => Err(format!("{other} is not 0, 1 or 2")),
    }
}
