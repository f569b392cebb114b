//! Questions about bits: the codes, lists and tables of one macroblock's readers.

use crate::record::{HEAD, Record};
use crate::refusal::Refusal;
use crate::text::{Words, hex, join};
use published::bitreader::BitReader;
use published::svq3::{Svq3FrameType, read_universal_code};
use published::svq3_cbp::read_cbp_inter;
use published::svq3_coeff::{ResidualBook, decode_chroma_dc_2x2, decode_residual_4x4_normal, resolve_level_run};
use published::svq3_mb::{
    PFrameInterMode, Svq3MbType, Svq3MvPrecision, classify_mb_type, read_inter_mv_precision_p_frame,
};
use published::svq3_mv::read_signed_code;
use published::svq3_scan::NORMAL_ZIGZAG_4X4_SCAN;

#[derive(Clone, Copy)]
pub enum Kind {
    Code,
    Signed,
    Precision {
        half: bool,
        third: bool,
    },
    Pattern,
    /// The chroma DC book, or the normal one; the place holds the code.
    Level {
        chroma: bool,
    },
    List {
        start: u8,
    },
    ChromaDc,
    Partitions {
        mode: u8,
    },
}

/// A reader at a place of some bits. `Level` takes its code as the place; it and `Partitions` have no bits.
#[derive(Clone)]
pub struct Question {
    pub kind: Kind,
    pub bits: Vec<u8>,
    pub place: u64,
}

/// What was read, or the refusal; and where the reader stood afterwards.
pub struct Answer {
    pub read: Result<Vec<i64>, Refusal>,
    pub next: u64,
}

/// The mode that a P picture's macroblock type number names; 8 and more name none.
pub fn mode_of(number: u32) -> Option<PFrameInterMode> {
    match classify_mb_type(Svq3FrameType::Predicted, number) {
        Ok(Svq3MbType::PInter(mode)) => Some(mode),
        _ => None,
    }
}

/// A reader at `place`, made over the bytes from there on; past the end it has no bits.
/// The second number is what its count of bits is to be raised by.
pub fn reader_at(bits: &[u8], place: u64) -> (BitReader<'_>, u64) {
    if place / 8 >= bits.len() as u64 {
        return (BitReader::new(&[]), place);
    }
    let mut reader = BitReader::new(&bits[(place / 8) as usize..]);
    for _ in 0..place % 8 {
        reader.read_bit().expect("the byte is there");
    }
    (reader, place / 8 * 8)
}

impl Kind {
    /// What the published reader of this kind answers.
    fn read(self, reader: &mut BitReader<'_>) -> published::Result<Vec<i64>> {
        Ok(match self {
            Kind::Code => vec![read_universal_code(reader)?.into()],
            Kind::Signed => vec![read_signed_code(reader)?.into()],
            Kind::Precision { half, third } => {
                vec![match read_inter_mv_precision_p_frame(reader, third, half)? {
                    Svq3MvPrecision::Fullpel => 0,
                    Svq3MvPrecision::Halfpel => 1,
                    Svq3MvPrecision::Thirdpel => 2,
                }]
            }
            Kind::Pattern => vec![read_cbp_inter(reader)?.value().into()],
            Kind::List { start } => {
                let mut levels = [0; 16];
                decode_residual_4x4_normal(reader, &NORMAL_ZIGZAG_4X4_SCAN, start.into(), &mut levels)?;
                levels.map(i64::from).to_vec()
            }
            Kind::ChromaDc => {
                let mut levels = [0; 4];
                decode_chroma_dc_2x2(reader, &mut levels)?;
                levels.map(i64::from).to_vec()
            }
            Kind::Level { .. } | Kind::Partitions { .. } => unreachable!("reads no bits"),
        })
    }
}

fn level(chroma: bool, code: u32) -> Vec<i64> {
    let book = if chroma { ResidualBook::ChromaDc } else { ResidualBook::NormalScan };
    resolve_level_run(book, code).map_or(Vec::new(), |(level, run)| vec![level.into(), run.into()])
}

/// Count, width, height, then each partition's horizontal and vertical offset.
fn partitions(mode: u8) -> Vec<i64> {
    let mode = mode_of(mode.into()).expect("a mode of 0 to 7");
    let (width, height) = mode.partition_size();
    let offsets = mode.partition_offsets();
    let head = [offsets.len() as i64, width.into(), height.into()];
    head.into_iter().chain(offsets.iter().flat_map(|&(x, y)| [x.into(), y.into()])).collect()
}

impl Question {
    pub fn new(kind: Kind, (bits, place): (Vec<u8>, u64)) -> Self {
        Self { kind, bits, place }
    }

    /// A question without bits.
    pub fn of(kind: Kind, place: u64) -> Self {
        Self { kind, bits: Vec::new(), place }
    }

    pub fn ask(&self) -> Answer {
        match self.kind {
            Kind::Level { chroma } => Answer { read: Ok(level(chroma, self.place as u32)), next: self.place },
            Kind::Partitions { mode } => Answer { read: Ok(partitions(mode)), next: self.place },
            kind => {
                let (mut reader, raise) = reader_at(&self.bits, self.place);
                let read = kind.read(&mut reader).map_err(|error| Refusal::of(error, 0));
                Answer { read, next: raise + reader.bits_consumed() as u64 }
            }
        }
    }

    /// The query of this kind, or nothing when `kind` names none.
    pub fn parse(kind: &str, words: &mut Words) -> Result<Option<Self>, String> {
        let kind = match kind {
            "code" => Kind::Code,
            "signed" => Kind::Signed,
            "precision" => Kind::Precision { half: words.flag()?, third: words.flag()? },
            "pattern" => Kind::Pattern,
            "level" => Kind::Level { chroma: book(words.word()?)? },
            "list" => Kind::List { start: within(words.number()?, 15)? },
            "dc" => Kind::ChromaDc,
            "partitions" => Kind::Partitions { mode: within(words.number()?, 7)? },
            _ => return Ok(None),
        };
        let question = match kind {
            Kind::Level { .. } => Self::of(kind, words.number::<u32>()?.into()),
            Kind::Partitions { .. } => Self::of(kind, 0),
            _ => Self { kind, bits: words.hex()?, place: words.number()? },
        };
        words.end()?;
        Ok(Some(question))
    }
}

fn book(word: &str) -> Result<bool, String> {
    match word {
        "normal" => Ok(false),
        "chroma" => Ok(true),
        other => Err(format!("{other} is not normal or chroma")),
    }
}

fn within(number: u8, most: u8) -> Result<u8, String> {
    if number <= most { Ok(number) } else { Err(format!("{number} is more than {most}")) }
}

impl Answer {
    pub fn line(&self) -> String {
        match &self.read {
            Ok(values) if values.is_empty() => format!("ok end {}", self.next),
            Ok(values) => format!("ok {} {}", join(values, " "), self.next),
            Err(refusal) => refusal.line(self.next),
        }
    }
}

impl Record for Question {
    fn line(&self) -> String {
        let name = match self.kind {
            Kind::Code => "code".into(),
            Kind::Signed => "signed".into(),
            Kind::Precision { half, third } => format!("precision {} {}", u8::from(half), u8::from(third)),
            Kind::Pattern => "pattern".into(),
            Kind::Level { chroma } => {
                return format!("level {} {}", if chroma { "chroma" } else { "normal" }, self.place);
            }
            Kind::List { start } => format!("list {start}"),
            Kind::ChromaDc => "dc".into(),
            Kind::Partitions { mode } => return format!("partitions {mode}"),
        };
        format!("{name} {} {}", hex(&self.bits), self.place)
    }

    fn answer(&self) -> String {
        self.ask().line()
    }

    /// Head: kind, option, status, count of values, count of bytes of bits, three 0; place, detail, next place.
    /// Then the bits and the values.
    fn bytes(&self) -> Vec<u8> {
        let (kind, option) = match self.kind {
            Kind::Code => (1, 0),
            Kind::Signed => (2, 0),
            Kind::Precision { half, third } => (3, u8::from(half) + 2 * u8::from(third)),
            Kind::Pattern => (4, 0),
            Kind::Level { chroma } => (5, chroma.into()),
            Kind::List { start } => (6, start),
            Kind::ChromaDc => (7, 0),
            Kind::Partitions { mode } => (8, mode),
        };
        let answer = self.ask();
        let (status, detail, values) = match &answer.read {
            Ok(values) => (0, 0, values.as_slice()),
            Err(refusal) => (refusal.number, refusal.detail, [].as_slice()),
        };
        let bits = u8::try_from(self.bits.len()).expect("at most 255 bytes of bits");
        let mut out = vec![kind, option, status, values.len() as u8, bits, 0, 0, 0];
        out.extend(self.place.to_le_bytes());
        out.extend(detail.to_le_bytes());
        out.extend(answer.next.to_le_bytes());
        assert_eq!(out.len(), HEAD);
        out.extend(&self.bits);
        // The low 32 bits: a code is unsigned, every other value fits an i32.
        out.extend(values.iter().flat_map(|&v| (v as u32).to_le_bytes()));
        out
    }
}
