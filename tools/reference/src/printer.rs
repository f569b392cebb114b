//! What document 01's printer prints for an input: header and list by the document's rules, the run by the published Rust.

use crate::replay::Numbers;
use crate::run_case::RunCase;
use crate::start::Start;
use crate::text::hex;
use published::svq3_picture::Svq3Picture;

/// Input past this is not read.
pub const INPUT: usize = 32_768;

/// Transcript bytes for as many records as there are calls at most.
const ROOM: usize = 16 * 2089;

/// Least and most of columns, rows, flags, delta-enable, quantiser and call count.
const RANGES: [(u32, u32); 6] = [(1, 4), (1, 4), (0, 3), (0, 1), (0, 31), (0, 16)];

pub fn printed(input: &[u8]) -> String {
    match run_of_input(&input[..input.len().min(INPUT)]) {
        Err(number) => refused(number),
        Ok(run) => {
            let answer = run.ask();
            let records: String = answer.records.iter().map(|record| hex(record) + "\n").collect();
            let stop = if answer.number == 0 { String::new() } else { refused(answer.number) };
            format!("{records}bits {}\n{stop}", answer.place)
        }
    }
}

fn refused(number: u8) -> String {
    format!("refused {number}\n")
}

/// Six numbers in their ranges, each judged as it is read, and as many calls as the last of them says; the rest is bits.
fn run_of_input(input: &[u8]) -> Result<RunCase, u8> {
    let mut numbers = Numbers(input);
    let mut header = [0; 6];
    for (field, (least, most)) in header.iter_mut().zip(RANGES) {
        *field = numbers.number()?;
        if *field < least || *field > most {
            return Err(15);
        }
    }
    let [columns, rows, flags, delta, quantiser, count] = header;
    let list = numbers.0;
    for _ in 0..count {
        numbers.call()?;
    }
    let bits = numbers.0.to_vec();
    let list = list[..list.len() - bits.len()].to_vec();
    let start = start(columns as usize, rows as usize);
    Ok(RunCase { room: ROOM, ..RunCase::plain(&start, flags + 4 * delta, quantiser, list, bits, 0) })
}

/// Reference 128; picture, vectors and marks 0.
fn start(columns: usize, rows: usize) -> Start {
    let cells = 16 * columns * rows;
    let (reference, picture) = (filled(columns, rows, 128), filled(columns, rows, 0));
    Start { columns, rows, reference, picture, vectors: vec![(0, 0); cells], marks: vec![0; cells] }
}

fn filled(columns: usize, rows: usize, value: u8) -> Svq3Picture {
    let mut picture = Svq3Picture::new(columns, rows);
    picture.luma_mut().fill(value);
    picture.cb_mut().fill(value);
    picture.cr_mut().fill(value);
    picture
}
