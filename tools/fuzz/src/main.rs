//! Compares the printer with what the published Rust says it is to print, on drawn inputs (README.md beside this folder).
//! `PRINTER [ARGUMENT..] -- [seconds S [SEED] | count N SEED]`; without a limit a minute with a fresh seed.
//! Exits with 1 at the first difference, having written the input to the file `difference` beside the program.

#[allow(dead_code)]
#[path = "../../reference/src/bits.rs"]
mod bits;
#[allow(dead_code)]
#[path = "../../reference/src/draw.rs"]
mod draw;
#[path = "../../reference/src/guard.rs"]
mod guard;
#[allow(dead_code)]
#[path = "../../reference/src/macroblock.rs"]
mod macroblock;
#[path = "../../reference/src/printer.rs"]
mod printer;
#[allow(dead_code)]
#[path = "../../reference/src/reader.rs"]
mod reader;
#[allow(dead_code)]
#[path = "../../reference/src/record.rs"]
mod record;
#[allow(dead_code)]
#[path = "../../reference/src/refusal.rs"]
mod refusal;
#[allow(dead_code)]
#[path = "../../reference/src/replay.rs"]
mod replay;
#[allow(dead_code)]
#[path = "../../reference/src/run.rs"]
mod run;
#[allow(dead_code)]
#[path = "../../reference/src/run_case.rs"]
mod run_case;
#[allow(dead_code)]
#[path = "../../reference/src/run_list.rs"]
mod run_list;
#[path = "../../acceptance/src/seed.rs"]
mod seed;
#[allow(dead_code)]
#[path = "../../reference/src/start.rs"]
mod start;
#[allow(dead_code)]
#[path = "../../reference/src/text.rs"]
mod text;
#[allow(dead_code)]
#[path = "../../reference/src/transcript.rs"]
mod transcript;

mod input;
mod process;
mod tally;

use draw::Draw;
use process::Ended;
use seed::{fresh, mixed};
use std::time::{Duration, Instant};
use tally::Tally;

/// Processes at a time.
const BATCH: usize = 8;

/// When to stop.
enum Until {
    Time(Duration),
    Count(u64),
}

fn main() -> std::io::Result<()> {
    let arguments: Vec<String> = std::env::args().skip(1).collect();
    let Some(end) = arguments.iter().position(|word| word == "--").filter(|&end| end > 0) else { usage() };
    let (command, words) = (&arguments[..end], &arguments[end + 1..]);
    let (until, seed) = match words.iter().map(String::as_str).collect::<Vec<_>>().as_slice() {
        [] => (Until::Time(Duration::from_secs(60)), fresh()),
        ["seconds", s] => (Until::Time(Duration::from_secs(number(s))), fresh()),
        ["seconds", s, seed] => (Until::Time(Duration::from_secs(number(s))), number(seed)),
        ["count", n, seed] => (Until::Count(number(n)), number(seed)),
        _ => usage(),
    };
    println!("seed {seed}");
    guard::silence();
    let begun = Instant::now();
    let mut tally = Tally::default();
    let (mut drawn, mut waiting) = (0, Vec::new());
    loop {
        let over = match until {
            Until::Time(most) => begun.elapsed() >= most,
            Until::Count(most) => tally.inputs() >= most,
        };
        if over {
            break;
        }
        while waiting.len() < BATCH {
            let (kind, inputs) = input::drawn(&mut Draw::new(mixed(seed, drawn)));
            waiting.extend(inputs.into_iter().map(|input| (kind, input)));
            drawn += 1;
        }
        let left = match until {
            Until::Count(most) => (most - tally.inputs()) as usize,
            Until::Time(_) => BATCH,
        };
        let batch: Vec<_> = waiting.drain(..BATCH.min(left)).collect();
        compare(command, &batch, &mut tally)?;
    }
    tally.print(begun.elapsed());
    Ok(())
}

/// A batch of inputs, each with its kind, through processes and through the reference.
fn compare(command: &[String], batch: &[(usize, Vec<u8>)], tally: &mut Tally) -> std::io::Result<()> {
    let inputs: Vec<Vec<u8>> = batch.iter().map(|(_, input)| input.clone()).collect();
    // One in four in two pieces: by the input's own bytes, so that the seed alone decides.
    let piece = |input: &Vec<u8>| match input.iter().map(|&byte| u32::from(byte)).sum::<u32>() {
        sum if sum % 4 == 0 => sum as usize % (input.len() + 1),
        _ => input.len(),
    };
    let pieces: Vec<usize> = inputs.iter().map(piece).collect();
    let expected = || inputs.iter().map(|input| guard::guarded(|| printer::printed(input))).collect::<Vec<_>>();
    let (expected, ended) = process::all(command, &inputs, &pieces, expected)?;
    for (((kind, input), expected), ended) in batch.iter().zip(expected).zip(ended) {
        match expected {
            Ok(text) if text.as_bytes() == ended.printed && ended.status == Some(0) => tally.add(*kind, input, &text),
            expected => differ(input, expected, &ended)?,
        }
    }
    Ok(())
}

/// Shows the difference and ends.
fn differ(input: &[u8], expected: Result<String, String>, ended: &Ended) -> std::io::Result<()> {
    let file = std::env::current_exe()?.with_file_name("difference");
    std::fs::write(&file, input)?;
    println!("DIFFERENCE on an input of {} bytes, written to {}", input.len(), file.display());
    match expected {
        Ok(text) => println!("due, and exit status 0:\n{text}"),
        Err(panic) => println!("the reference panics: {panic}"),
    }
    println!("printed, with exit status {:?}:\n{}", ended.status, String::from_utf8_lossy(&ended.printed));
    std::process::exit(1);
}

fn number(word: &str) -> u64 {
    word.parse().unwrap_or_else(|_| usage())
}

fn usage() -> ! {
    eprintln!("usage: fuzz PRINTER [ARGUMENT..] -- [seconds S [SEED] | count N SEED]");
    std::process::exit(2);
}
