//! Times the proved library and the published Rust side by side: the same inputs, both optimised, in one run.
//! A row fails where the results differ or the library is less than its bar times as fast.

#[allow(dead_code)]
#[path = "../reference/src/bits.rs"]
mod bits;
#[allow(dead_code)]
#[path = "../reference/src/draw.rs"]
mod draw;
#[allow(dead_code)]
#[path = "../acceptance/src/ours.rs"]
mod ours;
#[allow(dead_code)]
#[path = "../reference/src/reader.rs"]
mod reader;
#[allow(dead_code)]
#[path = "../reference/src/record.rs"]
mod record;
#[allow(dead_code)]
#[path = "../reference/src/refusal.rs"]
mod refusal;
#[allow(dead_code)]
#[path = "../reference/src/run.rs"]
mod run;
#[allow(dead_code)]
#[path = "../reference/src/text.rs"]
mod text;

mod compensation;
mod film;
mod films;
mod residual;
mod stack;
mod timing;

use timing::Row;

fn main() {
    let words: Vec<String> = std::env::args().skip(1).collect();
    if !words.is_empty() {
        return repeat(&words);
    }
    let mut low = Vec::new();
    println!("{:<44} {:>10} {:>10} {:>7}", "one macroblock", "Rust, ns", "ours, ns", "times");
    let mut show = |bar: f64, row: Row| {
        println!("{:<44} {:>10.0} {:>10.0} {:>7.1}", row.name, row.reference, row.proved, row.times());
        if row.times() < bar {
            low.push(format!("{}: below {bar} times", row.name));
        }
    };
    compensation::rows(&mut show);
    residual::rows(&mut show);
    low.extend(films::rows());
    if !low.is_empty() {
        println!("{}", low.join("\n"));
        std::process::exit(1);
    }
}

/// `ours N` or `rust N`: N runs of the heavy film at 45 x 36 by one side alone, for a count of instructions. Prints the macroblocks of a run.
fn repeat(words: &[String]) {
    let rounds = words.get(1).and_then(|word| word.parse().ok());
    match (words[0].as_str(), rounds) {
        ("ours", Some(rounds)) => println!("{}", films::ours_alone(rounds)),
        ("rust", Some(rounds)) => println!("{}", films::rust_alone(rounds)),
        _ => {
            eprintln!("bench [ours N | rust N]");
            std::process::exit(2);
        }
    }
}
