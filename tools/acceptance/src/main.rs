//! Compares the proved library with the published Rust, call by call, on drawn runs (README.md beside this folder).
//! `seconds S [SEED]` or `count N SEED`; without arguments a minute with a fresh seed. Exits with 1 at the first difference.
//! `query` answers the `run` queries of tools/reference, a line each, by the library alone.

#[allow(dead_code)]
#[path = "../../reference/src/bits.rs"]
mod bits;
#[allow(dead_code)]
#[path = "../../reference/src/draw.rs"]
mod draw;
#[path = "../../reference/src/guard.rs"]
mod guard;
#[allow(dead_code)]
#[path = "../../reference/src/reader.rs"]
mod reader;
#[allow(dead_code)]
#[path = "../../reference/src/record.rs"]
mod record;
#[allow(dead_code)]
#[path = "../../reference/src/refusal.rs"]
mod refusal;
#[allow(dead_code)]
#[path = "../../reference/src/run.rs"]
mod run;
#[allow(dead_code)]
#[path = "../../reference/src/run_list.rs"]
mod run_list;
#[allow(dead_code)]
#[path = "../../reference/src/text.rs"]
mod text;

mod asked;
mod case;
mod compare;
mod ends;
mod ours;
mod pairs;
mod query;
mod records;
mod seed;
mod tally;

use draw::Draw;
use seed::{fresh, mixed};
use std::time::{Duration, Instant};
use tally::Tally;

/// When to stop.
enum Until {
    Time(Duration),
    Count(u64),
}

fn main() {
    let arguments: Vec<String> = std::env::args().skip(1).collect();
    let words: Vec<&str> = arguments.iter().map(String::as_str).collect();
    if words == ["query"] {
        for line in std::io::stdin().lines() {
            let answer = line.map_err(|error| error.to_string()).and_then(|line| query::answer(&line));
            println!("{}", answer.unwrap_or_else(|problem| format!("bad {problem}")));
        }
        return;
    }
    let (until, seed) = match words.as_slice() {
        [] => (Until::Time(Duration::from_secs(60)), fresh()),
        ["seconds", s] => (Until::Time(Duration::from_secs(number(s))), fresh()),
        ["seconds", s, seed] => (Until::Time(Duration::from_secs(number(s))), number(seed)),
        ["count", n, seed] => (Until::Count(number(n)), number(seed)),
        _ => usage(),
    };
    println!("seed {seed}");
    guard::silence();
    let begun = Instant::now();
    let mut tally = Tally::default();
    for n in 0.. {
        let over = match until {
            Until::Time(most) => begun.elapsed() >= most,
            Until::Count(most) => n >= most,
        };
        if over {
            break;
        }
        let drawn = mixed(seed, n);
        if let Err(difference) =
            guard::guarded(|| one(n, drawn, &mut tally)).unwrap_or_else(|panic| Err(format!("panic {panic}")))
        {
            println!("DIFFERENCE in run {n} (drawn from {drawn}): {difference}");
            std::process::exit(1);
        }
    }
    tally.print(begun.elapsed());
}

/// Run n: a drawn run, a second one from its start, and a start with something wrong. Long grids and runs ended at each bit
/// take long: they are the first of a thousand, so that a short part has them too.
fn one(n: u64, drawn: u32, tally: &mut Tally) -> Result<(), String> {
    let mut draw = Draw::new(drawn);
    if n % 500 == 2 {
        return ends::each_bit(&mut draw, tally);
    }
    let case = match n % 2000 {
        0 => case::long(&mut draw, tally, 4096, 1),
        1 => case::long(&mut draw, tally, 1, 4096),
        n @ (1000 | 1001) => {
            let length = 65 + draw.below(4031);
            let (columns, rows) = if n == 1000 { (length, 1) } else { (1, length) };
            case::long(&mut draw, tally, columns, rows)
        }
        _ => case::drawn(&mut draw, tally),
    };
    compare::whole(&case, &mut draw, tally)?;
    pairs::drawn(&case, &mut draw, tally)?;
    asked::wrong_start(&case, &mut draw, tally)
}

fn number(word: &str) -> u64 {
    word.parse().unwrap_or_else(|_| usage())
}

fn usage() -> ! {
    eprintln!("usage: acceptance [seconds S [SEED] | count N SEED | query]");
    std::process::exit(2);
}
