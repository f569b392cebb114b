//! Asks the published Rust. Without arguments: a query a line on standard input, an answer a line on standard output.
//! `vectors NAME` writes a fixed list of questions with their answers as bytes, `vectors NAME text` as lines;
//! `runs COUNT SEED` writes drawn runs as query lines; `printer` prints what document 01's printer is to print.

mod bits;
mod draw;
mod guard;
mod macroblock;
mod macroblock_list;
mod printer;
mod reader;
mod reader_list;
mod record;
mod refusal;
mod replay;
mod run;
mod run_case;
mod run_case_list;
mod run_list;
mod sample;
mod sample_list;
mod start;
mod text;
mod transcript;
mod vector;

use std::io::{self, BufRead, Read, Write};

fn main() -> io::Result<()> {
    let arguments: Vec<String> = std::env::args().skip(1).collect();
    let words: Vec<&str> = arguments.iter().map(String::as_str).collect();
    let mut out = io::BufWriter::new(io::stdout().lock());
    match words.as_slice() {
        [] => answer_lines(&mut out)?,
        ["vectors", name @ ("parts" | "films")] => out.write_all(&record::bytes(&list(name)))?,
        ["vectors", name @ ("parts" | "films"), "text"] => out.write_all(record::lines(&list(name)).as_bytes())?,
        ["runs", count, seed] => {
            let count = text::number(count).map_err(io::Error::other)?;
            let seed = text::number(seed).map_err(io::Error::other)?;
            out.write_all(run_list::queries(count, seed).as_bytes())?;
        }
        ["printer"] => {
            let mut input = Vec::new();
            io::stdin().read_to_end(&mut input)?;
            out.write_all(printer::printed(&input).as_bytes())?;
        }
        _ => {
            eprintln!("usage: reference [vectors parts|films [text] | runs COUNT SEED | printer]");
            std::process::exit(2);
        }
    }
    out.flush()
}

/// The fixed list of that name.
fn list(name: &str) -> Vec<Box<dyn record::Record>> {
    match name {
        "parts" => record::joined(reader_list::questions(), sample_list::questions()),
        _ => record::joined(macroblock_list::cases(), run_case_list::cases()),
    }
}

/// Answers each line as soon as it is read, so that a program may ask and wait.
fn answer_lines(out: &mut impl Write) -> io::Result<()> {
    guard::silence();
    let mut session = Session::default();
    for line in io::stdin().lock().lines() {
        let answer = session.answer(&line?);
        writeln!(out, "{answer}")?;
        out.flush()?;
    }
    Ok(())
}

/// What a query may refer back to: the last plane given.
#[derive(Default)]
struct Session {
    plane: sample::Plane,
}

impl Session {
    fn answer(&mut self, line: &str) -> String {
        let mut words = text::Words::new(line);
        let kind = match words.word() {
            Ok(kind) => kind.to_string(),
            Err(_) => return "bad empty query".into(),
        };
        let answer = self.ask(&kind, &mut words);
        answer.unwrap_or_else(|problem| format!("bad {problem}"))
    }

    fn ask(&mut self, kind: &str, words: &mut text::Words) -> Result<String, String> {
        let work: Box<dyn FnOnce() -> String> = if kind == "run" {
            let run = run::Run::parse(words)?;
            Box::new(move || run::answer(&run))
        } else if let Some(question) = reader::Question::parse(kind, words)? {
            Box::new(move || question.ask().line())
        } else if let Some(question) = vector::Question::parse(kind, words)? {
            Box::new(move || question.answer())
        } else if let Some(question) = sample::Question::parse(kind, words, &self.plane)? {
            if let sample::Question::Plane(plane) = &question {
                self.plane = plane.clone();
            }
            Box::new(move || question.ask().line())
        } else {
            return Err(format!("unknown query {kind}"));
        };
        Ok(guard::guarded(work).unwrap_or_else(|why| format!("panic {why}")))
    }
}
