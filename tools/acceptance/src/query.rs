//! A `run` query of tools/reference, answered by the proved library in the same words.

use crate::compare::RECORD;
use crate::ours::{Start, call_list};
use crate::run::Run;
use crate::text::{Words, hex, join};

/// `run` and its words; the answer has what the run left, and its refusal.
pub fn answer(line: &str) -> Result<String, String> {
    let mut words = Words::new(line);
    let kind = words.word()?;
    if kind != "run" {
        return Err(format!("{kind} is not answered here"));
    }
    let run = Run::parse(&mut words)?;
    let calls: Vec<[u32; 3]> = run.calls.iter().map(|call| [call.column, call.row, call.mode as u32]).collect();
    let mut ours = Start::of(&run, RECORD * calls.len());
    let told = ours.run(&call_list(&calls), &run.bits, run.place, 5);
    let mut words = vec![
        format!("accepted={}", told.counts[0]),
        format!("place={}", run.place + told.counts[1]),
        format!("quantiser={}", told.counts[3]),
        format!("luma={}", hex(&ours.picture[0])),
        format!("cb={}", hex(&ours.picture[1])),
        format!("cr={}", hex(&ours.picture[2])),
        format!("vectors={}", join(&ours.mv, ",")),
        format!("marks={}", hex(&ours.marks)),
    ];
    if told.code != 0 {
        words.push(format!("refused={}:{}", -told.code, told.counts[4] as i64));
    }
    Ok(words.join(" "))
}
