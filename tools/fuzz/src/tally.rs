//! What was compared, by kind of input and by what is printed.

use crate::input::KINDS;
use crate::printer::INPUT;
use std::collections::BTreeMap;
use std::time::Duration;

#[derive(Default)]
pub struct Tally {
    kinds: [u64; KINDS.len()],
    /// By whether there was a run, and the refusal's number or 0.
    outcomes: BTreeMap<(bool, u8), u64>,
    records: u64,
    /// Inputs of which not all is read.
    cut: u64,
    /// The most bytes printed.
    longest: usize,
}

impl Tally {
    pub fn add(&mut self, kind: usize, input: &[u8], text: &str) {
        self.kinds[kind] += 1;
        let ran = text.lines().any(|line| line.starts_with("bits "));
        let number = text
            .lines()
            .last()
            .and_then(|line| line.strip_prefix("refused "))
            .map_or(0, |number| number.parse().expect("the reference prints a number"));
        *self.outcomes.entry((ran, number)).or_default() += 1;
        self.records += text.lines().filter(|line| !line.contains(' ')).count() as u64;
        self.cut += u64::from(input.len() > INPUT);
        self.longest = self.longest.max(text.len());
    }

    pub fn inputs(&self) -> u64 {
        self.kinds.iter().sum()
    }

    pub fn print(&self, taken: Duration) {
        let kinds: Vec<String> = KINDS.iter().zip(self.kinds).map(|(name, count)| format!("{name} {count}")).collect();
        println!("inputs: {}", kinds.join(", "));
        let of = |ran: bool| -> Vec<String> {
            let some = self.outcomes.iter().filter(|entry| entry.0.0 == ran);
            some.map(|(&(_, number), count)| match number {
                0 => format!("accepted {count}"),
                _ => format!("refused {number} {count}"),
            })
            .collect()
        };
        println!("runs: {}", of(true).join(", "));
        println!("no run: {}", of(false).join(", "));
        println!(
            "records {}, inputs longer than {INPUT} bytes {}, most bytes printed {}",
            self.records, self.cut, self.longest
        );
        let seconds = taken.as_secs_f64();
        let inputs = self.inputs();
        println!("no difference in {inputs} inputs, {seconds:.1} seconds, {:.0} a second", inputs as f64 / seconds);
    }
}
