//! What was compared, by kind.

use std::collections::BTreeMap;
use std::time::Duration;

#[derive(Default)]
pub struct Tally {
    counts: BTreeMap<(&'static str, String), u64>,
}

/// Each section's heading, in the order of printing.
const SECTIONS: [&str; 14] = [
    "bits",
    "grid",
    "accepted in mode",
    "accepted on a long grid",
    "refused while reading",
    "first question answered with no (0 none)",
    "run",
    "ended at a bit",
    "replay",
    "damaged transcript",
    "second run of a pair",
    "pairs of runs from one start",
    "pairs of which both clip a component",
    "counts too short",
];

impl Tally {
    pub fn add(&mut self, section: &'static str, kind: impl ToString) {
        assert!(SECTIONS.contains(&section), "{section} is no section");
        *self.counts.entry((section, kind.to_string())).or_default() += 1;
    }

    fn sum(&self, section: &str) -> u64 {
        self.counts.iter().filter(|entry| entry.0.0 == section).map(|entry| entry.1).sum()
    }

    pub fn print(&self, taken: Duration) {
        for section in SECTIONS {
            let mut row: Vec<(&String, &u64)> =
                self.counts.iter().filter(|entry| entry.0.0 == section).map(|entry| (&entry.0.1, entry.1)).collect();
            // Refusals by number.
            row.sort_by_key(|entry| entry.0.split(' ').next().and_then(|word| word.parse::<u32>().ok()));
            let row: Vec<String> = row.iter().map(|(kind, count)| format!("{kind} {count}")).collect();
            println!("{section}: {}", if row.is_empty() { "none".into() } else { row.join(", ") });
        }
        let accepted = self.sum("accepted in mode");
        let refused = self.sum("refused while reading");
        let seconds = taken.as_secs_f64();
        println!(
            "macroblocks compared with the published Rust: {} ({accepted} accepted, {refused} refused), {:.0} a second",
            accepted + refused,
            (accepted + refused) as f64 / seconds
        );
        let (ends, pairs) = (self.sum("ended at a bit"), self.sum("pairs of runs from one start"));
        println!(
            "no difference in {} runs, {ends} ends at a bit and {pairs} pairs, {seconds:.1} seconds",
            self.sum("bits")
        );
    }
}
