//! A list of questions with their answers, as bytes for a program and as lines for a reader.

/// Every record starts with this many bytes of fixed meaning (README.md); what follows them has its length there.
pub const HEAD: usize = 32;

pub trait Record {
    /// The query line.
    fn line(&self) -> String;
    /// The answer line.
    fn answer(&self) -> String;
    /// The record: question and answer.
    fn bytes(&self) -> Vec<u8>;
}

/// One list behind the other.
pub fn joined(first: Vec<impl Record + 'static>, second: Vec<impl Record + 'static>) -> Vec<Box<dyn Record>> {
    let mut all: Vec<Box<dyn Record>> = Vec::new();
    all.extend(first.into_iter().map(|record| Box::new(record) as Box<dyn Record>));
    all.extend(second.into_iter().map(|record| Box::new(record) as Box<dyn Record>));
    all
}

/// A first record of kind 0 that holds the number of the others, then the others.
pub fn bytes(questions: &[Box<dyn Record>]) -> Vec<u8> {
    let mut out = vec![0; HEAD];
    out[8..16].copy_from_slice(&(questions.len() as u64).to_le_bytes());
    out.extend(questions.iter().flat_map(|question| question.bytes()));
    out
}

pub fn lines(questions: &[Box<dyn Record>]) -> String {
    questions.iter().map(|question| format!("{} -> {}\n", question.line(), question.answer())).collect()
}
