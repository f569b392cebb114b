//! The printer as a process, several at a time.

use std::io::{self, ErrorKind, Read, Write};
use std::process::{Child, Command, Stdio};

/// What a process printed, and how it ended.
pub struct Ended {
    pub printed: Vec<u8>,
    /// Its exit status; a signal is none.
    pub status: Option<i32>,
}

/// Starts a process for each input, gives it the input, and lets `meanwhile` run before what they printed is read.
/// An input is written in two pieces, the second after all the first ones, so that a process may read a part.
pub fn all<T>(
    command: &[String],
    inputs: &[Vec<u8>],
    pieces: &[usize],
    meanwhile: impl FnOnce() -> T,
) -> io::Result<(T, Vec<Ended>)> {
    let mut children = Vec::new();
    for (input, &piece) in inputs.iter().zip(pieces) {
        let mut child =
            Command::new(&command[0]).args(&command[1..]).stdin(Stdio::piped()).stdout(Stdio::piped()).spawn()?;
        give(&mut child, &input[..piece])?;
        children.push(child);
    }
    for ((child, input), &piece) in children.iter_mut().zip(inputs).zip(pieces) {
        give(child, &input[piece..])?;
        drop(child.stdin.take());
    }
    let done = meanwhile();
    let ended = children.into_iter().map(end).collect::<io::Result<_>>()?;
    Ok((done, ended))
}

/// A process that has read all it wants may have closed its end.
fn give(child: &mut Child, piece: &[u8]) -> io::Result<()> {
    match child.stdin.as_mut().expect("a pipe").write_all(piece) {
        Err(error) if error.kind() == ErrorKind::BrokenPipe => Ok(()),
        other => other,
    }
}

fn end(mut child: Child) -> io::Result<Ended> {
    let mut printed = Vec::new();
    child.stdout.take().expect("a pipe").read_to_end(&mut printed)?;
    Ok(Ended { printed, status: child.wait()?.code() })
}
