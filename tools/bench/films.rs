//! Whole films of one picture: the Rust's calls, our run, our replay of its transcript, and the copying of three planes.

use crate::film::{Film, Kind, film};
use crate::ours::Start;
use crate::stack;
use crate::timing::median;
use published::bitreader::BitReader;
use published::svq3_frame::{Access, access_header};
use std::hint::black_box;
use std::time::Instant;

/// Rounds with the buffers one way; as many follow in which the run and the replay have each other's, since where a
/// buffer lies changes its time. A figure is the mean of a round and its counterpart.
const ROUNDS: usize = 21;
/// A record has at most this many bytes.
const RECORD: usize = 2089;
const COUNTS: usize = 5;

/// Nanoseconds a macroblock, the medians of the figures.
struct Row {
    reference: f64,
    run: f64,
    replay: f64,
    copy: f64,
    /// The median of the replay's figure over the run's.
    replay_by_run: f64,
}

/// Measures and shows all films; answers what is below a bar.
pub fn rows() -> Vec<String> {
    let mut low = Vec::new();
    println!(
        "\n{:<16} {:>9} {:>9} {:>9} {:>7} {:>9} {:>9}",
        "a film's macroblock", "grid", "Rust, ns", "run, ns", "times", "replay", "memcpy"
    );
    // How many times as fast as the Rust a run has to be, on each grid.
    for (name, kind, bars) in [
        ("heavy", Kind::Heavy, [3.6; 3]),
        ("light", Kind::Light, [5.0, 5.0, 4.0]),
        ("skip", Kind::Skip, [0.0; 3]),
    ] {
        for ((columns, rows), bar) in [(22, 18), (45, 36), (120, 68)].into_iter().zip(bars) {
            let row = measured(&film(kind, columns, rows));
            let times = row.reference / row.run;
            println!(
                "{name:<19} {:>9} {:>9.0} {:>9.0} {times:>7.2} {:>9.0} {:>9.0}",
                format!("{columns} x {rows}"),
                row.reference,
                row.run,
                row.replay,
                row.copy
            );
            if times < bar {
                low.push(format!("{name} film, {columns} x {rows}: below {bar} times"));
            }
            if row.replay_by_run > 1.0 {
                low.push(format!("{name} film, {columns} x {rows}: the replay is slower than the run"));
            }
        }
    }
    let most = [(1, 1), (45, 36), (120, 68), (4096, 1)].map(|(columns, rows)| {
        let used = stack_of(&film(Kind::Heavy, columns, rows));
        println!("stack of a run, {columns} x {rows} macroblocks: {used} bytes");
        used
    });
    if most.iter().any(|&used| used >= 64 * 1024) {
        low.push("a run needs 64 KiB of stack or more".into());
    }
    low
}

/// Whether a state and a quantiser are what the Rust left. Compared in place: buffers made for it would drive the others
/// out of the cache.
fn same(access: &Access<'_>, state: &Start, quantiser: u32) -> bool {
    let (picture, vectors) = (access.picture(), access.vectors());
    let planes = [picture.luma(), picture.cb(), picture.cr()];
    state.picture.iter().zip(planes).all(|(ours, theirs)| ours == theirs)
        && state.mv.len() == 2 * vectors.len()
        && state.mv.chunks(2).zip(vectors).all(|(ours, &(x, y))| ours == [x, y])
        && state.marks == access.marks()
        && quantiser == access.quantiser()
}

fn measured(film: &Film) -> Row {
    let Film { run, list } = film;
    let macroblocks = run.calls.len() as f64;
    let header = access_header(run.columns, run.rows, run.half, run.third);
    let start = Start::of(run, room(film));
    let (mut theirs, mut ours, mut again, mut copied) = (Vec::new(), Vec::new(), Vec::new(), Vec::new());
    // Each side keeps its buffers from round to round, as a player does from picture to picture.
    let mut access = Access::new(&header, run.reference.as_ref()).expect("a grid");
    access.start(run.delta_enable, run.quantiser, run.picture.clone(), run.vectors.clone(), run.marks.clone());
    let (mut state, mut second, mut planes) = (start.clone(), start.clone(), start.picture.clone());
    for n in 0..2 * ROUNDS {
        if n == ROUNDS {
            std::mem::swap(&mut state, &mut second);
        }
        access.start_again(run.quantiser, &run.picture, &run.vectors, &run.marks);
        let mut reader = BitReader::new(&run.bits);
        let begun = Instant::now();
        for call in &run.calls {
            access.decode_inter_mb(&mut reader, call.column, call.row, call.mode).expect("a sound film");
        }
        theirs.push(begun.elapsed().as_nanos() as f64 / macroblocks);

        set_to(&mut state, &start);
        let begun = Instant::now();
        let told = state.run(list, &run.bits, run.place, COUNTS);
        ours.push(begun.elapsed().as_nanos() as f64 / macroblocks);
        assert_eq!((told.code, told.counts[0] as usize), (0, run.calls.len()), "the run is refused");
        assert_eq!(told.counts[1] as usize, reader.bits_consumed(), "bits consumed differ");
        assert!(same(&access, &state, told.counts[3] as u32), "the run differs");

        let transcript = &state.transcript[..told.counts[2] as usize];
        set_to(&mut second, &start);
        let begun = Instant::now();
        let told = second.replay(transcript, COUNTS);
        again.push(begun.elapsed().as_nanos() as f64 / macroblocks);
        assert_eq!((told.code, told.counts[0] as usize), (0, run.calls.len()), "the replay is refused");
        assert!(same(&access, &second, told.counts[1] as u32), "the replay differs");

        let begun = Instant::now();
        for (plane, reference) in planes.iter_mut().zip(&start.reference) {
            black_box(&mut *plane).copy_from_slice(black_box(reference));
        }
        copied.push(begun.elapsed().as_nanos() as f64 / macroblocks);
    }
    let [theirs, ours, again, copied] = [theirs, ours, again, copied].map(figures);
    let replay_by_run = median(again.iter().zip(&ours).map(|(replay, run)| replay / run).collect());
    Row { reference: median(theirs), run: median(ours), replay: median(again), copy: median(copied), replay_by_run }
}

/// Runs of the heavy film at 45 x 36 by the library alone; the macroblocks of one.
pub fn ours_alone(rounds: usize) -> usize {
    let film = film(Kind::Heavy, 45, 36);
    let Film { run, list } = &film;
    let start = Start::of(run, room(&film));
    let mut state = start.clone();
    for _ in 0..rounds {
        set_to(&mut state, &start);
        assert_eq!(state.run(list, &run.bits, run.place, COUNTS).code, 0, "the run is refused");
    }
    run.calls.len()
}

/// The same by the Rust alone.
pub fn rust_alone(rounds: usize) -> usize {
    let Film { run, .. } = &film(Kind::Heavy, 45, 36);
    let header = access_header(run.columns, run.rows, run.half, run.third);
    let mut access = Access::new(&header, run.reference.as_ref()).expect("a grid");
    access.start(run.delta_enable, run.quantiser, run.picture.clone(), run.vectors.clone(), run.marks.clone());
    for _ in 0..rounds {
        access.start_again(run.quantiser, &run.picture, &run.vectors, &run.marks);
        let mut reader = BitReader::new(&run.bits);
        for call in &run.calls {
            access.decode_inter_mb(&mut reader, call.column, call.row, call.mode).expect("a sound film");
        }
    }
    run.calls.len()
}

/// The mean of each round and its counterpart.
fn figures(rounds: Vec<f64>) -> Vec<f64> {
    let (first, other) = rounds.split_at(ROUNDS);
    first.iter().zip(other).map(|(one, two)| (one + two) / 2.0).collect()
}

/// One state as another of the same lengths, transcript apart, in the buffers that it has.
fn set_to(state: &mut Start, other: &Start) {
    state.quantiser = other.quantiser;
    for (plane, from) in state.picture.iter_mut().zip(&other.picture) {
        plane.copy_from_slice(from);
    }
    state.mv.copy_from_slice(&other.mv);
    state.marks.copy_from_slice(&other.marks);
}

/// Transcript bytes for a film's records and for the longest record behind them: each call asks for that much.
fn room(film: &Film) -> usize {
    let Film { run, list } = film;
    let mut state = Start::of(run, RECORD * run.calls.len());
    let told = state.run(list, &run.bits, run.place, COUNTS);
    told.counts[2] as usize + RECORD
}

/// The bytes of stack that a run takes.
fn stack_of(film: &Film) -> usize {
    let Film { run, list } = film;
    let mut state = Start::of(run, room(film));
    stack::used(|| assert_eq!(state.run(list, &run.bits, run.place, COUNTS).code, 0))
}
