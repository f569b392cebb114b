//! The fixed list of runs and replays: stopped and whole runs, lists out of form, transcripts that no run writes.

use crate::bits::Bits;
use crate::draw::Draw;
use crate::macroblock_list::{GRIDS, far};
use crate::reader::mode_of;
use crate::run_case::{Case, ReplayCase, RunCase};
use crate::run_list::{Film, component};
use crate::start::Start;
use crate::transcript::{call_bytes, number, signed};

pub fn cases() -> Vec<Case> {
    let mut draw = Draw::new(4);
    let state = Start::drawn(&mut draw, 1, 1);
    let mut list = List { draw, all: Vec::new(), state, asked: 0, transcripts: Vec::new() };
    list.drawn();
    list.stopped();
    list.clipped();
    list.lists();
    list.questions();
    list.rooms();
    list.transcripts_of_runs();
    list.free_transcripts();
    list.broken_transcripts();
    list.replay_questions();
    list.all
}

struct List {
    draw: Draw,
    all: Vec<Case>,
    state: Start,
    asked: usize,
    /// Transcripts of runs, with their starts and quantisers.
    transcripts: Vec<ReplayCase>,
}

impl List {
    fn refresh(&mut self) {
        if self.asked % 12 == 0 {
            let (columns, rows) = GRIDS[self.asked / 12 % 8];
            self.state = Start::drawn(&mut self.draw, columns, rows);
            self.state.draw_cells(&mut self.draw);
            self.all.push(Case::Start(self.state.clone()));
        } else if self.asked % 4 == 0 {
            self.state.draw_cells(&mut self.draw);
            self.all.push(Case::Cells(self.state.clone()));
        }
    }

    fn put(&mut self, run: RunCase) {
        self.asked += 1;
        self.all.push(Case::Run(Box::new(run)));
    }

    fn put_replay(&mut self, replay: ReplayCase) {
        self.asked += 1;
        self.all.push(Case::Replay(Box::new(replay)));
    }

    fn call(&mut self) -> [u32; 3] {
        let (columns, rows) = (self.state.columns as u32, self.state.rows as u32);
        [self.draw.below(columns), self.draw.below(rows), self.draw.below(8)]
    }

    /// A film of that many calls from a drawn place on, damaged or not.
    fn run(&mut self, count: usize, damaged: bool) -> RunCase {
        let calls = (0..count).map(|_| self.call()).collect();
        let flags = self.draw.below(8);
        self.film(calls, flags, damaged, 0)
    }

    /// The same with a last macroblock of mode 1 that is refused with that number, 10 to 13, where it is not 0.
    fn film(&mut self, mut calls: Vec<[u32; 3]>, flags: u32, damaged: bool, number: u8) -> RunCase {
        let quantiser = self.draw.below(32);
        let from = self.draw.below(20) as usize;
        let bits = Bits::drawn(&mut self.draw, from);
        let (delta_enable, flag) = (flags & 4 == 4, flags & 3);
        let mut film = Film { flags: flag, delta_enable, quantiser: quantiser as i32, bits, draw: &mut self.draw };
        for call in &calls {
            film.macroblock(call[2]);
        }
        for _ in 0..if damaged { 8 } else { 0 } {
            film.damage(from);
        }
        if number > 0 {
            calls.push([0, 0, 1]);
            refused_macroblock(&mut film, number);
        }
        let bits = film.bits.bytes();
        let list = calls.iter().flat_map(|&call| call_bytes(call)).collect();
        RunCase::plain(&self.state, flags, quantiser, list, bits, from as u64)
    }

    fn drawn(&mut self) {
        for turn in 0..150 {
            self.refresh();
            let count = self.draw.below(6) as usize;
            let run = self.run(count, turn % 3 == 2);
            let transcript = run.ask().transcript();
            if !transcript.is_empty() {
                self.transcripts.push(ReplayCase::plain(&self.state, run.lent.quantiser, transcript));
            }
            self.put(run);
        }
    }

    /// Each refusal while reading, at the first call and behind two.
    fn stopped(&mut self) {
        for turn in 0..24 {
            self.refresh();
            let calls = (0..turn % 3).map(|_| self.call()).collect();
            let (flags, number) = (self.draw.below(8), 10 + turn as u8 / 6);
            let flags = if number == 12 { flags | 4 } else { flags };
            let run = self.film(calls, flags, false, number);
            self.put(run);
        }
    }

    /// Differences about the limits of 32 bits.
    fn clipped(&mut self) {
        for turn in 0..40 {
            self.refresh();
            let calls: Vec<[u32; 3]> = (0..3).map(|_| self.call()).collect();
            let (flags, quantiser) = (turn % 4, self.draw.below(32));
            let mut film =
                Film { flags, delta_enable: false, quantiser: 0, bits: Bits::default(), draw: &mut self.draw };
            for mode in calls.iter().map(|call| call[2]).filter(|&mode| mode > 0) {
                film.precision();
                for _ in 0..2 * mode_of(mode).expect("a mode").num_motion_vectors() {
                    let value = far(film.draw);
                    film.signed(value);
                }
                film.residual(turn % 7);
            }
            let bits = film.bits.bytes();
            let list = calls.iter().flat_map(|&call| call_bytes(call)).collect();
            self.put(RunCase::plain(&self.state, flags, quantiser, list, bits, 0));
        }
    }

    /// Lists that are out of form, also behind calls that are in form and from a start that is refused.
    fn lists(&mut self) {
        let broken: [&[u8]; 12] = [
            &[0],
            &[0, 0],
            &[128],
            &[0, 0, 128],
            &[128, 0, 0, 0],
            &[0, 0x81, 0x00, 0],
            &[0xff, 0xff, 0xff, 0xff, 0x10, 0, 0],
            &[0, 0xff, 0xff, 0xff, 0xff, 0x7f, 0],
            &[0, 0, 0x80, 0x80, 0x80, 0x80, 0x80, 0x01],
            &[0, 0, 0xff, 0xff, 0xff, 0xff],
            &[0x80, 0x80, 0x80, 0x80, 0x00, 0, 0],
            &[0, 0, 1, 0],
        ];
        for tail in broken {
            for (calls, spoilt) in [(0, false), (2, false), (1, true)] {
                self.refresh();
                let mut run = self.run(calls, false);
                run.list.extend(tail);
                if spoilt {
                    run.lent.grid.0 = 0;
                }
                self.put(run);
            }
        }
        // In form, and outside the grid or the modes: 5, at the first call or behind two.
        for call in [[u32::MAX, 0, 0], [0, u32::MAX, 0], [0, 0, u32::MAX], [9, 0, 1], [0, 9, 1], [0, 0, 8]] {
            for calls in [0, 2] {
                self.refresh();
                let mut run = self.run(calls, false);
                run.list.extend(call_bytes(call));
                self.put(run);
            }
        }
    }

    /// Questions 1 to 7 with no call, one call and two.
    fn questions(&mut self) {
        for calls in [0, 1, 2] {
            for spoil in 0..21 {
                self.refresh();
                let mut run = self.run(calls, false);
                let lent = &mut run.lent;
                match spoil {
                    0 => lent.grid.0 = 0,
                    1 => lent.grid.1 = 0,
                    2 => lent.grid.0 = 4097,
                    3 => lent.grid.1 = 4097,
                    4..12 => lent.lengths[spoil - 4] -= 1,
                    12 => lent.lengths[5..].fill(0),
                    13 => lent.lengths[6] = 0,
                    14 => lent.quantiser = 32,
                    15 => lent.quantiser = u32::MAX,
                    16 => lent.place = 8 * lent.bytes as u64 + 1,
                    17 => lent.place = u64::MAX,
                    18 => lent.grid.0 += 1,
                    // Two at once: the earlier question answers, and the replay's may be another.
                    19 => (lent.quantiser, lent.place) = (32, u64::MAX),
                    _ => {
                        lent.quantiser = 32;
                        run.list = call_bytes([0, 0, 8]);
                    }
                }
                self.put(run);
            }
        }
    }

    /// Rooms about what the calls need: 8 at the first, the second or none.
    fn rooms(&mut self) {
        for room in [0, 3, 2088, 2089, 2090, 2092, 2100, 2200, 2300, 2400, 2500, 2600, 4178] {
            for calls in [0, 3] {
                self.refresh();
                let mut run = self.run(calls, false);
                run.room = room;
                self.put(run);
            }
        }
    }
}

fn refused_macroblock(film: &mut Film, number: u8) {
    film.precision();
    if number == 10 {
        let data: Vec<bool> = (0..31).map(|_| film.draw.bit()).collect();
        film.bits = std::mem::take(&mut film.bits).unended(&data);
        film.bits.0.extend([false; 9]);
        return;
    }
    film.signed(1);
    film.signed(-1);
    let past = 48 + film.draw.below(999);
    film.code(match number {
        11 => past,
        12 => 2,
        _ => 15,
    });
    let delta = film.draw.pick(&[-32, 32, i32::MAX, -i32::MAX]);
    match number {
        12 => film.signed(delta),
        13 if film.delta_enable => film.signed(-film.quantiser),
        _ => {}
    }
    for _ in 0..18 {
        film.code(1);
    }
}

// Replays.
impl List {
    /// A state that later replays start from is put into the list once.
    fn start_from(&mut self, start: &Start) {
        self.state = start.clone();
        self.all.push(Case::Start(start.clone()));
    }

    fn transcripts_of_runs(&mut self) {
        for i in 0..24 {
            let at = i * self.transcripts.len() / 24;
            let mut replay = self.transcripts[at].clone();
            self.start_from(&replay.start.clone());
            self.put_replay(replay.clone());
            // Cut where a record may end or not.
            replay.transcript.truncate(replay.transcript.len() - 1);
            self.put_replay(replay.clone());
            replay.transcript.truncate(replay.transcript.len() / 2);
            self.put_replay(replay);
        }
    }

    /// A record whose fields are drawn over their whole ranges: no run need have written it.
    fn record(&mut self, mode: u32, pattern: u32) -> Vec<u8> {
        let call = self.call();
        let mut out = call_bytes([call[0], call[1], mode]);
        let partitions = mode_of(mode).expect("a mode").num_motion_vectors();
        out.extend(number(self.draw.below(3)));
        out.extend(number(self.draw.below(2 * partitions + 1)));
        for _ in 0..2 * partitions {
            out.extend(signed(component(&mut self.draw)));
        }
        out.extend(number(pattern));
        out.extend(number(self.draw.below(32)));
        let class = pattern / 16;
        let chroma = if class > 0 { 8 } else { 0 } + if class == 2 { 120 } else { 0 };
        let kind = self.draw.below(3);
        for _ in 0..64 * (pattern % 16).count_ones() + chroma {
            out.extend(signed(match kind {
                0 => self.draw.between(-3, 3),
                1 => self.draw.between(-900, 900),
                _ => component(&mut self.draw),
            }));
        }
        out
    }

    fn free_transcripts(&mut self) {
        for turn in 0..40 {
            self.refresh();
            let pattern = if turn % 5 == 0 { 47 } else { self.draw.below(48) };
            let mut transcript = self.record(1 + turn % 7, pattern);
            if turn % 2 == 0 {
                let [column, row, _] = self.call();
                transcript.extend(call_bytes([column, row, 0]));
                transcript.extend(self.record(7 - turn % 7, 0));
            }
            let quantiser = self.draw.below(32);
            self.put_replay(ReplayCase::plain(&self.state, quantiser, transcript));
        }
    }

    /// Each field out of form and out of its range, behind a record that is right.
    fn broken_transcripts(&mut self) {
        let fields: [&[u8]; 22] = [
            &[9, 0, 0],
            &[0, 9, 0],
            &[0, 0, 8],
            &[9, 9],
            &[9, 0, 0x80, 0],
            &[0, 0, 1, 3],
            &[0, 0, 1, 0x82, 0],
            &[0, 0, 1, 2, 3],
            &[0, 0, 4, 2, 9],
            &[0, 0, 7, 2, 33],
            &[0, 0, 7, 2, 0xa0, 0x80],
            &[0, 0, 1, 0, 2, 0xff, 0xff, 0xff, 0xff, 0x1f],
            &[0, 0, 1, 0, 2, 0xff, 0xff, 0xff, 0xff, 0x0f, 0x80, 0x00],
            &[0, 0, 1, 0, 0, 0, 0, 48],
            &[0, 0, 1, 0, 0, 0, 0, 0x80, 0x01],
            &[0, 0, 1, 0, 0, 0, 0, 0, 32],
            &[0, 0, 1, 0, 0, 0, 0, 0, 0x9f, 0],
            &[0, 0, 1, 0, 0, 0, 0, 16, 31, 1, 2, 3, 4, 5, 6, 7],
            &[0, 0, 1, 0, 0, 0, 0, 16, 31, 1, 2, 3, 4, 5, 6, 7, 0x80],
            &[0, 0, 1, 0, 0, 0, 0, 16, 31, 1, 2, 3, 4, 5, 6, 7, 0xff, 0xff, 0xff, 0xff, 0x0f],
            &[0, 0, 1, 0, 0, 0, 0, 16, 31, 1, 2, 3, 4, 5, 6, 7, 0xff, 0xff, 0xff, 0xff, 0x10],
            &[0, 0, 0, 0],
        ];
        for tail in fields {
            for ahead in [false, true] {
                self.refresh();
                let mut transcript = if ahead { self.record(2, 1) } else { Vec::new() };
                transcript.extend(tail);
                self.put_replay(ReplayCase::plain(&self.state, 6, transcript));
            }
        }
    }

    /// Questions 1 to 4 and 6, with a transcript in form, one that is not, and none.
    fn replay_questions(&mut self) {
        for kind in 0..3 {
            for spoil in 0..17 {
                self.refresh();
                let transcript = match kind {
                    0 => self.record(1, 0),
                    1 => vec![0, 0, 8],
                    _ => Vec::new(),
                };
                let mut replay = ReplayCase::plain(&self.state, 6, transcript);
                let lent = &mut replay.lent;
                match spoil {
                    0 => lent.grid.0 = 0,
                    1 => lent.grid.1 = 0,
                    2 => lent.grid.0 = 4097,
                    3 => lent.grid.1 = 4097,
                    4..12 => lent.lengths[spoil - 4] -= 1,
                    12 => lent.lengths[5..].fill(0),
                    13 => lent.lengths[5] = 0,
                    14 => lent.quantiser = 32,
                    15 => lent.quantiser = u32::MAX,
                    _ => lent.grid.1 += 1,
                }
                self.put_replay(replay);
            }
        }
    }
}
