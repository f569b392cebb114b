//! A sound run of one to three macroblocks, ended at each of its bits, and with each of its bits turned.

use crate::bits::Bits;
use crate::case::{Case, sound};
use crate::compare::{RECORD, Stop, with_room};
use crate::draw::Draw;
use crate::pairs;
use crate::run::made;
use crate::tally::Tally;

pub fn each_bit(draw: &mut Draw, tally: &mut Tally) -> Result<(), String> {
    let (case, bits) = sound(draw, tally);
    let room = RECORD * case.calls.len();
    // The place behind each call: the first is made at 0.
    let places: Vec<u64> = made(&case.run).accepted.iter().map(|call| call.0).collect();
    let whole = with_room(&case, room, draw, tally)?;
    for length in 0..=bits.len() {
        let ended = ended_at(&case, &bits, length, draw);
        let stop = with_room(&ended, room, draw, tally)?;
        let fitting = places.iter().take_while(|&&place| place <= length as u64).count();
        as_due(&stop, &whole, fitting, case.calls.len())
            .map_err(|what| format!("{length} of {} bits: {what}\n{}", bits.len(), ended.line()))?;
        let kind = if stop.code == 0 { "all calls accepted".into() } else { format!("9 after {fitting} calls") };
        tally.add("ended at a bit", kind);
    }
    pairs::each_turned(&case, &bits, tally)
}

/// The slice's last bit is the last of `length`; drawn bits stand before them.
fn ended_at(case: &Case, bits: &Bits, length: usize, draw: &mut Draw) -> Case {
    let before = (8 - length % 8) % 8 + 8 * draw.below(2) as usize;
    case.on(Bits::drawn(draw, before).then(&bits.first(length)).bytes(), before as u64)
}

/// The calls whose bits are there are accepted, with the records of the whole run; the next is refused by 9.
fn as_due(stop: &Stop, whole: &Stop, fitting: usize, calls: usize) -> Result<(), String> {
    let code = if fitting == calls { 0 } else { 9 };
    if (stop.accepted, stop.code) != (fitting as u64, code) {
        return Err(format!("{} calls and {} where {fitting} calls and {code} are due", stop.accepted, stop.code));
    }
    if !whole.transcript().starts_with(stop.transcript()) {
        return Err("the transcript does not begin the whole run's".into());
    }
    Ok(())
}
