//! One run of a book over a day, and what it leaves.
use crate::answer::Answer;
use crate::call::Call;
use crate::day::Day;
use crate::tape::LINE_BYTES;
use std::time::{Duration, Instant};

/// A book as it is run: quote, calls, answers and room for the tape; told are the lines.
pub type Runner = fn(u32, u32, &[Call], &mut [Answer], &mut [u8]) -> Option<usize>;

pub struct Run {
    pub time: Duration,
    pub lines: Option<usize>,
    pub checksum: u64,
}

/// Only the calls are timed, with the opening of the book; what was in answers and room is wiped out before.
pub fn run(runner: Runner, day: &Day, answers: &mut [Answer], room: &mut [u8]) -> Run {
    answers.fill(Answer::refused(u32::MAX));
    room.fill(0xA5);
    let start = Instant::now();
    let lines = runner(day.bid, day.offer, &day.calls, answers, room);
    let time = start.elapsed();
    let bytes = lines.unwrap_or(0) * LINE_BYTES;
    Run {
        time,
        lines,
        checksum: checksum(&room[..bytes]),
    }
}

/// FNV-1a, of 64 bits.
fn checksum(bytes: &[u8]) -> u64 {
    bytes.iter().fold(0xCBF2_9CE4_8422_2325, |sum, byte| {
        (sum ^ u64::from(*byte)).wrapping_mul(0x0100_0000_01B3)
    })
}
