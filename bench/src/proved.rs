//! The proved book, by the one function that its archive exports.
use crate::answer::Answer;
use crate::call::Call;

unsafe extern "C" {
    fn bench_book_run(
        bid: u32,
        offer: u32,
        calls: *const Call,
        calls_len: usize,
        answers: *mut Answer,
        answers_len: usize,
        room: *mut u8,
        room_len: usize,
    ) -> usize;
}

/// A new book, all calls on it, and how many lines it writes; None where it cannot be opened.
pub fn run(
    bid: u32,
    offer: u32,
    calls: &[Call],
    answers: &mut [Answer],
    room: &mut [u8],
) -> Option<usize> {
    // SAFETY: the export requires nothing but what the slices promise: their bytes are there, and the two that are written are
    // reached by nobody else. Call and Answer are laid out as its own, and every bit pattern of theirs is a value.
    let lines = unsafe {
        bench_book_run(
            bid,
            offer,
            calls.as_ptr(),
            calls.len(),
            answers.as_mut_ptr(),
            answers.len(),
            room.as_mut_ptr(),
            room.len(),
        )
    };
    (lines != usize::MAX).then_some(lines)
}
