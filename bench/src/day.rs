//! Days drawn at random. A day is played on a plain book as it is drawn, so that it is known who rests.
use crate::answer::Answer;
use crate::book::Book;
use crate::call::{CANCEL, Call, ENTRY, QUOTE, TICK};
use crate::random::Random;
use crate::tape::{LINE_BYTES, Tape};

/// What kind of day is drawn.
#[derive(Clone, Copy)]
pub struct Setting {
    /// So many orders rest at most.
    pub resting: usize,
    /// So many of a hundred calls are quotes.
    pub quotes: u32,
}

pub struct Day {
    pub bid: u32,
    pub offer: u32,
    pub calls: Vec<Call>,
    pub lines: usize,
    /// Lines that deplete a side.
    pub marked: usize,
    /// Orders that rest, on the average over all calls.
    pub mean_resting: f64,
    pub refused: usize,
}

/// Half past nine, in microseconds.
const MORNING: u64 = 34_200_000_000;

/// Members' names for their orders begin with one of these; a number follows.
const DESKS: [&[u8]; 4] = [b"A/", b"desk7-", b"MM~house.", b"longname.trader#"];

impl Day {
    pub fn draw(seed: u64, setting: Setting, count: usize) -> Day {
        let (bid, offer) = (1_000, 1_003);
        let mut room = vec![0; (2 * count + 64) * LINE_BYTES];
        let mut book = Book::open(bid, offer, Tape::new(&mut room)).expect("a lawful quote");
        let mut random = Random::new(seed);
        let mut calls = Vec::with_capacity(count);
        let (mut time, mut rested, mut refused) = (MORNING, 0, 0);
        for serial in 0..count {
            time += u64::from(random.below(1_200));
            let mut call = next(&mut random, &book, setting, serial);
            call.time = time;
            let answer: Answer = book.answer(&call);
            rested += book.rows().len();
            refused += usize::from(answer.number > 0);
            calls.push(call);
        }
        let lines = book.lines();
        let written = room.as_chunks::<LINE_BYTES>().0;
        Day {
            bid,
            offer,
            calls,
            lines,
            // the last byte of a line is its mark
            marked: written[..lines]
                .iter()
                .filter(|line| line[LINE_BYTES - 1] > 0)
                .count(),
            mean_resting: rested as f64 / count as f64,
            refused,
        }
    }
}

fn next(random: &mut Random, book: &Book, setting: Setting, serial: usize) -> Call {
    if random.percent(setting.quotes) {
        return quote(random, book);
    }
    if random.percent(3) {
        return Call {
            what: TICK,
            ..Call::default()
        };
    }
    let resting = book.rows().len();
    if resting >= setting.resting || (resting > 0 && random.percent(10)) {
        return cancel(random, book);
    }
    entry(random, book, serial)
}

/// A step of a cent or two, never far from ten dollars.
fn quote(random: &mut Random, book: &Book) -> Call {
    let bid = (book.quoted().0 as i32 + random.between(-2, 2)).clamp(970, 1_030);
    Call {
        what: QUOTE,
        bid: bid as u32,
        offer: (bid + random.between(1, 4)) as u32,
        ..Call::default()
    }
}

/// Of an order that rests; now and then of one that does not.
fn cancel(random: &mut Random, book: &Book) -> Call {
    let mut call = Call {
        what: CANCEL,
        ..Call::default()
    };
    if random.percent(5) {
        name(&mut call, b"nobody");
    } else {
        let row = &book.rows()[random.below(book.rows().len() as u32) as usize];
        name(&mut call, row.id.as_bytes());
    }
    call
}

/// Of any side and kind. One in four of the limit orders crosses the spread, and half of these are IOC.
fn entry(random: &mut Random, book: &Book, serial: usize) -> Call {
    let mut call = Call {
        what: ENTRY,
        side: 1 + random.below(2) as u8,
        kind: 1 + random.below(5) as u8,
        time_in_force: 1,
        shares: 1 + random.below(400),
        ..Call::default()
    };
    let (bid, offer) = book.quoted();
    // counted towards the other side of the market
    let forward = if call.side == 1 { 1 } else { -1 };
    let near = if call.side == 1 { bid } else { offer } as i32;
    let steps = if call.kind <= 2 && random.percent(25) {
        call.time_in_force = 1 + random.below(2) as u8;
        random.between(1, 6)
    } else {
        random.between(-8, 1)
    };
    call.limit = (near + forward * steps) as u32;
    match call.kind {
        3 | 4 => {
            call.qdp = random.below(2) as u8;
            let most = if call.kind == 4 && call.qdp == 0 {
                2
            } else {
                0
            };
            call.offset = forward * random.between(-4, most);
        }
        5 if random.percent(25) => call.time_in_force = 2,
        _ => {}
    }
    let mut id = DESKS[random.below(4) as usize].to_vec();
    id.extend((serial % 10_000).to_string().bytes());
    name(&mut call, &id);
    call
}

fn name(call: &mut Call, id: &[u8]) {
    call.id[..id.len()].copy_from_slice(id);
    call.id_len = id.len() as u8;
}
