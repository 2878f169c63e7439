//! The same book in plain Rust, written for speed: rows keep their prices, which are worked out anew with a quote or a period.
use crate::answer::Answer;
use crate::call::{CANCEL, Call, ENTRY, QUOTE, TICK};
use crate::id::Id;
use crate::row::Row;
use crate::tape::{Line, Tape};
use crate::terms::{Side, Terms};

const MOST_RESTING: usize = 64;
const MOST_ENTRIES: u32 = 1_000_000;
const LAST_MOMENT: u64 = 86_399_999_999;
const PROTECTION_PERIOD: u64 = 2_000;
const ROUND_LOT: u32 = 100;
/// The refusal of numbers that are no kind of call.
const UNKNOWN: u32 = 255;

/// What is swept when something new happens.
#[derive(Clone, Copy)]
enum Round {
    QuoteChanged,
    PeriodEnded(Side),
}

pub struct Book<'a> {
    /// The first `len` count, in the order of their entry numbers. Within a call some of them may have no shares left.
    rows: [Row; MOST_RESTING + 1],
    len: usize,
    /// Rows with shares left.
    resting: usize,
    bid: u32,
    offer: u32,
    /// When the buy side's and the sell side's protection period ends; 0 where none runs.
    ends: [u64; 2],
    clock: u64,
    entries: u32,
    tape: Tape<'a>,
}

/// Two prices that make no quote are refused 6.
fn lawful_quote(bid: u32, offer: u32) -> Result<(), u32> {
    if bid < 1 || bid >= offer || offer > 2_000_000 {
        return Err(6);
    }
    Ok(())
}

impl<'a> Book<'a> {
    /// None where the quote is not lawful.
    pub fn open(bid: u32, offer: u32, tape: Tape<'a>) -> Option<Book<'a>> {
        lawful_quote(bid, offer).ok()?;
        Some(Book {
            rows: [Row::default(); MOST_RESTING + 1],
            len: 0,
            resting: 0,
            bid,
            offer,
            ends: [0; 2],
            clock: 0,
            entries: 0,
            tape,
        })
    }

    /// The orders that rest, between calls.
    pub fn rows(&self) -> &[Row] {
        &self.rows[..self.len]
    }

    pub fn quoted(&self) -> (u32, u32) {
        (self.bid, self.offer)
    }

    pub fn lines(&self) -> usize {
        self.tape.lines()
    }

    pub fn answer(&mut self, call: &Call) -> Answer {
        let values = match call.what {
            ENTRY => self.enter(call),
            CANCEL => self.cancel(call),
            QUOTE => self.quote(call),
            TICK => self.advance(call.time).map(|()| [0; 3]),
            _ => Err(UNKNOWN),
        };
        values.map_or_else(Answer::refused, Answer::done)
    }

    fn enter(&mut self, call: &Call) -> Result<[u32; 3], u32> {
        let terms = Terms::new(call)?;
        let id = Id::new(call.id()).ok_or(7u32)?;
        self.advance(call.time)?;
        if self.find(&id).is_some() {
            return Err(10);
        }
        if self.resting >= MOST_RESTING && !terms.ioc {
            return Err(11);
        }
        if self.entries >= MOST_ENTRIES {
            return Err(12);
        }
        self.entries += 1;
        let index = self.len;
        let mut row = Row {
            left: terms.shares,
            number: self.entries,
            class: terms.class(),
            terms,
            id,
            ..Row::default()
        };
        (row.ranked, row.reach) = self.prices(&terms);
        self.rows[index] = row;
        self.len += 1;
        self.resting += 1;
        self.sweep(call.time, index);
        let left = self.rows[index].left;
        let lapsed = if terms.ioc { left } else { 0 };
        if lapsed > 0 {
            self.rows[index].left = 0;
            self.resting -= 1;
        }
        self.tidy();
        Ok([row.number, terms.shares - left, lapsed])
    }

    fn cancel(&mut self, call: &Call) -> Result<[u32; 3], u32> {
        let id = Id::new(call.id()).ok_or(7u32)?;
        self.advance(call.time)?;
        let index = self.find(&id).ok_or(13u32)?;
        let left = self.rows[index].left;
        self.rows.copy_within(index + 1..self.len, index);
        self.len -= 1;
        self.resting -= 1;
        Ok([left, 0, 0])
    }

    fn quote(&mut self, call: &Call) -> Result<[u32; 3], u32> {
        lawful_quote(call.bid, call.offer)?;
        self.advance(call.time)?;
        self.bid = call.bid;
        self.offer = call.offer;
        self.price_anew();
        self.sweep_each(call.time, Round::QuoteChanged);
        self.tidy();
        Ok([0; 3])
    }

    /// The start of every call: each period that is due ends, the earlier first, the buy side's where both end together.
    fn advance(&mut self, time: u64) -> Result<(), u32> {
        if time < self.clock || time > LAST_MOMENT {
            return Err(8);
        }
        if self.tape.free_lines() < self.resting {
            return Err(9);
        }
        while let Some((side, end)) = self.due(time) {
            self.ends[side as usize] = 0;
            self.reach_anew(side);
            self.sweep_each(end, Round::PeriodEnded(side));
        }
        self.tidy();
        self.clock = time;
        Ok(())
    }

    fn due(&self, time: u64) -> Option<(Side, u64)> {
        let [buy, sell] = self.ends;
        let first = if buy > 0 && (sell == 0 || buy <= sell) {
            (Side::Buy, buy)
        } else {
            (Side::Sell, sell)
        };
        (first.1 > 0 && first.1 <= time).then_some(first)
    }

    fn find(&self, id: &Id) -> Option<usize> {
        self.rows[..self.len].iter().position(|row| row.id.is(id))
    }

    fn prices(&self, terms: &Terms) -> (u32, u32) {
        let protected = self.ends[terms.side as usize] > 0;
        terms.prices(self.bid, self.offer, protected)
    }

    /// At a new quote.
    fn price_anew(&mut self) {
        for index in 0..self.len {
            let terms = self.rows[index].terms;
            if terms.follows_quote() {
                (self.rows[index].ranked, self.rows[index].reach) = self.prices(&terms);
            }
        }
    }

    /// As a protection period of the side begins or ends.
    fn reach_anew(&mut self, side: Side) {
        for index in 0..self.len {
            let terms = self.rows[index].terms;
            if terms.qdp && terms.side == side {
                self.rows[index].reach = self.prices(&terms).1;
            }
        }
    }

    /// Every order that the round wakes is swept, lowest entry number first.
    fn sweep_each(&mut self, time: u64, round: Round) {
        for index in 0..self.len {
            let row = &self.rows[index];
            let wakes = match round {
                Round::QuoteChanged => row.terms.follows_quote(),
                Round::PeriodEnded(side) => row.terms.qdp && row.terms.side == side,
            };
            if wakes && row.left > 0 {
                self.sweep(time, index);
            }
        }
    }

    /// The order takes at the reach that it has now, until it is filled or finds no partner.
    fn sweep(&mut self, time: u64, taker: usize) {
        let price = self.rows[taker].reach;
        let side = self.rows[taker].terms.side.opposite();
        while self.rows[taker].left > 0 {
            let Some((partner, line_price)) = self.next_partner(side, price) else {
                return;
            };
            self.trade(time, taker, partner, line_price);
        }
    }

    /// The partner that goes first, and the price of its line: one pass, with the keys of the best kept.
    fn next_partner(&self, side: Side, price: u32) -> Option<(usize, u32)> {
        let mut best = None;
        let mut best_price = 0;
        let mut best_class = 0;
        for (index, row) in self.rows[..self.len].iter().enumerate() {
            if row.left == 0 || row.terms.side != side || !side.meets(row.reach, price) {
                continue;
            }
            let line_price = if side.meets(row.ranked, price) {
                row.ranked
            } else {
                price
            };
            let class = if line_price == row.ranked {
                row.class
            } else {
                4
            };
            // Rows stand by number, so that of two with the same price and class the first one stays.
            if best.is_none()
                || side.outranks(line_price, best_price)
                || (line_price == best_price && class < best_class)
            {
                best = Some((index, line_price));
                best_price = line_price;
                best_class = class;
            }
        }
        best
    }

    /// One line; where it depletes, it is marked, and the partner's side is protected from its time on.
    fn trade(&mut self, time: u64, taker: usize, partner: usize, price: u32) {
        let shares = self.rows[taker].left.min(self.rows[partner].left);
        let (side, ranked) = (self.rows[partner].terms.side, self.rows[partner].ranked);
        self.take(partner, shares);
        let depletes = self.rows[partner].terms.is_displayed() && self.is_depleted(side, ranked);
        self.take(taker, shares);
        let mut mark = 0;
        if depletes {
            mark = 1 + side as u8;
            let ran = self.ends[side as usize] > 0;
            self.ends[side as usize] = time + PROTECTION_PERIOD;
            if !ran {
                self.reach_anew(side);
            }
        }
        self.tape.write(Line {
            time,
            partner: self.rows[partner].number,
            taker: self.rows[taker].number,
            shares,
            price,
            mark,
        });
    }

    fn take(&mut self, index: usize, shares: u32) {
        let row = &mut self.rows[index];
        row.left -= shares;
        if row.left == 0 {
            self.resting -= 1;
        }
    }

    /// Nothing displayed of the side ranks better than the price, and less than a round lot is displayed there. The partner that
    /// stood at the price ranks no better than it, so that this may be asked once it is lowered.
    fn is_depleted(&self, side: Side, price: u32) -> bool {
        let mut shown = 0;
        for row in &self.rows[..self.len] {
            if row.left == 0 || row.terms.side != side || !row.terms.is_displayed() {
                continue;
            }
            if side.outranks(row.ranked, price) {
                return false;
            }
            if row.ranked == price {
                shown += row.left;
            }
        }
        shown < ROUND_LOT
    }

    /// Rows without shares leave; the others keep their order.
    fn tidy(&mut self) {
        if self.resting == self.len {
            return;
        }
        let mut kept = 0;
        for index in 0..self.len {
            if self.rows[index].left > 0 {
                if kept < index {
                    self.rows[kept] = self.rows[index];
                }
                kept += 1;
            }
        }
        self.len = kept;
    }
}

/// A new book, all calls on it, and how many lines it writes; None where it cannot be opened.
#[inline(never)]
pub fn run(
    bid: u32,
    offer: u32,
    calls: &[Call],
    answers: &mut [Answer],
    room: &mut [u8],
) -> Option<usize> {
    let mut book = Book::open(bid, offer, Tape::new(room))?;
    for (call, answer) in calls.iter().zip(answers) {
        *answer = book.answer(call);
    }
    Some(book.lines())
}
