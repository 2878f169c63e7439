//! What an order says, and the two prices that follow from it.
use crate::call::Call;

#[derive(Clone, Copy, PartialEq, Eq, Default)]
pub enum Side {
    #[default]
    Buy,
    Sell,
}

impl Side {
    pub fn opposite(self) -> Side {
        match self {
            Side::Buy => Side::Sell,
            Side::Sell => Side::Buy,
        }
    }

    /// Of two prices the one that gives away less.
    fn tamer(self, price: u32, other: u32) -> u32 {
        match self {
            Side::Buy => price.min(other),
            Side::Sell => price.max(other),
        }
    }

    /// An order of the side at the first price comes as far as the other, or beyond it.
    pub fn meets(self, price: u32, other: u32) -> bool {
        match self {
            Side::Buy => price >= other,
            Side::Sell => price <= other,
        }
    }

    /// For an order of the side, the first price is the better one to stand at.
    pub fn outranks(self, price: u32, other: u32) -> bool {
        match self {
            Side::Buy => price > other,
            Side::Sell => price < other,
        }
    }
}

/// Lawful terms, by `new`.
#[derive(Clone, Copy, Default)]
pub struct Terms {
    pub side: Side,
    pub kind: u8,
    pub ioc: bool,
    pub qdp: bool,
    pub shares: u32,
    pub limit: u32,
    pub offset: i32,
}

impl Terms {
    /// The terms of an entry, or the refusal's number, 1 to 5.
    pub fn new(call: &Call) -> Result<Terms, u32> {
        let side = match call.side {
            1 => Side::Buy,
            2 => Side::Sell,
            _ => return Err(1),
        };
        if !(1..=5).contains(&call.kind) || !(1..=2).contains(&call.time_in_force) || call.qdp > 1 {
            return Err(1);
        }
        if !(1..=1_000_000).contains(&call.shares) {
            return Err(2);
        }
        if !(1..=2_000_000).contains(&call.limit) {
            return Err(3);
        }
        if !(-100..=100).contains(&call.offset) {
            return Err(4);
        }
        let terms = Terms {
            side,
            kind: call.kind,
            ioc: call.time_in_force == 2,
            qdp: call.qdp == 1,
            shares: call.shares,
            limit: call.limit,
            offset: call.offset,
        };
        if terms.fits() { Ok(terms) } else { Err(5) }
    }

    fn fits(&self) -> bool {
        let aggressive = match self.side {
            Side::Buy => self.offset > 0,
            Side::Sell => self.offset < 0,
        };
        (self.is_mdo() || (self.offset == 0 && !self.qdp))
            && !(self.is_mdo() && self.ioc)
            && (!aggressive || (self.kind == 4 && !self.qdp))
    }

    pub fn is_mdo(&self) -> bool {
        self.kind == 3 || self.kind == 4
    }

    pub fn is_displayed(&self) -> bool {
        self.kind == 1 || self.kind == 3
    }

    /// Its prices change with the quote.
    pub fn follows_quote(&self) -> bool {
        self.kind >= 3
    }

    /// 1 displayed, 2 hidden, 3 midpoint peg.
    pub fn class(&self) -> u8 {
        match self.kind {
            1 | 3 => 1,
            2 | 4 => 2,
            _ => 3,
        }
    }

    /// Ranked price and reach at a quote, in half-cents, while its side is protected or not.
    pub fn prices(&self, bid: u32, offer: u32, protected: bool) -> (u32, u32) {
        let limit = 2 * self.limit;
        if self.kind <= 2 {
            return (limit, limit);
        }
        let midpoint = self.side.tamer(limit, bid + offer);
        if self.kind == 5 {
            return (midpoint, midpoint);
        }
        let peg = match self.side {
            Side::Buy => (2 * bid.saturating_add_signed(self.offset)).max(2),
            Side::Sell => (2 * offer.saturating_add_signed(self.offset)).min(4_000_000),
        };
        let ranked = self.side.tamer(peg, midpoint);
        (
            ranked,
            if self.qdp && protected {
                ranked
            } else {
                midpoint
            },
        )
    }
}
