//! A tape of bytes, 43 to a line.

pub const LINE_BYTES: usize = 43;

/// One trade.
#[derive(Clone, Copy)]
pub struct Line {
    pub time: u64,
    pub partner: u32,
    pub taker: u32,
    pub shares: u32,
    pub price: u32,
    pub mark: u8,
}

pub struct Tape<'a> {
    free: &'a mut [[u8; LINE_BYTES]],
    lines: usize,
}

impl<'a> Tape<'a> {
    pub fn new(room: &'a mut [u8]) -> Tape<'a> {
        Tape {
            free: room.as_chunks_mut().0,
            lines: 0,
        }
    }

    pub fn lines(&self) -> usize {
        self.lines
    }

    pub fn free_lines(&self) -> usize {
        self.free.len() - self.lines
    }

    /// Every field is a tag, two bytes of length and the value, highest byte first.
    pub fn write(&mut self, line: Line) {
        let bytes = &mut self.free[self.lines];
        bytes[..3].copy_from_slice(&[1, 0, 8]);
        bytes[3..11].copy_from_slice(&line.time.to_be_bytes());
        let numbers = [line.partner, line.taker, line.shares, line.price];
        for (index, number) in numbers.into_iter().enumerate() {
            let at = 11 + 7 * index;
            bytes[at..at + 3].copy_from_slice(&[2 + index as u8, 0, 4]);
            bytes[at + 3..at + 7].copy_from_slice(&number.to_be_bytes());
        }
        bytes[39..].copy_from_slice(&[6, 0, 1, line.mark]);
        self.lines += 1;
    }
}
