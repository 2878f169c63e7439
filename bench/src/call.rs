//! A call in numbers, as both books take it.

pub const ENTRY: u8 = 1;
pub const CANCEL: u8 = 2;
pub const QUOTE: u8 = 3;
pub const TICK: u8 = 4;

/// Field for field `Asked` of the crate `bench_book`. What a call of its kind does not have is 0.
#[repr(C)]
#[derive(Clone, Copy, Default)]
pub struct Call {
    pub time: u64,
    pub bid: u32,
    pub offer: u32,
    pub shares: u32,
    pub limit: u32,
    pub offset: i32,
    pub what: u8,
    pub side: u8,
    pub kind: u8,
    pub time_in_force: u8,
    pub qdp: u8,
    pub id_len: u8,
    pub id: [u8; 20],
}

impl Call {
    pub fn id(&self) -> &[u8] {
        &self.id[..usize::from(self.id_len).min(20)]
    }
}
