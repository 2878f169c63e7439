//! What a book answers, in numbers.

/// Field for field `Told` of the crate `bench_book`: the refusal's number, or 0 and the values of what was done.
#[repr(C)]
#[derive(Clone, Copy, Debug, Default, PartialEq, Eq)]
pub struct Answer {
    pub number: u32,
    pub values: [u32; 3],
}

impl Answer {
    pub fn done(values: [u32; 3]) -> Answer {
        Answer { number: 0, values }
    }

    pub fn refused(number: u32) -> Answer {
        Answer {
            number,
            values: [0; 3],
        }
    }
}
