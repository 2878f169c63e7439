//! An identifier of one to twenty bytes that can be printed and are no blanks.

/// The bytes past the first `len` are 0, so that two are the same just when all their bytes and lengths are.
#[derive(Clone, Copy, Default, PartialEq, Eq)]
pub struct Id {
    bytes: [u8; 20],
    len: u8,
}

impl Id {
    /// None where the bytes are no lawful identifier.
    pub fn new(from: &[u8]) -> Option<Id> {
        if from.is_empty() || from.len() > 20 || from.iter().any(|byte| !(33..=126).contains(byte))
        {
            return None;
        }
        let mut bytes = [0; 20];
        bytes[..from.len()].copy_from_slice(from);
        Some(Id {
            bytes,
            len: from.len() as u8,
        })
    }

    pub fn as_bytes(&self) -> &[u8] {
        &self.bytes[..usize::from(self.len)]
    }

    /// The length first, since it differs most often.
    pub fn is(&self, other: &Id) -> bool {
        self.len == other.len && self.bytes == other.bytes
    }
}
