// The permutation's state of 48 bytes.
use crate::archive;
use crate::error::{certain, result, Refusal};
use crate::more::erase;

/// Xoodoo's state of 48 bytes.
#[derive(Clone, Debug)]
pub struct Xoodoo {
    st: [u8; 48],
}

// As the original does.
impl Drop for Xoodoo {
    fn drop(&mut self) {
        erase(&mut self.st);
    }
}

impl Default for Xoodoo {
    fn default() -> Self {
        Self { st: [0u8; 48] }
    }
}

impl Xoodoo {
    pub fn from_bytes(bytes: [u8; 48]) -> Self {
        Self { st: bytes }
    }

    pub fn bytes(&self, out: &mut [u8; 48]) {
        *out = self.st;
    }

    /// The twelve rounds.
    pub fn permute(&mut self) {
        unsafe { archive::lafomeihu_xoodoo_permute(&mut self.st) }
    }

    /// Xors a byte into the state. Panics where the offset is above 47, as the original does; see [`Xoodoo::try_add_byte`].
    #[track_caller]
    pub fn add_byte(&mut self, byte: u8, offset: usize) {
        certain(self.try_add_byte(byte, offset))
    }

    /// Xors bytes into the state from byte 0 on. Panics where there are more than 48, of which the original silently drops
    /// the rest; see [`Xoodoo::try_add_bytes`].
    #[track_caller]
    pub fn add_bytes(&mut self, bytes: &[u8]) {
        certain(self.try_add_bytes(bytes))
    }

    /// Copies the first bytes of the state. Panics where more than 48 are wanted, as the original does; see
    /// [`Xoodoo::try_extract_bytes`].
    #[track_caller]
    pub fn extract_bytes(&mut self, out: &mut [u8]) {
        certain(self.try_extract_bytes(out))
    }

    // Beside the original.

    /// Number 6 where the offset is above 47.
    pub fn try_add_byte(&mut self, byte: u8, offset: usize) -> Result<(), Refusal> {
        result(unsafe { archive::lafomeihu_xoodoo_add_byte(&mut self.st, byte, offset) })
    }

    /// Number 6 where there are more than 48 bytes.
    pub fn try_add_bytes(&mut self, bytes: &[u8]) -> Result<(), Refusal> {
        result(unsafe { archive::lafomeihu_xoodoo_add_bytes(&mut self.st, bytes.as_ptr(), bytes.len()) })
    }

    /// Number 6 where more than 48 bytes are wanted.
    pub fn try_extract_bytes(&mut self, out: &mut [u8]) -> Result<(), Refusal> {
        result(unsafe { archive::lafomeihu_xoodoo_extract_bytes(&self.st, out.as_mut_ptr(), out.len()) })
    }

    /// Takes the twelve rounds back.
    pub fn inverse(&mut self) {
        unsafe { archive::lafomeihu_xoodoo_inverse(&mut self.st) }
    }

    /// The last `n` of the twelve rounds; number 11 where `n` is above 12.
    pub fn try_rounds(&mut self, n: usize) -> Result<(), Refusal> {
        result(unsafe { archive::lafomeihu_xoodoo_rounds(&mut self.st, n) })
    }

    /// Takes the last `n` of the twelve rounds back; number 11 where `n` is above 12.
    pub fn try_unrounds(&mut self, n: usize) -> Result<(), Refusal> {
        result(unsafe { archive::lafomeihu_xoodoo_unrounds(&mut self.st, n) })
    }
}
