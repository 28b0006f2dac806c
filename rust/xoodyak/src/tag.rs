// The tag of a sealed message.
use crate::archive;
use crate::error::Error;
use crate::more::erase;

/// The length of a tag.
pub const AUTH_TAG_BYTES: usize = 16;

/// The tag of a sealed message. Equality looks at all of its 128 bits, wherever the first difference lies.
#[derive(Clone, Debug, Default, Eq)]
pub struct Tag(pub(crate) [u8; AUTH_TAG_BYTES]);

impl Tag {
    /// `TagMismatch` where the bytes differ from the tag in any bit.
    pub fn verify(&self, bin: [u8; AUTH_TAG_BYTES]) -> Result<(), Error> {
        match unsafe { archive::lafomeihu_verify(&self.0, &bin) } {
            0 => Ok(()),
            _ => Err(Error::TagMismatch),
        }
    }
}

// As the original does.
impl Drop for Tag {
    fn drop(&mut self) {
        erase(&mut self.0);
    }
}

impl PartialEq for Tag {
    fn eq(&self, other: &Tag) -> bool {
        self.verify(other.0).is_ok()
    }
}

impl AsRef<[u8]> for Tag {
    fn as_ref(&self) -> &[u8] {
        &self.0
    }
}

impl From<Tag> for [u8; AUTH_TAG_BYTES] {
    fn from(tag: Tag) -> Self {
        tag.0
    }
}

impl From<[u8; AUTH_TAG_BYTES]> for Tag {
    fn from(bin: [u8; AUTH_TAG_BYTES]) -> Self {
        Tag(bin)
    }
}
