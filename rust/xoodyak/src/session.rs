// The original's session types and their signatures, over the calls of more.rs.
use core::fmt;

use crate::archive::{lafomeihu_hash, lafomeihu_new};
use crate::error::{certain, original, Error, Refusal};
use crate::more::internal::{Held, Session};
use crate::more::{given, Phase, Rule, XoodyakMore};
use crate::tag::Tag;
use crate::xoodoo::Xoodoo;

/// The calls that every session has.
pub trait XoodyakCommon: XoodyakMore {
    #[track_caller]
    fn absorb(&mut self, bin: &[u8]) {
        certain(self.try_absorb(bin))
    }

    /// Panics where the rate is 0 or above the session's absorb rate; see [`XoodyakMore::try_absorb_more`].
    #[track_caller]
    fn absorb_more(&mut self, bin: &[u8], rate: usize) {
        certain(self.try_absorb_more(bin, rate))
    }

    #[track_caller]
    fn squeeze(&mut self, out: &mut [u8]) {
        certain(self.try_squeeze(out))
    }

    #[track_caller]
    fn squeeze_key(&mut self, out: &mut [u8]) {
        certain(self.try_squeeze_key(out))
    }

    #[track_caller]
    fn squeeze_more(&mut self, out: &mut [u8]) {
        certain(self.try_squeeze_more(out))
    }
}

/// A session without a key.
#[derive(Clone)]
pub struct XoodyakHash(Session);

/// A session with a key.
#[derive(Clone)]
pub struct XoodyakKeyed(Session);

/// Either of the two. The keyed-only calls answer `KeyRequired` on a Hash session.
#[derive(Clone, Debug)]
pub enum XoodyakAny {
    Hash(XoodyakHash),
    Keyed(XoodyakKeyed),
}

impl Held for XoodyakHash {
    fn held(&self) -> &Session {
        &self.0
    }

    fn held_mut(&mut self) -> &mut Session {
        &mut self.0
    }
}

impl Held for XoodyakKeyed {
    fn held(&self) -> &Session {
        &self.0
    }

    fn held_mut(&mut self) -> &mut Session {
        &mut self.0
    }
}

impl Held for XoodyakAny {
    fn held(&self) -> &Session {
        match self {
            XoodyakAny::Hash(x) => x.held(),
            XoodyakAny::Keyed(x) => x.held(),
        }
    }

    fn held_mut(&mut self) -> &mut Session {
        match self {
            XoodyakAny::Hash(x) => x.held_mut(),
            XoodyakAny::Keyed(x) => x.held_mut(),
        }
    }
}

impl XoodyakMore for XoodyakHash {}
impl XoodyakMore for XoodyakKeyed {}
impl XoodyakMore for XoodyakAny {}
impl XoodyakCommon for XoodyakHash {}
impl XoodyakCommon for XoodyakKeyed {}
impl XoodyakCommon for XoodyakAny {}

// The original's text, so that what reads it there reads it here.
impl fmt::Debug for XoodyakHash {
    fn fmt(&self, f: &mut fmt::Formatter<'_>) -> fmt::Result {
        f.debug_struct("XoodyakHash").field("state", &Xoodoo::from_bytes(self.0.st)).field("phase", &self.phase()).finish()
    }
}

impl fmt::Debug for XoodyakKeyed {
    fn fmt(&self, f: &mut fmt::Formatter<'_>) -> fmt::Result {
        f.debug_struct("XoodyakKeyed")
            .field("state", &Xoodoo::from_bytes(self.0.st))
            .field("mode", &format_args!("Keyed"))
            .field("phase", &self.phase())
            .finish()
    }
}

impl Default for XoodyakHash {
    fn default() -> Self {
        XoodyakHash::new()
    }
}

impl XoodyakHash {
    pub fn new() -> Self {
        XoodyakHash::with_rule(Rule::Crate)
    }

    /// A session under the rule named; [`XoodyakHash::new`] takes the crate's.
    pub fn with_rule(rule: Rule) -> Self {
        let mut session = Session::of(false, rule, Phase::Up, [0; 48]);
        certain(session.call(|st, head, _| unsafe { lafomeihu_hash(st, head, rule as u8) }));
        XoodyakHash(session)
    }

    /// The Hash session that has these 48 bytes, to go on or back from.
    pub fn from_state(rule: Rule, phase: Phase, st: [u8; 48]) -> Self {
        XoodyakHash(Session::of(false, rule, phase, st))
    }
}

impl XoodyakKeyed {
    pub fn new(
        key: &[u8],
        nonce: Option<&[u8]>,
        key_id: Option<&[u8]>,
        counter: Option<&[u8]>,
    ) -> Result<Self, Error> {
        original(XoodyakKeyed::with_rule(Rule::Crate, key, nonce, key_id, counter))
    }

    /// A session under the rule named; [`XoodyakKeyed::new`] takes the crate's. Numbers 2, 8 and 9 say which of key, key id
    /// and nonce is too long.
    pub fn with_rule(
        rule: Rule,
        key: &[u8],
        nonce: Option<&[u8]>,
        key_id: Option<&[u8]>,
        counter: Option<&[u8]>,
    ) -> Result<Self, Refusal> {
        let (nonce, id, counter) = (given(nonce), given(key_id), given(counter));
        let mut session = Session::of(false, rule, Phase::Up, [0; 48]);
        session.call(|st, head, counts| unsafe {
            lafomeihu_new(
                st, head, rule as u8, key.as_ptr(), key.len(), nonce.flag, nonce.bytes, nonce.len, id.flag, id.bytes, id.len,
                counter.flag, counter.bytes, counter.len, counts,
            )
        })?;
        Ok(XoodyakKeyed(session))
    }

    /// The Keyed session that has these 48 bytes, to go on or back from.
    pub fn from_state(rule: Rule, phase: Phase, st: [u8; 48]) -> Self {
        XoodyakKeyed(Session::of(true, rule, phase, st))
    }

    #[track_caller]
    pub fn ratchet(&mut self) {
        certain(self.try_ratchet())
    }

    #[track_caller]
    pub fn encrypt_in_place(&mut self, in_out: &mut [u8]) {
        certain(self.try_encrypt_in_place(in_out))
    }

    #[track_caller]
    pub fn decrypt_in_place(&mut self, in_out: &mut [u8]) {
        certain(self.try_decrypt_in_place(in_out))
    }

    #[track_caller]
    pub fn aead_encrypt_in_place_detached(&mut self, in_out: &mut [u8]) -> Tag {
        certain(self.try_aead_encrypt_in_place_detached(in_out))
    }
}

impl XoodyakAny {
    #[track_caller]
    pub fn ratchet(&mut self) -> Result<(), Error> {
        original(self.try_ratchet())
    }

    #[track_caller]
    pub fn encrypt_in_place(&mut self, in_out: &mut [u8]) -> Result<(), Error> {
        original(self.try_encrypt_in_place(in_out))
    }

    #[track_caller]
    pub fn decrypt_in_place(&mut self, in_out: &mut [u8]) -> Result<(), Error> {
        original(self.try_decrypt_in_place(in_out))
    }

    #[track_caller]
    pub fn aead_encrypt_in_place_detached(&mut self, in_out: &mut [u8]) -> Result<Tag, Error> {
        original(self.try_aead_encrypt_in_place_detached(in_out))
    }
}

// The calls whose signature is the same in both types.
macro_rules! keyed_calls {
    ($session:ty) => {
        impl $session {
            #[track_caller]
            pub fn absorb_key_and_nonce(
                &mut self,
                key: &[u8],
                key_id: Option<&[u8]>,
                nonce: Option<&[u8]>,
                counter: Option<&[u8]>,
            ) -> Result<(), Error> {
                original(self.try_absorb_key_and_nonce(key, key_id, nonce, counter))
            }

            /// Bytes of the output past the result keep what they held; the original writes key stream there.
            #[track_caller]
            pub fn encrypt(&mut self, out: &mut [u8], bin: &[u8]) -> Result<(), Error> {
                original(self.try_encrypt(out, bin))
            }

            /// Bytes of the output past the result keep what they held and are not absorbed; the original does otherwise.
            #[track_caller]
            pub fn decrypt(&mut self, out: &mut [u8], bin: &[u8]) -> Result<(), Error> {
                original(self.try_decrypt(out, bin))
            }

            /// Seals into the front of the output and answers the tag.
            #[track_caller]
            pub fn aead_encrypt_detached(&mut self, out: &mut [u8], bin: Option<&[u8]>) -> Result<Tag, Error> {
                original(self.try_aead_encrypt_detached(out, bin))
            }

            /// Seals into the front of the output, the tag after the ciphertext.
            #[track_caller]
            pub fn aead_encrypt(&mut self, out: &mut [u8], bin: Option<&[u8]>) -> Result<(), Error> {
                original(self.try_aead_encrypt(out, bin))
            }

            /// Opens into the front of the output; `TagMismatch` zeroes the whole output.
            #[track_caller]
            pub fn aead_decrypt_detached(
                &mut self,
                out: &mut [u8],
                auth_tag: &Tag,
                bin: Option<&[u8]>,
            ) -> Result<(), Error> {
                original(self.try_aead_decrypt_detached(out, auth_tag, bin))
            }

            /// Opens a ciphertext with its tag after it; `TagMismatch` zeroes the whole output.
            #[track_caller]
            pub fn aead_decrypt(&mut self, out: &mut [u8], bin: &[u8]) -> Result<(), Error> {
                original(self.try_aead_decrypt(out, bin))
            }

            /// Seals all but the last 16 bytes, which receive the tag.
            #[track_caller]
            pub fn aead_encrypt_in_place(&mut self, in_out: &mut [u8]) -> Result<(), Error> {
                original(self.try_aead_encrypt_in_place(in_out))
            }

            /// Opens the buffer where it lies; `TagMismatch` zeroes it.
            #[track_caller]
            pub fn aead_decrypt_in_place_detached(&mut self, in_out: &mut [u8], auth_tag: &Tag) -> Result<(), Error> {
                original(self.try_aead_decrypt_in_place_detached(in_out, auth_tag))
            }

            /// Opens all but the last 16 bytes, which hold the tag, and answers that part; `TagMismatch` zeroes it.
            #[track_caller]
            pub fn aead_decrypt_in_place<'t>(&mut self, in_out: &'t mut [u8]) -> Result<&'t mut [u8], Error> {
                original(self.try_aead_decrypt_in_place(in_out))
            }
        }
    };
}

keyed_calls!(XoodyakKeyed);
keyed_calls!(XoodyakAny);
