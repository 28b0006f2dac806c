// Every call on a session, with its refusals, and what the original lacks: rule, permutations spent, feeding, walking back.
use crate::archive::*;
use crate::error::Refusal;
use crate::tag::{Tag, AUTH_TAG_BYTES};

/// What an empty message does.
#[derive(Debug, Copy, Clone, Eq, PartialEq)]
pub enum Rule {
    /// Nothing, as in the original crate and its stored records.
    Crate,
    /// It has one empty block, as the published specification says.
    Specification,
}

/// What a message is handed over bit by bit for.
#[derive(Debug, Copy, Clone, Eq, PartialEq)]
pub enum Kind {
    Seal,
    Open,
}

/// The phase of a session, which a step back is told.
#[derive(Debug, Copy, Clone, Eq, PartialEq)]
pub enum Phase {
    Up,
    Down,
}

pub mod internal {
    use super::*;

    // A session's memory as the archive wants it, with the counts of its last call: missing, taken, spent.
    #[derive(Clone)]
    pub struct Session {
        pub(crate) st: St,
        pub(crate) head: Head,
        pub(crate) counts: Counts,
    }

    // As the original does.
    impl Drop for Session {
        fn drop(&mut self) {
            erase(&mut self.st);
        }
    }

    impl Session {
        pub(crate) fn of(keyed: bool, rule: Rule, phase: Phase, st: St) -> Session {
            Session { st, head: [keyed as u8, phase as u8, rule as u8, 0, 0, 0], counts: [0; 3] }
        }

        // Lends the memory to an exported call and reads its answer.
        pub(crate) fn call(&mut self, exported: impl FnOnce(&mut St, &mut Head, &mut Counts) -> u8) -> Result<(), Refusal> {
            self.counts = [0; 3];
            match exported(&mut self.st, &mut self.head, &mut self.counts) {
                0 => Ok(()),
                number => Err(Refusal { number, missing: self.counts[0] }),
            }
        }
    }

    // Seals the traits: only this crate's types hold a session.
    pub trait Held {
        fn held(&self) -> &Session;
        fn held_mut(&mut self) -> &mut Session;
    }
}

// An optional argument as the archive takes it.
pub(crate) struct Given {
    pub(crate) flag: u8,
    pub(crate) bytes: *const u8,
    pub(crate) len: usize,
}

pub(crate) fn given(argument: Option<&[u8]>) -> Given {
    let bytes = argument.unwrap_or_default();
    Given { flag: argument.is_some() as u8, bytes: bytes.as_ptr(), len: bytes.len() }
}

// Zeroes a secret in memory that is about to be given up; volatile, so that the compiler keeps it.
pub(crate) fn erase<const N: usize>(secret: &mut [u8; N]) {
    // Safety: it writes one array that is held by a `&mut`.
    unsafe { core::ptr::write_volatile(secret, [0; N]) };
    core::sync::atomic::compiler_fence(core::sync::atomic::Ordering::SeqCst);
}

/// Every call with its refusals, and what the original lacks.
///
/// A `try_` form does what the call of that name in the original does, and answers the library's number where it refuses.
/// On a Hash session the keyed-only calls answer 1. While a message is unfinished, every call but `feed`, the finishing
/// calls and the steps back answers 7.
pub trait XoodyakMore: internal::Held {
    /// The rule that the session was made with.
    fn rule(&self) -> Rule {
        match self.held().head[2] {
            0 => Rule::Crate,
            _ => Rule::Specification,
        }
    }

    /// The phase that the session is in: note it before a call that is to be walked back.
    fn phase(&self) -> Phase {
        match self.held().head[1] {
            0 => Phase::Up,
            _ => Phase::Down,
        }
    }

    /// The session's 48 bytes. They are as secret as the key.
    fn state(&self) -> [u8; 48] {
        self.held().st
    }

    /// How many permutations the last call spent. A refused call spends none; one with a wrong tag spends what one with the
    /// right tag does.
    fn spent(&self) -> usize {
        self.held().counts[2]
    }

    // The original's calls.

    fn try_absorb(&mut self, bin: &[u8]) -> Result<(), Refusal> {
        self.held_mut().call(|st, head, counts| unsafe { lafomeihu_absorb(st, head, bin.as_ptr(), bin.len(), counts) })
    }

    /// Number 5 where the rate is 0 or above the session's absorb rate (16 in Hash, 44 in Keyed), even on empty input.
    fn try_absorb_more(&mut self, bin: &[u8], rate: usize) -> Result<(), Refusal> {
        self.held_mut()
            .call(|st, head, counts| unsafe { lafomeihu_absorb_more(st, head, bin.as_ptr(), bin.len(), rate, counts) })
    }

    fn try_squeeze(&mut self, out: &mut [u8]) -> Result<(), Refusal> {
        self.held_mut().call(|st, head, counts| unsafe { lafomeihu_squeeze(st, head, out.as_mut_ptr(), out.len(), counts) })
    }

    fn try_squeeze_key(&mut self, out: &mut [u8]) -> Result<(), Refusal> {
        self.held_mut()
            .call(|st, head, counts| unsafe { lafomeihu_squeeze_key(st, head, out.as_mut_ptr(), out.len(), counts) })
    }

    fn try_squeeze_more(&mut self, out: &mut [u8]) -> Result<(), Refusal> {
        self.held_mut()
            .call(|st, head, counts| unsafe { lafomeihu_squeeze_more(st, head, out.as_mut_ptr(), out.len(), counts) })
    }

    /// Numbers 2, 8 and 9 say which of key, key id and nonce is too long.
    fn try_absorb_key_and_nonce(
        &mut self,
        key: &[u8],
        key_id: Option<&[u8]>,
        nonce: Option<&[u8]>,
        counter: Option<&[u8]>,
    ) -> Result<(), Refusal> {
        let (id, nonce, counter) = (given(key_id), given(nonce), given(counter));
        self.held_mut().call(|st, head, counts| unsafe {
            lafomeihu_absorb_key_and_nonce(
                st, head, key.as_ptr(), key.len(), id.flag, id.bytes, id.len, nonce.flag, nonce.bytes, nonce.len,
                counter.flag, counter.bytes, counter.len, counts,
            )
        })
    }

    fn try_ratchet(&mut self) -> Result<(), Refusal> {
        self.held_mut().call(|st, head, counts| unsafe { lafomeihu_ratchet(st, head, counts) })
    }

    fn try_encrypt(&mut self, out: &mut [u8], bin: &[u8]) -> Result<(), Refusal> {
        self.held_mut().call(|st, head, counts| unsafe {
            lafomeihu_encrypt(st, head, out.as_mut_ptr(), out.len(), bin.as_ptr(), bin.len(), counts)
        })
    }

    fn try_decrypt(&mut self, out: &mut [u8], bin: &[u8]) -> Result<(), Refusal> {
        self.held_mut().call(|st, head, counts| unsafe {
            lafomeihu_decrypt(st, head, out.as_mut_ptr(), out.len(), bin.as_ptr(), bin.len(), counts)
        })
    }

    fn try_encrypt_in_place(&mut self, in_out: &mut [u8]) -> Result<(), Refusal> {
        self.held_mut().call(|st, head, counts| unsafe {
            lafomeihu_encrypt_in_place(st, head, in_out.as_mut_ptr(), in_out.len(), counts)
        })
    }

    fn try_decrypt_in_place(&mut self, in_out: &mut [u8]) -> Result<(), Refusal> {
        self.held_mut().call(|st, head, counts| unsafe {
            lafomeihu_decrypt_in_place(st, head, in_out.as_mut_ptr(), in_out.len(), counts)
        })
    }

    fn try_aead_encrypt_detached(&mut self, out: &mut [u8], bin: Option<&[u8]>) -> Result<Tag, Refusal> {
        let (bin, mut tag) = (given(bin), Tag::default());
        self.held_mut().call(|st, head, counts| unsafe {
            lafomeihu_aead_encrypt_detached(st, head, out.as_mut_ptr(), out.len(), bin.flag, bin.bytes, bin.len, &mut tag.0, counts)
        })?;
        Ok(tag)
    }

    fn try_aead_encrypt(&mut self, out: &mut [u8], bin: Option<&[u8]>) -> Result<(), Refusal> {
        let bin = given(bin);
        self.held_mut().call(|st, head, counts| unsafe {
            lafomeihu_aead_encrypt(st, head, out.as_mut_ptr(), out.len(), bin.flag, bin.bytes, bin.len, counts)
        })
    }

    fn try_aead_decrypt_detached(&mut self, out: &mut [u8], auth_tag: &Tag, bin: Option<&[u8]>) -> Result<(), Refusal> {
        let bin = given(bin);
        self.held_mut().call(|st, head, counts| unsafe {
            lafomeihu_aead_decrypt_detached(st, head, out.as_mut_ptr(), out.len(), &auth_tag.0, bin.flag, bin.bytes, bin.len, counts)
        })
    }

    fn try_aead_decrypt(&mut self, out: &mut [u8], bin: &[u8]) -> Result<(), Refusal> {
        self.held_mut().call(|st, head, counts| unsafe {
            lafomeihu_aead_decrypt(st, head, out.as_mut_ptr(), out.len(), bin.as_ptr(), bin.len(), counts)
        })
    }

    fn try_aead_encrypt_in_place_detached(&mut self, in_out: &mut [u8]) -> Result<Tag, Refusal> {
        let mut tag = Tag::default();
        self.held_mut().call(|st, head, counts| unsafe {
            lafomeihu_aead_encrypt_in_place_detached(st, head, in_out.as_mut_ptr(), in_out.len(), &mut tag.0, counts)
        })?;
        Ok(tag)
    }

    fn try_aead_encrypt_in_place(&mut self, in_out: &mut [u8]) -> Result<(), Refusal> {
        self.held_mut().call(|st, head, counts| unsafe {
            lafomeihu_aead_encrypt_in_place(st, head, in_out.as_mut_ptr(), in_out.len(), counts)
        })
    }

    fn try_aead_decrypt_in_place_detached(&mut self, in_out: &mut [u8], auth_tag: &Tag) -> Result<(), Refusal> {
        self.held_mut().call(|st, head, counts| unsafe {
            lafomeihu_aead_decrypt_in_place_detached(st, head, in_out.as_mut_ptr(), in_out.len(), &auth_tag.0, counts)
        })
    }

    fn try_aead_decrypt_in_place<'t>(&mut self, in_out: &'t mut [u8]) -> Result<&'t mut [u8], Refusal> {
        self.held_mut().call(|st, head, counts| unsafe {
            lafomeihu_aead_decrypt_in_place(st, head, in_out.as_mut_ptr(), in_out.len(), counts)
        })?;
        let message = in_out.len() - AUTH_TAG_BYTES;
        Ok(&mut in_out[..message])
    }

    // A message handed over bit by bit.

    /// Begins a message. For any cuts, joined output, tag and end session equal those of the one-call form.
    fn begin(&mut self, kind: Kind) -> Result<(), Refusal> {
        self.held_mut().call(|st, head, _| unsafe { lafomeihu_begin(st, head, kind as u8) })
    }

    /// Takes bytes from the front of the piece, stops when it would need more permutations than the allowance, and answers
    /// how many bytes it took and wrote. Offer the rest again. The output must be as long as the piece. An opened text is not
    /// to be trusted before `finish_open` accepts its tag.
    fn feed(&mut self, kind: Kind, out: &mut [u8], piece: &[u8], allowance: usize) -> Result<usize, Refusal> {
        let session = self.held_mut();
        session.call(|st, head, counts| unsafe {
            let (to, room, from, n) = (out.as_mut_ptr(), out.len(), piece.as_ptr(), piece.len());
            lafomeihu_feed(st, head, kind as u8, to, room, from, n, allowance, counts)
        })?;
        Ok(session.counts[1])
    }

    /// Ends a message that was begun to seal, and answers its tag.
    fn finish_seal(&mut self) -> Result<Tag, Refusal> {
        let mut tag = Tag::default();
        self.held_mut().call(|st, head, counts| unsafe { lafomeihu_finish_seal(st, head, &mut tag.0, counts) })?;
        Ok(tag)
    }

    /// Ends a message that was begun to open; number 4 where the tag differs.
    fn finish_open(&mut self, auth_tag: &Tag) -> Result<(), Refusal> {
        self.held_mut().call(|st, head, counts| unsafe { lafomeihu_finish_open(st, head, &auth_tag.0, counts) })
    }

    // Walking back: each step undoes a call, told the phase before it and what the call was given. A step refuses with
    // 1, 5, 2, 8 or 9 exactly when the call would. There is none for `ratchet`.

    fn back_absorb(&mut self, before: Phase, bin: &[u8]) -> Result<(), Refusal> {
        self.held_mut()
            .call(|st, head, _| unsafe { lafomeihu_back_absorb(st, head, before as u8, bin.as_ptr(), bin.len()) })
    }

    fn back_absorb_more(&mut self, before: Phase, bin: &[u8], rate: usize) -> Result<(), Refusal> {
        self.held_mut()
            .call(|st, head, _| unsafe { lafomeihu_back_absorb_more(st, head, before as u8, bin.as_ptr(), bin.len(), rate) })
    }

    /// Back over a squeeze of `n` bytes, which need not be known.
    fn back_squeeze(&mut self, before: Phase, n: usize) -> Result<(), Refusal> {
        self.held_mut().call(|st, head, _| unsafe { lafomeihu_back_squeeze(st, head, before as u8, n) })
    }

    fn back_squeeze_key(&mut self, before: Phase, n: usize) -> Result<(), Refusal> {
        self.held_mut().call(|st, head, _| unsafe { lafomeihu_back_squeeze_key(st, head, before as u8, n) })
    }

    fn back_squeeze_more(&mut self, before: Phase, n: usize) -> Result<(), Refusal> {
        self.held_mut().call(|st, head, _| unsafe { lafomeihu_back_squeeze_more(st, head, before as u8, n) })
    }

    /// Back over `absorb_key_and_nonce`.
    fn back_key(
        &mut self,
        before: Phase,
        key: &[u8],
        key_id: Option<&[u8]>,
        nonce: Option<&[u8]>,
        counter: Option<&[u8]>,
    ) -> Result<(), Refusal> {
        let (id, nonce, counter) = (given(key_id), given(nonce), given(counter));
        self.held_mut().call(|st, head, _| unsafe {
            lafomeihu_back_key(
                st, head, before as u8, key.as_ptr(), key.len(), id.flag, id.bytes, id.len, nonce.flag, nonce.bytes,
                nonce.len, counter.flag, counter.bytes, counter.len,
            )
        })
    }

    /// Back over every form of encrypt and decrypt.
    fn back_encrypt(&mut self, before: Phase, plaintext: &[u8]) -> Result<(), Refusal> {
        self.held_mut()
            .call(|st, head, _| unsafe { lafomeihu_back_encrypt(st, head, before as u8, plaintext.as_ptr(), plaintext.len()) })
    }

    /// Back over every form that seals or opens with a tag, in one call or bit by bit.
    fn back_seal(&mut self, before: Phase, plaintext: &[u8]) -> Result<(), Refusal> {
        self.held_mut()
            .call(|st, head, _| unsafe { lafomeihu_back_seal(st, head, before as u8, plaintext.as_ptr(), plaintext.len()) })
    }
}
