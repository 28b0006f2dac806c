// One crate's side of the runner: beside.rs includes this text twice, with `xoodyak` as the original and as the proved crate.
use self::xoodyak::{Xoodoo, XoodyakAny, XoodyakCommon, XoodyakError, XoodyakHash, XoodyakKeyed, XoodyakTag};
use super::{Answer, Call};

// A session by each of the three types that the crate has.
#[derive(Clone, Debug)]
pub enum Session {
    Hash(XoodyakHash),
    Keyed(XoodyakKeyed),
    Any(XoodyakAny),
}

// The crate's own memory: a session, and a state of the permutation.
#[derive(Clone)]
pub struct Side {
    pub session: Session,
    pub xoodoo: Xoodoo,
}

fn number(error: XoodyakError) -> u8 {
    match error {
        XoodyakError::KeyRequired => 1,
        XoodyakError::InvalidParameterLength => 2,
        XoodyakError::InvalidBufferLength => 3,
        XoodyakError::TagMismatch => 4,
    }
}

fn plain(result: Result<(), XoodyakError>) -> Answer {
    Answer { number: result.err().map_or(0, number), tag: None, part: None }
}

fn tagged(result: Result<XoodyakTag, XoodyakError>) -> Answer {
    match result {
        Ok(tag) => Answer { number: 0, tag: Some(tag.into()), part: None },
        Err(error) => plain(Err(error)),
    }
}

fn parted(result: Result<&mut [u8], XoodyakError>) -> Answer {
    match result {
        Ok(part) => Answer { number: 0, tag: None, part: Some(part.to_vec()) },
        Err(error) => plain(Err(error)),
    }
}

// A call of the keyed types whose signature is the same in both; a Hash session of its own type has no such call.
macro_rules! keyed {
    ($session:expr, $x:ident => $call:expr) => {
        match $session {
            Session::Hash(_) => return None,
            Session::Keyed($x) => $call,
            Session::Any($x) => $call,
        }
    };
}

// One whose signature cannot fail in the keyed type alone.
macro_rules! certain {
    ($session:expr, $x:ident => $call:expr) => {
        match $session {
            Session::Hash(_) => return None,
            Session::Keyed($x) => Ok($call),
            Session::Any($x) => $call,
        }
    };
}

impl Session {
    fn common(&mut self) -> &mut dyn XoodyakCommon {
        match self {
            Session::Hash(x) => x,
            Session::Keyed(x) => x,
            Session::Any(x) => x,
        }
    }
}

impl Side {
    pub fn new() -> Side {
        Side { session: Session::Hash(XoodyakHash::new()), xoodoo: Xoodoo::default() }
    }

    // All that the crate shows of its memory.
    pub fn text(&self) -> String {
        format!("{:?} {:?}", self.session, self.xoodoo)
    }

    // Makes the call on the buffer. `None`: the session's type has no such call.
    pub fn run(&mut self, call: &Call, buffer: &mut [u8]) -> Option<Answer> {
        let session = &mut self.session;
        let done = plain(Ok(()));
        Some(match call {
            Call::Hash { any } => {
                let made = XoodyakHash::new();
                *session = if *any { Session::Any(XoodyakAny::Hash(made)) } else { Session::Hash(made) };
                done
            }
            Call::New { any, key, nonce, id, counter } => {
                match XoodyakKeyed::new(key, nonce.as_deref(), id.as_deref(), counter.as_deref()) {
                    Ok(made) if *any => *session = Session::Any(XoodyakAny::Keyed(made)),
                    Ok(made) => *session = Session::Keyed(made),
                    Err(error) => return Some(plain(Err(error))),
                }
                done
            }
            Call::Key { key, nonce, id, counter } => plain(keyed!(session, x => {
                x.absorb_key_and_nonce(key, id.as_deref(), nonce.as_deref(), counter.as_deref())
            })),
            Call::Absorb { bin } => {
                session.common().absorb(bin);
                done
            }
            Call::AbsorbMore { bin, rate } => {
                session.common().absorb_more(bin, *rate);
                done
            }
            Call::Squeeze => {
                session.common().squeeze(buffer);
                done
            }
            Call::SqueezeKey => {
                session.common().squeeze_key(buffer);
                done
            }
            Call::SqueezeMore => {
                session.common().squeeze_more(buffer);
                done
            }
            Call::Ratchet => plain(certain!(session, x => x.ratchet())),
            Call::Encrypt { bin } => plain(keyed!(session, x => x.encrypt(buffer, bin))),
            Call::Decrypt { bin } => plain(keyed!(session, x => x.decrypt(buffer, bin))),
            Call::EncryptInPlace => plain(certain!(session, x => x.encrypt_in_place(buffer))),
            Call::DecryptInPlace => plain(certain!(session, x => x.decrypt_in_place(buffer))),
            Call::SealDetached { bin } => tagged(keyed!(session, x => x.aead_encrypt_detached(buffer, bin.as_deref()))),
            Call::Seal { bin } => plain(keyed!(session, x => x.aead_encrypt(buffer, bin.as_deref()))),
            Call::OpenDetached { tag, bin } => {
                let tag = XoodyakTag::from(*tag);
                plain(keyed!(session, x => x.aead_decrypt_detached(buffer, &tag, bin.as_deref())))
            }
            Call::Open { bin } => plain(keyed!(session, x => x.aead_decrypt(buffer, bin))),
            Call::SealInPlaceDetached => tagged(certain!(session, x => x.aead_encrypt_in_place_detached(buffer))),
            Call::SealInPlace => plain(keyed!(session, x => x.aead_encrypt_in_place(buffer))),
            Call::OpenInPlaceDetached { tag } => {
                let tag = XoodyakTag::from(*tag);
                plain(keyed!(session, x => x.aead_decrypt_in_place_detached(buffer, &tag)))
            }
            Call::OpenInPlace => parted(keyed!(session, x => x.aead_decrypt_in_place(buffer))),
            Call::Verify { tag, bytes } => plain(XoodyakTag::from(*tag).verify(*bytes)),
            Call::FromBytes { bytes } => {
                self.xoodoo = Xoodoo::from_bytes(*bytes);
                done
            }
            Call::Permute => {
                self.xoodoo.permute();
                done
            }
            Call::AddByte { byte, offset } => {
                self.xoodoo.add_byte(*byte, *offset);
                done
            }
            Call::AddBytes { bin } => {
                self.xoodoo.add_bytes(bin);
                done
            }
            Call::ExtractBytes => {
                self.xoodoo.extract_bytes(buffer);
                done
            }
        })
    }
}
