//! Xoodyak, proved: the interface of the crate xoodyak 0.8.5 over the archive `libcapi.a` of the proved library.
//!
//! A program written for the original builds against this crate when one line of its Cargo.toml changes:
//!
//! ```toml
//! xoodyak = { path = "lafomeihu/rust/xoodyak" }   # was: xoodyak = "0.8.5"
//! ```
//!
//! `make lib` makes the archive in `target/staticlib`, where the build looks for it; the variable `LAFOMEIHU_LIB` names
//! another folder. Without cargo, add `-L FOLDER -l static=capi` to rustc's line.
//!
//! ```
//! use xoodyak::{XoodyakCommon, XoodyakHash, XoodyakKeyed, XOODYAK_AUTH_TAG_BYTES};
//!
//! let start = XoodyakKeyed::new(b"key", Some(b"nonce"), None, None)?;
//! let mut sealed = [0u8; 5 + XOODYAK_AUTH_TAG_BYTES];
//! start.clone().aead_encrypt(&mut sealed, Some(b"hello"))?;
//! let mut opened = [0u8; 5];
//! start.clone().aead_decrypt(&mut opened, &sealed)?;
//! assert_eq!(&opened, b"hello");
//!
//! let mut digest = [0u8; 32];
//! let mut hash = XoodyakHash::new();
//! hash.absorb(b"");
//! hash.squeeze(&mut digest);
//! assert_eq!(digest[..4], [0xea, 0x15, 0x2f, 0x2b]);
//! # Ok::<(), xoodyak::XoodyakError>(())
//! ```
//!
//! # Where it differs from the original
//!
//! - Bytes of an output past the result keep what they held. The original writes key stream there where the message's length
//!   isn't a multiple of 24, and its `decrypt` absorbs it, so that a good record is refused.
//! - [`XoodyakCommon::absorb_more`] panics for every rate that is 0 or above the session's absorb rate, and
//!   [`Xoodoo::add_bytes`] for more than 48 bytes; the original takes some of these. Their `try_` forms answer the number.
//! - Left out: the `_to_vec` calls. As in the original, a session, a tag and a Xoodoo state are zeroed in memory when they are dropped; copies that
//!   the compiler made on the way are not.
//!
//! # Beside the original
//!
//! [`XoodyakMore`] has, for all three session types, a `try_` form of each call that tells the number of its refusal, the
//! permutations that the last call spent, sealing and opening bit by bit within an allowance of permutations, and steps back.
//! `with_rule` makes a session under the specification's rule for empty messages.
//!
//! ```
//! use xoodyak::{XoodyakKeyed, XoodyakKind, XoodyakMore, XoodyakRule};
//!
//! let mut session = XoodyakKeyed::with_rule(XoodyakRule::Specification, b"key", Some(b"nonce"), None, None)?;
//! let (start, before) = (session.state(), session.phase());
//! let (message, mut out, mut taken) = ([7u8; 100], [0u8; 100], 0);
//! session.begin(XoodyakKind::Seal)?;
//! while taken < message.len() {
//!     taken += session.feed(XoodyakKind::Seal, &mut out[taken..], &message[taken..], 1)?;
//!     assert!(session.spent() <= 1);
//! }
//! let _tag = session.finish_seal()?;
//! session.back_seal(before, &message)?;
//! assert_eq!(session.state(), start);
//! # Ok::<(), xoodyak::XoodyakRefusal>(())
//! ```
//!
//! # Numbers
//!
//! | number | given exactly when | in the original's signatures |
//! |---|---|---|
//! | 7 | a message is unfinished; for `feed` and the finishing calls: none is begun, or one of the other kind | panic |
//! | 1 | a keyed-only call meets a Hash session | `KeyRequired` |
//! | 5 | the rate of `absorb_more` is 0 or above the session's absorb rate | panic |
//! | 2 | the key alone exceeds 43 bytes | `InvalidParameterLength` |
//! | 8 | the key fits, but key and key id together exceed 43 | `InvalidParameterLength` |
//! | 9 | only the nonce breaks it: key + 1 + key id + nonce exceeds 44 | `InvalidParameterLength` |
//! | 10 | the input of a combined open, or the buffer of a combined in-place call, is under 16 | `InvalidBufferLength` |
//! | 3 | the output is shorter than its result, by `missing` bytes | `InvalidBufferLength` |
//! | 4 | the tag differs in any of its 128 bits | `TagMismatch` |
//! | 6 | an offset into Xoodoo's bytes is above 47, or a run longer than 48 | panic |
//! | 11 | a count of rounds is above 12 | |
#![no_std]

#[cfg(feature = "std")]
extern crate std;

mod archive;
mod error;
mod more;
mod session;
mod tag;
mod xoodoo;

pub use crate::error::{Error as XoodyakError, Refusal as XoodyakRefusal};
pub use crate::more::{Kind as XoodyakKind, Phase as XoodyakPhase, Rule as XoodyakRule, XoodyakMore};
pub use crate::session::{XoodyakAny, XoodyakCommon, XoodyakHash, XoodyakKeyed};
pub use crate::tag::{Tag as XoodyakTag, AUTH_TAG_BYTES as XOODYAK_AUTH_TAG_BYTES};
pub use crate::xoodoo::Xoodoo;
