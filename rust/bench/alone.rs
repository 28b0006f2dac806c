// What the original lacks, measured of the library alone through the drop-in crate: the inverse, feeding, steps back.
use std::hint::black_box;

use crate::Thing;
use xoodyak::{Xoodoo, XoodyakCommon, XoodyakKeyed, XoodyakKind, XoodyakMore, XoodyakPhase, XoodyakTag};

fn thing(name: String, mut once: impl FnMut() + 'static) -> Thing {
    (name, Box::new(move |times| (0..times).for_each(|_| once())))
}

// The session that the original's list starts from: one block in phase Down.
fn keyed() -> XoodyakKeyed {
    XoodyakKeyed::new(&[1; 16], Some(&[2; 16]), None, None).unwrap()
}

// Seals a message fed in pieces, with an allowance of one permutation for each feed.
fn seal_fed(session: &mut XoodyakKeyed, out: &mut [u8], message: &[u8], piece: usize) -> XoodyakTag {
    session.begin(XoodyakKind::Seal).unwrap();
    let mut taken = 0;
    while taken < message.len() {
        let end = message.len().min(taken + piece);
        taken += session.feed(XoodyakKind::Seal, &mut out[taken..end], &message[taken..end], 1).unwrap();
    }
    session.finish_seal().unwrap()
}

const PIECES: [usize; 2] = [24, 8];

// A call on 4,080 bytes and the step back over it.
type Call = fn(&mut XoodyakKeyed, &mut [u8]);
const CALLS: [(&str, Call, Call); 3] = [
    ("absorb 4080", |s, data| s.absorb(data), |s, data| s.back_absorb(XoodyakPhase::Down, data).unwrap()),
    ("squeeze 4080", |s, data| s.squeeze(data), |s, data| s.back_squeeze(XoodyakPhase::Down, data.len()).unwrap()),
    (
        "seal in place 4080",
        |s, data| drop(s.aead_encrypt_in_place_detached(data)),
        |s, data| s.back_seal(XoodyakPhase::Down, data).unwrap(),
    ),
];

// That the inverse restores a state, that a message fed in pieces gives what the one call gives, and that each step back
// restores the start.
pub fn assert_fed_and_back() {
    let (mut xoodoo, mut bytes) = (Xoodoo::from_bytes([7; 48]), [0; 48]);
    xoodoo.permute();
    xoodoo.inverse();
    xoodoo.bytes(&mut bytes);
    assert_eq!(bytes, [7; 48], "the inverse");
    let message = [7; 4080];
    let (mut sealed, mut end) = (message, keyed());
    let tag = end.aead_encrypt_in_place_detached(&mut sealed);
    for piece in PIECES {
        let (mut fed, mut session) = ([0; 4080], keyed());
        assert!(seal_fed(&mut session, &mut fed, &message, piece) == tag, "the tag of a fed message differs");
        assert_eq!(fed, sealed, "the output of a fed message differs");
        assert_eq!((session.state(), session.phase()), (end.state(), end.phase()), "the session after a fed message differs");
    }
    for (name, call, back) in CALLS {
        let mut session = keyed();
        call(&mut session, &mut message.clone());
        back(&mut session, &mut message.clone());
        assert_eq!((session.state(), session.phase()), (keyed().state(), keyed().phase()), "the step back over {name}");
    }
}

// Each thing with the thing that it is measured beside.
pub const BESIDE: [(&str, &str); 6] = [
    ("inverse", "permutation"),
    ("fed in pieces of 24, 4080", "seal in place 4080"),
    ("fed in pieces of 8, 4080", "seal in place 4080"),
    ("back over absorb 4080", "absorb 4080"),
    ("back over squeeze 4080", "squeeze 4080"),
    ("back over seal in place 4080", "seal in place 4080"),
];

pub fn things() -> Vec<Thing> {
    let mut xoodoo = Xoodoo::default();
    let mut all = vec![thing("inverse".into(), move || black_box(&mut xoodoo).inverse())];
    for piece in PIECES {
        let (from, message, mut out) = (keyed(), vec![7; 4080], vec![0; 4080]);
        all.push(thing(format!("fed in pieces of {piece}, 4080"), move || {
            black_box(seal_fed(&mut from.clone(), black_box(&mut out), black_box(&message), piece));
        }));
    }
    for (name, call, back) in CALLS {
        let (mut from, mut data) = (keyed(), vec![7; 4080]);
        call(&mut from, &mut vec![7; 4080]);
        all.push(thing(format!("back over {name}"), move || {
            let mut session = from.clone();
            back(&mut session, black_box(&mut data));
            black_box(&session);
        }));
    }
    all
}
