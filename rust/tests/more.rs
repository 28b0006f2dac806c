// What the proved crate has beside the original: numbers in place of panics and cuts, rule, permutations, feeding, steps back.
use std::mem::MaybeUninit;
use std::panic::{catch_unwind, AssertUnwindSafe};
use xoodyak::{
    Xoodoo, XoodyakAny, XoodyakCommon, XoodyakError, XoodyakHash, XoodyakKeyed, XoodyakKind, XoodyakMore, XoodyakPhase,
    XoodyakRefusal, XoodyakRule, XoodyakTag,
};

const RULES: [XoodyakRule; 2] = [XoodyakRule::Crate, XoodyakRule::Specification];

fn refused<T>(number: u8) -> Result<T, XoodyakRefusal> {
    Err(XoodyakRefusal { number, missing: 0 })
}

fn keyed(rule: XoodyakRule) -> XoodyakKeyed {
    XoodyakKeyed::with_rule(rule, &[1; 16], Some(&[2; 16]), None, None).unwrap()
}

// The message of the panic that the call must end in.
fn panic_of(call: impl FnOnce()) -> String {
    let payload = catch_unwind(AssertUnwindSafe(call)).expect_err("the call did not panic");
    payload.downcast_ref::<String>().expect("the panic has a text").clone()
}

fn numbers_in_place_of_panics() {
    for rate in [0, 45, usize::MAX] {
        for bin in [&b""[..], b"some bytes"] {
            let mut session = keyed(XoodyakRule::Crate);
            let before = session.state();
            assert_eq!(session.try_absorb_more(bin, rate), refused(5));
            assert!(panic_of(|| session.absorb_more(bin, rate)).contains("number 5"));
            assert_eq!((session.state(), session.spent()), (before, 0));
        }
    }
    assert_eq!(XoodyakHash::new().try_absorb_more(b"", 17), refused(5));
    assert_eq!(keyed(XoodyakRule::Crate).try_absorb_more(b"bytes", 44), Ok(()));

    let (mut xoodoo, mut before, mut after, mut out) = (Xoodoo::from_bytes([3; 48]), [0; 48], [0; 48], [9; 49]);
    xoodoo.bytes(&mut before);
    assert_eq!(xoodoo.try_add_byte(1, 48), refused(6));
    assert_eq!(xoodoo.try_add_bytes(&[1; 49]), refused(6));
    assert_eq!(xoodoo.try_extract_bytes(&mut out), refused(6));
    assert_eq!(xoodoo.try_rounds(13), refused(11));
    assert_eq!(xoodoo.try_unrounds(13), refused(11));
    assert!(panic_of(|| xoodoo.add_byte(1, 48)).contains("number 6"));
    assert!(panic_of(|| xoodoo.add_bytes(&[1; 49])).contains("number 6"));
    assert!(panic_of(|| xoodoo.extract_bytes(&mut out)).contains("number 6"));
    xoodoo.bytes(&mut after);
    assert_eq!((after, out), (before, [9; 49]));
}

fn which_part_was_too_long() {
    let new = |key: usize, id: usize, nonce: usize| {
        let (key, id, nonce) = (vec![0; key], vec![0; id], vec![0; nonce]);
        let made = XoodyakKeyed::with_rule(XoodyakRule::Crate, &key, Some(&nonce), Some(&id), None);
        made.map_or_else(|refusal| refusal.number, |_| 0)
    };
    assert_eq!([new(16, 16, 11), new(44, 0, 0), new(43, 1, 0), new(16, 16, 12)], [0, 2, 8, 9]);
    let mut session = keyed(XoodyakRule::Crate);
    let missing = |missing| Err(XoodyakRefusal { number: 3, missing });
    assert_eq!(session.try_encrypt(&mut [0; 3], &[0; 10]), missing(7));
    assert_eq!(session.try_aead_encrypt(&mut [0; 20], Some(&[0; 10])), missing(6));
    assert_eq!(session.try_aead_decrypt(&mut [0; 3], &[0; 15]), refused(10));
    assert_eq!(session.try_aead_encrypt_in_place(&mut [0; 15]), refused(10));
    assert_eq!(XoodyakAny::Hash(XoodyakHash::new()).try_encrypt(&mut [], &[0; 10]), refused(1));
    assert_eq!(XoodyakRefusal { number: 9, missing: 0 }.error(), Some(XoodyakError::InvalidParameterLength));
}

// Bytes past the result keep what they held, and a good record opens into a longer output.
fn longer_outputs() {
    let (start, message, mut sealed, mut out) = (keyed(XoodyakRule::Crate), [5; 30], [0; 100], [7; 100]);
    start.clone().aead_encrypt(&mut sealed, Some(&message)).unwrap();
    assert_eq!(sealed[46..], [0; 54]);
    start.clone().aead_decrypt(&mut out, &sealed[..46]).unwrap();
    assert_eq!((&out[..30], &out[30..]), (&message[..], &[7; 70][..]));
    let mut encrypted = [7; 48];
    start.clone().encrypt(&mut encrypted, &message).unwrap();
    assert_eq!((&encrypted[..30], &encrypted[30..]), (&sealed[..30], &[7; 18][..]));
}

// The first entry of the AEAD vectors, as far as it is known: key and nonce 00 to 0f, no data, no text.
fn specification_rule() {
    let bytes: Vec<u8> = (0..16).collect();
    let tag = |rule| {
        let mut session = XoodyakKeyed::with_rule(rule, &bytes, None, None, None).unwrap();
        assert_eq!(session.rule(), rule);
        session.absorb(&bytes);
        session.absorb(b"");
        let tag = session.aead_encrypt_detached(&mut [], None).unwrap();
        (tag, session.spent())
    };
    let known = [0x4b, 0xf0, 0xe3, 0x93, 0x14, 0x4c, 0xb5, 0x80, 0x69, 0xfc, 0x1f, 0xeb, 0xca];
    let (specification, spent) = tag(XoodyakRule::Specification);
    assert_eq!((&specification.as_ref()[..13], spent), (&known[..], 2));
    let (of_crate, spent) = tag(XoodyakRule::Crate);
    assert!(of_crate != specification && spent == 1);
}

fn permutations_spent() {
    let mut session = keyed(XoodyakRule::Crate);
    assert_eq!(session.spent(), 0);
    session.absorb(&[0; 45]);
    assert_eq!(session.spent(), 2);
    session.squeeze(&mut [0; 49]);
    assert_eq!(session.spent(), 3);
    session.absorb(b"");
    assert_eq!(session.spent(), 0);
    let mut sealed = [0; 65];
    session.clone().aead_encrypt(&mut sealed, Some(&[1; 49])).unwrap();
    let wrong = session.aead_decrypt_detached(&mut [0; 49], &XoodyakTag::default(), Some(&sealed[..49]));
    assert_eq!((wrong, session.spent()), (Err(XoodyakError::TagMismatch), 4));
    assert_eq!((session.try_encrypt(&mut [], &[1]).map_err(|refusal| refusal.number), session.spent()), (Err(3), 0));
}

fn feeding() {
    for rule in RULES {
        for length in [0, 1, 23, 24, 25, 48, 100] {
            for (piece, allowance) in [(1, 1), (7, 1), (24, 1), (100, 2), (100, usize::MAX)] {
                let (message, mut sealed): (Vec<u8>, _) = ((0..length as u8).collect(), vec![0; length]);
                let mut whole = keyed(rule);
                let tag = whole.aead_encrypt_detached(&mut sealed, Some(&message)).unwrap();
                for (kind, from, to) in [(XoodyakKind::Seal, &message, &sealed), (XoodyakKind::Open, &sealed, &message)] {
                    let (mut session, mut out, mut taken) = (keyed(rule), vec![0; length], 0);
                    session.begin(kind).unwrap();
                    let mut spent = 0;
                    while taken < length {
                        let end = length.min(taken + piece);
                        taken += session.feed(kind, &mut out[taken..end], &from[taken..end], allowance).unwrap();
                        assert!(session.spent() <= allowance);
                        spent += session.spent();
                        assert_eq!(session.try_absorb(b""), refused(7));
                    }
                    if kind == XoodyakKind::Seal {
                        assert_eq!(session.finish_open(&tag), refused(7));
                        assert_eq!(session.finish_seal(), Ok(tag.clone()));
                    } else {
                        assert_eq!(session.finish_seal(), refused(7));
                        assert_eq!(session.finish_open(&tag), Ok(()));
                    }
                    spent += session.spent();
                    assert_eq!((&out, session.state(), spent), (to, whole.state(), whole.spent()));
                }
            }
        }
    }
    let mut session = keyed(XoodyakRule::Crate);
    assert_eq!(session.feed(XoodyakKind::Seal, &mut [0; 4], &[0; 4], 1), refused(7));
    session.begin(XoodyakKind::Open).unwrap();
    let short = XoodyakRefusal { number: 3, missing: 1 };
    assert_eq!(session.feed(XoodyakKind::Open, &mut [0; 3], &[0; 4], 1), Err(short));
    assert!(panic_of(|| session.ratchet()).contains("number 7"));
    assert_eq!(session.finish_open(&XoodyakTag::default()), refused(4));
    assert_eq!(XoodyakHash::new().begin(XoodyakKind::Seal), refused(1));
}

fn walking_back() {
    let text: Vec<u8> = (0..100).collect();
    for rule in RULES {
        for length in [0, 1, 24, 44, 100] {
            let text = &text[..length];
            let mut session = keyed(rule);
            let (mut states, mut phases) = (vec![], vec![]);
            let mut note = |session: &XoodyakKeyed| {
                states.push(session.state());
                phases.push(session.phase());
            };
            note(&session);
            session.absorb_key_and_nonce(b"key", Some(b"id"), Some(b"nonce"), Some(b"12")).unwrap();
            note(&session);
            session.absorb(text);
            note(&session);
            session.absorb_more(text, 10);
            note(&session);
            session.squeeze(&mut vec![0; length]);
            note(&session);
            session.squeeze_key(&mut vec![0; length]);
            note(&session);
            session.squeeze_more(&mut vec![0; length]);
            note(&session);
            session.encrypt_in_place(&mut text.to_vec());
            note(&session);
            session.aead_encrypt_in_place_detached(&mut text.to_vec());

            for step in (0..8).rev() {
                let before = phases[step];
                let walked = match step {
                    7 => session.back_seal(before, text),
                    6 => session.back_encrypt(before, text),
                    5 => session.back_squeeze_more(before, length),
                    4 => session.back_squeeze_key(before, length),
                    3 => session.back_squeeze(before, length),
                    2 => session.back_absorb_more(before, text, 10),
                    1 => session.back_absorb(before, text),
                    _ => session.back_key(before, b"key", Some(b"id"), Some(b"nonce"), Some(b"12")),
                };
                assert_eq!((walked, session.state(), session.phase()), (Ok(()), states[step], before), "step {}", step);
            }
        }
    }
    let mut session = XoodyakHash::from_state(XoodyakRule::Crate, XoodyakPhase::Down, [8; 48]);
    assert_eq!(session.back_seal(XoodyakPhase::Up, b"text"), refused(1));
    assert_eq!(session.back_absorb_more(XoodyakPhase::Up, b"text", 0), refused(5));
    assert_eq!(session.state(), [8; 48]);
    let mut session = XoodyakKeyed::from_state(XoodyakRule::Crate, XoodyakPhase::Down, [8; 48]);
    assert_eq!(session.back_key(XoodyakPhase::Up, &[0; 44], None, None, None), refused(2));

    let (mut xoodoo, mut out) = (Xoodoo::from_bytes([8; 48]), [0; 48]);
    xoodoo.permute();
    xoodoo.inverse();
    for n in 0..=12 {
        xoodoo.try_rounds(n).unwrap();
        xoodoo.try_unrounds(n).unwrap();
    }
    xoodoo.bytes(&mut out);
    assert_eq!(out, [8; 48]);
}

// Looks at the memory of a value after its drop: the bytes that held the secret are zero.
fn zeroed_when_dropped() {
    fn longest_run_of<T>(byte: u8, slot: &MaybeUninit<T>) -> usize {
        // Safety: the slot was zeroed before the value was written to it, so every byte of it can be read.
        let memory = unsafe { std::slice::from_raw_parts(slot.as_ptr() as *const u8, std::mem::size_of::<T>()) };
        memory.split(|held| *held != byte).map(<[u8]>::len).max().unwrap_or(0)
    }
    fn held_and_then<T>(value: T, byte: u8) -> [usize; 2] {
        let mut slot = MaybeUninit::zeroed();
        slot.write(value);
        let held = longest_run_of(byte, &slot);
        // Safety: the value was just written, and is not used again.
        unsafe { slot.assume_init_drop() };
        [held, longest_run_of(byte, &slot)]
    }
    let session = XoodyakKeyed::from_state(XoodyakRule::Crate, XoodyakPhase::Up, [0xa5; 48]);
    assert_eq!(held_and_then(session, 0xa5), [48, 0]);
    assert_eq!(held_and_then(Xoodoo::from_bytes([0xa5; 48]), 0xa5), [48, 0]);
    assert_eq!(held_and_then(XoodyakTag::from([0xa5; 16]), 0xa5), [16, 0]);
}

fn main() {
    std::panic::set_hook(Box::new(|_| ()));
    let checks: [(&str, fn()); 8] = [
        ("numbers in place of panics", numbers_in_place_of_panics),
        ("which part was too long", which_part_was_too_long),
        ("longer outputs", longer_outputs),
        ("the specification's rule", specification_rule),
        ("permutations spent", permutations_spent),
        ("feeding", feeding),
        ("walking back", walking_back),
        ("zeroed when dropped", zeroed_when_dropped),
    ];
    // The hook is silent because panics are expected; a check that fails itself is told here.
    for (name, check) in checks {
        if let Err(payload) = catch_unwind(check) {
            let text = payload.downcast_ref::<String>().map_or("no text", |text| text.as_str());
            eprintln!("failed: {}: {}", name, text);
            std::process::exit(1);
        }
        println!("passed: {}", name);
    }
}
