// What is measured of one build of a crate with the original's interface: names, and functions that do a thing so many times.
use std::hint::black_box;
use xoodyak::{Xoodoo, XoodyakCommon, XoodyakHash, XoodyakKeyed};

pub type Thing = (String, Box<dyn FnMut(u64)>);

const LENGTHS: [usize; 4] = [16, 64, 1024, 4080];

fn thing(name: String, mut once: impl FnMut() + 'static) -> Thing {
    (name, Box::new(move |times| (0..times).for_each(|_| once())))
}

// For the driver to see that all forms do the same.
pub fn permuted_zeros() -> [u8; 48] {
    let (mut xoodoo, mut out) = (Xoodoo::default(), [0; 48]);
    xoodoo.permute();
    xoodoo.bytes(&mut out);
    out
}

// A digest, and for each length what the calls in place, by copy and back give.
pub fn results() -> Vec<Vec<u8>> {
    let (mut session, mut digest) = (XoodyakHash::new(), vec![0; 32]);
    session.absorb(&[7; 4080]);
    session.squeeze(&mut digest);
    let mut all = vec![digest];
    let start = XoodyakKeyed::new(&[1; 16], Some(&[2; 16]), None, None).unwrap();
    for length in LENGTHS {
        let (mut encrypted, mut in_place, mut copied) = (vec![7; length], vec![7; length], vec![0; length]);
        start.clone().encrypt_in_place(&mut encrypted);
        let tag = start.clone().aead_encrypt_in_place_detached(&mut in_place);
        let copied_tag = start.clone().aead_encrypt_detached(&mut copied, Some(&vec![7; length])).unwrap();
        let (mut decrypted, mut opened, mut opened_copy) = (encrypted.clone(), in_place.clone(), vec![0; length]);
        start.clone().decrypt_in_place(&mut decrypted);
        start.clone().aead_decrypt_in_place_detached(&mut opened, &tag).unwrap();
        start.clone().aead_decrypt_detached(&mut opened_copy, &copied_tag, Some(&copied)).unwrap();
        let (tag, copied_tag) = (tag.as_ref().to_vec(), copied_tag.as_ref().to_vec());
        all.extend([encrypted, in_place, tag, copied, copied_tag, decrypted, opened, opened_copy]);
    }
    all
}

pub fn things() -> Vec<Thing> {
    let mut xoodoo = Xoodoo::default();
    let mut all = vec![thing("permutation".into(), move || black_box(&mut xoodoo).permute())];

    for length in LENGTHS {
        let (data, mut digest) = (vec![7; length], [0; 32]);
        all.push(thing(format!("hash of {length}"), move || {
            let mut session = XoodyakHash::new();
            session.absorb(black_box(&data));
            session.squeeze(&mut digest);
            black_box(&digest);
        }));
    }

    let start = XoodyakKeyed::new(&[1; 16], Some(&[2; 16]), None, None).unwrap();
    for length in [64, 4080] {
        let (mut session, mut data) = (start.clone(), vec![7; length]);
        all.push(thing(format!("encrypt in place {length}"), move || session.encrypt_in_place(black_box(&mut data))));
        let (mut session, mut data) = (start.clone(), vec![7; length]);
        all.push(thing(format!("decrypt in place {length}"), move || session.decrypt_in_place(black_box(&mut data))));
    }
    // Sealing and opening start from a copy of one session; each opening is of a record that is good.
    for length in LENGTHS {
        let (from, message, mut out) = (start.clone(), vec![7; length], vec![0; length]);
        all.push(thing(format!("seal by copy {length}"), move || {
            black_box(from.clone().aead_encrypt_detached(black_box(&mut out), black_box(Some(&message))).unwrap());
        }));
        let (from, message, mut buffer) = (start.clone(), vec![7; length], vec![0; length]);
        all.push(thing(format!("seal in place {length}"), move || {
            buffer.copy_from_slice(&message);
            black_box(from.clone().aead_encrypt_in_place_detached(black_box(&mut buffer)));
        }));
        let mut sealed = vec![7; length];
        let tag = start.clone().aead_encrypt_in_place_detached(&mut sealed);
        let (from, ciphertext, its_tag, mut out) = (start.clone(), sealed.clone(), tag.clone(), vec![0; length]);
        all.push(thing(format!("open by copy {length}"), move || {
            from.clone().aead_decrypt_detached(black_box(&mut out), &its_tag, black_box(Some(&ciphertext))).unwrap();
        }));
        let (from, ciphertext, its_tag, mut buffer) = (start.clone(), sealed, tag, vec![0; length]);
        all.push(thing(format!("open in place {length}"), move || {
            buffer.copy_from_slice(&ciphertext);
            from.clone().aead_decrypt_in_place_detached(black_box(&mut buffer), &its_tag).unwrap();
        }));
    }
    // From a copy of one session.
    let mut of_copy = |name: String, length: usize, once: fn(&mut XoodyakKeyed, &mut [u8])| {
        let (from, mut data) = (start.clone(), vec![7; length]);
        all.push(thing(name, move || {
            let mut session = from.clone();
            once(&mut session, black_box(&mut data));
            black_box(&session);
        }));
    };
    for length in LENGTHS {
        of_copy(format!("absorb {length}"), length, |session, data| session.absorb(data));
    }
    of_copy("squeeze 4080".into(), 4080, |session, data| session.squeeze(data));
    let mut data = vec![7; 4080];
    all.push(thing("hash squeeze 4080".into(), move || {
        let mut session = XoodyakHash::new();
        session.squeeze(black_box(&mut data));
        black_box(&session);
    }));
    all
}
