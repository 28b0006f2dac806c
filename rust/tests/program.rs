// A program written for the original crate: test.sh builds it against either crate, and both must print the same lines.
use xoodyak::{
    Xoodoo, XoodyakAny, XoodyakCommon, XoodyakError, XoodyakHash, XoodyakKeyed, XoodyakTag, XOODYAK_AUTH_TAG_BYTES,
};

fn hex(bytes: &[u8]) -> String {
    bytes.iter().map(|b| format!("{:02x}", b)).collect()
}

// Generic code over the original's trait.
fn digest_of(session: &mut impl XoodyakCommon, message: &[u8]) -> [u8; 32] {
    let mut digest = [0u8; 32];
    session.absorb(message);
    session.squeeze(&mut digest);
    digest
}

// The original's errors are all that a program can meet, so a match on them is complete.
fn name(error: XoodyakError) -> &'static str {
    match error {
        XoodyakError::InvalidBufferLength => "buffer",
        XoodyakError::InvalidParameterLength => "parameter",
        XoodyakError::KeyRequired => "key",
        XoodyakError::TagMismatch => "tag",
    }
}

fn main() -> Result<(), XoodyakError> {
    let empty = digest_of(&mut XoodyakHash::new(), b"");
    assert_eq!(hex(&empty), "ea152f2b47bce24efb66c479d4adf17bd324d806e85ff75ee369ee50dc8f8bd1");
    println!("hash of nothing: {}", hex(&empty));
    println!("hash of 00: {}", hex(&digest_of(&mut XoodyakHash::default(), &[0])));

    let mut start = XoodyakKeyed::new(b"a key", Some(b"a nonce"), Some(b"its id"), Some(&[1, 2]))?;
    start.absorb(b"associated data");
    let message = b"a message of more than one block of the cipher";
    let mut sealed = vec![0u8; message.len() + XOODYAK_AUTH_TAG_BYTES];
    start.clone().aead_encrypt(&mut sealed, Some(message))?;
    println!("sealed: {}", hex(&sealed));
    let mut opened = vec![0u8; message.len()];
    let mut laboratory = start.clone();
    laboratory.aead_decrypt(&mut opened, &sealed)?;
    assert_eq!(opened, message);
    println!("session after it: {:?}", laboratory);

    for bit in 0..sealed.len() * 8 {
        let mut forged = sealed.clone();
        forged[bit / 8] ^= 1 << (bit % 8);
        assert_eq!(start.clone().aead_decrypt(&mut opened, &forged), Err(XoodyakError::TagMismatch));
        assert!(opened.iter().all(|&b| b == 0));
    }
    println!("{} forged records refused", sealed.len() * 8);

    let mut in_place = sealed.clone();
    assert_eq!(start.clone().aead_decrypt_in_place(&mut in_place)?, message);
    let tag: XoodyakTag = start.clone().aead_encrypt_in_place_detached(&mut opened);
    println!("tag: {}, {:?}", hex(tag.as_ref()), tag.verify([0; 16]).map_err(name));
    let bytes: [u8; XOODYAK_AUTH_TAG_BYTES] = tag.clone().into();
    assert_eq!(tag, XoodyakTag::from(bytes));

    let mut any = XoodyakAny::Hash(XoodyakHash::new());
    println!("a Hash session: {:?}", any.encrypt(&mut opened, message).map_err(name));
    any = XoodyakAny::Keyed(start.clone());
    any.ratchet()?;
    println!("a short output: {:?}", any.encrypt(&mut opened[1..], message).map_err(name));
    println!("a long key: {:?}", XoodyakKeyed::new(&[0; 44], None, None, None).map(|_| ()).map_err(name));
    let sessions: [&mut dyn XoodyakCommon; 2] = [&mut any, &mut start];
    for session in sessions {
        let mut key = [0u8; 50];
        session.squeeze_key(&mut key);
        println!("a key: {}", hex(&key));
    }

    let (mut xoodoo, mut out) = (Xoodoo::default(), [0u8; 48]);
    xoodoo.permute();
    xoodoo.add_byte(1, 47);
    xoodoo.add_bytes(b"bytes");
    xoodoo.bytes(&mut out);
    println!("Xoodoo: {}", hex(&out));
    Ok(())
}
