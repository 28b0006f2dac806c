// Seals a record on a device that has one permutation per tick, and opens it in one call: `cargo run --example records`.
use xoodyak::{XoodyakCommon, XoodyakKeyed, XoodyakKind, XoodyakMore, XoodyakRefusal, XOODYAK_AUTH_TAG_BYTES};

fn main() -> Result<(), XoodyakRefusal> {
    let mut device = XoodyakKeyed::new(b"sixteen byte key", Some(b"sixteen bytes of"), None, None).expect("a key that fits");
    device.absorb(b"station 7");
    let mut laboratory = device.clone();

    let reading = b"face 20 of 20 at throw 2000000, on a table of oak";
    let mut record = vec![0u8; reading.len() + XOODYAK_AUTH_TAG_BYTES];
    let (mut taken, mut ticks) = (0, 0);
    device.begin(XoodyakKind::Seal)?;
    while taken < reading.len() {
        taken += device.feed(XoodyakKind::Seal, &mut record[taken..], &reading[taken..], 1)?;
        ticks += 1;
    }
    let tag = device.finish_seal()?;
    record[reading.len()..].copy_from_slice(tag.as_ref());
    println!("sealed {} bytes in {} ticks and one for the tag", reading.len(), ticks);

    let mut opened = vec![0u8; reading.len()];
    let mut forged = record.clone();
    forged[3] ^= 1;
    let refusal = laboratory.clone().try_aead_decrypt(&mut opened, &forged);
    println!("with one bit flipped: {}", refusal.expect_err("a forged record was accepted"));
    laboratory.try_aead_decrypt(&mut opened, &record)?;
    println!("opened: {} ({} permutations)", String::from_utf8_lossy(&opened), laboratory.spent());
    assert_eq!(opened, reading);
    Ok(())
}
