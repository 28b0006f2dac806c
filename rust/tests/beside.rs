// Drives random calls through the original crate and the proved one side by side: answers, buffers and sessions must agree.
//
//     beside [CALLS] [SEED]
//
// The calls stay where the two are meant to be equal: outputs no longer than their result, or longer ones where the
// message's length is a multiple of 24 or the session is a Hash session; rates, offsets and runs that the library takes.
use std::collections::BTreeMap;
use std::env;

mod original_side {
    use original as xoodyak;
    include!("side.rs");
}

mod proved_side {
    use proved as xoodyak;
    include!("side.rs");
}

type Optional = Option<Vec<u8>>;

// A call with what it is given; outputs and in-place buffers stand beside it.
#[derive(Debug)]
pub enum Call {
    Hash { any: bool },
    New { any: bool, key: Vec<u8>, nonce: Optional, id: Optional, counter: Optional },
    Key { key: Vec<u8>, nonce: Optional, id: Optional, counter: Optional },
    Absorb { bin: Vec<u8> },
    AbsorbMore { bin: Vec<u8>, rate: usize },
    Squeeze,
    SqueezeKey,
    SqueezeMore,
    Ratchet,
    Encrypt { bin: Vec<u8> },
    Decrypt { bin: Vec<u8> },
    EncryptInPlace,
    DecryptInPlace,
    SealDetached { bin: Optional },
    Seal { bin: Optional },
    OpenDetached { tag: [u8; 16], bin: Optional },
    Open { bin: Vec<u8> },
    SealInPlaceDetached,
    SealInPlace,
    OpenInPlaceDetached { tag: [u8; 16] },
    OpenInPlace,
    Verify { tag: [u8; 16], bytes: [u8; 16] },
    FromBytes { bytes: [u8; 48] },
    Permute,
    AddByte { byte: u8, offset: usize },
    AddBytes { bin: Vec<u8> },
    ExtractBytes,
}

const FORMS: usize = 27;

// The forms that can be refused inside the domain; each must have been, by the end.
const REFUSABLE: [&str; 17] = [
    "New", "Key", "Ratchet", "Encrypt", "Decrypt", "EncryptInPlace", "DecryptInPlace", "SealDetached", "Seal", "OpenDetached",
    "Open", "SealInPlaceDetached", "SealInPlace", "OpenInPlaceDetached", "OpenInPlace", "Verify", "all",
];

// The number of the original's error, or 0; the tag and the plaintext part that a call hands back.
#[derive(Debug, PartialEq)]
pub struct Answer {
    pub number: u8,
    pub tag: Option<[u8; 16]>,
    pub part: Option<Vec<u8>>,
}

// splitmix64: the same calls for the same seed, on every machine.
struct Random(u64);

impl Random {
    fn next(&mut self) -> u64 {
        self.0 = self.0.wrapping_add(0x9e37_79b9_7f4a_7c15);
        let z = (self.0 ^ (self.0 >> 30)).wrapping_mul(0xbf58_476d_1ce4_e5b9);
        let z = (z ^ (z >> 27)).wrapping_mul(0x94d0_49bb_1331_11eb);
        z ^ (z >> 31)
    }

    fn below(&mut self, n: usize) -> usize {
        (self.next() % n as u64) as usize
    }

    fn one_in(&mut self, n: usize) -> bool {
        self.below(n) == 0
    }

    fn bytes(&mut self, length: usize) -> Vec<u8> {
        (0..length).map(|_| self.next() as u8).collect()
    }

    fn array<const N: usize>(&mut self) -> [u8; N] {
        let mut bytes = [0; N];
        bytes.iter_mut().for_each(|b| *b = self.next() as u8);
        bytes
    }

    // Lengths near the rates and their multiples, short ones, and some of several blocks.
    fn length(&mut self) -> usize {
        match self.below(4) {
            0 => self.below(5),
            1 => [16, 24, 44][self.below(3)] * (1 + self.below(3)) + self.below(3) - 1,
            2 => 24 * self.below(6),
            _ => self.below(200),
        }
    }

    fn optional(&mut self, length: usize) -> Optional {
        if self.one_in(3) { None } else { Some(self.bytes(length)) }
    }

    // Key, nonce, key id and counter; now and then too long together.
    fn key(&mut self) -> (Vec<u8>, Optional, Optional, Optional) {
        let most = if self.one_in(4) { 50 } else { 16 };
        let (key, nonce, id, counter) = (self.below(most), self.below(most), self.below(most), self.below(6));
        (self.bytes(key), self.optional(nonce), self.optional(id), self.optional(counter))
    }

    // The length of an output for a result made of a message and a tail; longer only where the two crates are equal.
    fn room(&mut self, message: usize, tail: usize, hash: bool) -> usize {
        let result = message + tail;
        match self.below(5) {
            0 if result > 0 => self.below(result),
            1 if hash || message % 24 == 0 => result + self.below(60),
            _ => result,
        }
    }
}

struct Runner {
    random: Random,
    original: original_side::Side,
    proved: proved_side::Side,
    keyed: bool,
    // Accepted and refused calls of each form, and of all together.
    tally: BTreeMap<String, [usize; 2]>,
}

impl Runner {
    // A ciphertext and a tag for the session as it stands; now and then one bit of them is wrong.
    fn record(&mut self) -> (Vec<u8>, [u8; 16]) {
        let n = self.random.length();
        let message = self.random.bytes(n);
        let (mut ciphertext, mut ahead) = (vec![0; n], self.original.clone());
        let sealed = ahead.run(&Call::SealDetached { bin: Some(message) }, &mut ciphertext);
        let mut tag = sealed.and_then(|answer| answer.tag).unwrap_or([7; 16]);
        if self.random.one_in(3) {
            let bit = self.random.below((n + 16) * 8);
            let (byte, mask) = (bit / 8, 1 << (bit % 8));
            if byte < n { ciphertext[byte] ^= mask } else { tag[byte - n] ^= mask }
        }
        (ciphertext, tag)
    }

    // A call and its buffer.
    fn choose(&mut self) -> (Call, Vec<u8>) {
        let hash = !self.keyed;
        let form = if self.random.one_in(40) { self.random.below(2) } else { 2 + self.random.below(FORMS - 2) };
        let n = self.random.length();
        let r = &mut self.random;
        let (call, room) = match form {
            0 => (Call::Hash { any: !r.one_in(3) }, 0),
            1 => {
                let (key, nonce, id, counter) = r.key();
                (Call::New { any: r.one_in(2), key, nonce, id, counter }, 0)
            }
            2 => {
                let (key, nonce, id, counter) = r.key();
                (Call::Key { key, nonce, id, counter }, 0)
            }
            3 => (Call::Absorb { bin: r.bytes(n) }, 0),
            4 => (Call::AbsorbMore { bin: r.bytes(n), rate: 1 + r.below(if hash { 16 } else { 44 }) }, 0),
            5 => (Call::Squeeze, n),
            6 => (Call::SqueezeKey, n),
            7 => (Call::SqueezeMore, n),
            8 => (Call::Ratchet, 0),
            9 => (Call::Encrypt { bin: r.bytes(n) }, r.room(n, 0, hash)),
            10 => (Call::Decrypt { bin: r.bytes(n) }, r.room(n, 0, hash)),
            11 => (Call::EncryptInPlace, n),
            12 => (Call::DecryptInPlace, n),
            13 | 14 => {
                let bin = r.optional(n);
                let message = bin.as_ref().map_or(0, |bin| bin.len());
                if form == 13 {
                    (Call::SealDetached { bin }, r.room(message, 0, hash))
                } else {
                    (Call::Seal { bin }, r.room(message, 16, hash))
                }
            }
            15 => {
                let (ciphertext, tag) = self.record();
                let room = self.random.room(ciphertext.len(), 0, hash);
                let absent = ciphertext.is_empty() && self.random.one_in(2);
                (Call::OpenDetached { tag, bin: if absent { None } else { Some(ciphertext) } }, room)
            }
            16 => {
                let (mut bin, tag) = self.record();
                let room = self.random.room(bin.len(), 0, hash);
                bin.extend(tag);
                if self.random.one_in(8) {
                    // Too short to end in a tag.
                    bin.truncate(self.random.below(16));
                }
                (Call::Open { bin }, room)
            }
            17 => (Call::SealInPlaceDetached, n),
            18 => (Call::SealInPlace, if r.one_in(6) { r.below(16) } else { n + 16 }),
            19 => {
                let (ciphertext, tag) = self.record();
                return (Call::OpenInPlaceDetached { tag }, ciphertext);
            }
            20 => {
                let (mut buffer, tag) = self.record();
                buffer.extend(tag);
                if self.random.one_in(8) {
                    buffer.truncate(self.random.below(16));
                }
                return (Call::OpenInPlace, buffer);
            }
            21 => {
                let tag = r.array();
                let mut bytes = tag;
                if r.one_in(2) {
                    bytes[r.below(16)] ^= 1 << r.below(8);
                }
                (Call::Verify { tag, bytes }, 0)
            }
            22 => (Call::FromBytes { bytes: r.array() }, 0),
            23 => (Call::Permute, 0),
            24 => (Call::AddByte { byte: r.next() as u8, offset: r.below(48) }, 0),
            25 => {
                let length = r.below(49);
                (Call::AddBytes { bin: r.bytes(length) }, 0)
            }
            _ => (Call::ExtractBytes, r.below(49)),
        };
        let buffer = self.random.bytes(room);
        (call, buffer)
    }

    // Makes one call on both sides and compares all that can be seen. False: the session's type has no such call.
    fn step(&mut self) -> bool {
        let (call, start) = self.choose();
        let (before, mut theirs, mut ours) = (self.original.text(), start.clone(), start.clone());
        let expected = self.original.run(&call, &mut theirs);
        let got = self.proved.run(&call, &mut ours);
        let at = || format!("on {:?}\nwith buffer {:?}\nfrom {}", call, start, before);
        assert_eq!(got, expected, "the answers differ {}", at());
        assert_eq!(ours, theirs, "the buffers differ {}", at());
        assert_eq!(self.proved.text(), self.original.text(), "the sessions differ {}", at());
        let answer = match got {
            Some(answer) => answer,
            None => return false,
        };
        if answer.number == 0 {
            match call {
                Call::Hash { .. } => self.keyed = false,
                Call::New { .. } => self.keyed = true,
                _ => (),
            }
        }
        let name: String = format!("{:?}", call).chars().take_while(|c| c.is_alphanumeric()).collect();
        let refused = (answer.number != 0) as usize;
        self.tally.entry(name).or_default()[refused] += 1;
        self.tally.entry("all".to_string()).or_default()[refused] += 1;
        true
    }
}

fn main() {
    let mut arguments = env::args().skip(1).map(|word| word.parse().expect("CALLS and SEED are numbers"));
    let (calls, seed) = (arguments.next().unwrap_or(200_000), arguments.next().unwrap_or(1));
    let mut runner = Runner {
        random: Random(seed),
        original: original_side::Side::new(),
        proved: proved_side::Side::new(),
        keyed: false,
        tally: BTreeMap::new(),
    };
    let mut made = 0;
    while made < calls {
        made += runner.step() as u64;
    }
    println!("{:<22}{:>10}{:>10}", "call", "accepted", "refused");
    for (name, [accepted, refused]) in &runner.tally {
        println!("{:<22}{:>10}{:>10}", name, accepted, refused);
        assert!(*accepted > 0, "{} was never accepted: make more calls", name);
        assert!(*refused > 0 || !REFUSABLE.contains(&name.as_str()), "{} was never refused: make more calls", name);
    }
    assert_eq!(runner.tally.len(), FORMS + 1, "a form of call was never made: make more calls");
    println!("{} calls, seed {}: both crates agree on every answer, buffer and session", made, seed);
}
