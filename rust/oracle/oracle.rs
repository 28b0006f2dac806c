// Answers transcript lines with the original crate, unchanged: the oracle of the differential tests.
//
// Lines that the original has no call for, or where the port differs from it on purpose, are answered `unsupported`
// and change nothing. With `--outside` the latter are put to the original all the same, to show what it does
// (`panic` where it panics). The original has the crate rule only: the lines of a session that was made under the
// specification's rule are `unsupported` as well. It has no message handed over bit by bit either: its one-call forms
// answer for all the bytes so far. And it counts no permutations: `spent` is worked out from the lengths on the line.
use std::io::{self, BufRead, Write};
use std::panic::{catch_unwind, AssertUnwindSafe};
use xoodyak::{Xoodoo, XoodyakAny, XoodyakCommon, XoodyakError, XoodyakHash, XoodyakKeyed, XoodyakTag};

const LONGEST_LINE: usize = 40_000;
const LONGEST_BYTES: usize = 16_384;
const UNSUPPORTED: &str = "unsupported";
// The lines about a session that do not answer 7 because a message is unfinished.
const ON_UNFINISHED: [&str; 7] = ["hash", "new", "set", "state", "back", "feed", "finish"];

// Words of a line. `None` means that the word does not fit its form.

fn digit(c: u8) -> Option<u8> {
    match c {
        b'0'..=b'9' => Some(c - b'0'),
        b'a'..=b'f' => Some(c - b'a' + 10),
        _ => None,
    }
}

fn bytes(word: &str) -> Option<Vec<u8>> {
    if word == "." {
        return Some(Vec::new());
    }
    if word.is_empty() || word.len() % 2 == 1 || word.len() / 2 > LONGEST_BYTES {
        return None;
    }
    word.as_bytes().chunks(2).map(|pair| Some(digit(pair[0])? * 16 + digit(pair[1])?)).collect()
}

fn array<const LENGTH: usize>(word: &str) -> Option<[u8; LENGTH]> {
    bytes(word)?.try_into().ok()
}

// Outer: does the word fit; inner: is the argument present.
fn optional(word: &str) -> Option<Option<Vec<u8>>> {
    match word.strip_prefix('-') {
        None => Some(Some(bytes(word)?)),
        Some("") => Some(None),
        Some(ignored) => bytes(ignored).map(|_| None),
    }
}

fn number(word: &str) -> Option<u64> {
    if word.is_empty() || word.len() > 20 || !word.bytes().all(|c| c.is_ascii_digit()) {
        return None;
    }
    word.parse().ok()
}

fn length(word: &str) -> Option<usize> {
    number(word).filter(|&n| n <= LONGEST_BYTES as u64).map(|n| n as usize)
}

fn mode(word: &str) -> Option<()> {
    matches!(word, "hash" | "keyed").then_some(())
}

fn phase(word: &str) -> Option<()> {
    matches!(word, "up" | "down").then_some(())
}

fn opening(word: &str) -> Option<bool> {
    matches!(word, "seal" | "open").then_some(word == "open")
}

// Words of an answer.

fn hex(bytes: &[u8]) -> String {
    if bytes.is_empty() {
        return ".".to_string();
    }
    let digit = |d: u8| char::from(b"0123456789abcdef"[d as usize]);
    bytes.iter().flat_map(|b| [digit(b >> 4), digit(b & 15)]).collect()
}

// The lengths of a line's words that a call can refuse.
enum Lengths<'a> {
    None,
    // Key, key id and nonce.
    Key(&'a [u8], &'a Option<Vec<u8>>, &'a Option<Vec<u8>>),
    // An output and its result.
    Output(usize, usize),
    // What ends in a tag of 16 bytes, and the output for what comes before the tag; in place they are one buffer.
    Tagged(usize, usize),
}

// The number of a result. The original has one error for a key call's lengths and one for a buffer's, where the port says
// which part was too long or too short and how many bytes an output lacks: this is read off the line's words, here alone.
// InvalidParameterLength is 2, 8 or 9 as key, key and key id, or only the nonce too exceed the 43 bytes that they may have
// together; InvalidBufferLength is 10 for a tagged input under 16 bytes, and 3 with the count for an output.
fn code<T>(result: &Result<T, XoodyakError>, lengths: Lengths) -> String {
    let error = match result {
        Ok(_) => return "0".to_string(),
        Err(error) => error,
    };
    let missing = |result: usize, output: usize| format!("3:{}", result as i64 - output as i64);
    match (error, lengths) {
        (XoodyakError::KeyRequired, _) => "1".to_string(),
        (XoodyakError::InvalidParameterLength, Lengths::Key(key, _, _)) if key.len() > 43 => "2".to_string(),
        (XoodyakError::InvalidParameterLength, Lengths::Key(key, Some(id), _)) if key.len() + id.len() > 43 => "8".to_string(),
        (XoodyakError::InvalidParameterLength, Lengths::Key(_, _, Some(_))) => "9".to_string(),
        (XoodyakError::InvalidBufferLength, Lengths::Tagged(input, _)) if input < 16 => "10".to_string(),
        (XoodyakError::InvalidBufferLength, Lengths::Tagged(input, output)) => missing(input - 16, output),
        (XoodyakError::InvalidBufferLength, Lengths::Output(output, result)) => missing(result, output),
        (XoodyakError::TagMismatch, _) => "4".to_string(),
        _ => "unmapped".to_string(),
    }
}

fn with_tag(result: Result<XoodyakTag, XoodyakError>, lengths: Lengths, buffer: &[u8]) -> String {
    let number = code(&result, lengths);
    format!("{} {} {}", number, hex(buffer), hex(result.unwrap_or_default().as_ref()))
}

fn fresh_hash() -> XoodyakAny {
    XoodyakAny::Hash(XoodyakHash::new())
}

fn unwritten(length: usize) -> Vec<u8> {
    vec![0xa5; length]
}

// The permutations of a call by its line and its answer, and by the session's mode and phase before it: one for each block and
// one for a tag, and none before an absorb's first block where the phase is Up. `None`: the line is no session call.
fn share(line: &str, answer: &str, keyed: bool, down: bool) -> Option<usize> {
    let size = |word| bytes(word).map_or(0, |data| data.len());
    let given = |word| optional(word).flatten().map(|data| data.len());
    let (absorb_rate, squeeze_rate) = if keyed { (44, 24) } else { (16, 16) };
    let at_least_one = |blocks: usize| blocks.max(1);
    let absorbed = |blocks: usize| at_least_one(blocks) - if down { 0 } else { 1 };
    let more_of_key = |id, counter| given(id).map_or(0, |_| 1) + given(counter).map_or(0, at_least_one);
    let crypted = |message: usize| message.div_ceil(24);
    let words: Vec<&str> = line.split(' ').collect();
    let share = match words[..] {
        ["hash" | "set" | "state" | "rule" | "verify" | "back" | "spent", ..] => return None,
        [name, ..] if name.starts_with("x_") => return None,
        ["new", _, _, id, counter] => more_of_key(id, counter),
        ["key", _, id, _, counter] => absorbed(1) + more_of_key(id, counter),
        ["absorb", data] => absorbed(size(data).div_ceil(absorb_rate)),
        ["absorb_more", data, rate] => size(data).div_ceil(number(rate)?.max(1) as usize),
        ["squeeze" | "squeeze_key", n] => at_least_one(length(n)?.div_ceil(squeeze_rate)),
        ["squeeze_more", n] => length(n)?.div_ceil(squeeze_rate),
        ["ratchet"] => 1,
        ["encrypt" | "decrypt", _, data] | ["encrypt_in_place" | "decrypt_in_place", data] => crypted(size(data)),
        ["aead_encrypt" | "aead_encrypt_detached", _, data] | ["aead_decrypt_detached", _, _, data] => {
            crypted(given(data).unwrap_or(0)) + 1
        }
        ["aead_encrypt_in_place_detached", data] | ["aead_decrypt_in_place_detached", data, _] => crypted(size(data)) + 1,
        ["aead_decrypt", _, data] | ["aead_encrypt_in_place" | "aead_decrypt_in_place", data] => {
            crypted(size(data).saturating_sub(16)) + 1
        }
        ["feed" | "finish", ..] => answer.rsplit(' ').next()?.parse().ok()?,
        _ => 0,
    };
    let taken = matches!(answer.split(' ').next(), Some("0" | "4"));
    Some(if taken { share } else { 0 })
}

// A message handed over bit by bit, and its bytes so far.
#[derive(Clone)]
struct Message {
    opening: bool,
    taken: Vec<u8>,
}

#[derive(Clone)]
struct Runner {
    // On an unfinished message the session from before it.
    session: XoodyakAny,
    message: Option<Message>,
    xoodoo: Xoodoo,
    // The permutations of the last session call.
    spent: usize,
    outside: bool,
    // Whether sessions are made under the specification's rule, and whether the present one was.
    makes_spec: bool,
    is_spec: bool,
}

impl Runner {
    fn absorb_rate(&self) -> u64 {
        match self.session {
            XoodyakAny::Hash(_) => 16,
            XoodyakAny::Keyed(_) => 44,
        }
    }

    // The original writes key stream past a message of this length when its output is longer than its result.
    fn spills(&self, out: usize, result: usize, message: usize) -> bool {
        matches!(self.session, XoodyakAny::Keyed(_)) && out > result && message % 24 != 0 && !self.outside
    }

    // The session after the unfinished message's bytes so far, were these all, and the output for them.
    fn so_far(&self) -> (XoodyakAny, Vec<u8>) {
        let mut session = self.session.clone();
        let mut text = Vec::new();
        if let Some(message) = &self.message {
            text = message.taken.clone();
            let done = if message.opening { session.decrypt_in_place(&mut text) } else { session.encrypt_in_place(&mut text) };
            done.expect("a message is begun in a keyed session only");
        }
        (session, text)
    }

    fn is_begun(&self, opening: bool) -> bool {
        self.message.as_ref().map_or(false, |message| message.opening == opening)
    }

    // Takes what the open block has room for and 24 bytes for each permutation allowed.
    fn feed(&mut self, opening: bool, mut out: Vec<u8>, piece: &[u8], allowance: u64) -> String {
        if !self.is_begun(opening) {
            return format!("7 {} 0 0", hex(&out));
        }
        if out.len() < piece.len() {
            return format!("3:{} {} 0 0", piece.len() - out.len(), hex(&out));
        }
        let begun = &mut self.message.as_mut().unwrap().taken;
        let before = begun.len();
        let room = before.next_multiple_of(24) - before;
        let taken = piece.len().min(room.saturating_add(24usize.saturating_mul(allowance as usize)));
        begun.extend(&piece[..taken]);
        out[..taken].copy_from_slice(&self.so_far().1[before..]);
        format!("0 {} {} {}", hex(&out), taken, taken.saturating_sub(room).div_ceil(24))
    }

    // What a session call answers on an unfinished message: 7 where a Hash session refuses with 1, and where a Hash session
    // takes the call, 7 with the buffer as it was.
    fn unfinished(&self, line: &str) -> Option<String> {
        let answer = Runner { session: fresh_hash(), ..self.clone() }.answer(line)?;
        Some(match answer.split_once(' ') {
            None => "7".to_string(),
            Some(("0", squeezed)) => format!("7 {}", hex(&unwritten(squeezed.len() / 2))),
            Some((_, kept)) => format!("7 {}", kept),
        })
    }

    // The session as the original's Debug text tells it: `Hash(XoodyakHash { state: Xoodoo { st: [..] }, phase: Up })`.
    // Inside a message the last block is not closed: its padding is taken back, and the phase is that of the block's Up.
    fn state(&self) -> String {
        let (session, taken) = self.so_far();
        let text = format!("{:?}", session);
        let mode = if text.starts_with("Hash(") { "hash" } else { "keyed" };
        let phase = if text.contains("phase: Up") { "up" } else { "down" };
        let (from, to) = (text.find('[').unwrap() + 1, text.find(']').unwrap());
        let mut bytes: Vec<u8> = text[from..to].split(", ").map(|byte| byte.parse().unwrap()).collect();
        if taken.is_empty() {
            return format!("{} {} {}", mode, phase, hex(&bytes));
        }
        bytes[(taken.len() - 1) % 24 + 1] ^= 1;
        format!("{} up {}", mode, hex(&bytes))
    }

    // `None` is a line that fits no form.
    fn answer(&mut self, line: &str) -> Option<String> {
        let words: Vec<&str> = line.split(' ').collect();
        Some(match words[..] {
            ["hash"] => {
                self.session = fresh_hash();
                "0".to_string()
            }
            ["new", key, nonce, id, counter] => {
                let (key, nonce, id, counter) = (bytes(key)?, optional(nonce)?, optional(id)?, optional(counter)?);
                let made = XoodyakKeyed::new(&key, nonce.as_deref(), id.as_deref(), counter.as_deref());
                let number = code(&made, Lengths::Key(&key, &id, &nonce));
                self.session = made.map_or_else(|_| fresh_hash(), XoodyakAny::Keyed);
                number
            }
            ["key", key, id, nonce, counter] => {
                let (key, id, nonce, counter) = (bytes(key)?, optional(id)?, optional(nonce)?, optional(counter)?);
                let done = self.session.absorb_key_and_nonce(&key, id.as_deref(), nonce.as_deref(), counter.as_deref());
                code(&done, Lengths::Key(&key, &id, &nonce))
            }
            ["absorb", data] => {
                self.session.absorb(&bytes(data)?);
                "0".to_string()
            }
            ["absorb_more", data, rate] => {
                let (data, rate) = (bytes(data)?, number(rate)?);
                if (rate == 0 || rate > self.absorb_rate()) && !self.outside {
                    return Some(UNSUPPORTED.to_string());
                }
                self.session.absorb_more(&data, rate as usize);
                "0".to_string()
            }
            ["squeeze", n] => {
                let mut out = unwritten(length(n)?);
                self.session.squeeze(&mut out);
                format!("0 {}", hex(&out))
            }
            ["squeeze_key", n] => {
                let mut out = unwritten(length(n)?);
                self.session.squeeze_key(&mut out);
                format!("0 {}", hex(&out))
            }
            ["squeeze_more", n] => {
                let mut out = unwritten(length(n)?);
                self.session.squeeze_more(&mut out);
                format!("0 {}", hex(&out))
            }
            ["ratchet"] => code(&self.session.ratchet(), Lengths::None),
            ["encrypt", n, data] => {
                let (mut out, data) = (unwritten(length(n)?), bytes(data)?);
                if self.spills(out.len(), data.len(), data.len()) {
                    return Some(UNSUPPORTED.to_string());
                }
                let done = self.session.encrypt(&mut out, &data);
                format!("{} {}", code(&done, Lengths::Output(out.len(), data.len())), hex(&out))
            }
            ["decrypt", n, data] => {
                let (mut out, data) = (unwritten(length(n)?), bytes(data)?);
                if self.spills(out.len(), data.len(), data.len()) {
                    return Some(UNSUPPORTED.to_string());
                }
                let done = self.session.decrypt(&mut out, &data);
                format!("{} {}", code(&done, Lengths::Output(out.len(), data.len())), hex(&out))
            }
            ["encrypt_in_place", data] => {
                let mut data = bytes(data)?;
                let done = self.session.encrypt_in_place(&mut data);
                format!("{} {}", code(&done, Lengths::None), hex(&data))
            }
            ["decrypt_in_place", data] => {
                let mut data = bytes(data)?;
                let done = self.session.decrypt_in_place(&mut data);
                format!("{} {}", code(&done, Lengths::None), hex(&data))
            }
            ["aead_encrypt_detached", n, data] => {
                let (mut out, data) = (unwritten(length(n)?), optional(data)?);
                let message = data.as_ref().map_or(0, Vec::len);
                if self.spills(out.len(), message, message) {
                    return Some(UNSUPPORTED.to_string());
                }
                let done = self.session.aead_encrypt_detached(&mut out, data.as_deref());
                with_tag(done, Lengths::Output(out.len(), message), &out)
            }
            ["aead_encrypt", n, data] => {
                let (mut out, data) = (unwritten(length(n)?), optional(data)?);
                let message = data.as_ref().map_or(0, Vec::len);
                if self.spills(out.len(), message + 16, message) {
                    return Some(UNSUPPORTED.to_string());
                }
                let done = self.session.aead_encrypt(&mut out, data.as_deref());
                format!("{} {}", code(&done, Lengths::Output(out.len(), message + 16)), hex(&out))
            }
            ["aead_decrypt_detached", n, tag, data] => {
                let (mut out, tag, data) = (unwritten(length(n)?), XoodyakTag::from(array(tag)?), optional(data)?);
                let message = data.as_ref().map_or(0, Vec::len);
                if self.spills(out.len(), message, message) {
                    return Some(UNSUPPORTED.to_string());
                }
                let done = self.session.aead_decrypt_detached(&mut out, &tag, data.as_deref());
                format!("{} {}", code(&done, Lengths::Output(out.len(), message)), hex(&out))
            }
            ["aead_decrypt", n, data] => {
                let (mut out, data) = (unwritten(length(n)?), bytes(data)?);
                if data.len() >= 16 && self.spills(out.len(), data.len() - 16, data.len() - 16) {
                    return Some(UNSUPPORTED.to_string());
                }
                let done = self.session.aead_decrypt(&mut out, &data);
                format!("{} {}", code(&done, Lengths::Tagged(data.len(), out.len())), hex(&out))
            }
            ["aead_encrypt_in_place_detached", data] => {
                let mut data = bytes(data)?;
                let done = self.session.aead_encrypt_in_place_detached(&mut data);
                with_tag(done, Lengths::None, &data)
            }
            ["aead_encrypt_in_place", data] => {
                let mut data = bytes(data)?;
                let done = self.session.aead_encrypt_in_place(&mut data);
                format!("{} {}", code(&done, Lengths::Tagged(data.len(), data.len())), hex(&data))
            }
            ["aead_decrypt_in_place_detached", data, tag] => {
                let (mut data, tag) = (bytes(data)?, XoodyakTag::from(array(tag)?));
                let done = self.session.aead_decrypt_in_place_detached(&mut data, &tag);
                format!("{} {}", code(&done, Lengths::None), hex(&data))
            }
            ["aead_decrypt_in_place", data] => {
                let mut data = bytes(data)?;
                let done = self.session.aead_decrypt_in_place(&mut data).map(|plaintext| plaintext.to_vec());
                let number = code(&done, Lengths::Tagged(data.len(), data.len()));
                format!("{} {} {}", number, hex(&data), hex(&done.unwrap_or_default()))
            }
            ["begin", kind] => {
                let opening = opening(kind)?;
                if let XoodyakAny::Hash(_) = self.session {
                    return Some("1".to_string());
                }
                self.message = Some(Message { opening, taken: Vec::new() });
                "0".to_string()
            }
            ["feed", kind, n, piece, allowance] => {
                let (opening, out, piece, allowance) = (opening(kind)?, unwritten(length(n)?), bytes(piece)?, number(allowance)?);
                self.feed(opening, out, &piece, allowance)
            }
            // Under the crate rule a finish permutes for the tag alone.
            ["finish", "seal"] => {
                if !self.is_begun(false) {
                    return Some(format!("7 {} 0", hex(&[0; 16])));
                }
                let mut data = self.message.take().unwrap().taken;
                let tag = self.session.aead_encrypt_in_place_detached(&mut data).unwrap();
                format!("0 {} 1", hex(tag.as_ref()))
            }
            ["finish", "open", tag] => {
                let tag = XoodyakTag::from(array(tag)?);
                if !self.is_begun(true) {
                    return Some("7 0".to_string());
                }
                let mut data = self.message.take().unwrap().taken;
                let done = self.session.aead_decrypt_in_place_detached(&mut data, &tag);
                format!("{} 1", code(&done, Lengths::None))
            }
            ["verify", one, other] => {
                let (one, other) = (XoodyakTag::from(array(one)?), array(other)?);
                code(&one.verify(other), Lengths::None)
            }
            ["state"] => self.state(),
            ["set", of, at, to] => {
                (mode(of)?, phase(at)?, array::<48>(to)?);
                UNSUPPORTED.to_string()
            }
            ["back", before, ref call @ ..] => {
                phase(before)?;
                match *call {
                    ["absorb" | "encrypt" | "seal", data] => drop(bytes(data)?),
                    ["absorb_more", data, rate] => drop((bytes(data)?, number(rate)?)),
                    ["squeeze" | "squeeze_key" | "squeeze_more", n] => drop(length(n)?),
                    ["key", key, id, nonce, counter] => {
                        drop((bytes(key)?, optional(id)?, optional(nonce)?, optional(counter)?))
                    }
                    _ => return None,
                }
                UNSUPPORTED.to_string()
            }
            ["x_set", to] => {
                self.xoodoo = Xoodoo::from_bytes(array(to)?);
                "0".to_string()
            }
            ["x_add_byte", at, byte] => {
                let (at, [byte]) = (number(at)?, array(byte)?);
                if at > 47 && !self.outside {
                    return Some(UNSUPPORTED.to_string());
                }
                self.xoodoo.add_byte(byte, at as usize);
                "0".to_string()
            }
            ["x_add_bytes", data] => {
                let data = bytes(data)?;
                if data.len() > 48 && !self.outside {
                    return Some(UNSUPPORTED.to_string());
                }
                self.xoodoo.add_bytes(&data);
                "0".to_string()
            }
            ["x_extract", n] => {
                let mut out = unwritten(length(n)?);
                if out.len() > 48 && !self.outside {
                    return Some(UNSUPPORTED.to_string());
                }
                self.xoodoo.extract_bytes(&mut out);
                format!("0 {}", hex(&out))
            }
            ["x_permute"] => {
                self.xoodoo.permute();
                "0".to_string()
            }
            ["x_inverse"] => UNSUPPORTED.to_string(),
            // The original has twelve rounds and no other count.
            ["x_rounds", n] => match number(n)? {
                12 => {
                    self.xoodoo.permute();
                    "0".to_string()
                }
                _ => UNSUPPORTED.to_string(),
            },
            ["x_unrounds", n] => {
                number(n)?;
                UNSUPPORTED.to_string()
            }
            ["x_state"] => {
                let mut out = [0; 48];
                self.xoodoo.bytes(&mut out);
                hex(&out)
            }
            _ => return None,
        })
    }

    fn answer_by_rule(&mut self, line: &str) -> Option<String> {
        let name = line.split(' ').next()?;
        let of_session = name != "verify" && !name.starts_with("x_");
        let keyed = matches!(self.session, XoodyakAny::Keyed(_));
        let down = format!("{:?}", self.session).contains("phase: Down");
        let answer = match line {
            "rule" => "crate".to_string(),
            "spent" => self.spent.to_string(),
            "rule crate" | "rule spec" => {
                self.makes_spec = line == "rule spec";
                return Some("0".to_string());
            }
            _ if self.message.is_some() && of_session && !ON_UNFINISHED.contains(&name) => self.unfinished(line)?,
            _ => self.answer(line)?,
        };
        if matches!(name, "hash" | "new") {
            self.is_spec = self.makes_spec;
        }
        self.spent = share(line, &answer, keyed, down).unwrap_or(self.spent);
        if matches!(name, "hash" | "new" | "set") {
            self.message = None;
        }
        Some(if self.is_spec && of_session { UNSUPPORTED.to_string() } else { answer })
    }

    fn answer_or_panic(&mut self, line: &str) -> Option<String> {
        if !self.outside {
            return self.answer_by_rule(line);
        }
        let before = self.clone();
        catch_unwind(AssertUnwindSafe(|| self.answer_by_rule(line))).unwrap_or_else(|_| {
            *self = before;
            Some("panic".to_string())
        })
    }
}

fn main() -> io::Result<()> {
    let outside = match std::env::args().skip(1).collect::<Vec<_>>().as_slice() {
        [] => false,
        [option] if option == "--outside" => true,
        _ => {
            eprintln!("usage: oracle [--outside] < transcript > answers");
            std::process::exit(2);
        }
    };
    if outside {
        std::panic::set_hook(Box::new(|_| {}));
    }
    let (session, xoodoo) = (fresh_hash(), Xoodoo::default());
    let mut runner = Runner { session, message: None, xoodoo, spent: 0, outside, makes_spec: false, is_spec: false };
    let mut input = io::BufReader::with_capacity(1 << 16, io::stdin().lock());
    let mut output = io::BufWriter::with_capacity(1 << 16, io::stdout().lock());
    let mut line = Vec::new();
    loop {
        // Whoever drives the oracle line by line has each answer before the next read waits.
        if !input.buffer().contains(&b'\n') {
            output.flush()?;
        }
        line.clear();
        if input.read_until(b'\n', &mut line)? == 0 {
            return output.flush();
        }
        if line.last() == Some(&b'\n') {
            line.pop();
        }
        if line.is_empty() || line[0] == b'#' {
            continue;
        }
        let text = std::str::from_utf8(&line).ok().filter(|text| text.len() <= LONGEST_LINE);
        let answer = text.and_then(|text| runner.answer_or_panic(text));
        writeln!(output, "{}", answer.as_deref().unwrap_or("bad"))?;
    }
}
