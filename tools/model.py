#!/usr/bin/env python3
"""A third runner of transcripts: Xoodoo, sessions and walking back, written from the specification's text alone.

    python3 tools/model.py < transcript > answers

To add, or to gain, means xor throughout. The 48 bytes are kept as one number, byte i at bits 8i to 8i+7.
"""
import re
import sys

LONGEST_LINE = 40000
LONGEST_BYTES = 16384
KEY_REQUIRED, KEY_TOO_LONG, SHORT_OUTPUT, TAG_MISMATCH, BAD_RATE, BAD_RUN, UNFINISHED = 1, 2, 3, 4, 5, 6, 7
ID_TOO_LONG, NONCE_TOO_LONG, SHORT_INPUT, BAD_COUNT = 8, 9, 10, 11

# ---- Xoodoo: a plane is a number of 128 bits, column x at bits 32x to 32x+31 ----

ROUND_CONSTANTS = (0x058, 0x038, 0x3c0, 0x0d0, 0x120, 0x014, 0x060, 0x02c, 0x380, 0x0f0, 0x1a0, 0x012)
PLANE = 2**128 - 1
EACH_WORD = 1 | 1 << 32 | 1 << 64 | 1 << 96
LOW_BITS = [((1 << n) - 1) * EACH_WORD for n in range(33)]


def rotated(plane, n):
    """Each word of the plane rotated to the left by n."""
    return (plane & LOW_BITS[32 - n]) << n | plane >> 32 - n & LOW_BITS[n]


def moved(plane, columns):
    """The plane moved up by so many columns, the last ones coming round."""
    n = 32 * columns
    return plane << n & PLANE | plane >> 128 - n


def theta(a0, a1, a2):
    p = moved(a0 ^ a1 ^ a2, 1)
    e = rotated(p, 5) ^ rotated(p, 14)
    return a0 ^ e, a1 ^ e, a2 ^ e


def untheta(a0, a1, a2):
    # Theta applied 32 times changes nothing, so 31 more undo one.
    for _ in range(31):
        a0, a1, a2 = theta(a0, a1, a2)
    return a0, a1, a2


def chi(a0, a1, a2):
    return a0 ^ ~a1 & a2 & PLANE, a1 ^ ~a2 & a0 & PLANE, a2 ^ ~a0 & a1 & PLANE


def round_(a0, a1, a2, constant):
    a0, a1, a2 = theta(a0, a1, a2)
    a1, a2 = moved(a1, 1), rotated(a2, 11)
    a0, a1, a2 = chi(a0 ^ constant, a1, a2)
    return a0, rotated(a1, 1), rotated(moved(a2, 2), 8)


def unround(a0, a1, a2, constant):
    a0, a1, a2 = chi(a0, rotated(a1, 31), rotated(moved(a2, 2), 24))
    return untheta(a0 ^ constant, moved(a1, 3), rotated(a2, 21))


def planes(state):
    return state & PLANE, state >> 128 & PLANE, state >> 256


def permute(state, rounds=12):
    """With the last so many constants."""
    a0, a1, a2 = planes(state)
    for constant in ROUND_CONSTANTS[12 - rounds:]:
        a0, a1, a2 = round_(a0, a1, a2, constant)
    return a0 | a1 << 128 | a2 << 256


def inverse(state, rounds=12):
    a0, a1, a2 = planes(state)
    for constant in reversed(ROUND_CONSTANTS[12 - rounds:]):
        a0, a1, a2 = unround(a0, a1, a2, constant)
    return a0 | a1 << 128 | a2 << 256


def at_byte(offset, data):
    """What adding the data from this byte on adds to the state."""
    return int.from_bytes(data, "little") << 8 * offset


def first_bytes(state, n):
    return (state & (1 << 8 * n) - 1).to_bytes(n, "little")


# ---- Sessions ----

ABSORB_RATE = {"hash": 16, "keyed": 44}
SQUEEZE_RATE = {"hash": 16, "keyed": 24}
RATCHET_RATE = 16
TAG = 16


def blocks(data, rate):
    """Full rates and a last shorter one; no block at all where there is no data."""
    return [data[i:i + rate] for i in range(0, len(data), rate)]


def xored(one, other):
    return bytes(a ^ b for a, b in zip(one, other))


def first_of(*numbers):
    """The first refusal, in the order given; 0 where there is none."""
    return next((number for number in numbers if number), 0)


class Message:
    """An unfinished message: seal or open, and the number of bytes in its block begun last, None before the first."""

    def __init__(self, kind):
        self.kind, self.place = kind, None


class Session:
    """`message` is None where none is begun; `ups` counts the permutations."""

    def __init__(self, rule, mode="hash", phase="up", state=0):
        self.rule, self.mode, self.phase, self.state = rule, mode, phase, state
        self.message, self.ups = None, 0

    def up(self, n, cu):
        self.phase = "up"
        self.ups += 1
        if self.mode == "keyed":
            self.state ^= cu << 8 * 47
        self.state = permute(self.state)
        return first_bytes(self.state, n)

    def down(self, data, cd):
        self.phase = "down"
        self.state ^= self.down_adds(data, cd)

    def down_adds(self, data, cd):
        colour = cd & 1 if self.mode == "hash" else cd
        return at_byte(0, data) ^ at_byte(len(data), b"\x01") ^ colour << 8 * 47

    def absorb_any(self, data, rate, cd):
        for block in blocks(data, rate) or [b""]:
            if self.phase != "up":
                self.up(0, 0x00)
            self.down(block, cd)
            cd = 0x00

    def squeeze_any(self, n, cu):
        sizes = [len(block) for block in blocks(bytes(n), SQUEEZE_RATE[self.mode])] or [0]
        out = self.up(sizes[0], cu)
        for size in sizes[1:]:
            self.down(b"", 0x00)
            out += self.up(size, 0x00)
        return out

    def message_blocks(self, message):
        """An empty message does nothing under the crate rule, and runs one empty block under the specification's."""
        empty = [b""] if self.rule == "spec" else []
        return blocks(message, SQUEEZE_RATE["keyed"]) or empty

    def crypt(self, message, decrypting):
        out = b""
        cu = 0x80
        for block in self.message_blocks(message):
            answer = xored(block, self.up(len(block), cu))
            self.down(answer if decrypting else block, 0x00)
            out += answer
            cu = 0x00
        return out

    # What a call refuses, before anything changes.

    def unfinished(self):
        return UNFINISHED if self.message else 0

    def not_this(self, kind):
        return 0 if self.message and self.message.kind == kind else UNFINISHED

    def hash_refused(self):
        return KEY_REQUIRED if self.mode == "hash" else 0

    def key_required(self):
        return first_of(self.unfinished(), self.hash_refused())

    def rate_refused(self, rate):
        return BAD_RATE if rate == 0 or rate > ABSORB_RATE[self.mode] else 0

    # The calls.

    def absorb(self, data):
        number = self.unfinished()
        if not number:
            self.absorb_any(data, ABSORB_RATE[self.mode], 0x03)
        return number

    def absorb_more(self, data, rate):
        number = first_of(self.unfinished(), self.rate_refused(rate))
        if not number:
            for block in blocks(data, rate):
                self.up(0, 0x00)
                self.down(block, 0x00)
        return number

    def squeeze(self, n):
        return self.squeeze_any(n, 0x40)

    def squeeze_key(self, n):
        return self.squeeze_any(n, 0x20)

    def squeeze_more(self, n):
        out = b""
        for block in blocks(bytes(n), SQUEEZE_RATE[self.mode]):
            self.down(b"", 0x00)
            out += self.up(len(block), 0x00)
        return out

    def key(self, key, key_id, nonce, counter):
        number = first_of(self.key_required(), key_refused(key, key_id, nonce))
        if not number:
            for data, rate, cd in key_absorbs(key, key_id, nonce, counter):
                self.absorb_any(data, rate, cd)
        return number

    def ratchet(self):
        number = self.key_required()
        if not number:
            self.absorb_any(self.squeeze_any(RATCHET_RATE, 0x10), RATCHET_RATE, 0x00)
        return number

    # A message bit by bit: what Down adds of a block is added byte by byte as the bytes come, and the padding, with phase
    # Down, where the next block or the end shows that the block is over.

    def begin(self, kind):
        number = self.key_required()
        if not number:
            self.message = Message(kind)
        return number

    def close_block(self):
        self.phase = "down"
        self.state ^= at_byte(self.message.place, b"\x01")

    def open_block(self):
        if self.message.place is None:
            self.up(0, 0x80)
        else:
            self.close_block()
            self.up(0, 0x00)
        self.message.place = 0

    def feed(self, piece, allowance):
        """The output for the bytes taken: it stops where a permutation is needed that the allowance does not have."""
        out, left = b"", allowance
        for byte in piece:
            if self.message.place in (None, SQUEEZE_RATE["keyed"]):
                if left == 0:
                    break
                left -= 1
                self.open_block()
            answer = byte ^ self.state >> 8 * self.message.place & 0xff
            plain = byte if self.message.kind == "seal" else answer
            self.state ^= at_byte(self.message.place, bytes([plain]))
            self.message.place += 1
            out += bytes([answer])
        return out

    def finish(self):
        """The tag."""
        if self.message.place is None:
            self.crypt(b"", False)
        else:
            self.close_block()
        self.message = None
        return self.squeeze(TAG)

    # Walking back: the last step of the call first.

    def back_up(self, cu):
        self.state = inverse(self.state)
        if self.mode == "keyed":
            self.state ^= cu << 8 * 47

    def back_down(self, data, cd):
        self.state ^= self.down_adds(data, cd)

    def back_absorb_any(self, before, data, rate, cd):
        first, *later = blocks(data, rate) or [b""]
        for block in reversed(later):
            self.back_down(block, 0x00)
            self.back_up(0x00)
        self.back_down(first, cd)
        if before != "up":
            self.back_up(0x00)

    def back_squeeze_any(self, n, cu):
        for _ in blocks(bytes(n), SQUEEZE_RATE[self.mode])[1:]:
            self.back_up(0x00)
            self.back_down(b"", 0x00)
        self.back_up(cu)

    def back_encrypt(self, plaintext):
        for i, block in reversed(list(enumerate(self.message_blocks(plaintext)))):
            self.back_down(block, 0x00)
            self.back_up(0x80 if i == 0 else 0x00)

    def back(self, before, kind, *data):
        """One call undone: from the bytes after it to the bytes before it, whose phase was `before`. A message begun stays so."""
        number = 0
        if kind in ("key", "encrypt", "seal"):
            number = self.hash_refused()
        if kind == "absorb_more":
            number = self.rate_refused(data[1])
        if kind == "key":
            number = first_of(number, key_refused(*data[:3]))
        if number:
            return number
        if kind == "absorb":
            self.back_absorb_any(before, data[0], ABSORB_RATE[self.mode], 0x03)
        elif kind == "absorb_more":
            for block in reversed(blocks(*data)):
                self.back_down(block, 0x00)
                self.back_up(0x00)
        elif kind == "squeeze":
            self.back_squeeze_any(data[0], 0x40)
        elif kind == "squeeze_key":
            self.back_squeeze_any(data[0], 0x20)
        elif kind == "squeeze_more":
            for _ in blocks(bytes(data[0]), SQUEEZE_RATE[self.mode]):
                self.back_up(0x00)
                self.back_down(b"", 0x00)
        elif kind == "key":
            # Every absorb but the first begins where the one before it left the phase: Down.
            absorbs = key_absorbs(*data)
            for absorb in reversed(absorbs[1:]):
                self.back_absorb_any("down", *absorb)
            self.back_absorb_any(before, *absorbs[0])
        elif kind == "encrypt":
            self.back_encrypt(data[0])
        elif kind == "seal":
            self.back_squeeze_any(TAG, 0x40)
            self.back_encrypt(data[0])
        self.phase = before
        return 0


def key_refused(key, key_id, nonce):
    """2 when the key alone exceeds 43; 8 when the key fits but key and id together exceed 43; 9 when only the nonce breaks it."""
    with_id = len(key) + len(key_id or b"")
    return first_of(
        KEY_TOO_LONG if len(key) > 43 else 0,
        ID_TOO_LONG if with_id > 43 else 0,
        NONCE_TOO_LONG if with_id + 1 + len(nonce or b"") > 44 else 0,
    )


def key_absorbs(key, key_id, nonce, counter):
    """The absorbs of a key call in order, each its data, rate and colour; an absent argument is None."""
    t = key_id if key_id is not None else nonce or b""
    absorbs = [(key + t + bytes([len(t)]), 44, 0x02)]
    if key_id is not None:
        absorbs.append((nonce or b"", 44, 0x00))
    if counter is not None:
        absorbs.append((counter, 1, 0x00))
    return absorbs


# ---- Words of a line: each reader answers its value or raises ValueError ----

def read_bytes(word):
    if word == ".":
        return b""
    if not re.fullmatch("([0-9a-f]{2})+", word) or len(word) > 2 * LONGEST_BYTES:
        raise ValueError
    return bytes.fromhex(word)


def read_optional(word):
    if not word.startswith("-"):
        return read_bytes(word)
    if word != "-":
        read_bytes(word[1:])
    return None


def read_number(word):
    if not re.fullmatch("[0-9]{1,20}", word) or int(word) >= 2**64:
        raise ValueError
    return int(word)


def read_length(word):
    n = read_number(word)
    if n > LONGEST_BYTES:
        raise ValueError
    return n


def read_exactly(length):
    def read(word):
        data = read_bytes(word)
        if len(data) != length:
            raise ValueError
        return data
    return read


def read_one_of(*words):
    def read(word):
        if word not in words:
            raise ValueError
        return word
    return read


read_tag, read_state, read_byte = read_exactly(TAG), read_exactly(48), read_exactly(1)
read_mode, read_phase, read_rule = read_one_of("hash", "keyed"), read_one_of("up", "down"), read_one_of("crate", "spec")
read_kind = read_one_of("seal", "open")
KEY_WORDS = [read_bytes, read_optional, read_optional, read_optional]
FINISH_FORMS = {"seal": [], "open": [read_tag]}
BACK_FORMS = {
    "absorb": [read_bytes], "absorb_more": [read_bytes, read_number],
    "squeeze": [read_length], "squeeze_key": [read_length], "squeeze_more": [read_length],
    "key": KEY_WORDS, "encrypt": [read_bytes], "seal": [read_bytes],
}


def read_words(readers, words):
    if len(readers) != len(words):
        raise ValueError
    return [read(word) for read, word in zip(readers, words)]


# ---- The runner ----

def show(value):
    """A word of an answer."""
    if isinstance(value, bytes):
        return value.hex() or "."
    return str(value)


def unwritten(n):
    return b"\xa5" * n


def short_output(result, n):
    """3 tells how many bytes are missing."""
    return "%d:%d" % (SHORT_OUTPUT, result - n) if n < result else 0


# Lines that leave the last session call's share of permutations as it was; those of Xoodoo do too.
UNCOUNTED = ("hash", "set", "state", "rule", "verify", "back", "spent")


def is_counted(name):
    return name not in UNCOUNTED and not name.startswith("x_")


class Runner:
    """Holds a session, the rule of those to be made, and a Xoodoo state; `answer` takes a line's bytes and gives its answer, None for none."""

    def __init__(self):
        self.rule = "crate"
        self.session = Session(self.rule)
        self.spent = 0
        self.xoodoo = 0
        self.forms = {
            "rule": (None, self.set_or_show_rule),
            "hash": ([], self.hash),
            "new": (KEY_WORDS, self.new),
            "key": (KEY_WORDS, lambda *arguments: self.session.key(*arguments)),
            "absorb": ([read_bytes], lambda data: self.session.absorb(data)),
            "absorb_more": ([read_bytes, read_number], lambda data, rate: self.session.absorb_more(data, rate)),
            "squeeze": ([read_length], lambda n: self.squeeze(n, self.session.squeeze)),
            "squeeze_key": ([read_length], lambda n: self.squeeze(n, self.session.squeeze_key)),
            "squeeze_more": ([read_length], lambda n: self.squeeze(n, self.session.squeeze_more)),
            "ratchet": ([], lambda: self.session.ratchet()),
            "encrypt": ([read_length, read_bytes], lambda n, data: self.crypt(n, data, False)),
            "decrypt": ([read_length, read_bytes], lambda n, data: self.crypt(n, data, True)),
            "encrypt_in_place": ([read_bytes], lambda data: self.crypt_in_place(data, False)),
            "decrypt_in_place": ([read_bytes], lambda data: self.crypt_in_place(data, True)),
            "aead_encrypt_detached": ([read_length, read_optional], self.aead_encrypt_detached),
            "aead_encrypt": ([read_length, read_optional], self.aead_encrypt),
            "aead_decrypt_detached": ([read_length, read_tag, read_optional], self.aead_decrypt_detached),
            "aead_decrypt": ([read_length, read_bytes], self.aead_decrypt),
            "aead_encrypt_in_place_detached": ([read_bytes], self.aead_encrypt_in_place_detached),
            "aead_encrypt_in_place": ([read_bytes], self.aead_encrypt_in_place),
            "aead_decrypt_in_place_detached": ([read_bytes, read_tag], self.aead_decrypt_in_place_detached),
            "aead_decrypt_in_place": ([read_bytes], self.aead_decrypt_in_place),
            "begin": ([read_kind], lambda kind: self.session.begin(kind)),
            "feed": ([read_kind, read_length, read_bytes, read_number], self.feed),
            "finish": (None, self.finish),
            "verify": ([read_tag, read_tag], lambda one, other: 0 if one == other else TAG_MISMATCH),
            "spent": ([], lambda: self.spent),
            "state": ([], lambda: (self.session.mode, self.session.phase, first_bytes(self.session.state, 48))),
            "set": ([read_mode, read_phase, read_state], self.set),
            "back": (None, lambda *arguments: self.session.back(*arguments)),
            "x_set": ([read_state], self.x_set),
            "x_add_byte": ([read_number, read_byte], self.x_add_byte),
            "x_add_bytes": ([read_bytes], self.x_add_bytes),
            "x_extract": ([read_length], self.x_extract),
            "x_permute": ([], lambda: self.x_become(permute(self.xoodoo))),
            "x_inverse": ([], lambda: self.x_become(inverse(self.xoodoo))),
            "x_rounds": ([read_number], lambda n: self.x_count(permute, n)),
            "x_unrounds": ([read_number], lambda n: self.x_count(inverse, n)),
            "x_state": ([], lambda: first_bytes(self.xoodoo, 48)),
        }

    def answer(self, line):
        if not line or line.startswith(b"#"):
            return None
        try:
            if len(line) > LONGEST_LINE:
                raise ValueError
            name, *words = line.decode("ascii").split(" ")
            if name not in self.forms:
                raise ValueError
            readers, call = self.forms[name]
            if name == "rule":
                readers = [read_rule] if words else []
            if name == "finish":
                if not words or words[0] not in FINISH_FORMS:
                    raise ValueError
                readers = [str] + FINISH_FORMS[words[0]]
            if name == "back":
                if len(words) < 2 or words[1] not in BACK_FORMS:
                    raise ValueError
                readers = [read_phase, str] + BACK_FORMS[words[1]]
            arguments = read_words(readers, words)
        except ValueError:
            return "bad"
        session, before = self.session, self.session.ups
        answer = call(*arguments)
        if is_counted(name):
            self.spent = self.session.ups - (before if self.session is session else 0)
        return " ".join(map(show, answer)) if isinstance(answer, tuple) else show(answer)

    def set_or_show_rule(self, rule=None):
        if rule is None:
            return self.session.rule
        self.rule = rule
        return 0

    def hash(self):
        self.session = Session(self.rule)
        return 0

    def new(self, key, nonce, key_id, counter):
        self.session = Session(self.rule, "keyed")
        number = self.session.key(key, key_id, nonce, counter)
        if number:
            self.session = Session(self.rule)
        return number

    def set(self, mode, phase, state):
        self.session = Session(self.session.rule, mode, phase, at_byte(0, state))
        return 0

    def squeeze(self, n, call):
        number = self.session.unfinished()
        return (number, unwritten(n)) if number else (0, call(n))

    # Encryption and sealing. A refused call answers its buffer as it was; bytes past the result stay.

    def refusal(self, result, n, too_short_an_input=False):
        """7 before 1 before 10 for the input before 3 for the output."""
        return first_of(
            self.session.key_required(),
            SHORT_INPUT if too_short_an_input else 0,
            short_output(result, n),
        )

    def crypt(self, n, data, decrypting):
        number = self.refusal(len(data), n)
        if number:
            return number, unwritten(n)
        return 0, self.session.crypt(data, decrypting) + unwritten(n - len(data))

    def crypt_in_place(self, data, decrypting):
        number = self.session.key_required()
        return (number, data) if number else (0, self.session.crypt(data, decrypting))

    def sealed(self, message):
        return self.session.crypt(message, False), self.session.squeeze(TAG)

    def opened(self, ciphertext, tag):
        """The plaintext, or None where the tag differs; the session stands past the tag either way."""
        plaintext = self.session.crypt(ciphertext, True)
        return plaintext if self.session.squeeze(TAG) == tag else None

    def aead_encrypt_detached(self, n, message):
        message = message or b""
        number = self.refusal(len(message), n)
        if number:
            return number, unwritten(n), bytes(TAG)
        ciphertext, tag = self.sealed(message)
        return 0, ciphertext + unwritten(n - len(message)), tag

    def aead_encrypt(self, n, message):
        message = message or b""
        number = self.refusal(len(message) + TAG, n)
        if number:
            return number, unwritten(n)
        ciphertext, tag = self.sealed(message)
        return 0, ciphertext + tag + unwritten(n - len(message) - TAG)

    def aead_decrypt_detached(self, n, tag, ciphertext):
        ciphertext = ciphertext or b""
        number = self.refusal(len(ciphertext), n)
        if number:
            return number, unwritten(n)
        plaintext = self.opened(ciphertext, tag)
        if plaintext is None:
            return TAG_MISMATCH, bytes(n)
        return 0, plaintext + unwritten(n - len(plaintext))

    def aead_decrypt(self, n, data):
        number = self.refusal(len(data) - TAG, n, too_short_an_input=len(data) < TAG)
        if number:
            return number, unwritten(n)
        return self.aead_decrypt_detached(n, data[-TAG:], data[:-TAG])

    def aead_encrypt_in_place_detached(self, data):
        number = self.session.key_required()
        return (number, data, bytes(TAG)) if number else (0, *self.sealed(data))

    def aead_encrypt_in_place(self, data):
        number = self.refusal(0, 0, too_short_an_input=len(data) < TAG)
        return (number, data) if number else (0, b"".join(self.sealed(data[:-TAG])))

    def aead_decrypt_in_place_detached(self, data, tag):
        number = self.session.key_required()
        if number:
            return number, data
        plaintext = self.opened(data, tag)
        return (TAG_MISMATCH, bytes(len(data))) if plaintext is None else (0, plaintext)

    def aead_decrypt_in_place(self, data):
        number = self.refusal(0, 0, too_short_an_input=len(data) < TAG)
        if number:
            return number, data, b""
        number, front = self.aead_decrypt_in_place_detached(data[:-TAG], data[-TAG:])
        return number, front + data[-TAG:], b"" if number else front

    # A message bit by bit. What a feed does not take leaves the output as it was.

    def feed(self, kind, n, piece, allowance):
        session = self.session
        number = first_of(session.not_this(kind), session.hash_refused(), short_output(len(piece), n))
        if number:
            return number, unwritten(n), 0, 0
        before = session.ups
        out = session.feed(piece, allowance)
        return 0, out + unwritten(n - len(out)), len(out), session.ups - before

    def finish(self, kind, received=None):
        session = self.session
        number, tag, before = first_of(session.not_this(kind), session.hash_refused()), bytes(TAG), session.ups
        if not number:
            tag = session.finish()
        if kind == "seal":
            return number, tag, session.ups - before
        if not number and tag != received:
            number = TAG_MISMATCH
        return number, session.ups - before

    # Xoodoo's own calls.

    def x_become(self, state):
        self.xoodoo = state
        return 0

    def x_count(self, way, rounds):
        return BAD_COUNT if rounds > 12 else self.x_become(way(self.xoodoo, rounds))

    def x_set(self, state):
        return self.x_become(at_byte(0, state))

    def x_add_byte(self, offset, byte):
        return BAD_RUN if offset > 47 else self.x_become(self.xoodoo ^ at_byte(offset, byte))

    def x_add_bytes(self, data):
        return BAD_RUN if len(data) > 48 else self.x_become(self.xoodoo ^ at_byte(0, data))

    def x_extract(self, n):
        return (BAD_RUN, unwritten(n)) if n > 48 else (0, first_bytes(self.xoodoo, n))


def main():
    runner = Runner()
    for line in sys.stdin.buffer:
        answer = runner.answer(line[:-1] if line.endswith(b"\n") else line)
        if answer is not None:
            print(answer)


if __name__ == "__main__":
    main()
