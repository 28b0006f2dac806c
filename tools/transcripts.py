#!/usr/bin/env python3
"""Makes transcripts with their answers: random ones for the differential runs, and the stored one of the gate.

    python3 tools/transcripts.py random SEED LINES KINDS TRANSCRIPT ANSWERS    KINDS: x, sessions or all
    python3 tools/transcripts.py stored LAYER TRANSCRIPT ANSWERS               LAYER: x, sessions, aead or all

A random transcript keeps to what the original crate and the port answer alike; its answers are the original's.
The answers of the stored one are the original's where it can answer and tools/model.py's elsewhere; where both can,
they must agree.
"""
import os
import random
import subprocess
import sys

sys.dont_write_bytecode = True  # so that importing the model leaves nothing in the tree
from model import ABSORB_RATE, Runner, SQUEEZE_RATE, is_counted  # noqa: E402

ROOT = os.path.join(os.path.dirname(os.path.abspath(__file__)), "..")
ORACLE = os.environ.get("ORACLE", os.path.join(ROOT, "target/oracle/oracle"))
UNSUPPORTED = "unsupported"
# None, one, one below, at and above each rate (16, 24 and 44), and several blocks.
EDGES = [0, 1, 15, 16, 17, 23, 24, 25, 43, 44, 45]
LENGTHS = EDGES + [47, 48, 49, 72, 88, 100, 132]


def about(rate):
    """None, one, one below, at and above the rate, two blocks about their end, and several."""
    return [0, 1, rate - 1, rate, rate + 1, 2 * rate, 2 * rate + 1, 100]


def stop(text):
    sys.exit("transcripts.py: " + text)


def word(data):
    return data.hex() or "."


def unword(text):
    return b"" if text == "." else bytes.fromhex(text)


def is_answered(line):
    return line != b"" and not line.startswith(b"#")


class Oracle:
    """The runner over the original crate, asked one line at a time."""

    def __init__(self, *options):
        if not os.path.exists(ORACLE):
            stop("no %s: build it with rust/oracle/build.sh" % ORACLE)
        self.process = subprocess.Popen([ORACLE, *options], stdin=subprocess.PIPE, stdout=subprocess.PIPE)

    def answer(self, line):
        self.process.stdin.write(line + b"\n")
        self.process.stdin.flush()
        if not is_answered(line):
            return None
        answer = self.process.stdout.readline()
        if not answer.endswith(b"\n"):
            stop("the oracle ended at: %s" % line[:200])
        return answer[:-1].decode()

    def close(self):
        self.process.stdin.close()
        self.process.wait()


class Script:
    """A transcript in the making, with the generator's own randomness. `ask` adds a line and gives its answer."""

    def __init__(self, seed):
        self.random = random.Random(seed)
        self.lines, self.answers = [], []

    def ask(self, *words):
        line = words[0] if isinstance(words[0], bytes) else " ".join(map(str, words)).encode()
        answer = self.answer_to(line)
        self.lines.append(line)
        if answer is not None:
            self.answers.append(answer)
        return answer

    def expect(self, answer, *words):
        """Asks, and stops the making where the answer is another one."""
        got = self.ask(*words)
        if got != str(answer):
            stop("line %d: %s\n  answered %s\n  expected %s" % (len(self.lines), self.lines[-1][:200], got, answer))

    def bytes(self, length):
        return self.random.randbytes(length)

    def data(self, length):
        return word(self.bytes(length))

    def hand_over(self, kind, text, plan, tag=None, more=0):
        """A message begun, fed by the plan and finished, from the session as it stands; outputs have `more` bytes past the piece.
        Gives the output, sealing's tag or opening's number, and the permutations of the feeds and of the finish."""
        self.expect("0", "begin", kind)
        out, spent = b"", 0
        for offered, allowance in plan:
            piece = text[len(out):len(out) + offered]
            _, written, taken, ups = self.ask("feed", kind, len(piece) + more, word(piece), allowance).split(" ")
            out += unword(written)[:int(taken)]
            spent += int(ups)
        if len(out) != len(text):
            stop("line %d: %d bytes of %d are taken" % (len(self.lines), len(out), len(text)))
        *_, ended, ups = self.ask(*finish_line(kind, tag)).split(" ")
        return out, unword(ended) if kind == "seal" else ended, spent, int(ups)

    def write(self, transcript, answers, last_line_feed=True):
        with open(transcript, "wb") as out:
            out.write(b"\n".join(self.lines) + (b"\n" if last_line_feed else b""))
        with open(answers, "w") as out:
            out.write("".join(answer + "\n" for answer in self.answers))


def flipped(data, bit):
    changed = bytearray(data)
    changed[bit // 8] ^= 1 << bit % 8
    return bytes(changed)


# ---- Calls that seal and open, in every form ----

def seal_line(form, message):
    if form == "detached":
        return ("aead_encrypt_detached", len(message), word(message))
    if form == "combined":
        return ("aead_encrypt", len(message) + 16, word(message))
    if form == "detached_in_place":
        return ("aead_encrypt_in_place_detached", word(message))
    return ("aead_encrypt_in_place", word(message + bytes(16)))


def open_line(form, ciphertext, tag, room=None):
    """The opening line of this form; `room` is the length of a copying form's output."""
    room = len(ciphertext) if room is None else room
    if form == "detached":
        return ("aead_decrypt_detached", room, word(tag), word(ciphertext))
    if form == "combined":
        return ("aead_decrypt", room, word(ciphertext + tag))
    if form == "detached_in_place":
        return ("aead_decrypt_in_place_detached", word(ciphertext), word(tag))
    return ("aead_decrypt_in_place", word(ciphertext + tag))


def sealed_of(answer):
    """Ciphertext and tag from the answer of any sealing form."""
    data = b"".join(unword(part) for part in answer.split(" ")[1:])
    return data[:-16], data[-16:]


def opened_answer(form, plaintext, tag):
    """The answer of an opening that accepts."""
    if form == "in_place":
        return "0 %s %s" % (word(plaintext + tag), word(plaintext))
    return "0 %s" % word(plaintext)


def mismatch_answer(form, length, tag):
    """The answer of an opening that meets a wrong tag: zeros, and in the combined in-place form the received tag."""
    if form == "in_place":
        return "4 %s ." % word(bytes(length) + tag)
    return "4 %s" % word(bytes(length))


FORMS = ["detached", "combined", "detached_in_place", "in_place"]


# ---- A message handed over bit by bit. A plan is a list of feeds, each with the bytes offered and the allowance ----

MOST = 2**64 - 1


def finish_line(kind, tag):
    return ("finish", kind) if kind == "seal" else ("finish", kind, word(tag))


def steps(n, allowance):
    """The whole rest offered each time, as often as it takes."""
    return [(n, allowance)] * -(-n // (24 * allowance))


def one_by_one(n):
    """With no allowance, and again with one where a block begins."""
    return [(1, allowance) for i in range(n) for allowance in ([0, 1] if i % 24 == 0 else [0])]


def plans(n):
    """Step by step, cut in two about the ends of blocks, and with no allowance at the start, inside a block and at its end."""
    yield from [steps(n, 1), steps(n, 2)]
    yield from [[(cut, 2), (n, 3)] for cut in [0, 1, 23, 24, 25, 48]]
    yield [(n, 0), (5, 1), (n, 0), (n, 0), (3, 1), (n, 0), (n, MOST)]


# ---- Random transcripts ----

class RandomScript(Script):
    def __init__(self, seed, kinds):
        super().__init__(seed)
        self.kinds = kinds
        self.oracle = Oracle()
        self.mode = "hash"
        self.history = []

    def answer_to(self, line):
        answer = self.oracle.answer(line)
        if answer == UNSUPPORTED:
            stop("the original cannot answer line %d: %s" % (len(self.lines) + 1, line[:200]))
        return answer

    def call(self, *words):
        """A line that may change the session; kept, so that the session can be made again."""
        self.history.append(words)
        return self.ask(*words)

    def length(self):
        dice = self.random.random()
        if dice < 0.7:
            return self.random.choice(LENGTHS)
        if dice < 0.995:
            return self.random.randrange(0, 150)
        return self.random.choice([255, 256, 1000, 1024, 4080, 4096])

    def some(self):
        return self.data(self.length())

    def room_for(self, result, message):
        """An output's length: as a rule the result's; too short; or longer, where the original keeps to its result."""
        dice = self.random.random()
        if dice < 0.1 and result > 0:
            return self.random.choice([0, result - 1, self.random.randrange(result)])
        if dice < 0.2 and (message % 24 == 0 or self.mode == "hash"):
            return result + self.random.randrange(1, 60)
        return result

    def optional(self, length):
        dice = self.random.random()
        if dice < 0.25:
            return "-"
        if dice < 0.4:
            return "-" + self.data(self.random.choice([0, 1, 2, length, 50]))
        return self.data(length)

    def key_words(self):
        """Key, key id and nonce within 44 or at and just above it; a counter that is absent, empty or present."""
        pick = self.random
        id_length, nonce_length = pick.choice([0, 1, 8, 12, 16, 27, 43]), pick.choice([0, 1, 8, 11, 12, 16])
        left = 43 - id_length - nonce_length
        key_length = pick.choice([0, 1, 16, left - 1, left, left, left + 1, 16, pick.randrange(44)])
        counter = pick.choice(["-", "-", "-" + self.data(2), ".", self.data(1), self.data(pick.randrange(2, 9))])
        if pick.random() < 0.02:
            key_length = pick.choice([43, 44, 45, 300])
        return self.data(max(key_length, 0)), self.optional(id_length), self.optional(nonce_length), counter

    def start(self):
        self.history = []
        if self.random.random() < 0.3:
            self.call("hash")
            self.mode = "hash"
        else:
            key, key_id, nonce, counter = self.key_words()
            self.mode = "keyed" if self.call("new", key, nonce, key_id, counter) == "0" else "hash"

    def session_line(self):
        pick = self.random
        name = pick.choice([
            "absorb", "absorb", "absorb_more", "squeeze", "squeeze_key", "squeeze_more", "key", "ratchet", "encrypt",
            "decrypt", "encrypt_in_place", "decrypt_in_place", "verify", "state"])
        if name == "absorb" or name.endswith("_in_place"):
            self.call(name, self.some())
        elif name == "absorb_more":
            rate = ABSORB_RATE[self.mode]
            self.call(name, self.some(), pick.choice([rate, rate - 1, pick.randrange(1, rate + 1), 1]))
        elif name.startswith("squeeze"):
            self.call(name, self.length())
        elif name == "key":
            self.call(name, *self.key_words())
        elif name == "ratchet":
            self.call(name)
        elif name in ("encrypt", "decrypt"):
            length = self.length()
            self.call(name, self.room_for(length, length), self.data(length))
        elif name == "verify":
            tag = self.bytes(16)
            self.ask(name, word(tag), word(pick.choice([tag, flipped(tag, pick.randrange(128)), self.bytes(16)])))
        else:
            self.ask(name)

    def aead_line(self):
        """One line of any AEAD call; what is to be opened is random here, so an opening is refused."""
        pick, length = self.random, self.length()
        name = pick.choice(["aead_encrypt_detached", "aead_encrypt", "aead_decrypt_detached", "aead_decrypt",
                            "aead_encrypt_in_place_detached", "aead_encrypt_in_place", "aead_decrypt_in_place_detached",
                            "aead_decrypt_in_place"])
        message = self.data(length)
        if name in ("aead_encrypt_detached", "aead_encrypt", "aead_decrypt_detached") and pick.random() < 0.1:
            message, length = pick.choice(["-", "-" + message]), 0
        if name == "aead_encrypt_detached":
            self.call(name, self.room_for(length, length), message)
        elif name == "aead_encrypt":
            self.call(name, self.room_for(length + 16, length), message)
        elif name == "aead_decrypt_detached":
            self.call(name, self.room_for(length, length), self.data(16), message)
        elif name == "aead_decrypt":
            self.call(name, self.room_for(max(length - 16, 0), max(length - 16, 0)), message)
        elif name == "aead_decrypt_in_place_detached":
            self.call(name, message, self.data(16))
        else:
            self.call(name, message)

    def again(self, wrong_key=False):
        """The session made again by repeating its lines; a wrong key is the first line's with one bit flipped."""
        for i, words in enumerate(self.history):
            if wrong_key and i == 0:
                key = unword(words[1])
                words = (words[0], word(flipped(key, self.random.randrange(8 * len(key))))) + words[2:]
            self.ask(*words)

    def seal_and_open(self):
        """Seals in one form and opens in another: as it was made, and damaged in each way."""
        pick, length = self.random, self.length()
        message, other = self.bytes(length), self.bytes(length)
        seal, opening = pick.choice(FORMS), pick.choice(FORMS)
        answer = self.ask(*seal_line(seal, message))
        ciphertext, tag = sealed_of(answer)
        end = self.ask("state")
        for damage in ["none"] + pick.sample(["flip", "flip", "cut", "key", "swap", "room"], 3):
            cut_ciphertext, cut_tag, room = ciphertext, tag, length
            if damage == "swap" and length > 0:
                self.again()
                cut_tag = sealed_of(self.ask(*seal_line(seal, other)))[1]
            wrong_key = damage == "key" and self.history[0][1] != "."
            self.again(wrong_key)
            if damage == "flip":
                cut = flipped(ciphertext + tag, pick.randrange(8 * length + 128))
                cut_ciphertext, cut_tag = cut[:-16], cut[-16:]
            elif damage == "cut":
                whole = ciphertext + tag
                cut = whole[:pick.randrange(min(len(whole), 40))]
                if opening == "combined":
                    self.ask("aead_decrypt", max(len(cut) - 16, 0), word(cut))
                    continue
                if opening == "in_place":
                    self.ask("aead_decrypt_in_place", word(cut))
                    continue
                cut_ciphertext = ciphertext[:pick.randrange(length + 1)]
                room = len(cut_ciphertext)
            elif damage == "room":
                room = self.room_for(length, length)
            got = self.ask(*open_line(opening, cut_ciphertext, cut_tag, room))
            if damage == "none":
                if got != opened_answer(opening, message, tag):
                    stop("line %d: what was sealed is not opened: %s" % (len(self.lines), got))
                if self.ask("state") != end:
                    stop("line %d: sealing and opening end in different sessions" % len(self.lines))
            elif (damage == "flip" or wrong_key) and got != mismatch_answer(opening, length, cut_tag):
                stop("line %d: a flipped bit or a wrong key is answered %s" % (len(self.lines), got))
        # The session goes on from a good opening, so that its lines make it again.
        self.again()
        self.call(*open_line(opening, ciphertext, tag))

    def feed_line(self):
        """A feed or a finish of either kind, whatever is begun."""
        pick, length = self.random, self.length()
        kind = pick.choice(["seal", "open"])
        if pick.random() < 0.1:
            self.ask(*finish_line(kind, self.bytes(16)))
        else:
            room = pick.choice([length, length, length, length + pick.randrange(30), pick.randrange(length + 1)])
            self.ask("feed", kind, room, self.data(length), pick.choice([0, 1, 2, 3, MOST]))

    def unfinished(self):
        """A message begun, then lines of every kind; the session is not made again after these."""
        self.ask("begin", self.random.choice(["seal", "open"]))
        for _ in range(self.random.randrange(8)):
            self.random.choice([self.feed_line, self.feed_line, self.feed_line, self.session_line, self.aead_line])()

    def hand_over_and_open(self):
        """Sealed bit by bit and by one call, and opened bit by bit, with a wrong tag and with the right one: all end alike."""
        pick, length = self.random, self.length()
        message, form = self.bytes(length), pick.choice(FORMS)

        def over(kind, text, tag=None):
            lengths, allowances = [0, 1, 5, 23, 24, 25, length, pick.randrange(length + 1)], [0, 0, 1, 1, 2, MOST]
            feeds = [(pick.choice(lengths), pick.choice(allowances)) for _ in range(pick.randrange(5))]
            rest = pick.choice([steps(length, pick.choice([1, 2, 9])), [(length, MOST)]])
            out, ended, *_ = self.hand_over(kind, text, feeds + rest, tag, more=pick.choice([0, 0, 7]))
            return out, ended

        ciphertext, tag = over("seal", message)
        end = self.ask("state")
        self.again()
        if (sealed_of(self.ask(*seal_line(form, message))), self.ask("state")) != ((ciphertext, tag), end):
            stop("line %d: one call seals otherwise" % len(self.lines))
        for number, given in [("4", flipped(tag, pick.randrange(128))), ("0", tag)]:
            self.again()
            if (over("open", ciphertext, given), self.ask("state")) != ((message, number), end):
                stop("line %d: what was sealed is opened otherwise" % len(self.lines))
        self.history.append(open_line(form, ciphertext, tag))

    def episode(self):
        self.start()
        for _ in range(self.random.randrange(1, 9)):
            dice = self.random.random()
            if self.kinds == "all" and dice < 0.25:
                self.aead_line()
            elif self.kinds == "all" and dice < 0.30 and self.mode == "keyed":
                self.seal_and_open()
            elif self.kinds == "all" and dice < 0.33 and self.mode == "keyed":
                self.hand_over_and_open()
            elif self.kinds == "all" and dice < 0.36:
                self.feed_line()
            elif dice > 0.97:
                self.ask(bad_line(self))
            elif dice > 0.96:
                self.ask(self.random.choice([b"", b"#", b"# a note", b"#state"]))
            else:
                self.session_line()
            if self.random.random() < 0.3:
                self.ask("spent")
        if self.kinds == "all" and self.random.random() < 0.3:
            self.unfinished()
            self.ask("spent")
        self.ask("state")

    def make(self, lines):
        while len(self.lines) < lines:
            if self.kinds == "x" or self.random.random() < 0.25:
                x_line(self)
                if self.random.random() < 0.02:
                    self.ask(bad_line(self))
            else:
                self.episode()
        self.ask("x_state")
        self.oracle.close()


def x_line(script):
    """One line of Xoodoo's own calls that is accepted."""
    pick = script.random
    name = pick.choice(["x_set", "x_add_byte", "x_add_bytes", "x_extract", "x_permute", "x_permute", "x_state"])
    if name == "x_set":
        script.ask(name, script.data(48) if pick.random() < 0.7 else word(flipped(bytes(48), pick.randrange(384))))
    elif name == "x_add_byte":
        script.ask(name, pick.choice([0, 47, pick.randrange(48)]), script.data(1))
    elif name == "x_add_bytes":
        script.ask(name, script.data(pick.choice([0, 1, 47, 48, pick.randrange(49)])))
    elif name == "x_extract":
        script.ask(name, pick.choice([0, 1, 47, 48, pick.randrange(49)]))
    else:
        script.ask(name)


def bad_line(script):
    """A line that fits no form, from small slips to nonsense. The x_ layer answers these alike."""
    pick = script.random
    name, *words = pick.choice([
        ["x_set", script.data(48)], ["x_add_byte", "5", "a5"], ["x_add_bytes", script.data(5)], ["x_extract", "12"],
        ["x_permute"], ["x_state"]])
    line = " ".join([name] + words)
    return pick.choice([
        line + " ", " " + line, line.replace("_", " ", 1), line + " 00", line + "\r", line + "\0", "\0" + line,
        line.upper(), line.replace("x", "X", 1), line + "\t",
        "x_set " + script.data(47), "x_set " + script.data(49), "x_set .",
        "x_add_bytes", "x_add_bytes abc", "x_add_bytes 0A", "x_add_bytes 0g", "x_add_bytes  00", "x_add_bytes -",
        "x_add_byte 1", "x_add_byte 1 0", "x_add_byte 1 000", "x_add_byte 1 .", "x_add_byte -1 00", "x_add_byte 1 0A",
        "x_add_byte 18446744073709551616 00", "x_add_byte 100000000000000000000 00", "x_add_byte 0x1 00", "x_extract",
        "x_extract +1", "x_extract 16385", "x_extract 18446744073709551616", "x_extract 1 1", "x_extract 1.0",
        "x_extract .", "x", "x_", "x_unknown", " ", "\0", "\r", ".", "-", "\x7f", "\xff",
    ]).encode("latin-1")


# ---- The stored transcript ----

class StoredScript(Script):
    """Asks the oracle and the model; the oracle's answer counts wherever it stands at the same state and can answer."""

    def __init__(self):
        super().__init__(20261115)
        self.oracle, self.model = Oracle(), Runner()
        self.by_original = self.by_model = 0
        self.counted_together = True

    def together(self, line):
        """Whether the oracle stands where the model stands, as far as this line reads the state."""
        if line == b"spent":
            return self.counted_together
        if line.startswith(b"x_"):
            return self.oracle.answer(b"x_state") == self.model.answer(b"x_state")
        return self.oracle.answer(b"state") == self.model.answer(b"state")

    def answer_to(self, line):
        together = self.together(line)
        answer, original = self.model.answer(line), self.oracle.answer(line)
        if answer is None:
            return None
        name = line.split(b" ")[0]
        makes_state = name in (b"hash", b"new", b"x_set") and original != "bad"
        reads_none = makes_state or name == b"verify" or original == "bad"
        by_model = original == UNSUPPORTED or not (together or reads_none)
        if is_counted(name.decode("latin-1")) and answer != "bad":
            self.counted_together = not by_model
        if by_model:
            self.by_model += 1
            return answer
        if answer != original:
            stop("line %d: %s\n  original %s\n  model    %s" % (len(self.lines) + 1, line[:200], original, answer))
        if (together or makes_state) and not self.together(line):
            stop("line %d: %s\n  the original and the model part" % (len(self.lines) + 1, line[:200]))
        self.by_original += 1
        return answer

    def note(self, text):
        self.ask(b"# " + text.encode())

    # The permutation's layer.

    def x_calls(self):
        self.note("Xoodoo of 48 zero bytes, there and back")
        self.expect("0", "x_permute")
        self.expect("8dd8d589bffc63a9192d231b14a0a5ff0681b136fec1c7afbe7ce5aebd4075a7"
                    "70e8862ec9b7f5fef2ad4f8b62404f5e", "x_state")
        self.expect("0", "x_inverse")
        self.expect(word(bytes(48)), "x_state")
        self.expect("0", "x_inverse")
        self.ask("x_state")
        self.expect("0", "x_permute")
        self.expect(word(bytes(48)), "x_state")
        self.note("states of one bit")
        for bit in range(0, 384, 11):
            self.ask("x_set", word(flipped(bytes(48), bit)))
            self.ask("x_permute")
            self.ask("x_state")
        self.note("random states, there and back")
        for _ in range(12):
            state = self.data(48)
            self.ask("x_set", state)
            self.ask("x_permute")
            self.ask("x_state")
            self.ask("x_inverse")
            self.expect(state, "x_state")
            self.ask("x_inverse")
            self.ask("x_state")
            self.ask("x_permute")
            self.expect(state, "x_state")
        self.note("rounds by a count, there and back; 11 exactly above 12")
        states = random.Random("rounds")  # apart, so that the lines after these stay as they were
        for count in range(13):
            state = word(states.randbytes(48))
            self.ask("x_set", state)
            self.expect("0", "x_rounds", count)
            self.ask("x_state")
            self.expect("0", "x_unrounds", count)
            self.expect(state, "x_state")
            self.expect("0", "x_unrounds", count)
            self.ask("x_state")
            self.expect("0", "x_rounds", count)
            self.expect(state, "x_state")
        self.expect("0", "x_rounds", 0)
        self.expect(state, "x_state")
        for count in [13, 14, 24, 255, 256, 2**32, 2**32 + 12, 2**64 - 1]:
            self.expect("11", "x_rounds", count)
            self.expect("11", "x_unrounds", count)
            self.expect(state, "x_state")
        for line in ["x_rounds", "x_rounds .", "x_rounds -1", "x_rounds 18446744073709551616", "x_unrounds 1 2"]:
            self.expect("bad", line)
        self.note("bytes added and read; number 6 exactly above offset 47 and above 48 bytes")
        self.ask("x_set", self.data(48))
        for at in [0, 1, 3, 4, 15, 16, 31, 32, 46, 47]:
            self.expect("0", "x_add_byte", at, self.data(1))
            self.ask("x_state")
        for at in [48, 49, 255, 256, 303, 2**32, 2**32 + 5, 2**63, 2**64 - 1]:
            self.expect("6", "x_add_byte", at, "ff")
            self.ask("x_state")
        for length in [0, 1, 2, 4, 5, 15, 16, 17, 31, 32, 33, 47, 48]:
            self.expect("0", "x_add_bytes", self.data(length))
            self.ask("x_state")
            self.ask("x_extract", length)
        for length in [49, 50, 96, 256, 304, 1000]:
            self.expect("6", "x_add_bytes", self.data(length))
            self.expect("6 " + "a5" * length, "x_extract", length)
            self.ask("x_state")
        self.note("numbers with leading zeros, and the longest of each")
        self.expect("0", "x_add_byte", "00000000000000000047", "01")
        self.expect("6", "x_add_byte", "18446744073709551615", "01")
        self.ask("x_extract", "000")
        self.expect("6", "x_add_bytes", self.data(16384))
        self.expect("6 " + "a5" * 16384, "x_extract", "16384")
        self.note("random calls")
        for _ in range(60):
            x_line(self)
        self.ask("x_state")

    def bad_lines(self):
        self.note("lines that fit no form")
        for _ in range(70):
            self.expect("bad", bad_line(self))
        for line in [b"x_add_bytes " + b"0" * 32770, b"x_add_bytes " + b"00" * 30000, b"q" * 40000, b"q" * 40001,
                     b"\xff" * 50000, b"x_permute" + b" " * 39991, b"x_extract " + b"0" * 30,
                     b"x_extract 00000000000000000000001", b"x_add_byte 000000000000000000001 00", b"\0" * 300]:
            self.expect("bad", line)
        self.ask("x_state")
        self.ask(b"")
        self.ask(b"#")
        self.ask(b"#x_permute")
        self.ask("x_state")

    # The sessions' layer.

    def begin(self, mode):
        if mode == "hash":
            self.ask("hash")
        else:
            self.ask("new", self.data(16), self.data(16), "-", "-")

    def in_both_phases(self, mode, calls):
        """Each call from phase Up and from phase Down of one session that goes on."""
        self.begin(mode)
        for words in calls:
            self.ask("squeeze", 0)
            self.ask(*words)
            self.ask("absorb", self.data(1))
            self.ask(*words)
            self.ask("state")

    def marked_cases(self):
        self.note("marked cases W4 to W9, W11, W12")
        self.ask("hash")
        self.ask("absorb", ".")
        self.expect("hash down 01" + "00" * 46 + "01", "state")
        self.expect("0", "new", ".", "-", "-", "-")
        self.expect("keyed down 0001" + "00" * 45 + "02", "state")
        self.expect("0", "new", "0102", "03", "-", "-")
        self.expect("keyed down 0102030101" + "00" * 42 + "02", "state")
        key = self.bytes(43)
        self.expect("0", "new", word(key), "-", "-", "-")
        self.expect("keyed down " + word(key) + "0001" + "00" * 2 + "02", "state")
        self.expect("2", "new", self.data(44), "-", "-", "-")
        self.expect("hash up " + "00" * 48, "state")
        self.expect("0", "new", self.data(16), self.data(11), self.data(16), "-")
        self.ask("state")
        for n in ["encrypt 0 .", "decrypt 0 ."]:
            before = self.ask("state")
            self.expect("0 .", *n.split(" "))
            self.expect(before, "state")
        self.expect("9", "new", self.data(16), self.data(12), self.data(16), "-")
        self.expect("1 a5", "encrypt", 1, "0000")
        self.expect("1 a5a5a5", "decrypt", 3, "0000")
        for phase in ["squeeze 3", "absorb 05"]:
            self.begin("keyed")
            self.ask(*phase.split(" "))
            self.expect("0", "ratchet")
            if not self.ask("state").startswith("keyed down " + "00" * 16):
                stop("ratchet does not make bytes 0 to 15 zero")
        self.note("known hashes: of no bytes and of 00")
        for message, digest in [(".", "ea152f2b47bce24efb66c479d4adf17bd324d806e85ff75ee369ee50dc8f8bd1"),
                                ("00", "27921f8ddf392894460b70b3ed6c091e6421b7d2147dcd6031d7efebad3030cc")]:
            self.ask("hash")
            self.ask("absorb", message)
            self.expect("0 " + digest, "squeeze", 32)

    def session_calls(self):
        for mode in ["hash", "keyed"]:
            rate = ABSORB_RATE[mode]
            absorb_edges, squeeze_edges = about(rate), about(SQUEEZE_RATE[mode])
            self.note("absorb and squeeze, " + mode)
            self.in_both_phases(mode, [("absorb", self.data(n)) for n in absorb_edges])
            self.in_both_phases(mode, [("absorb_more", self.data(n), rate) for n in absorb_edges])
            other_rates = [(0, 1), (1, 1), (9, 1), (9, 2), (9, 8), (9, 9), (9, 10), (100, rate - 1), (100, 7)]
            self.in_both_phases(mode, [("absorb_more", self.data(n), r) for n, r in other_rates])
            for name in ["squeeze", "squeeze_key", "squeeze_more"]:
                self.in_both_phases(mode, [(name, n) for n in squeeze_edges])
            self.note("rates refused, " + mode)
            self.begin(mode)
            for bad_rate in [0, rate + 1, 47, 48, 49, 2**32 + 16, 2**64 - 1]:
                for data in [".", self.data(1), self.data(60)]:
                    self.expect("5", "absorb_more", data, bad_rate)
            self.ask("state")
        self.note("squeeze_key equals squeeze in Hash")
        self.ask("hash")
        first = self.ask("squeeze", 40)
        self.ask("hash")
        self.expect(first, "squeeze_key", 40)
        self.note("several thousand bytes, up to the most that a line can hold")
        self.begin("hash")
        self.ask("absorb", self.data(4080))
        self.ask("squeeze", 4080)
        self.begin("keyed")
        self.ask("absorb", self.data(16384))
        self.ask("encrypt_in_place", self.data(16384))
        self.ask("state")

    def encryption(self):
        edges = about(SQUEEZE_RATE["keyed"])
        self.note("encrypt and decrypt")
        for name in ["encrypt", "decrypt"]:
            self.in_both_phases("keyed", [(name, n, self.data(n)) for n in edges])
            self.in_both_phases("keyed", [(name + "_in_place", self.data(n)) for n in edges])
            self.note("an output that is shorter is refused; a longer one keeps its bytes past the result")
            self.begin("keyed")
            for n in edges[1:]:
                for room in sorted({0, n // 2, n - 1}):
                    self.expect("3:%d %s" % (n - room, "a5" * room or "."), name, room, self.data(n))
            self.ask("state")
            for n in [0, 24, 48, 1, 23, 25, 49]:
                for more in [1, 7, 24, 100]:
                    self.begin("keyed")
                    self.ask(name, n + more, self.data(n))
                self.ask("state")
            self.begin("hash")
            for n, room in [(0, 0), (1, 1), (1, 0), (24, 30), (30, 24)]:
                self.expect("1 " + ("a5" * room or "."), name, room, self.data(n))
                data = self.data(n)
                self.expect("1 " + data, name + "_in_place", data)
            self.expect("1", "ratchet")
            self.expect("hash up " + word(bytes(48)), "state")
        self.note("decrypt after encrypt, from an equal session")
        for n in edges:
            start = ("new", self.data(16), "-", self.data(3), self.data(2))
            message = self.data(n)
            for forward, backward in [("encrypt", "decrypt"), ("encrypt_in_place", "decrypt_in_place")]:
                self.ask(*start)
                ciphertext = self.ask(*([forward, n] if forward == "encrypt" else [forward]), message).split(" ")[1]
                end = self.ask("state")
                self.ask(*start)
                self.expect("0 " + message, *([backward, n] if backward == "decrypt" else [backward]), ciphertext)
                self.expect(end, "state")

    def key_calls(self):
        self.note("key, nonce, key id and counter: absent, absent with bytes, empty and present")
        absent_or_not = ["-", "-0a0b", ".", "0a0b0c"]
        for nonce in absent_or_not:
            for key_id in absent_or_not:
                for counter in ["-", "-00", ".", "05", "010203"]:
                    self.expect("0", "new", "00112233", nonce, key_id, counter)
                    self.ask("state")
        self.note("lengths that make 44, and one more")
        lengths = [(0, 43, None, 9), (0, 0, 43, 8), (43, None, None, 2), (43, 0, 0, 2), (1, 21, 21, 9), (16, 16, 11, 9),
                   (27, 16, None, 9)]
        for key, nonce, key_id, number in lengths:
            for more in [0, 1]:
                for counter in ["-", "07"]:
                    nonce_and_id = ["-" if n is None else self.data(n) for n in (nonce, key_id)]
                    self.expect(number if more else 0, "new", self.data(key + more), *nonce_and_id, counter)
                    self.ask("state")
        self.expect("9", "new", "00", self.data(200), "-", "-")
        self.expect("8", "new", "00", "-", self.data(300), "-")
        self.expect("2", "new", self.data(16384), ".", ".", ".")
        self.expect("9", "new", "00", self.data(43), "00", "-")
        self.expect("0", "new", "00", "-" + self.data(300), "-" + self.data(300), "-")
        self.ask("state")
        self.note("the longest line, of 40000 bytes, and one byte more")
        self.expect("2", b" ".join([b"new", b"00" * 9996, b"00" * 5000, b"00" * 5000, b"-"]))
        self.expect("bad", b" ".join([b"new", b"00" * 9996, b"00" * 10000, b"-", b"-"]))
        self.note("a used keyed session is keyed again, from both phases")
        words = [(self.data(k), i, n, c) for k in [0, 16] for i, n in
                 [("-", "-"), ("-", "0102"), (self.data(16), "-0a"), (".", "."), (self.data(8), self.data(8))]
                 for c in ["-", ".", "0506"]]
        self.in_both_phases("keyed", [("key", *w) for w in words])
        self.expect("2", "key", self.data(44), "-", "-", "-")
        self.expect("9", "key", self.data(16), self.data(16), self.data(12), ".")
        self.ask("state")
        self.note("a key call on a Hash session, also one that is too long")
        self.begin("hash")
        self.ask("absorb", "01")
        self.expect("1", "key", "00", "-", "-", "-")
        self.expect("1", "key", self.data(44), "-", "-", "-")
        self.ask("state")
        self.note("tags compared in all their bits")
        tag = self.bytes(16)
        self.expect("0", "verify", word(tag), word(tag))
        for bit in range(0, 128, 3):
            self.expect("4", "verify", word(tag), word(flipped(tag, bit)))
        self.expect("4", "verify", word(tag), word(flipped(flipped(tag, 3), 11)))

    def bad_session_lines(self):
        self.note("session lines that fit no form")
        tag, state = self.data(16), self.data(48)
        for line in ["hash 0", "Hash", "new", "new 00", "new 00 - -", "new 00 - - - -", "new - - - -", "new 00 -0 - -",
                     "new 00 -. - - ", "new 00 --00 - -", "new 00 -0A - -", "new 00 - - -x", "key 00 - -",
                     "key - - - -",
                     "absorb", "absorb 0", "absorb -", "absorb 00 ", "absorb 00  00", "absorb_more 00",
                     "absorb_more 00 18446744073709551616", "absorb_more 00 -1", "squeeze", "squeeze 16385",
                     "squeeze 99999999999999999999", "squeeze 1 1", "squeeze_key x", "squeeze_more -", "ratchet 1",
                     "encrypt 1", "encrypt 00 1 00", "encrypt 16385 00", "encrypt 1 -", "decrypt 1 0", "decrypt . 00",
                     "encrypt_in_place", "decrypt_in_place -", "verify " + tag, "verify %s %s" % (tag, tag[2:]),
                     "verify %s00 %s" % (tag, tag), "state 1", "set hash up", "set hash up " + state[2:],
                     "set Hash up " + state, "set hash over " + state, "set keyed down " + "AB" * 48,
                     "set up hash " + state]:
            self.expect("bad", line.encode())
        self.ask("new", "00", "-.", "-", "-")
        self.ask("state")

    def sets(self):
        self.note("sessions set to given bytes, and every call from there")
        for mode in ["hash", "keyed"]:
            for phase in ["up", "down"]:
                state = self.data(48)
                self.expect("0", "set", mode, phase, state)
                self.expect(" ".join([mode, phase, state]), "state")
                self.ask("absorb", self.data(20))
                self.ask("set", mode, phase, state)
                self.ask("squeeze", 20)
                for words in [("absorb_more", self.data(20), 16), ("squeeze_more", 30), ("squeeze_key", 3),
                              ("ratchet",), ("key", "00", "-", "01", "."), ("encrypt", 30, self.data(30)),
                              ("decrypt", 30, self.data(30)), ("encrypt_in_place", self.data(5)),
                              ("decrypt_in_place", self.data(5))]:
                    self.ask("set", mode, phase, state)
                    self.ask(*words)
                    self.ask("state")

    # Sealing and opening.

    def aead(self):
        start = ("new", self.data(16), self.data(16), "-", "-")
        wrong = ("new", word(flipped(unword(start[1]), 77)), *start[2:])
        self.note("sealed in every form, opened in every form")
        for length in EDGES[:8] + [44, 48, 100]:
            message = self.bytes(length)
            sealed = set()
            for form in FORMS:
                self.ask(*start)
                sealed.add(sealed_of(self.ask(*seal_line(form, message))))
                end = self.ask("state")
            (ciphertext, tag), = sealed
            for form in FORMS:
                self.ask(*start)
                self.expect(opened_answer(form, message, tag), *open_line(form, ciphertext, tag))
                self.expect(end, "state")
                self.ask(*wrong)
                self.expect(mismatch_answer(form, length, tag), *open_line(form, ciphertext, tag))
                self.ask(*start)
                bit = self.random.randrange(8 * length + 128)
                damaged = flipped(ciphertext + tag, bit)
                tag_there = damaged[-16:]
                self.expect(mismatch_answer(form, length, tag_there), *open_line(form, damaged[:-16], tag_there))
                self.ask("state")
        self.note("an absent message is an empty one")
        for absent in ["-", "-0a0b", "."]:
            for words in [("aead_encrypt_detached", 0, absent), ("aead_encrypt", 16, absent),
                          ("aead_decrypt_detached", 0, self.data(16), absent), ("aead_encrypt_detached", 5, absent)]:
                self.ask(*start)
                self.ask(*words)
                self.ask("state")
        message, other = self.bytes(25), self.bytes(25)
        self.ask(*start)
        ciphertext, tag = sealed_of(self.ask(*seal_line("combined", message)))
        self.ask(*start)
        other_ciphertext, other_tag = sealed_of(self.ask(*seal_line("combined", other)))
        self.note("every bit of a tag, and some of a ciphertext, flipped")
        for bit in range(8 * 25 + 128):
            if bit < 8 * 25 and bit % 11:
                continue
            form = FORMS[bit % 4]
            damaged = flipped(ciphertext + tag, bit)
            self.ask(*start)
            self.expect(mismatch_answer(form, 25, damaged[-16:]), *open_line(form, damaged[:-16], damaged[-16:]))
        self.note("tags swapped")
        for form in FORMS:
            self.ask(*start)
            self.expect(mismatch_answer(form, 25, other_tag), *open_line(form, ciphertext, other_tag))
            self.ask(*start)
            self.expect(mismatch_answer(form, 25, tag), *open_line(form, other_ciphertext, tag))
            self.ask("state")
        self.note("a sealed message of 40 bytes cut to every length below 40")
        self.ask(*start)
        whole = b"".join(sealed_of(self.ask(*seal_line("combined", self.bytes(24)))))
        for length in range(40):
            cut = whole[:length]
            copied = "10 ." if length < 16 else mismatch_answer("combined", length - 16, b"")
            in_place = "10 %s ." % word(cut) if length < 16 else mismatch_answer("in_place", length - 16, cut[-16:])
            self.ask(*start)
            self.expect(copied, "aead_decrypt", max(length - 16, 0), word(cut))
            self.ask(*start)
            self.expect(in_place, "aead_decrypt_in_place", word(cut))
            if length < 24:
                for form in ["detached", "detached_in_place"]:
                    self.ask(*start)
                    self.expect(mismatch_answer(form, length, whole[-16:]), *open_line(form, cut, whole[-16:]))
        self.note("in-place sealing of every length about 16")
        for length in [0, 1, 14, 15, 16, 17, 18]:
            self.ask(*start)
            data = self.data(length)
            answer = self.ask("aead_encrypt_in_place", data)
            if (length < 16) != (answer == "10 " + data):
                stop("aead_encrypt_in_place of %d bytes: %s" % (length, answer))
            self.ask("state")
        self.note("a combined opening of 16 bytes into an empty output is a tag decision (W10)")
        self.ask(*start)
        empty_tag = sealed_of(self.ask("aead_encrypt", 16, "."))[1]
        self.ask(*start)
        self.expect("0 .", "aead_decrypt", 0, word(empty_tag))
        self.ask(*start)
        self.expect("4 .", "aead_decrypt", 0, word(flipped(empty_tag, 0)))
        self.expect("10 .", "aead_decrypt", 0, word(empty_tag[:15]))
        self.note("too short an output; an input that is too short comes first; a Hash session before both")
        self.ask(*start)
        for words, answer in [(("aead_encrypt_detached", 24, word(message)), "3:1 " + "a5" * 24 + " " + "00" * 16),
                              (("aead_encrypt", 40, word(message)), "3:1 " + "a5" * 40),
                              (("aead_encrypt", 15, "-"), "3:1 " + "a5" * 15),
                              (("aead_decrypt_detached", 24, word(tag), word(ciphertext)), "3:1 " + "a5" * 24),
                              (("aead_decrypt", 24, word(ciphertext + tag)), "3:1 " + "a5" * 24),
                              (("aead_decrypt", 3, word(tag[:15])), "10 a5a5a5"),
                              (("aead_encrypt_in_place", word(tag[:15])), "10 " + word(tag[:15])),
                              (("aead_decrypt_in_place", word(tag[:15])), "10 " + word(tag[:15]) + " .")]:
            self.expect(answer, *words)
            self.ask("state")
        self.begin("hash")
        for words, answer in [(("aead_encrypt_detached", 2, word(message)), "1 a5a5 " + "00" * 16),
                              (("aead_encrypt_detached", 2, "-"), "1 a5a5 " + "00" * 16),
                              (("aead_encrypt", 2, word(message)), "1 a5a5"),
                              (("aead_decrypt_detached", 2, word(tag), word(ciphertext)), "1 a5a5"),
                              (("aead_decrypt", 2, word(ciphertext + tag)), "1 a5a5"),
                              (("aead_decrypt", 2, "00"), "1 a5a5"),
                              (("aead_encrypt_in_place_detached", word(message)), "1 %s " % word(message) + "00" * 16),
                              (("aead_encrypt_in_place", "00"), "1 00"),
                              (("aead_encrypt_in_place", word(message)), "1 " + word(message)),
                              (("aead_decrypt_in_place_detached", word(message), word(tag)), "1 " + word(message)),
                              (("aead_decrypt_in_place", "00"), "1 00 ."),
                              (("aead_decrypt_in_place", word(message)), "1 " + word(message) + " .")]:
            self.expect(answer, *words)
            self.ask("state")
        self.note("an output longer than its result: kept past it on success, zeroed whole on 4")
        for length in [0, 1, 24, 25]:
            message = self.bytes(length)
            self.ask(*start)
            ciphertext, tag = sealed_of(self.ask("aead_encrypt", length + 16, word(message)))
            for more in [1, 60]:
                room, kept = length + more, b"\xa5" * more
                self.ask(*start)
                self.expect("0 " + word(ciphertext + kept) + " " + word(tag),
                            "aead_encrypt_detached", room, word(message))
                self.ask(*start)
                self.expect("0 " + word(ciphertext + tag + kept), "aead_encrypt", room + 16, word(message))
                for form in ["detached", "combined"]:
                    self.ask(*start)
                    self.expect("0 " + word(message + kept), *open_line(form, ciphertext, tag, room))
                    self.ask("state")
                    self.ask(*start)
                    self.expect("4 " + "00" * room, *open_line(form, ciphertext, flipped(tag, 127), room))
                    self.ask("state")
        self.note("one session that seals and goes on, and its opening side")
        messages = [self.bytes(length) for length in [0, 5, 24, 60, 4080, 44]]
        sealed = []
        self.ask(*start)
        for i, message in enumerate(messages):
            self.ask("absorb", word(bytes([i])))
            sealed.append(sealed_of(self.ask(*seal_line(FORMS[i % 4], message))))
        end = self.ask("state")
        self.ask(*start)
        for i, (ciphertext, tag) in enumerate(sealed):
            self.ask("absorb", word(bytes([i])))
            self.expect(opened_answer(FORMS[-i % 4], messages[i], tag), *open_line(FORMS[-i % 4], ciphertext, tag))
        self.expect(end, "state")
        self.note("AEAD lines that fit no form")
        for line in ["aead_encrypt 1", "aead_encrypt 1 0", "aead_encrypt 1 00 00", "aead_encrypt 16385 00",
                     "aead_encrypt_detached 1 --", "aead_decrypt 1 -", "aead_decrypt_detached 1 00 00",
                     "aead_decrypt_detached 1 " + word(tag), "aead_decrypt_detached 1 - 00", "aead_encrypt_in_place -",
                     "aead_encrypt_in_place_detached", "aead_decrypt_in_place 000",
                     "aead_decrypt_in_place_detached 00 " + word(tag[1:]),
                     "aead_decrypt_in_place_detached - " + word(tag)]:
            self.expect("bad", line.encode())

    # Walking back.

    def back_calls(self, mode):
        """A list of calls of every kind that the mode takes, each as its forward line and its words for `back`."""
        pick = self.random
        rate = ABSORB_RATE[mode]
        calls = []
        for kind in ["absorb", "absorb_more", "squeeze", "squeeze_key", "squeeze_more"] * 2:
            n = pick.choice(LENGTHS)
            if kind == "absorb":
                data = self.data(n)
                calls.append(((kind, data), (kind, data)))
            elif kind == "absorb_more":
                data, at = self.data(n), pick.choice([rate, rate, pick.randrange(5, rate)])
                calls.append(((kind, data, at), (kind, data, at)))
            else:
                calls.append(((kind, n), (kind, n)))
        if mode == "keyed":
            for length in [0, pick.choice(LENGTHS)]:
                for form in FORMS:
                    message = self.bytes(length)
                    calls.append((seal_line(form, message), ("seal", word(message))))
                for name in ["encrypt", "encrypt_in_place"]:
                    message = self.data(length)
                    calls.append(((name, length, message) if name == "encrypt" else (name, message), ("encrypt", message)))
            for nonce, counter in [("-", "."), (self.data(5), self.data(3)), ("-0a", "-")]:
                key_words = (self.data(pick.randrange(17)), pick.choice(["-", ".", self.data(16)]), nonce, counter)
                calls.append((("key", *key_words), ("key", *key_words)))
        pick.shuffle(calls)
        return calls

    def walk_back(self, calls, phases):
        for (_, back), phase in reversed(list(zip(calls, phases))):
            self.expect("0", "back", phase, *back)

    def decryptions(self):
        """Decryptions of random bytes, as forward lines; what undoes one is the encryption of what it recovered."""
        lengths = [0, self.random.choice(LENGTHS)]
        return [(("decrypt", n, self.data(n)), None) for n in lengths] + [(("decrypt_in_place", self.data(n)), None) for n in lengths]

    def run(self, calls):
        """Runs the calls; gives the phase before each, and the calls with every word that walks them back."""
        phases, done = [], []
        for forward, back in calls:
            phases.append(self.model.session.phase)
            number, out, *_ = self.ask(*forward).split(" ") + [None]
            if number != "0":
                stop("a call of a walk is refused: %s" % (forward,))
            done.append((forward, back or ("encrypt", out)))
        return phases, done

    def walks(self, rule):
        self.ask("rule", rule)
        self.note("from the real end to the real start")
        for mode in ["hash", "keyed"]:
            for prepare in ["absorb", "squeeze"]:
                self.begin(mode)
                self.ask(prepare, "00" if prepare == "absorb" else 1)
                start = self.ask("state")
                calls = self.back_calls(mode) + (self.decryptions() if mode == "keyed" else [])
                self.random.shuffle(calls)
                phases, calls = self.run(calls)
                self.ask("state")
                self.walk_back(calls, phases)
                self.expect(start, "state")
        self.note("from random final bytes to their start, and forward again")
        self.begin("hash")
        for mode in ["hash", "keyed"]:
            for phase in ["up", "down"] * 2:
                calls = self.back_calls(mode)
                # A run from any bytes shows the phases.
                dry = Runner()
                dry.answer(b"rule " + rule.encode())
                dry.answer(b"hash")
                dry.answer(("set %s %s %s" % (mode, phase, "00" * 48)).encode())
                phases = []
                for forward, _ in calls:
                    phases.append(dry.session.phase)
                    dry.answer(" ".join(map(str, forward)).encode())
                final = self.data(48)
                self.ask("set", mode, dry.session.phase, final)
                self.walk_back(calls, phases)
                self.ask("state")
                self.run(calls)
                self.expect(" ".join([mode, dry.session.phase, final]), "state")

    def back_each(self):
        self.note("each kind alone, from both phases, with each length")
        for mode in ["hash", "keyed"]:
            for phase in ["up", "down"]:
                state = self.data(48)
                self.ask("set", mode, "up", state)
                for n in EDGES + [100]:
                    for words in [("absorb", self.data(n)), ("absorb_more", self.data(n), 16), ("squeeze", n),
                                  ("squeeze_key", n), ("squeeze_more", n)]:
                        self.expect("0", "back", phase, *words)
                    if mode == "keyed":
                        self.expect("0", "back", phase, "encrypt", self.data(n))
                        self.expect("0", "back", phase, "seal", self.data(n))
                    self.ask("state")
                if mode == "keyed":
                    for key_words in [("00", "-", "-", "-"), (".", ".", "-", "."), ("0102", "-0a", "0b", "05"),
                                      (self.data(16), self.data(16), self.data(11), "010203"),
                                      (self.data(43), "-", "-", "-")]:
                        self.expect("0", "back", phase, "key", *key_words)
                        self.ask("state")
        self.note("refused exactly when the call would be, and nothing changes")
        for mode, rate in [("hash", 17), ("keyed", 45)]:
            state = self.data(48)
            self.ask("set", mode, "down", state)
            for data, at in [("00", 0), (".", 0), (".", rate), ("00", 2**64 - 1)]:
                self.expect("5", "back", "up", "absorb_more", data, at)
            for words in [(self.data(44), "-", "-", "-"), (self.data(16), self.data(16), self.data(12), "-")]:
                number = 2 if words[1] == "-" else 9
                self.expect(1 if mode == "hash" else number, "back", "up", "key", *words)
            if mode == "hash":
                self.expect("1", "back", "up", "key", "00", "-", "-", "-")
                for kind, data in [("encrypt", "00"), ("encrypt", "."), ("seal", "00"), ("seal", ".")]:
                    self.expect("1", "back", "up", kind, data)
            self.expect(" ".join([mode, "down", state]), "state")
        self.note("back lines that fit no form")
        for line in ["back", "back up", "back absorb 00", "back over absorb 00", "back Up absorb 00", "back up absorb",
                     "back up absorb 0", "back up ratchet", "back up new 00 - - -", "back up absorb_more 00",
                     "back up squeeze .", "back up squeeze 16385", "back up key 00 - -", "back up seal",
                     "back up seal -", "back up encrypt 1 00", "back up decrypt 00", "back up hash"]:
            self.expect("bad", line.encode())
        self.ask("state")

    # The rule for empty messages.

    def rules(self):
        self.note("the rule of a session: that of the last rule line when it was made; set keeps it")
        self.begin("keyed")
        self.expect("crate", "rule")
        self.expect("0", "rule", "spec")
        self.expect("crate", "rule")
        for words, number in [(("hash",), 0), (("new", self.data(16), "-", "-", "-"), 0), (("new", self.data(44), "-", "-", "-"), 2),
                              (("set", "keyed", "down", self.data(48)), 0)]:
            self.expect(number, *words)
            self.expect("spec", "rule")
        self.expect("0", "rule", "crate")
        self.expect("spec", "rule")
        self.expect("0", "ratchet")
        self.expect("spec", "rule")
        self.expect("2", "new", self.data(44), "-", "-", "-")
        self.expect("crate", "rule")
        for line in ["rule ", "rule crate ", "rule Crate", "rule specification", "rule crate spec", "Rule", "rules"]:
            self.expect("bad", line.encode())
        self.expect("crate", "rule")
        self.note("every form with empty and other messages under both rules, from both phases, and walked back")
        start = ("new", self.data(16), self.data(16), "-", "-")
        for prepare in [("squeeze", 3), ("absorb", self.data(5))]:
            for length in [0, 1, 24, 25, 60]:
                message = self.bytes(length)
                ends = []
                for rule in ["crate", "spec"]:
                    self.expect("0", "rule", rule)
                    ends.append(self.message_forms(start, prepare, message))
                if (ends[0] == ends[1]) != (length > 0):
                    stop("the rules part at %d bytes" % length)
        self.note("an absent message is an empty one, under the specification's rule too")
        self.expect("0", "rule", "spec")
        for words in [("aead_encrypt_detached", 0), ("aead_encrypt", 16), ("aead_decrypt_detached", 0, self.data(16))]:
            answers = set()
            for absent in [".", "-", "-0a0b"]:
                self.ask(*start)
                answers.add((self.ask(*words, absent), self.ask("state")))
            if len(answers) != 1:
                stop("an absent message is no empty one: %s" % words[0])
        self.note("Hash sessions refuse an empty message under the specification's rule too")
        self.begin("hash")
        for words in [("encrypt", 0, "."), ("decrypt", 0, "."), ("encrypt_in_place", "."), ("decrypt_in_place", ".")]:
            self.expect("1 .", *words)
        self.expect("1", "back", "up", "encrypt", ".")
        self.expect("hash up " + word(bytes(48)), "state")
        self.note("a published value: key and nonce 00 to 0f, no associated data, no plaintext")
        self.expect("0", "new", word(bytes(range(16))), "-", "-", "-")
        self.ask("absorb", word(bytes(range(16))))
        self.ask("absorb", ".")
        self.expect("0 .", "encrypt", 0, ".")
        if not self.ask("squeeze", 16).startswith("0 4bf0e393144cb58069fc1febca"):
            stop("the published value is another one")
        self.expect("0", "rule", "crate")

    def message_forms(self, start, prepare, message):
        """The message encrypted and sealed in every form, recovered in every form, and walked back; gives what was sealed."""
        length = len(message)

        def begin():
            self.ask(*start)
            self.ask(*prepare)
            return self.ask("state")

        def undo(before, *back):
            self.expect("0", "back", before.split(" ")[1], *back)
            self.expect(before, "state")

        encrypted, sealed, ends = set(), set(), set()
        for words in [("encrypt", length), ("encrypt_in_place",)]:
            before = begin()
            encrypted.add(self.ask(*words, word(message)).split(" ")[1])
            ends.add(self.ask("state"))
            undo(before, "encrypt", word(message))
        (ciphertext,), (end,) = encrypted, ends
        for words in [("decrypt", length), ("decrypt_in_place",)]:
            before = begin()
            self.expect("0 " + word(message), *words, ciphertext)
            self.expect(end, "state")
            undo(before, "encrypt", word(message))
        ends = set()
        for form in FORMS:
            before = begin()
            sealed.add(sealed_of(self.ask(*seal_line(form, message))))
            ends.add(self.ask("state"))
            undo(before, "seal", word(message))
        ((ciphertext, tag),), (end,) = sealed, ends
        for form in FORMS:
            before = begin()
            self.expect(opened_answer(form, message, tag), *open_line(form, ciphertext, tag))
            self.expect(end, "state")
            undo(before, "seal", word(message))
            before = begin()
            wrong = flipped(tag, self.random.randrange(128))
            self.expect(mismatch_answer(form, length, wrong), *open_line(form, ciphertext, wrong))
            self.expect(end, "state")
            undo(before, "seal", word(message))
        return ciphertext, tag, end

    # Which part was too long, and by how much an output is too short.

    def key_lengths(self):
        """Key, key id and nonce of 43 bytes together and of one more, each with its number; an absent one may hold bytes."""
        lengths = [(0, 43, None, None), (2, 44, None, None), (2, 44, 0, 0), (2, 44, 44, 44),
                   (0, 16, 27, None), (8, 16, 28, None), (0, 0, 43, None), (8, 0, 44, None), (8, 43, 1, None),
                   (0, 16, None, 27), (9, 16, None, 28), (0, 0, None, 43), (9, 0, None, 44), (9, 43, None, 1),
                   (0, 16, 16, 11), (9, 16, 16, 12), (0, 16, 27, 0), (9, 16, 27, 1), (8, 16, 28, 0), (8, 16, 28, 12)]
        for number, key, key_id, nonce in lengths:
            for absent in ["-"] if None not in (key_id, nonce) else ["-", "-" + self.data(44)]:
                yield number, (self.data(key), *[absent if n is None else self.data(n) for n in (key_id, nonce)], "-")

    def lengths_refused(self):
        self.note("key, key id and nonce of 43 bytes together and of 44: 2 for the key, 8 with the key id, 9 for the nonce only")
        for number, (key, key_id, nonce, counter) in list(self.key_lengths()):
            self.expect(number, "new", key, nonce, key_id, counter)
            self.ask("state")
            self.begin("keyed")
            self.expect(number, "key", key, key_id, nonce, counter)
            self.expect(number, "back", "up", "key", key, key_id, nonce, counter)
            self.ask("state")
        self.note("15 and 16 bytes where a tag ends the input: 10, before 3, whatever the output")
        self.begin("keyed")
        for room in [0, 3]:
            kept = "a5" * room or "."
            for length in [0, 1, 15]:
                self.expect("10 " + kept, "aead_decrypt", room, self.data(length))
            self.expect("4 " + word(bytes(room)), "aead_decrypt", room, self.data(16))
        for name, more in [("aead_encrypt_in_place", ""), ("aead_decrypt_in_place", " .")]:
            data = self.data(15)
            self.expect("10 " + data + more, name, data)
            self.ask(name, self.data(16))
            self.ask("state")
        self.note("outputs short by 1, by 16 and by all")
        self.begin("keyed")
        for length, room in [(25, 24), (25, 9), (25, 0), (16, 0), (1, 0)]:
            message, kept = self.data(length), "a5" * room or "."
            short = "3:%d %s" % (length - room, kept)
            for name in ["encrypt", "decrypt"]:
                self.expect(short, name, room, message)
            self.expect(short + " " + word(bytes(16)), "aead_encrypt_detached", room, message)
            self.expect("3:%d %s" % (length - room, "a5" * (room + 16)), "aead_encrypt", room + 16, message)
            self.expect("3:%d %s" % (length + 16 - room, kept), "aead_encrypt", room, message)
            self.expect(short, "aead_decrypt_detached", room, self.data(16), message)
            self.expect(short, "aead_decrypt", room, message + self.data(16))
            self.ask("state")
        self.expect("3:16 .", "aead_encrypt", 0, "-")
        self.ask("state")

    # A message handed over bit by bit.

    def handed_over(self, rule):
        """Messages handed over in every way, each beside its one-call form; all end in one session."""
        start = ("new", self.data(16), self.data(16), "-", "-")
        for length in [0, 1, 23, 24, 25, 48, 49] if rule == "crate" else [0, 49]:
            message = self.bytes(length)
            self.note("%d bytes, sealed and opened by one call and bit by bit" % length)
            self.ask(*start)
            ciphertext, tag = sealed_of(self.ask(*seal_line("detached", message)))
            end = self.ask("state")
            ups = (-(-length // 24), 2 if rule == "spec" and length == 0 else 1)
            ways = list(plans(length)) if length == 49 else [[(length, MOST)]] if length else [[], [(0, 0), (0, 1)]]
            if length == 25 and rule == "crate":
                ways.append(one_by_one(length))
            for kind, text, out, ended in [("seal", message, ciphertext, tag), ("open", ciphertext, message, "0")]:
                if kind == "open":
                    self.ask(*start)
                    self.expect("0 " + word(message), *open_line("detached", ciphertext, tag))
                    self.expect(end, "state")
                for plan in ways:
                    self.ask(*start)
                    if self.hand_over(kind, text, plan, tag) != (out, ended, *ups):
                        stop("line %d: %d bytes handed over otherwise" % (len(self.lines), length))
                    self.expect(end, "state")
            self.ask(*start)
            wrong = flipped(tag, self.random.randrange(128))
            if self.hand_over("open", ciphertext, steps(length, 1), wrong, more=2) != (message, "4", *ups):
                stop("line %d: a wrong tag of %d bytes" % (len(self.lines), length))
            self.expect(end, "state")

    def on_unfinished(self):
        """Every call that an unfinished message refuses, some of them wrong in other ways too, with what follows the 7."""
        data, tag = self.data(25), self.data(16)
        no_tag = " " + "00" * 16
        for kind in ["seal", "open"]:
            yield "", ("begin", kind)
        for words in [("00", "-", "-", "-"), (self.data(44), "-", "-", "-")]:
            yield "", ("key", *words)
        for words in [("absorb", data), ("absorb_more", data, 16), ("absorb_more", ".", 0), ("ratchet",)]:
            yield "", words
        for name in ["squeeze", "squeeze_key", "squeeze_more"]:
            yield " a5a5", (name, 2)
        for name in ["encrypt", "decrypt"]:
            yield " " + "a5" * 25, (name, 25, data)
            yield " a5", (name, 1, data)
            yield " " + data, (name + "_in_place", data)
        yield " " + "a5" * 26 + no_tag, ("aead_encrypt_detached", 26, data)
        yield " ." + no_tag, ("aead_encrypt_detached", 0, "-")
        yield " " + "a5" * 41, ("aead_encrypt", 41, data)
        yield " " + "a5" * 25, ("aead_decrypt_detached", 25, tag, data)
        yield " " + "a5" * 9, ("aead_decrypt", 9, data)
        yield " a5", ("aead_decrypt", 1, "00")
        yield " " + data + no_tag, ("aead_encrypt_in_place_detached", data)
        yield " " + data, ("aead_encrypt_in_place", data)
        yield " " + data, ("aead_decrypt_in_place_detached", data, tag)
        yield " " + data + " .", ("aead_decrypt_in_place", data)
        yield " 00 .", ("aead_decrypt_in_place", "00")

    def refused_by_message(self, rule):
        tag, no_tag = self.bytes(16), "00" * 16
        self.note("a feed or finish with none begun: 7, before 1 and 3; begin in Hash: 1")
        for mode in ["hash", "keyed"]:
            self.begin(mode)
            before = self.ask("state")
            for kind in ["seal", "open"]:
                if mode == "hash":
                    self.expect("1", "begin", kind)
                self.expect("7 a5 0 0", "feed", kind, 1, "00", 1)
                self.expect("7 . 0 0", "feed", kind, 0, "00", 0)
            self.expect("7 %s 0" % no_tag, "finish", "seal")
            self.expect("7 0", "finish", "open", word(tag))
            self.expect(before, "state")
        for kind, other, fed in [("seal", "open", 0), ("open", "seal", 29)]:
            self.note("every other call on a message begun to %s, after %d bytes" % (kind, fed))
            self.begin("keyed")
            self.ask("absorb", "00")
            self.expect("0", "begin", kind)
            self.ask("feed", kind, fed, self.data(fed), 2)
            before = self.ask("state")
            for more, words in list(self.on_unfinished()):
                self.expect("7" + more, *words)
            self.expect("7 a5a5 0 0", "feed", other, 2, "0000", 2)
            self.expect("7 . 0 0", "feed", other, 0, "00", 0)
            self.expect("7 %s 0" % no_tag if other == "seal" else "7 0", *finish_line(other, tag))
            self.expect(before, "state")
            self.note("an output shorter than its piece: 3, whatever the allowance")
            for length, room in [(1, 0), (25, 24), (25, 0)]:
                for allowance in [0, MOST]:
                    short = "3:%d %s 0 0" % (length - room, "a5" * room or ".")
                    self.expect(short, "feed", kind, room, self.data(length), allowance)
            self.expect(before, "state")
            self.note("lines that show, compare and set the rule to come go on, and so does the message")
            self.expect(rule, "rule")
            self.expect("0", "rule", "crate")
            self.expect(rule, "rule")
            self.expect("0", "rule", rule)
            self.expect("0", "verify", word(tag), word(tag))
            self.expect(before, "state")
            self.ask("feed", kind, 30, self.data(25), 1)
            self.ask("state")
            self.ask(*finish_line(kind, tag))
            self.expect("7 . 0 0", "feed", kind, 0, ".", 1)
            self.ask("squeeze", 3)

    def replaced(self):
        self.note("hash, new, a refused new and set replace a session with its message")
        for number, words in [(0, ("hash",)), (0, ("new", self.data(16), "-", "-", "-")), (2, ("new", self.data(44), "-", "-", "-")),
                              (0, ("set", "keyed", "up", self.data(48)))]:
            self.begin("keyed")
            self.expect("0", "begin", "seal")
            self.ask("feed", "seal", 3, self.data(3), 1)
            self.expect(number, *words)
            self.expect("7 a5 0 0", "feed", "seal", 1, "00", 1)
            self.expect("0", "absorb", "00")
            self.ask("state")
        self.note("a step back changes the bytes and the phase, and leaves the message")
        self.begin("keyed")
        self.expect("0", "begin", "open")
        self.ask("feed", "open", 5, self.data(5), 1)
        self.expect("5", "back", "down", "absorb_more", ".", 0)
        self.expect("0", "back", "down", "squeeze", 3)
        self.ask("state")
        self.expect("7", "absorb", "00")
        self.ask("feed", "open", 30, self.data(30), 1)
        self.ask("finish", "open", word(bytes(16)))
        self.ask("state")

    def feeding(self):
        after, self.random = self.random, random.Random("feeding")  # apart, so that the lines after these stay as they were
        for rule in ["crate", "spec"]:
            self.note("a message handed over bit by bit, rule " + rule)
            self.expect("0", "rule", rule)
            self.handed_over(rule)
            self.refused_by_message(rule)
        self.expect("0", "rule", "crate")
        self.replaced()
        self.note("one session that seals bit by bit and by one call, from both phases; a long message")
        self.begin("keyed")
        for length, prepare in [(30, ("squeeze", 3)), (24, ("absorb", "00")), (4080, ("ratchet",))]:
            self.ask(*prepare)
            message = self.bytes(length)
            self.hand_over("seal", message, steps(length, 100), more=1)
            self.ask(*seal_line("combined", message[:40]))
            self.ask("state")
        self.note("lines about a message that fit no form")
        tag = self.data(16)
        for line in ["begin", "begin ", "begin seal ", "begin Seal", "begin seal open", "begin close", "Begin seal", "begins seal",
                     "feed", "feed seal", "feed seal 1", "feed seal 1 00", "feed 1 00 1", "feed close 1 00 1", "feed seal 1 00 1 1",
                     "feed seal 1 00 -1", "feed seal 1 00 18446744073709551616", "feed seal 1 00 .", "feed seal 1 - 1",
                     "feed seal 1 0 1", "feed seal 16385 00 1", "feed seal . 00 1", "feed seal 1 00 1 ", "finish", "finish ",
                     "finish seal ", "finish seal " + tag, "finish open", "finish open " + tag[2:], "finish open %s00" % tag,
                     "finish open - ", "finish close", "finish open %s 0" % tag]:
            self.expect("bad", line.encode())
        self.ask("state")
        self.begin("hash")
        self.random = after

    # What each call spends.

    def spending(self, mode):
        """Calls of every kind that the mode takes, at lengths about the rates; what is opened is no sealed message: 4 spends as much."""
        rate, squeeze_rate = ABSORB_RATE[mode], SQUEEZE_RATE[mode]
        calls = [("absorb", self.data(n)) for n in [0, 1, rate, rate + 1, 2 * rate + 1]]
        calls += [("absorb_more", self.data(n), r) for n, r in [(0, rate), (rate, rate), (rate + 1, rate), (5, 1), (5, 2)]]
        calls += [(name, n) for name in ["squeeze", "squeeze_key", "squeeze_more"]
                  for n in [0, squeeze_rate, squeeze_rate + 1]]
        if mode == "keyed":
            calls += [("key", "00", *words) for words in [("-", "-", "-"), ("-", "01", "."), (".", "-", "-"), ("01", "02", "030405")]]
            calls += [("ratchet",)] + self.message_calls([0, 25])
        return calls

    def message_calls(self, lengths):
        calls = []
        for n in lengths:
            data = self.bytes(n)
            for name in ["encrypt", "decrypt"]:
                calls += [(name, n, word(data)), (name + "_in_place", word(data))]
            for form in FORMS:
                calls += [seal_line(form, data), open_line(form, data, bytes(16))]
        return calls

    def shares(self):
        after, self.random = self.random, random.Random("shares")  # apart, so that the lines after these stay as they were
        for mode in ["hash", "keyed"]:
            self.note("the permutations of each call, %s, from phase Up and from phase Down" % mode)
            self.begin(mode)
            for words in self.spending(mode):
                for prepare in [("squeeze", 0), ("absorb", ".")]:
                    self.ask(*prepare)
                    self.ask(*words)
                    self.ask("spent")
        self.note("under the specification's rule an empty message spends one more")
        self.expect("0", "rule", "spec")
        for prepare, n in [(("squeeze", 0), 0), (("absorb", "."), 0), (("absorb", "."), 24)]:
            self.begin("keyed")
            self.ask(*prepare)
            for words in self.message_calls([n]):
                self.ask(*words)
                self.expect(2 if words[0].startswith("aead") else 1, "spent")
        for words, share in [(("absorb", self.data(45)), 1), (("squeeze", 25), 2), (("key", "00", ".", ".", "."), 2), (("ratchet",), 1)]:
            self.ask(*words)
            self.expect(share, "spent")
        self.expect("0", "rule", "crate")
        self.note("new: none for the key, one for a nonce beside a key id, one for each byte of a counter")
        for words, share in [(("-", "-", "-"), 0), (("01", "-", "-"), 0), (("-", "01", "-"), 1), (("01", "02", "."), 2),
                             (("-00", "-00", "030405"), 3)]:
            self.expect("0", "new", "00", *words)
            self.expect(share, "spent")
        self.note("a message handed over: begin none, a feed its blocks, a finish one")
        for kind in ["seal", "open"]:
            for words, share in [(("begin", kind), 0), (("feed", kind, 20, self.data(20), 1), 1), (("feed", kind, 6, self.data(6), 0), 0),
                                 (("feed", kind, 60, self.data(60), 5), 3), (finish_line(kind, bytes(16)), 1)]:
                self.ask(*words)
                self.expect(share, "spent")
        self.note("a wrong tag spends what a right one does")
        start, message = ("new", self.data(16), "-", "-", "-"), self.bytes(50)
        self.ask(*start)
        ciphertext, tag = sealed_of(self.ask(*seal_line("combined", message)))
        self.expect(4, "spent")
        for form in FORMS:
            for given in [tag, flipped(tag, 5)]:
                self.ask(*start)
                self.ask(*open_line(form, ciphertext, given))
                self.expect(4, "spent")
        self.note("lines that leave the count as it was")
        for line in ["state", "rule", "rule spec", "rule crate", "verify %s %s" % (word(tag), word(tag)), "back up squeeze 100", "hash",
                     "set keyed down " + self.data(48), "x_permute", "x_rounds 3", "spent", "spent 0", "spent ", "absorb", "squeeze -"]:
            self.ask(line.encode())
            self.expect(4, "spent")
        self.note("a refused call spends none")

        def refused(*words):
            self.expect("0 .", "squeeze", 0)
            self.ask(*words)
            self.expect("0", "spent")

        self.begin("keyed")
        for words in [("key", self.data(44), "-", "-", "-"), ("key", "00", self.data(43), "-", "-"), ("absorb_more", self.data(50), 45),
                      ("encrypt", 24, self.data(25)), ("decrypt", 0, "00"), ("aead_encrypt_detached", 24, self.data(25)),
                      ("aead_encrypt", 15, "-"), ("aead_decrypt_detached", 0, word(tag), "00"), ("aead_decrypt", 0, self.data(17)),
                      ("aead_decrypt", 5, self.data(15)), ("aead_encrypt_in_place", self.data(15)),
                      ("aead_decrypt_in_place", self.data(15)), ("feed", "seal", 1, "00", 1), ("finish", "seal")]:
            refused(*words)
        refused("new", self.data(44), "-", "-", "-")
        for words in [("key", "00", "-", "-", "-"), ("ratchet",), ("encrypt_in_place", self.data(25)),
                      ("aead_encrypt_in_place_detached", self.data(25)), ("aead_decrypt_in_place_detached", self.data(25), word(tag)),
                      ("begin", "open"), ("finish", "open", word(tag))]:
            refused(*words)
        self.begin("keyed")
        self.expect("0", "begin", "seal")
        for words in [("absorb", self.data(99)), ("squeeze", 99), ("encrypt_in_place", self.data(99)), ("feed", "open", 1, "00", 1),
                      ("feed", "seal", 0, "00", 1)]:
            self.ask("feed", "seal", 24, self.data(24), 1)
            self.expect("1", "spent")
            self.ask(*words)
            self.expect("0", "spent")
        self.begin("hash")
        self.random = after

    def differences(self, layer):
        """Every listed difference, shown by a line that the original, asked all the same, answers otherwise."""
        self.note("where the original differs: Xoodoo")
        outside = Oracle("--outside")
        shown = []

        def show(*lines):
            # The last line is the one that differs.
            for line in lines[:-1]:
                outside.answer(line.encode())
                self.ask(line.encode())
            original, ours = outside.answer(lines[-1].encode()), self.ask(lines[-1].encode())
            if original == ours:
                stop("the original does not differ: %s" % lines[-1][:200])
            shown.append((lines[-1], original, ours))

        state = self.data(48)
        show("x_set " + state, "x_add_byte 48 01")
        show("x_add_bytes " + self.data(49))
        show("x_extract 49")
        if layer != "x":
            self.note("where the original differs: sessions")
            start = "new %s %s - -" % (self.data(16), self.data(16))
            show("hash", "absorb_more 00 0")
            show("absorb_more . 0")
            show("hash", "absorb_more . 17")
            show("hash", "absorb_more %s 17" % self.data(17))
            show(start, "absorb_more %s 45" % self.data(45))
            show(start, "absorb_more %s 48" % self.data(48))
            show(start, "encrypt 24 " + self.data(5))
            show(start, "decrypt 24 " + self.data(5))
            show(start, "decrypt 24 " + self.data(5), "state")
        if layer in ("aead", "all"):
            self.note("where the original differs: sealing and opening; it refuses a good record")
            message = self.data(5)
            show(start, "aead_encrypt_detached 24 " + message)
            show(start, "aead_encrypt 40 " + message)
            self.ask(start.encode())
            ciphertext, tag = sealed_of(self.ask("aead_encrypt", 21, message))
            show(start, "aead_decrypt 24 " + word(ciphertext + tag))
            show(start, "aead_decrypt_detached 24 %s %s" % (word(tag), word(ciphertext)))
            show(start, "aead_decrypt 24 " + word(ciphertext + flipped(tag, 0)), "state")
        outside.close()
        return shown

    def make(self, layer):
        if layer == "all":
            self.note("no session call yet")
            self.expect("0", "spent")
        self.x_calls()
        self.bad_lines()
        if layer != "x":
            self.marked_cases()
            self.session_calls()
            self.encryption()
            self.key_calls()
            self.sets()
            self.bad_session_lines()
        if layer in ("aead", "all"):
            self.aead()
        if layer == "all":
            self.walks("crate")
            self.back_each()
            self.rules()
            self.walks("spec")
            self.ask("rule", "crate")
            self.begin("hash")
            self.lengths_refused()
            self.feeding()
            self.shares()
        shown = self.differences(layer)
        self.note("the last line has no line feed")
        self.ask("x_state")
        self.oracle.close()
        return shown


def main():
    arguments = sys.argv[1:]
    if len(arguments) == 6 and arguments[0] == "random" and arguments[3] in ("x", "sessions", "all"):
        seed, lines, kinds, transcript, answers = arguments[1:]
        script = RandomScript(seed, kinds)
        script.make(int(lines))
        script.write(transcript, answers)
        print("seed %s: %d lines of %s, %d answers" % (seed, len(script.lines), kinds, len(script.answers)))
    elif len(arguments) == 4 and arguments[0] == "stored" and arguments[1] in ("x", "sessions", "aead", "all"):
        layer, transcript, answers = arguments[1:]
        script = StoredScript()
        shown = script.make(layer)
        script.write(transcript, answers, last_line_feed=False)
        print("stored %s: %d lines; %d answered by the original, the model agreeing, and %d by the model alone"
              % (layer, len(script.lines), script.by_original, script.by_model))
        print("%d lines show where the original differs:" % len(shown))
        for texts in shown:
            print("  %s: original %s, port %s" % tuple(t if len(t) < 70 else t[:67] + "..." for t in texts))
    else:
        sys.exit(__doc__.strip())


if __name__ == "__main__":
    main()
