#!/usr/bin/env python3
"""Writes the data of program `vectors` anew: crates/vectors/data/*.txt, the same bytes at each run.

  mkv_published.txt, aes_published.txt   the published vectors (tools/published), in one line format
  mkv_random.txt                         random keys and blocks, answered by tools/peer/mkv.py
  aes_random.txt                         random keys and blocks, answered by OpenSSL
  mkv_modes.txt                          random messages in CBC, CFB and OFB, answered by tools/peer/modes.py over mkv.py
  aes_modes.txt                          random messages in CBC, CFB and OFB, answered by OpenSSL

Python 3.9 or newer, standard library; AES also takes the `openssl` command, or the package `cryptography`
where that is missing. The random numbers come from SHA-256 of a fixed seed and a counter.
Before it is written, each published value is compared with tools/peer, and each answer of OpenSSL too.

Run as: python3 tools/vectors.py          writes the files
        python3 tools/vectors.py --check  writes nothing, and says whether the files are what it would write
"""
import hashlib
import os
import re
import subprocess
import sys

TOOLS = os.path.dirname(os.path.abspath(__file__))
DATA = os.path.join(os.path.dirname(TOOLS), "crates", "vectors", "data")
sys.dont_write_bytecode = True
sys.path.insert(0, os.path.join(TOOLS, "peer"))
import aes  # noqa: E402
import mkv  # noqa: E402
import modes  # noqa: E402

SEED = b"helmgage vectors 1"
MKV_PAIRS = 220
AES_PAIRS = 330
# Text lengths of the messages: as many bytes as that, and every length below.
LONGEST = 100

FORMAT = """\
# A line is a word and its fields, with one space between them; # begins a comment line; empty lines count for nothing.
#   vector CIPHER NAME     a vector begins; CIPHER is mkv128, mkv256 or aes, NAME goes to the end of the line
#   key HEX                the key, which the program expands
#   schedule HEX           compared: the whole schedule of the key, and its number of cells
#   text HEX               the plain block
#   cipher HEX             compared: the text enciphered; and this value deciphered, with the text
#   state HEX              the block that the next step works on
#   step NAME ROUND HEX    compared: the block after that step
#   undo NAME ROUND HEX    compared: the block after that step undone
#   roundkey ROUND HEX     compared: a round key (aes)
#   mixedkey ROUND HEX     compared: a round key with MixColumns undone (aes)
#   word ROW COLUMN HEX    compared: a column of the row of the key expansion that gives a word (aes)
#   pair KEY TEXT CIPHER   compared: the text enciphered under the key; and the cipher deciphered
#   message MODE KEY START TEXT CIPHER SENT HEARD
#                          compared: what a sending link gives for the text, and what a receiving link gives for the cipher;
#                          MODE is cbc, cfb or ofb, START the start block; - is a text or a cipher of no byte
#                          SENT and HEARD are the lengths of the pieces that the two links take, as 5,27,0,16; - is no piece
# Steps of mkv128 and mkv256: XorA SubCells MixWords XorB XWords in rounds from 1, PostKey in the round after the last.
# Steps of aes: SubBytes ShiftRows MixColumns AddRoundKey in rounds from 0, and AddMixedKey of the equivalent inverse.
"""


# ---------------------------------------------------------------- reading and writing
def published(name):
    """The vectors of a file of tools/published: (title, [(name, bytes)])."""
    vectors = []
    for line in open(os.path.join(TOOLS, "published", name)):
        line = line.strip()
        if not line or line.startswith("#"):
            continue
        left, right = line.split(" = ")
        if left == "vector":
            vectors.append((right, []))
        elif left in ("block_bits", "key_bits", "rounds"):
            continue
        else:
            vectors[-1][1].append((left, bytes.fromhex(right)))
    return vectors


def digits(value):
    return value.hex().upper()


def digits_or_none(value):
    return digits(value) or "-"


def random_bytes():
    """A function that gives the next n bytes of the fixed stream."""
    counter = [0]
    rest = [b""]

    def take(n):
        while len(rest[0]) < n:
            rest[0] += hashlib.sha256(SEED + counter[0].to_bytes(8, "big")).digest()
            counter[0] += 1
        out, rest[0] = rest[0][:n], rest[0][n:]
        return out

    return take


def head(title):
    return "# %s\n# Made by tools/vectors.py: edit that, and not this file.\n%s\n" % (title, FORMAT)


# ---------------------------------------------------------------- messages of radio links
MODES = ((1, "cbc"), (2, "cfb"), (3, "ofb"))


def random_pieces(take, length):
    """Lengths of pieces that are `length` bytes together: about one in five of no byte, the others of up to 40."""
    pieces, left = [], length
    while left:
        byte = take(1)[0]
        piece = 0 if byte < 48 else min(left, 1 + byte % 40)
        pieces.append(piece)
        left -= piece
    return pieces + [0] * (take(1)[0] % 3)


def pieces_shown(pieces):
    return ",".join(map(str, pieces)) or "-"


def message_line(take, mode, key, start, text, cipher):
    sent = heard = random_pieces(take, len(text))
    while heard == sent:
        heard = random_pieces(take, len(cipher))
    fields = (mode, digits(key), digits(start), digits_or_none(text), digits_or_none(cipher), pieces_shown(sent), pieces_shown(heard))
    return "message %s %s %s %s %s %s %s\n" % fields


def messages(out, take, name, width, lengths, answer, peer):
    """A vector for each mode, with a message of each text length; the key lengths take turns.

    `answer` gives the ciphertext that is written, and `peer(key)` E and D of tools/peer, which have to give it too."""
    for number, mode in MODES:
        out.append("vector %s random messages in %s\n" % (name, mode.upper()))
        for n in range(LONGEST + 1):
            key, start, text = take(lengths[(n + number) % len(lengths)]), take(width), take(n)
            cipher = answer(number, mode, key, start, text)
            forth, back = peer(key)
            assert cipher == modes.send(number, forth, width, start, text)
            assert text == modes.receive(number, forth, back, width, start, cipher)
            out.append(message_line(take, mode, key, start, text, cipher))
        out.append("\n")


# ---------------------------------------------------------------- MKV
MKV_STEPS = ("XorA", "SubCells", "MixWords", "XorB", "SubCells", "XWords")
MKV_VERSIONS = ((16, 16), (16, 24), (16, 32), (32, 32), (32, 48), (32, 64))


def mkv_published():
    out = [head("The published vectors of MKV, one for each version: schedule, every state forth and back, ciphertext.")]
    for title, values in published("mkv.txt"):
        named = dict(values)
        key, text, cipher = named["key"], named["plaintext"], named["ciphertext"]
        width = len(text)
        schedule = b"".join(v for n, v in values if n.startswith("K"))
        states = [v for n, v in values if re.match(r"r\d", n)] + [named["final"]]
        trace = []
        assert schedule == mkv.schedule(width, key)
        assert cipher == mkv.encrypt(width, key, text, trace) == named["final"]
        assert states == [s for _, _, s in trace]
        rounds = mkv.ROUNDS[(width, len(key))]
        steps = [(name, r) for r in range(1, rounds + 1) for name in MKV_STEPS] + [("PostKey", rounds + 1)]
        assert len(steps) == len(states)
        out.append("vector mkv%d published vector, key of %d bytes\n" % (8 * width, len(key)))
        out.append("key %s\nschedule %s\ntext %s\ncipher %s\n" % tuple(map(digits, (key, schedule, text, cipher))))
        out.append("state %s\n" % digits(text))
        for (name, r), state in zip(steps, states):
            out.append("step %s %d %s\n" % (name, r, digits(state)))
        before = [text] + states[:-1]
        for (name, r), state in reversed(list(zip(steps, before))):
            out.append("undo %s %d %s\n" % (name, r, digits(state)))
        out.append("\n")
    return "".join(out)


def mkv_random():
    take = random_bytes()
    out = [head("Random keys and blocks of MKV, answered by the reference implementation tools/peer/mkv.py.")]
    for width, length in MKV_VERSIONS:
        out.append("vector mkv%d random keys of %d bytes\n" % (8 * width, length))
        for _ in range(MKV_PAIRS):
            key, text = take(length), take(width)
            out.append("pair %s %s %s\n" % (digits(key), digits(text), digits(mkv.encrypt(width, key, text))))
        out.append("\n")
    return "".join(out)


def mkv_peer(width):
    def both(key):
        schedule = mkv.schedule(width, key)
        return (lambda block: mkv.encipher(width, len(key), schedule, block),
                lambda block: mkv.decipher(width, len(key), schedule, block))

    return both


def mkv_modes():
    take = random_bytes()
    out = [head("Random messages in CBC, CFB and OFB over MKV, answered by tools/peer/modes.py over tools/peer/mkv.py.")]
    for width in (16, 32):
        lengths, peer = [length for w, length in MKV_VERSIONS if w == width], mkv_peer(width)

        def answer(number, _mode, key, start, text):
            return modes.send(number, peer(key)[0], width, start, text)

        messages(out, take, "mkv%d" % (8 * width), width, lengths, answer, peer)
    return "".join(out)


# ---------------------------------------------------------------- AES
def aes_key_lines(key, schedule):
    return "key %s\nschedule %s\n" % (digits(key), digits(schedule))


def aes_expansions(out):
    for title, values in published("aes_keys.txt"):
        named = dict(values)
        key = named["key"]
        words = [v for n, v in values if re.fullmatch(r"w\d+", n)]
        rows = []
        assert words == aes.key_expansion(key, rows)
        out.append("vector aes key expansion, key of %d bytes\n" % len(key))
        out.append(aes_key_lines(key, b"".join(words)))
        for row in rows:
            i = row["i"]
            for column in ("temp", "rot", "sub", "rcon", "xor_rcon", "back"):
                if column in row:
                    assert named["%d.%s" % (i, column)] == row[column]
                    out.append("word %d %s %s\n" % (i, column, digits(row[column])))
            out.append("word %d w %s\n" % (i, digits(named["w%d" % i])))
        out.append("\n")


# The standard's name of a value: the line's word, and the step that gives it.
FORTH = {"start": "AddRoundKey", "s_box": "SubBytes", "s_row": "ShiftRows", "m_col": "MixColumns", "output": "AddRoundKey"}
BACK = {"is_box": "SubBytes", "is_row": "ShiftRows", "ik_add": "AddRoundKey"}


def aes_example(out, title, key, text, cipher, values, trace, equivalent=False):
    """The lines of one example with every value; `trace` is what tools/peer has for it."""
    rounds = aes.ROUNDS[len(key)]
    assert [(int(r), n, v) for (r, n), v in ((re.fullmatch(r"r(\d+)\.(\w+)", n).groups(), v) for n, v in values)] == trace
    out.append("vector aes %s, key of %d bytes\n" % (title, len(key)))
    out.append(aes_key_lines(key, aes.schedule(key)))
    out.append("text %s\ncipher %s\n" % (digits(text), digits(cipher)))
    for r, name, value in trace:
        shown = digits(value)
        if name in ("input", "iinput"):
            out.append("state %s\n" % shown)
        elif name == "k_sch":
            out.append("roundkey %d %s\n" % (r, shown))
        elif name == "ik_sch":
            mixed = equivalent and 0 < r < rounds
            out.append("%s %d %s\n" % ("mixedkey" if mixed else "roundkey", rounds - r, shown))
        elif name == "start":
            out.append("step AddRoundKey %d %s\n" % (r - 1, shown))
        elif name in FORTH:
            out.append("step %s %d %s\n" % (FORTH[name], r, shown))
        elif name == "istart" and equivalent:
            out.append("undo %s %d %s\n" % ("AddMixedKey" if r > 1 else "AddRoundKey", rounds - r + 1, shown))
        elif name == "istart":
            out.append("undo %s %d %s\n" % ("MixColumns" if r > 1 else "AddRoundKey", rounds - r + 1, shown))
        elif name == "im_col":
            out.append("undo MixColumns %d %s\n" % (rounds - r, shown))
        elif name == "ioutput":
            out.append("undo AddRoundKey 0 %s\n" % shown)
        else:
            # ShiftRows and SubBytes of the round that is undone; the key added is that of the round before
            out.append("undo %s %d %s\n" % (BACK[name], rounds - r + (name != "ik_add"), shown))
    out.append("\n")


def aes_published():
    out = [head("The published vectors of AES: key expansions, the worked cipher example, the long examples forth and back.")]
    aes_expansions(out)
    skip = ("key", "plaintext", "ciphertext")
    for title, values in published("aes_cipher.txt") + published("aes_long.txt"):
        named = dict(values)
        key, text, cipher = (named[n] for n in skip)
        kind, trace = title.split()[0], []
        length, schedule = len(key), aes.schedule(key)
        if kind in ("worked", "cipher"):
            assert aes.encipher(length, schedule, text, trace) == cipher
        elif kind == "inverse":
            assert aes.decipher(length, schedule, cipher, trace) == text
        else:
            assert aes.decipher_equivalent(length, schedule, cipher, trace) == text
        name = {"worked": "worked cipher example", "cipher": "long example, cipher", "inverse": "long example, inverse cipher",
                "equivalent": "long example, equivalent inverse cipher"}[kind]
        values = [(n, v) for n, v in values if n not in skip]
        aes_example(out, name, key, text, cipher, values, trace, kind == "equivalent")
    return "".join(out)


def openssl(mode, key, text, start=None):
    """What OpenSSL makes of a text, which it does not pad: its command, or the package `cryptography` over the same library."""
    command = ["openssl", "enc", "-aes-%d-%s" % (8 * len(key), mode), "-nopad", "-K", key.hex()]
    try:
        done = subprocess.run(command + (["-iv", start.hex()] if start else []), input=text, capture_output=True, check=True)
        return done.stdout
    except FileNotFoundError:
        from cryptography.hazmat.primitives.ciphers import Cipher, algorithms, modes as theirs
        try:
            from cryptography.hazmat.decrepit.ciphers.modes import CFB, OFB
        except ImportError:
            CFB, OFB = theirs.CFB, theirs.OFB
        chained = {"cbc": theirs.CBC, "cfb": CFB, "ofb": OFB}
        enc = Cipher(algorithms.AES(key), chained[mode](start) if start else theirs.ECB()).encryptor()
        return enc.update(text) + enc.finalize()


def aes_random():
    take = random_bytes()
    out = [head("Random keys and blocks of AES, answered by OpenSSL (openssl enc -aes-N-ecb -nopad).")]
    for length in (16, 24, 32):
        out.append("vector aes random keys of %d bytes\n" % length)
        for _ in range(AES_PAIRS):
            key, text = take(length), take(16)
            cipher = openssl("ecb", key, text)
            assert cipher == aes.encrypt(key, text)
            out.append("pair %s %s %s\n" % (digits(key), digits(text), digits(cipher)))
        out.append("\n")
    return "".join(out)


def aes_peer(key):
    schedule = aes.schedule(key)
    return (lambda block: aes.encipher(len(key), schedule, block),
            lambda block: aes.decipher(len(key), schedule, block))


def aes_modes():
    take = random_bytes()
    out = [head("Random messages in CBC, CFB and OFB over AES, answered by OpenSSL (openssl enc -aes-N-MODE -nopad).")]

    def answer(_number, mode, key, start, text):
        # a byte 80 and zeros, always: not the padding of OpenSSL
        return openssl(mode, key, text + b"\x80" + bytes(-(len(text) + 1) % 16) if mode == "cbc" else text, start)

    messages(out, take, "aes", 16, (16, 24, 32), answer, aes_peer)
    return "".join(out)


def main():
    files = {"mkv_published.txt": mkv_published, "mkv_random.txt": mkv_random,
             "aes_published.txt": aes_published, "aes_random.txt": aes_random,
             "mkv_modes.txt": mkv_modes, "aes_modes.txt": aes_modes}
    same = True
    for name, make in files.items():
        path, text = os.path.join(DATA, name), make()
        if "--check" in sys.argv[1:]:
            same = same and os.path.exists(path) and open(path).read() == text
        else:
            with open(path, "w") as out:
                out.write(text)
    if not same:
        sys.exit("crates/vectors/data is not what tools/vectors.py writes")


if __name__ == "__main__":
    main()
