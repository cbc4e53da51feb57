"""CBC, CFB and OFB over any block function, whole messages at once (stdlib only).

Written apart from the crates, by other hands, to be compared with them; it is no model for their code.

  E, D   functions from bytes of w to bytes of w
  start  the start block, w bytes

CBC: the text gets a byte 80 and then zeros up to a whole block, always.
CFB: full-block feedback; receiving uses E, never D. OFB: the register is E of itself.
In CFB and OFB a short last block uses the first bytes of E's block.

`join` / `unjoin` are XOR; addition modulo 256 byte by byte passes others:
  sending    join(text, mask)           (text on the left)
  receiving  unjoin(joined, mask) = join(joined, inverse(mask))
Run as a program: compares the AES modes with python `cryptography` and the openssl tool.
"""


def xor(x, y):
    return bytes(a ^ b for a, b in zip(x, y))


def add(x, y):
    return bytes((a + b) % 256 for a, b in zip(x, y))


def sub(x, y):
    return bytes((a - b) % 256 for a, b in zip(x, y))


def blocks(w, data):
    return [data[i:i + w] for i in range(0, len(data), w)]


def pad(w, text):
    text = bytes(text) + b"\x80"
    return text + bytes(-len(text) % w)


class BadPadding(Exception):
    pass


def unpad(padded):
    """Bytes before the 80; BadPadding if the last byte other than 00 is missing or not 80."""
    text = padded.rstrip(b"\x00")
    if not text or text[-1] != 0x80:
        raise BadPadding
    return text[:-1]


def cbc_send_raw(E, w, start, padded, join=xor):
    assert len(start) == w and len(padded) % w == 0
    last, out = start, []
    for p in blocks(w, padded):
        last = E(join(p, last))
        out.append(last)
    return b"".join(out)


def cbc_receive_raw(D, w, start, cipher, unjoin=xor):
    """Text still with its padding."""
    assert len(start) == w and len(cipher) % w == 0
    last, out = start, []
    for c in blocks(w, cipher):
        out.append(unjoin(D(c), last))
        last = c
    return b"".join(out)


def cbc_send(E, w, start, text, join=xor):
    return cbc_send_raw(E, w, start, pad(w, text), join)


def cbc_receive(D, w, start, cipher, unjoin=xor):
    padded = cbc_receive_raw(D, w, start, cipher, unjoin)
    last = unpad(padded[len(padded) - w:])  # the padding is judged in the last block only
    return padded[:len(padded) - w] + last


def cfb_send(E, w, start, text, join=xor):
    assert len(start) == w
    last, out = start, []
    for p in blocks(w, text):
        last = join(p, E(last)[:len(p)])
        out.append(last)
    return b"".join(out)


def cfb_receive(E, w, start, cipher, unjoin=xor):
    assert len(start) == w
    last, out = start, []
    for c in blocks(w, cipher):
        out.append(unjoin(c, E(last)[:len(c)]))
        last = c
    return b"".join(out)


def ofb_send(E, w, start, text, join=xor):
    assert len(start) == w
    s, out = start, []
    for p in blocks(w, text):
        s = E(s)
        out.append(join(p, s[:len(p)]))
    return b"".join(out)


def ofb_receive(E, w, start, cipher, unjoin=xor):
    return ofb_send(E, w, start, cipher, unjoin)


def send(mode, E, w, start, text):
    return {1: cbc_send, 2: cfb_send, 3: ofb_send}[mode](E, w, start, text)


def receive(mode, E, D, w, start, cipher):
    if mode == 1:
        return cbc_receive(D, w, start, cipher)
    return {2: cfb_receive, 3: ofb_receive}[mode](E, w, start, cipher)


# ---------------------------------------------------------------- comparison
def cross_check(count=2400, seed=2):
    import random
    import warnings
    warnings.simplefilter("ignore")
    from cryptography.hazmat.primitives.ciphers import Cipher, algorithms
    from cryptography.hazmat.primitives.ciphers import modes as theirs
    try:
        from cryptography.hazmat.decrepit.ciphers.modes import CFB, OFB
    except ImportError:
        CFB, OFB = theirs.CFB, theirs.OFB
    import aes
    rnd = random.Random(seed)
    done = {1: 0, 2: 0, 3: 0}
    for n in range(count):
        mode = 1 + n % 3
        key = rnd.randbytes(rnd.choice((16, 24, 32)))
        start = rnd.randbytes(16)
        text = rnd.randbytes(rnd.choice((0, 1, 15, 16, 17, rnd.randrange(200))))
        sched = aes.schedule(key)
        E = lambda b: aes.encipher(len(key), sched, b)
        D = lambda b: aes.decipher(len(key), sched, b)
        ours = send(mode, E, 16, start, text)
        other = Cipher(algorithms.AES(key),
                       {1: theirs.CBC, 2: CFB, 3: OFB}[mode](start)).encryptor()
        # `cryptography` has no 80 00* padding; it is added here by hand
        given = text + b"\x80" + b"\x00" * (-(len(text) + 1) % 16) if mode == 1 else text
        assert ours == other.update(given) + other.finalize(), (mode, len(text))
        assert receive(mode, E, D, 16, start, ours) == text
        done[mode] += 1
    return done


def cross_check_openssl_tool(count=60, seed=3):
    import random
    import subprocess
    import aes
    rnd = random.Random(seed)
    for n in range(count):
        mode = 1 + n % 3
        key = rnd.randbytes(rnd.choice((16, 24, 32)))
        start = rnd.randbytes(16)
        text = rnd.randbytes(rnd.randrange(100))
        sched = aes.schedule(key)
        E = lambda b: aes.encipher(len(key), sched, b)
        given = pad(16, text) if mode == 1 else text
        name = "-aes-%d-%s" % (8 * len(key), {1: "cbc", 2: "cfb", 3: "ofb"}[mode])
        got = subprocess.run(["openssl", "enc", name, "-K", key.hex(), "-iv", start.hex(),
                              "-nopad"], input=given, capture_output=True, check=True).stdout
        assert got == send(mode, E, 16, start, text), (name, len(text))
    return count


def round_trips(count=240, seed=4):
    """Both widths, MKV, XOR and addition: what was sent comes back."""
    import random
    import mkv
    rnd = random.Random(seed)
    for n in range(count):
        w = (16, 32)[n % 2]
        key = rnd.randbytes(rnd.choice([k for (v, k) in mkv.ROUNDS if v == w]))
        start = rnd.randbytes(w)
        text = rnd.randbytes(rnd.randrange(5 * w))
        sched = mkv.schedule(w, key)
        E = lambda b: mkv.encipher(w, len(key), sched, b)
        D = lambda b: mkv.decipher(w, len(key), sched, b)
        for mode in (1, 2, 3):
            assert receive(mode, E, D, w, start, send(mode, E, w, start, text)) == text
        assert cbc_receive(D, w, start, cbc_send(E, w, start, text, add), sub) == text
        assert cfb_receive(E, w, start, cfb_send(E, w, start, text, add), sub) == text
        assert ofb_receive(E, w, start, ofb_send(E, w, start, text, add), sub) == text
    return count


if __name__ == "__main__":
    print("AES modes equal to `cryptography`, cases per mode:", cross_check())
    print("AES modes equal to the openssl tool, cases:", cross_check_openssl_tool())
    print("MKV modes, both widths, XOR and addition, round trips:", round_trips())
