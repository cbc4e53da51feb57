"""AES-128/192/256 (FIPS 197), plain reference implementation (stdlib only).

Written apart from the crates, by other hands, to be compared with them; it is no model for their code.

The S-box is computed (inverse in the field, then the affine map), not copied, so that a
comparison with the printed tables means something.

A schedule is `bytes`: the Nr+1 round keys in order, 16 bytes each (11, 13, 15 cells).
Run as a program: compares with python `cryptography` (if present) on random cases.
"""

POLY = 0x11B  # x^8 + x^4 + x^3 + x + 1
ROUNDS = {16: 10, 24: 12, 32: 14}


def mul(a, b, poly=POLY):
    product = 0
    while b:
        if b & 1:
            product ^= a
        a <<= 1
        if a & 0x100:
            a ^= poly
        b >>= 1
    return product


def _make_sbox():
    inverse = [0] * 256
    for a in range(1, 256):
        for b in range(1, 256):
            if mul(a, b) == 1:
                inverse[a] = b
                break
    box = []
    for a in range(256):
        b = inverse[a]
        out = 0
        for i in range(8):
            bit = 0
            for j in (0, 4, 5, 6, 7):
                bit ^= b >> ((i + j) % 8) & 1
            bit ^= 0x63 >> i & 1
            out |= bit << i
        box.append(out)
    return bytes(box)


SBOX = _make_sbox()
INV_SBOX = bytes(SBOX.index(v) for v in range(256))
_T = {c: [mul(c, v) for v in range(256)] for c in (1, 2, 3, 9, 11, 13, 14)}


def xor(x, y):
    assert len(x) == len(y)
    return bytes(a ^ b for a, b in zip(x, y))


# ---------------------------------------------------------------- key expansion
def key_expansion(key, rows=None):
    """The 4*(Nr+1) words w[i], each 4 bytes.

    If `rows` is a list, one dict per computed word is appended (columns of the key
    expansion tables of FIPS 197): i, temp, rot, sub, rcon, xor_rcon, back (= w[i-Nk]), w."""
    nk = len(key) // 4
    total = 4 * (ROUNDS[len(key)] + 1)
    w = [bytes(key[4 * i:4 * i + 4]) for i in range(nk)]
    rcon = 1
    for i in range(nk, total):
        temp = w[i - 1]
        row = {"i": i, "temp": temp}
        if i % nk == 0:
            temp = temp[1:] + temp[:1]
            row["rot"] = temp
            temp = bytes(SBOX[b] for b in temp)
            row["sub"] = temp
            rc = bytes([rcon, 0, 0, 0])
            rcon = mul(rcon, 2)
            row["rcon"] = rc
            temp = xor(temp, rc)
            row["xor_rcon"] = temp
        elif nk > 6 and i % nk == 4:
            temp = bytes(SBOX[b] for b in temp)
            row["sub"] = temp
        row["back"] = w[i - nk]
        w.append(xor(w[i - nk], temp))
        row["w"] = w[i]
        if rows is not None:
            rows.append(row)
    return w


def schedule(key):
    return b"".join(key_expansion(key))


def cells(key_len):
    return ROUNDS[key_len] + 1


def round_keys(key_len, sched):
    assert len(sched) == 16 * cells(key_len)
    return [sched[i:i + 16] for i in range(0, len(sched), 16)]


# ---------------------------------------------------------------- steps (state byte r+4c)
def sub_bytes(s):
    return bytes(SBOX[b] for b in s)


def inv_sub_bytes(s):
    return bytes(INV_SBOX[b] for b in s)


def shift_rows(s):
    return bytes(s[r + 4 * ((c + r) % 4)] for c in range(4) for r in range(4))


def inv_shift_rows(s):
    return bytes(s[r + 4 * ((c - r) % 4)] for c in range(4) for r in range(4))


def _mix(s, first_row):
    out = bytearray(16)
    for c in range(4):
        col = s[4 * c:4 * c + 4]
        for r in range(4):
            b = 0
            for k in range(4):
                b ^= _T[first_row[(k - r) % 4]][col[k]]
            out[4 * c + r] = b
    return bytes(out)


def mix_columns(s):
    return _mix(s, (2, 3, 1, 1))


def inv_mix_columns(s):
    return _mix(s, (14, 11, 13, 9))


# ---------------------------------------------------------------- cipher
def encipher(key_len, sched, block, trace=None):
    """Names in `trace` are those of the examples of FIPS 197: (round, name, state)."""
    assert len(block) == 16
    k = round_keys(key_len, sched)
    nr = len(k) - 1
    note = trace.append if trace is not None else (lambda x: None)
    s = bytes(block)
    note((0, "input", s))
    note((0, "k_sch", k[0]))
    s = xor(s, k[0])
    for r in range(1, nr + 1):
        note((r, "start", s))
        s = sub_bytes(s)
        note((r, "s_box", s))
        s = shift_rows(s)
        note((r, "s_row", s))
        if r < nr:
            s = mix_columns(s)
            note((r, "m_col", s))
        note((r, "k_sch", k[r]))
        s = xor(s, k[r])
    note((nr, "output", s))
    return s


def decipher(key_len, sched, block, trace=None):
    """The straightforward inverse cipher (names of the examples)."""
    assert len(block) == 16
    k = round_keys(key_len, sched)
    nr = len(k) - 1
    note = trace.append if trace is not None else (lambda x: None)
    s = bytes(block)
    note((0, "iinput", s))
    note((0, "ik_sch", k[nr]))
    s = xor(s, k[nr])
    for r in range(1, nr + 1):
        note((r, "istart", s))
        s = inv_shift_rows(s)
        note((r, "is_row", s))
        s = inv_sub_bytes(s)
        note((r, "is_box", s))
        note((r, "ik_sch", k[nr - r]))
        s = xor(s, k[nr - r])
        if r < nr:
            note((r, "ik_add", s))
            s = inv_mix_columns(s)
    note((nr, "ioutput", s))
    return s


def decipher_equivalent(key_len, sched, block, trace=None):
    """The equivalent inverse cipher (third part of each long example)."""
    assert len(block) == 16
    k = round_keys(key_len, sched)
    nr = len(k) - 1
    dk = [k[0]] + [inv_mix_columns(x) for x in k[1:nr]] + [k[nr]]
    note = trace.append if trace is not None else (lambda x: None)
    s = bytes(block)
    note((0, "iinput", s))
    note((0, "ik_sch", dk[nr]))
    s = xor(s, dk[nr])
    for r in range(1, nr + 1):
        note((r, "istart", s))
        s = inv_sub_bytes(s)
        note((r, "is_box", s))
        s = inv_shift_rows(s)
        note((r, "is_row", s))
        if r < nr:
            s = inv_mix_columns(s)
            note((r, "im_col", s))
        note((r, "ik_sch", dk[nr - r]))
        s = xor(s, dk[nr - r])
    note((nr, "ioutput", s))
    return s


def encrypt(key, block, trace=None):
    return encipher(len(key), schedule(key), block, trace)


def decrypt(key, block, trace=None):
    return decipher(len(key), schedule(key), block, trace)


def cross_check(count=3000, seed=1):
    """Compare with python `cryptography` (OpenSSL) on `count` random key/block pairs."""
    import random
    from cryptography.hazmat.primitives.ciphers import Cipher, algorithms, modes
    rnd = random.Random(seed)
    for _ in range(count):
        key = rnd.randbytes(rnd.choice((16, 24, 32)))
        block = rnd.randbytes(16)
        other = Cipher(algorithms.AES(key), modes.ECB())
        enc, dec = other.encryptor(), other.decryptor()
        c = encrypt(key, block)
        assert c == enc.update(block) + enc.finalize()
        assert decrypt(key, block) == dec.update(block) + dec.finalize()
        assert decrypt(key, c) == block
        assert decipher_equivalent(len(key), schedule(key), c) == block
    return count


if __name__ == "__main__":
    c = encrypt(bytes(range(16)), bytes.fromhex("00112233445566778899aabbccddeeff"))
    assert c.hex() == "69c4e0d86a7b0430d8cdb78070b4c55a"
    print("AES: %d random cases equal to `cryptography`, both directions" % cross_check())
