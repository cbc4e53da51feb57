"""MKV block cipher, all six versions: plain reference implementation (stdlib only).

Written apart from the crates, by other hands, to be compared with them; it is no model for their code.
It gives every published vector of MKV. Three places that are easily got wrong:
  * M4 has 0D in both places where a misprint has 0C;
  * the second half B of a round key is added AFTER MixWords;
  * update i of the key state uses the numbers 2i (left) and 2i-1 (right),
    standing in the last byte of the first half A, and Right_i adds Left_i.

Conventions
  A state is `bytes` of w = 16 or 32 bytes: four words of t = w/4 bytes, word 0 first.
  A schedule is `bytes`: A_0 B_0 A_1 B_1 ... A_(R-1) B_(R-1) post, w bytes each,
  so 2R+1 halves: 13, 15, 17 cells of 16 bytes (w = 16) or 26, 30, 34 (w = 32).
  The number of rounds R follows from the KEY LENGTH, never from the schedule.
"""

# ---------------------------------------------------------------- tables
S = bytes.fromhex("""
01 11 91 E1 D1 B1 71 61 F1 21 C1 51 A1 41 31 81
00 10 E3 92 B5 D4 77 66 89 38 AB 4A CD 5C 2F FE
08 5F 3E B0 1C C2 83 DD E8 F6 47 79 95 2B AA 64
0F 48 D0 29 A3 1A F2 BB 65 CC E4 3D 57 7E 86 9F
0C 2A F4 1F 5B 90 EE C5 36 6D 73 88 BC A7 49 D2
0A 3C 18 85 E0 4D 99 A4 B3 5E DA C7 72 FF 6B 26
06 76 CF A8 4E 59 60 17 DC 9B 32 F5 23 84 ED BA
07 67 2D 3B FA 8C 16 70 54 A2 98 BE EF D9 C3 45
0E A9 62 5A 27 BF 34 9C FD D5 8E E6 1B 43 78 C0
03 B2 87 C4 9D 6E 4B F8 7A E9 2C AF D6 15 50 33
0D FB 56 EC 3F 75 B8 42 1E 24 C9 93 80 6A D7 AD
04 E5 B9 7D 82 A6 CA 2E 97 13 6F DB 44 30 FC 58
0B 8D 9A 46 74 28 DF 53 CB B7 F0 6C AE E2 35 19
05 94 7B DE C6 F3 AC 39 4F 8A 55 20 68 BD 12 E7
02 D3 A5 F7 69 EB 5D 8F 22 40 B6 14 3A C8 9E 7C
09 CE 4C 63 D8 37 25 EA A0 7F 1D 52 F9 96 B4 8B
""")

S_INV = bytes.fromhex("""
10 00 E0 90 B0 D0 60 70 20 F0 50 C0 40 A0 80 30
11 01 DE B9 EB 9D 76 67 52 CF 35 8C 24 FA A8 43
DB 09 E8 6C A9 F6 5F 84 C5 33 41 2D 9A 72 B7 1E
BD 0E 6A 9F 86 CE 48 F5 19 D7 EC 73 51 3B 22 A4
E9 0D A7 8D BC 7F C3 2A 31 4E 1B 96 F2 55 64 D8
9E 0B FB C7 78 DA A2 3C BF 65 83 44 1D E6 59 21
66 07 82 F3 2F 38 17 71 DC E4 AD 5E CB 49 95 BA
77 06 5C 4A C4 A5 61 16 8E 2B 98 D2 EF B3 3D F9
AC 0F B4 26 6D 53 3E 92 4B 18 D9 FF 75 C1 8A E7
45 02 13 AB D1 2C FD B8 7A 56 C2 69 87 94 EE 3F
F8 0C 79 34 57 E2 B5 4D 63 81 2E 1A D6 AF CC 9B
23 05 91 58 FE 14 EA C9 A6 B2 6F 37 4C DD 7B 85
8F 0A 25 7E 93 47 D4 5B ED AA B6 C8 39 1C F1 62
32 04 4F E1 15 89 9C AE F4 7D 5A BB 68 27 D3 C6
54 03 CD 12 3A B1 8B DF 28 99 F7 E5 A3 6E 46 7C
CA 08 36 D5 42 6B 29 E3 97 FC 74 A1 BE 88 1F 5D
""")


def _matrix(text):
    return [list(bytes.fromhex(row)) for row in text.strip().splitlines()]


M4 = _matrix("""
01 02 01 03
03 07 01 04
04 0B 03 0D
0D 1E 06 14
""")

M4_INV = _matrix("""
14 06 18 0B
0B 02 0D 05
05 01 07 02
02 01 03 01
""")

M8 = _matrix("""
01 04 DB 0C 14 0C DB 04
04 11 15 EB 5C 24 1D CB
CB 55 38 E6 D5 AF 0D 4C
4C D0 5D 15 91 F8 A7 16
16 14 18 B5 06 79 30 FF
FF 97 E0 B0 66 AE 8D B1
B1 6D F6 7D 3C FB CF 1F
1F CD 5C 72 DA B8 CA B3
""")

M8_INV = _matrix("""
B3 CA B8 DA 72 5C CD 1F
1F CF FB 3C 7D F6 6D B1
B1 8D AE 66 B0 E0 97 FF
FF 30 79 06 B5 18 14 16
16 A7 F8 91 15 5D D0 4C
4C 0D AF D5 E6 38 55 CB
CB 1D 24 5C EB 15 11 04
04 DB 0C 14 0C DB 04 01
""")

POLY = 0x12B  # x^8 + x^5 + x^3 + x + 1


# ---------------------------------------------------------------- field
def mul(a, b, poly=POLY):
    """Product of two bytes in the field given by `poly`."""
    product = 0
    while b:
        if b & 1:
            product ^= a
        a <<= 1
        if a & 0x100:
            a ^= poly
        b >>= 1
    return product


_ENTRIES = {e for m in (M4, M4_INV, M8, M8_INV) for row in m for e in row}
_TIMES = {e: [mul(e, v) for v in range(256)] for e in _ENTRIES}  # speed only


# ---------------------------------------------------------------- basic steps
def xor(x, y):
    assert len(x) == len(y)
    return bytes(a ^ b for a, b in zip(x, y))


def words(state):
    t = len(state) // 4
    return [state[i * t:(i + 1) * t] for i in range(4)]


def sub_cells(state):
    return bytes(S[b] for b in state)


def inv_sub_cells(state):
    return bytes(S_INV[b] for b in state)


def _times_matrix(matrix, word):
    out = []
    for row in matrix:
        byte = 0
        for entry, b in zip(row, word):
            byte ^= _TIMES[entry][b]
        out.append(byte)
    return bytes(out)


def mix_words(state):
    matrix = M4 if len(state) == 16 else M8
    return b"".join(_times_matrix(matrix, word) for word in words(state))


def inv_mix_words(state):
    matrix = M4_INV if len(state) == 16 else M8_INV
    return b"".join(_times_matrix(matrix, word) for word in words(state))


def x_words(state):
    """Each word becomes the XOR of the other three (its own inverse)."""
    x0, x1, x2, x3 = words(state)
    return (xor(xor(x1, x2), x3) + xor(xor(x0, x2), x3)
            + xor(xor(x0, x1), x3) + xor(xor(x0, x1), x2))


# ---------------------------------------------------------------- round
STEPS = ("AddRoundKey1", "SubCells1", "MixWords", "AddRoundKey2", "SubCells2", "XWords")


def round_states(state, a, b):
    """The six states after the steps of one round F with key (a, b)."""
    s1 = xor(state, a)
    s2 = sub_cells(s1)
    s3 = mix_words(s2)
    s4 = xor(s3, b)
    s5 = sub_cells(s4)
    s6 = x_words(s5)
    return [s1, s2, s3, s4, s5, s6]


def f(state, a, b):
    return round_states(state, a, b)[-1]


def inv_round_states(state, a, b):
    s1 = x_words(state)
    s2 = inv_sub_cells(s1)
    s3 = xor(s2, b)
    s4 = inv_mix_words(s3)
    s5 = inv_sub_cells(s4)
    s6 = xor(s5, a)
    return [s1, s2, s3, s4, s5, s6]


def inv_f(state, a, b):
    return inv_round_states(state, a, b)[-1]


# ---------------------------------------------------------------- keys
ROUNDS = {  # (w, key bytes) -> R
    (16, 16): 6, (16, 24): 7, (16, 32): 8,
    (32, 32): 6, (32, 48): 7, (32, 64): 8,
}


def complement(word):
    return bytes(0xFF ^ b for b in word)


def number(w, n):
    """The number n as a half key of w bytes: n stands in the last byte."""
    return bytes(w - 1) + bytes([n])


def key_states(w, key):
    """[(Left_0, Right_0), ..., (Left_R, Right_R)]"""
    rounds = ROUNDS[(w, len(key))]
    t = w // 4
    k = [key[i:i + t] for i in range(0, len(key), t)]
    if len(k) == 6:
        k += [complement(k[2]), complement(k[3])]
    elif len(k) == 4:
        k += [complement(word) for word in k]
    assert len(k) == 8
    left, right = b"".join(k[:4]), b"".join(k[4:])
    zero = bytes(w)
    out = [(left, right)]
    for i in range(1, rounds + 1):
        new_left = f(f(right, number(w, 2 * i), zero), zero, zero)
        new_right = xor(new_left, f(f(left, number(w, 2 * i - 1), zero), zero, zero))
        left, right = new_left, new_right
        out.append((left, right))
    return out


def round_keys(w, key):
    """([(A_0, B_0), ..., (A_(R-1), B_(R-1))], post)"""
    st = key_states(w, key)
    rounds = len(st) - 1
    pairs = [(st[0][0], st[1][0])]
    for i in range(1, rounds):
        pairs.append((st[i][1], st[i + 1][0]))
    return pairs, st[rounds][1]


def schedule(w, key):
    pairs, post = round_keys(w, key)
    return b"".join(a + b for a, b in pairs) + post


def cells(w, key_len):
    """Cells of 16 bytes of a schedule."""
    return (2 * ROUNDS[(w, key_len)] + 1) * w // 16


def split_schedule(w, key_len, sched):
    rounds = ROUNDS[(w, key_len)]
    assert len(sched) == (2 * rounds + 1) * w
    half = [sched[i:i + w] for i in range(0, len(sched), w)]
    return [(half[2 * i], half[2 * i + 1]) for i in range(rounds)], half[-1]


# ---------------------------------------------------------------- cipher
def encipher(w, key_len, sched, block, trace=None):
    """One block under ANY schedule of the right length.

    If `trace` is a list, (round from 1, step name, state) is appended for every step,
    and ("post", "AddRoundKey", ciphertext) at the end."""
    assert len(block) == w
    pairs, post = split_schedule(w, key_len, sched)
    state = bytes(block)
    for r, (a, b) in enumerate(pairs, 1):
        states = round_states(state, a, b)
        if trace is not None:
            trace += [(r, name, s) for name, s in zip(STEPS, states)]
        state = states[-1]
    state = xor(state, post)
    if trace is not None:
        trace.append(("post", "AddRoundKey", state))
    return state


def decipher(w, key_len, sched, block, trace=None):
    assert len(block) == w
    pairs, post = split_schedule(w, key_len, sched)
    state = xor(block, post)
    for r in range(len(pairs), 0, -1):
        states = inv_round_states(state, *pairs[r - 1])
        if trace is not None:
            names = ("XWords", "InvSubCells2", "AddRoundKey2", "InvMixWords",
                     "InvSubCells1", "AddRoundKey1")
            trace += [(r, name, s) for name, s in zip(names, states)]
        state = states[-1]
    return state


def encrypt(w, key, block, trace=None):
    return encipher(w, len(key), schedule(w, key), block, trace)


def decrypt(w, key, block, trace=None):
    return decipher(w, len(key), schedule(w, key), block, trace)


if __name__ == "__main__":
    key = bytes.fromhex("0102030405060708090A0B0C0D0E0F11")
    text = bytes.fromhex("112233445566778899AABBCCDDEEFF00")
    c = encrypt(16, key, text)
    print(c.hex().upper())
    assert c.hex().upper() == "B331228334C3F81A37206591498756A1"
    assert decrypt(16, key, c) == text
