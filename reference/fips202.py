"""FIPS 202: Keccak-p[1600, 24] on 25 lanes of 64 bits, and the sponge at rate 136.

A state is a list of 25 integers; lane (x, y) of the standard stands at index x + 5 y (3.1.2, 3.1.4),
its bit z being bit z of the integer. Everything is on whole bytes (B.1).
"""

RATE = 136  # bytes: (1600 - 512) / 8, the rate of KECCAK[512] (5.2)
WIDTH = 64  # w, bits in a lane (3.1)
ROUNDS = 24
MASK = (1 << WIDTH) - 1


def rc(t):
    """3.2.5, algorithm 5: the bit that the shift register gives after t steps."""
    register = [1, 0, 0, 0, 0, 0, 0, 0]
    for _ in range(t % 255):
        register = [0] + register
        for place in (0, 4, 5, 6):
            register[place] ^= register[8]
        register = register[:8]
    return register[0]


def round_constant(i):
    """3.2.5, algorithm 6, steps 2 and 3: bit 2^j - 1 is rc(j + 7 i) for j from 0 to 6, the others are 0."""
    return sum(rc(j + 7 * i) << (2**j - 1) for j in range(7))


def rho_offsets():
    """3.2.2, algorithm 2: the walk from (1, 0) that gives each lane its rotation; lane (0, 0) keeps 0."""
    offsets = [0] * 25
    x, y = 1, 0
    for t in range(24):
        offsets[x + 5 * y] = (t + 1) * (t + 2) // 2 % WIDTH
        x, y = y, (2 * x + 3 * y) % 5
    return offsets


def lane_places():
    """The pairs (x, y) in the order of the lanes' indices."""
    return [(x, y) for y in range(5) for x in range(5)]


ROUND_CONSTANTS = [round_constant(i) for i in range(ROUNDS)]
RHO = rho_offsets()
# 3.2.3, algorithm 3: lane (x, y) becomes lane (x + 3 y, x).
PI = [(x + 3 * y) % 5 + 5 * x for x, y in lane_places()]
# 3.2.4, algorithm 4: lane (x, y) and its two right-hand neighbours in the row.
CHI = [(x + 5 * y, (x + 1) % 5 + 5 * y, (x + 2) % 5 + 5 * y) for x, y in lane_places()]


def rotated(lane, offset):
    """The lane with bit z moved to z + offset mod 64; offset from 0 to 63."""
    return (lane << offset | lane >> (WIDTH - offset)) & MASK


def theta(a):
    """3.2.1, algorithm 1: each lane and the parities of columns x - 1 and, one bit on, x + 1."""
    rows = zip(a[0:5], a[5:10], a[10:15], a[15:20], a[20:25])
    c = [p ^ q ^ r ^ s ^ t for p, q, r, s, t in rows]
    d = [c[x - 1] ^ rotated(c[(x + 1) % 5], 1) for x in range(5)]
    return [lane ^ parity for lane, parity in zip(a, d * 5)]


def rho(a):
    """3.2.2, algorithm 2: each lane rotated by its offset (`rotated`, written out for speed)."""
    return [(lane << r | lane >> (64 - r)) & MASK for lane, r in zip(a, RHO)]


def pi(a):
    """3.2.3, algorithm 3: the lanes rearranged."""
    return [a[source] for source in PI]


def chi(a):
    """3.2.4, algorithm 4: each lane and the product of its neighbours, the first of them complemented."""
    return [a[i] ^ ((a[j] ^ MASK) & a[k]) for i, j, k in CHI]


def iota(a, constant):
    """3.2.5, algorithm 6, step 4: the round constant into lane (0, 0)."""
    return [a[0] ^ constant] + a[1:]


def keccak_p(lanes):
    """3.3, algorithm 7 for 24 rounds: the 25 lanes after Keccak-p[1600, 24]."""
    for constant in ROUND_CONSTANTS:
        lanes = iota(chi(pi(rho(theta(lanes)))), constant)
    return lanes


def padded(message, suffix):
    """5.1 and B.2: the suffix byte, zeros to a whole block, then 80 into the last byte."""
    data = bytearray(message)
    data.append(suffix)
    data += bytes(-len(data) % RATE)
    data[-1] ^= 0x80
    return bytes(data)


def absorbed(fed):
    """4, algorithm 8, steps 3 to 6: the lanes after all blocks of the padded bytes."""
    lanes = [0] * 25
    for start in range(0, len(fed), RATE):
        block = [int.from_bytes(fed[i : i + 8], "little") for i in range(start, start + RATE, 8)]
        lanes = keccak_p([lane ^ part for lane, part in zip(lanes, block)] + lanes[len(block) :])
    return lanes


def squeezed(lanes, length):
    """4, algorithm 8, steps 7 to 10: the first `length` bytes of output, a block of 136 at a time."""
    output = bytearray()
    while True:
        output += b"".join(lane.to_bytes(8, "little") for lane in lanes[: RATE // 8])
        if len(output) >= length:
            return bytes(output[:length])
        lanes = keccak_p(lanes)


def sponge(fed, length):
    """4, algorithm 8: `length` bytes of output for the padded bytes `fed`."""
    return squeezed(absorbed(fed), length)


def sha3_256(message):
    """6.1: SHA3-256, whose rate is 136 too."""
    return sponge(padded(message, 0x06), 32)


def shake256(message, length):
    """6.2: SHAKE256."""
    return sponge(padded(message, 0x1F), length)
