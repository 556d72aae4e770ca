"""Compares the reference with Python's hashlib and the openssl command on random inputs.

    python3 reference/compare_hashlib.py [seed]

SHAKE256 and SHA3-256 are compared with hashlib; cSHAKE256 with OpenSSL's sponge of suffix 04, fed a
prefix that is laid out here by other means; KMAC256 and KMACXOF256 with `openssl mac`. Prints the
seed and the number of inputs that agree, or each difference and exit status 1; where OpenSSL 3 or
its command is missing, what was not compared.
"""

import hashlib
import random
import subprocess
import sys

from fips202 import sha3_256
from sp800_185 import cshake256, kmac256, kmacxof256

ROUNDS = 100  # inputs for each function
EDGES = [0, 1, 3, 4, 31, 32, 33, 125, 126, 127, 130, 131, 132, 133, 134, 135, 136, 137, 255, 256, 271, 272, 273]
KEYS = range(4, 513)  # the lengths that openssl takes
CUSTOMS = range(0, 257)


def random_bytes(rng, allowed=range(0, 1200)):
    """Random bytes of an allowed length, half of the time one at the edge of a block or an encoding."""
    edges = [edge for edge in EDGES if edge in allowed]
    return rng.randbytes(rng.choice(edges) if rng.random() < 0.5 else rng.choice(allowed))


def counted(string):
    """encode_string (SP 800-185, 2.3.2) by way of hexadecimal digits."""
    digits = f"{8 * len(string):x}"
    length = bytes.fromhex("0" * (len(digits) % 2) + digits)
    return bytes([len(length)]) + length + string


def hashlib_cshake256(message, length, name, custom):
    """SP 800-185, 3.3, over a sponge that is not ours."""
    if name == custom == b"":
        return hashlib.shake_256(message).digest(length)
    prefix = b"\x01\x88" + counted(name) + counted(custom)
    while len(prefix) % 136 != 0:
        prefix += b"\x00"
    return hashlib.new("KECCAK-KMAC-256", prefix + message).digest(length)


def openssl_kmac(key, message, length, custom, xof):
    """`openssl mac`: KMAC256, or with xof KMACXOF256."""
    options = [f"hexkey:{key.hex()}", f"size:{length}", f"xof:{xof:d}"]
    options += [f"hexcustom:{custom.hex()}"] if custom else []
    flags = [part for option in options for part in ("-macopt", option)]
    command = ["openssl", "mac", *flags, "-binary", "KMAC-256"]
    return subprocess.run(command, input=message, stdout=subprocess.PIPE, check=True).stdout


def sha3_pair(rng):
    """SHA3-256 of one random input by the reference and by the other: (input, ours, theirs)."""
    message = random_bytes(rng)
    return message.hex(), sha3_256(message), hashlib.sha3_256(message).digest()


def shake_pair(rng):
    """SHAKE256, which is cSHAKE256 without name and customisation."""
    message, length = random_bytes(rng), rng.choice(EDGES)
    theirs = hashlib.shake_256(message).digest(length)
    return f"{message.hex()}, {length} out", cshake256(message, length, b"", b"")[2], theirs


def cshake_pair(rng):
    """cSHAKE256 with any name and customisation."""
    message, name, custom = (random_bytes(rng) for _ in range(3))
    arguments = message, rng.choice(EDGES), name, custom
    return arguments, cshake256(*arguments)[2], hashlib_cshake256(*arguments)


def keyed_pair(rng, function, xof):
    """KMAC256 or KMACXOF256."""
    key, message, custom = random_bytes(rng, KEYS), random_bytes(rng), random_bytes(rng, CUSTOMS)
    arguments = key, message, rng.choice(EDGES[1:]), custom
    return arguments, function(*arguments)[2], openssl_kmac(*arguments, xof)


PAIRS = {
    "SHA3-256": sha3_pair,
    "SHAKE256": shake_pair,
    "cSHAKE256": cshake_pair,
    "KMAC256": lambda rng: keyed_pair(rng, kmac256, False),
    "KMACXOF256": lambda rng: keyed_pair(rng, kmacxof256, True),
}


def missing(title):
    """Why the other side does not have a function; None if it has. Only the other side is asked here."""
    try:
        if title == "cSHAKE256":
            hashlib_cshake256(b"", 32, b"name", b"")
        elif title.startswith("KMAC"):
            openssl_kmac(bytes(32), b"", 32, b"", False)
    except (ValueError, OSError, subprocess.CalledProcessError) as reason:
        return reason
    return None


def agrees(title, rng):
    """Whether all random inputs of a function agree, each difference printed."""
    results = [PAIRS[title](rng) for _ in range(ROUNDS)]
    wrong = [given for given, ours, theirs in results if ours != theirs]
    for given in wrong:
        print(f"{title} differs: {given}")
    print(f"{title}: {ROUNDS - len(wrong)} of {ROUNDS} inputs agree")
    return not wrong


def main(arguments):
    seed = int(arguments[0]) if arguments else 202_185
    print(f"seed {seed}")
    rng = random.Random(seed)
    answers = []
    for title in PAIRS:
        reason = missing(title)
        if reason:
            print(f"{title}: not compared, {reason}")
        else:
            answers.append(agrees(title, rng))
    return 0 if all(answers) else 1


if __name__ == "__main__":
    sys.exit(main(sys.argv[1:]))
