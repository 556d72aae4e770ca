"""The reference with its sponge in C (sponge.c), so that inputs of 16 MiB take no minutes.

Importing this module first puts the C sponge into `fips202`, from where all other modules of the reference take it. The C sponge is
compared with the reference's own before it is used; Keccak-p itself stays the reference's.
"""

import ctypes
import os
import random
import subprocess
import sys

HERE = os.path.dirname(os.path.abspath(__file__))
ROOT = os.path.dirname(HERE)
sys.path.insert(0, os.path.join(ROOT, "reference"))

import fips202  # noqa: E402  (the path above leads to it)


def compiled():
    """The C sponge's shared object, compiled afresh."""
    path = os.path.join(ROOT, "target", "compare", "sponge.so")
    os.makedirs(os.path.dirname(path), exist_ok=True)
    sources = [os.path.join(HERE, "sponge.c"), os.path.join(ROOT, "bench", "portable_keccak.c")]
    subprocess.run(["gcc", "-O3", "-shared", "-fPIC", "-Wall", "-Wextra", "-Werror", "-o", path, *sources], check=True)
    library = ctypes.CDLL(path)
    library.sponge.argtypes = [ctypes.c_char_p, ctypes.c_size_t, ctypes.c_void_p, ctypes.c_size_t]
    library.sponge.restype = None
    return library


LIBRARY = compiled()


def sponge(fed, length):
    """fips202.sponge, in C."""
    output = ctypes.create_string_buffer(length + 1)
    LIBRARY.sponge(fed, len(fed), output, length)
    return output.raw[:length]


def compared(times=60):
    """Fails unless both sponges agree on random blocks and lengths."""
    rng = random.Random(2026)
    for _ in range(times):
        fed, length = rng.randbytes(fips202.RATE * rng.randint(1, 4)), rng.randint(0, 500)
        if sponge(fed, length) != fips202.sponge(fed, length):
            sys.exit(f"compare/sponge.c differs from reference/fips202.py on {fed.hex()}, {length} bytes out")


compared()
fips202.sponge = sponge
