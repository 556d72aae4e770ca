"""Hailfeather from Python: Keccak-p[1600, 24], cSHAKE256, KMAC256 and KMACXOF256, running sessions, sealing and opening, the cSHAKE generator
and the KMAC generator, chute plans and hall plans (the submodules `plan` and `hall`), all by the proved library.

A call that the library refuses raises Refusal, a ValueError with the number and its words, and for a malformed plan the byte. Bytes may be bytes,
a bytearray or a memoryview; none may be changed by another thread while a call reads it.

>>> sealed = seal(bytes(range(32)), b"IV 1", plan.write([7, 300, 0]), label=b"depot 7")
>>> opened = open_sealed(bytes(range(32)), b"IV 1", sealed.ciphertext, sealed.tag, label=b"depot 7")
>>> plan.destination(opened, 2)
300

How long a call takes is not promised to be independent of secrets, and no randomness is gathered.

The shared object is the one that the environment variable HAILFEATHER_LIBRARY names; else it is made from the repository's static library.
"""

from . import hall, plan
from .generator import Generator, KmacGenerator
from .hashes import cshake256, keccak_p, kmac256, kmacxof256
from .lending import Output
from .refusal import Refusal
from .sealing import Sealed, open_sealed, seal
from .sessions import Session

__all__ = [
    "Generator",
    "KmacGenerator",
    "Output",
    "Refusal",
    "Sealed",
    "Session",
    "cshake256",
    "hall",
    "keccak_p",
    "kmac256",
    "kmacxof256",
    "open_sealed",
    "plan",
    "seal",
]
