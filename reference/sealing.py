"""KMAC AEAD, 1.2: the KMAC AEAD, as docs/RULES.md, "Sealing", reads it.

`text` is the caller's text: plaintext in sealing, ciphertext in opening. `out_length` and
`tag_length` are the lengths of the lent output and tag. Label means the additional authenticated data.
"""

from fips202 import sponge
from refusals import MESSAGE_LIMIT, STRING_LIMIT, TAG_LENGTHS, smallest
from sp800_185 import fed_kmacxof256, runs

KEY_LENGTH = 32  # of the caller's key and of the authentication key (1.2.2: 256 bits)


def refusal(key, iv, text, label, out_length, tag_length):
    """The number of the length checks, which sealing and opening share: 2, 3, 5, 6 and 7."""
    return smallest(
        (2, len(key) != KEY_LENGTH),
        (3, len(iv) > STRING_LIMIT),
        (5, len(text) + len(label) > MESSAGE_LIMIT),
        (6, out_length != len(text)),
        (7, tag_length not in TAG_LENGTHS),
    )


def crypt(key, iv, text):
    """1.2.2, KMAC-Crypt: (the text combined with the key stream, authentication key, runs)."""
    fed = fed_kmacxof256(key, b"", iv)
    length = KEY_LENGTH + len(text)
    key_stream = sponge(fed, length)
    combined = bytes(a ^ b for a, b in zip(text, key_stream[KEY_LENGTH:]))
    return combined, key_stream[:KEY_LENGTH], runs(fed, length)


def auth(auth_key, label, ciphertext, tag_length):
    """1.2.3, KMAC-Auth: (tag, runs); the ciphertext stands before the label."""
    fed = fed_kmacxof256(auth_key, ciphertext + label, b"")
    return sponge(fed, tag_length), runs(fed, tag_length)


def seal(key, iv, text, label, out_length, tag_length):
    """1.2.4, KMAC-Encrypt: (number, runs, ciphertext or None, tag or None)."""
    number = refusal(key, iv, text, label, out_length, tag_length)
    if number:
        return number, 0, None, None
    ciphertext, auth_key, crypt_runs = crypt(key, iv, text)
    tag, auth_runs = auth(auth_key, label, ciphertext, tag_length)
    return 0, crypt_runs + auth_runs, ciphertext, tag


def open_sealed(key, iv, text, label, tag, out_length):
    """1.2.5, KMAC-Decrypt: (number, runs, plaintext or None); 8 if the tag does not match."""
    number = refusal(key, iv, text, label, out_length, len(tag))
    if number:
        return number, 0, None
    plaintext, auth_key, crypt_runs = crypt(key, iv, text)
    new_tag, auth_runs = auth(auth_key, label, text, len(tag))
    if new_tag != tag:
        return 8, 0, None
    return 0, crypt_runs + auth_runs, plaintext
