"""What a case of vectors/cases.jsonl gives and expects: bytes, outputs and fields."""

from fips202 import sha3_256

PERIOD = bytes((7 * i + 3) % 256 for i in range(256))


def data(value):
    """The bytes that a case gives in hexadecimal or as a pattern's length."""
    if "hex" in value:
        return bytes.fromhex(value["hex"])
    length = value["pattern"]
    return (PERIOD * (length // 256 + 1))[:length]


def shown(output):
    """An output as the cases give it: null, hexadecimal, or over 700 bytes its SHA3-256."""
    if output is None:
        return None
    return output.hex() if len(output) <= 700 else {"sha3_256": sha3_256(output).hex()}


def differences(expected, where="", **found):
    """A line for each field in which the reference differs from the case."""
    return [
        f"{where}{field}: the case has {expected[field]}, the reference {value}"
        for field, value in found.items()
        if expected[field] != value
    ]
