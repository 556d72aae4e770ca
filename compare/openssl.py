"""Works the accepted hash calls of the file out with Python's hashlib and the command `openssl mac`, and compares the outputs.

    python3 compare/openssl.py FILE [MOST]

cSHAKE256 without name and customisation is SHAKE256, and all such lines go to hashlib and to Python's own implementation. KMAC256 and KMACXOF256 go
to OpenSSL 3, at most MOST of them (400 unless given), evenly chosen over the file but with every message of 1 MiB or more. Prints how many were
compared and how many lie outside OpenSSL's limits; exits with 1 on any difference, or where a function has no line to compare.
"""

import _sha3
import hashlib
import shutil
import subprocess
import sys
import tempfile
from collections import Counter
from typing import Any, Dict, List

from callfile import Call, agrees, calls

# hashlib's SHAKE256 is OpenSSL's where Python is built with it; _sha3 has Python's own.
SHAKES = {"hashlib's SHAKE256": hashlib.shake_256, "Python's own SHAKE256": _sha3.shake_256}
XOF = {"kmac256": 0, "kmacxof256": 1}
KEYS = range(4, 513)  # the lengths that OpenSSL 3.0 takes
CUSTOMISATIONS = range(0, 513)
OUTPUTS = range(1, 8_193)  # the command's limit; the library's own is 2,097,151. An output of no bytes has nothing to compare
LONG = 1 << 20


def within(given: Any) -> bool:
    """Whether OpenSSL takes a call."""
    return len(given.key) in KEYS and len(given.customisation) in CUSTOMISATIONS and given.length in OUTPUTS


def chosen(found: List[Call], most: int) -> List[Call]:
    """The calls with long messages, and of the others as many as make up `most`, at even distances."""
    long = [call for call in found if len(call.given.message) >= LONG]
    short = [call for call in found if len(call.given.message) < LONG]
    wanted = min(len(short), max(0, most - len(long)))
    return long + [short[place * len(short) // wanted] for place in range(wanted)]


def mac(call: Call) -> bytes:
    """By the command; an empty customisation is one that is not given."""
    given = call.given
    options = [f"hexkey:{given.key.hex()}", f"size:{given.length}", f"xof:{XOF[call.entry]}"]
    options += [f"hexcustom:{given.customisation.hex()}"] if given.customisation else []
    with tempfile.NamedTemporaryFile() as message:
        message.write(given.message)
        message.flush()
        flags = [part for option in options for part in ("-macopt", option)]
        command = ["openssl", "mac", *flags, "-binary", "-in", message.name, "KMAC-256"]
        return subprocess.run(command, stdout=subprocess.PIPE, check=True).stdout


def compared(title: str, pairs: Any) -> int:
    """How many differ of (call, output of the other implementation), each printed."""
    count = differ = 0
    for call, output in pairs:
        count += 1
        if not agrees(call.answer.output, output):
            differ += 1
            print(f"line {call.line}: {call.entry} differs: the file has {call.answer.output}, {title} {output.hex()}"[:400])
    print(f"{title}: {count - differ} outputs agree, {differ} differ")
    return differ


def main(path: str, most: int) -> int:
    plain: List[Call] = []
    keyed: Dict[str, List[Call]] = {entry: [] for entry in XOF}
    outside: Counter = Counter()
    for call in calls(path):
        if call.entry == "cshake256" and call.answer.number == 0 and not call.given.name and not call.given.customisation:
            plain.append(call)
        elif call.entry in XOF and call.answer.number == 0:
            if within(call.given):
                keyed[call.entry].append(call)
            else:
                outside[call.entry] += 1
    if not (plain and all(keyed.values())):
        raise ValueError(f"{path} lacks calls of SHAKE256, KMAC256 or KMACXOF256 to compare")
    differ = 0
    for title, function in SHAKES.items():
        differ += compared(title, ((call, function(call.given.message).digest(call.given.length)) for call in plain))
    within_limits = sorted((call for found in keyed.values() for call in found), key=lambda call: call.line)
    picked = chosen(within_limits, most)
    for entry in XOF:
        differ += compared(f"OpenSSL's {entry.upper()}", ((call, mac(call)) for call in picked if call.entry == entry))
    print(f"OpenSSL: {len(picked)} of {len(within_limits)} KMAC lines within its limits were compared, {sum(outside.values())} lie outside them")
    return 1 if differ else 0


if __name__ == "__main__":
    if len(sys.argv) not in (2, 3):
        sys.exit(__doc__)
    if shutil.which("openssl") is None:
        sys.exit("openssl.py: the command openssl (version 3 or later) is not on the PATH: install it (Debian: openssl)")
    try:
        sys.exit(main(sys.argv[1], int(sys.argv[2]) if len(sys.argv) == 3 else 400))
    except (OSError, ValueError, subprocess.CalledProcessError) as reason:
        sys.exit(f"openssl.py: {reason}")
