"""Prints Keccak-p[1600, 24] (FIPS 202, 3.3) of the zero state, applied once, twice and 1,002 times.

Each state is a heading and 25 lines of one lane each, lane 0 first, as 16 lower-case hexadecimal digits.
"""

from fips202 import keccak_p

HEADINGS = {1: "once", 2: "twice", 1002: "1002 times"}


def main():
    lanes = [0] * 25
    for times in range(1, max(HEADINGS) + 1):
        lanes = keccak_p(lanes)
        if times in HEADINGS:
            print(HEADINGS[times], *(f"{lane:016x}" for lane in lanes), sep="\n")


if __name__ == "__main__":
    main()
