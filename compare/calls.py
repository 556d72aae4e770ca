"""Writes random calls of every entry with the reference's answers to standard output (compare/README.md has the layout).

    python3 compare/calls.py SEED COUNT [small]

COUNT is the least number of lines; `small` leaves out those around 16 MiB. Fails unless every refusal of include/refusals.txt that is then within
reach, and an acceptance of every entry, are among the answers, those of `seed` and `draw` for either generator, and every row of the table in
docs/RULES.md, "Places", for every entry that can meet it.
"""

import os
import random
import sys
from collections import Counter

import fast_sponge  # before every other module of the reference
import hall_calls
import hash_calls
import limit_calls
import migration_calls
import place_calls
import plan_calls
import seal_calls

# How often each kind is chosen; a session, a seal or a generator is several lines.
KINDS = {
    hash_calls.permutation: 3,
    hash_calls.cshake: 20,
    hash_calls.kmac: 14,
    hash_calls.kmacxof: 14,
    hash_calls.session: 6,
    seal_calls.seal: 10,
    seal_calls.cshake_generator: 5,
    seal_calls.kmac_generator: 5,
    plan_calls.read: 8,
    plan_calls.look: 12,
    plan_calls.row: 12,
    plan_calls.write: 6,
    plan_calls.walk: 3,
    migration_calls.migrate: 6,
    hall_calls.read: 6,
    hall_calls.look: 8,
    hall_calls.read_into: 8,
    hall_calls.write: 7,
}
FRESH, OF_GENERATORS = ("generator_fresh", "kmac_generator_fresh"), ("seed", "draw")
LIMITS = (limit_calls.one_shot, limit_calls.session, limit_calls.seal, limit_calls.draw, hall_calls.too_many_entries)


def lines(rng, count, small):
    """The lines, those at the limits first."""
    yield from plan_calls.limits(rng)
    yield from migration_calls.limits(rng)
    yield from hall_calls.limits(rng)
    yield from place_calls.limits(rng)
    if not small:
        for calls in LIMITS:
            yield from calls(rng)
    written = 0
    while written < count:
        (calls,) = rng.choices(list(KINDS), KINDS.values())
        found = list(calls(rng))
        if not (small and any("16777" in line for line in found)):
            yield from found
            written += len(found)


def answer_of(line):
    """(entry, number): 0 where the line has none."""
    call, _, answer = line.partition(" =")
    entry = call.split(" ")[0]
    return entry, int(answer.split()[0]) if answer and entry != "keccak_p" else 0


def answers(made):
    """Each line with its entry and number; where the line goes on with a generator, the entry is named with the one it is."""
    fresh = None
    for line in made:
        entry, number = answer_of(line)
        fresh = entry if entry in FRESH else fresh
        yield line, (f"{fresh}, {entry}" if entry in OF_GENERATORS else entry, number)


def owed():
    """Every refusal in words, and an acceptance of its entry."""
    with open(os.path.join(fast_sponge.ROOT, "include", "refusals.txt"), encoding="ascii") as table:
        refusals = {(entry, int(number)) for entry, number, *_ in map(str.split, table)}
    named = {(name, number) for entry, number in refusals for name in ([f"{fresh}, {entry}" for fresh in FRESH] if entry in OF_GENERATORS else [entry])}
    return named | {(entry, 0) for entry, _ in named}


def main(seed, count, small):
    seen, breaches = Counter(), Counter()
    for line, answer in answers(lines(random.Random(seed), count, small)):
        print(line)
        seen[answer] += 1
        breaches[place_calls.met(line)] += 1
    missing = sorted(owed() - set(seen))
    extra = sorted(pair for pair in set(seen) - owed() if pair[1] != 0)
    if extra or (missing and not small):
        sys.exit(f"calls.py: answers not among the calls: {missing}; answers without words: {extra}")
    if place_calls.owed() - set(breaches):
        sys.exit(f"calls.py: breaches not among the calls: {sorted(place_calls.owed() - set(breaches))}")
    rarest = min(breaches[met] for met in place_calls.owed())
    accepted = sum(times for (_, number), times in seen.items() if number == 0)
    print(f"{seen.total()} calls of {len({entry for entry, _ in seen})} entries, {accepted} of them accepted, seed {seed}", file=sys.stderr)
    print(f"{len(place_calls.owed())} breaches of plans, each by entry and rule, at least {rarest} times", file=sys.stderr)


if __name__ == "__main__":
    main(sys.argv[1], int(sys.argv[2]), sys.argv[3:] == ["small"])
