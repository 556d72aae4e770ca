"""Runs the cases of vectors/cases.jsonl against the reference (vectors/README.md has their format).

    python3 reference/cases.py [small]

`small` leaves out the cases of more than 10,000 permutation runs. Prints `N cases agree`, and how
many were compared through migration, since their plans have padded numbers, or each difference and
exit status 1.
"""

import json
import sys
from multiprocessing import Pool
from pathlib import Path

import generator
import sealing
import sessions
import sp800_185
from plan_vectors import check_plan, check_two_plans, padded
from vector import data, differences, shown

CASES = Path(__file__).resolve().parent.parent / "vectors" / "cases.jsonl"
LARGE = 10_000  # permutation runs


def check_cshake256(case):
    name, custom, message = (data(case[field]) for field in ("name", "custom", "message"))
    number, runs, output = sp800_185.cshake256(message, case["out"], name, custom)
    return differences(case, number=number, runs=runs, output=shown(output))


def check_keyed(case):
    function = {"kmac256": sp800_185.kmac256, "kmacxof256": sp800_185.kmacxof256}[case["entry"]]
    key, custom, message = (data(case[field]) for field in ("key", "custom", "message"))
    number, runs, output = function(key, message, case["out"], custom)
    return differences(case, number=number, runs=runs, output=shown(output))


def check_seal(case):
    key, iv, text, label = (data(case[field]) for field in ("key", "iv", "text", "label"))
    answer = sealing.seal(key, iv, text, label, case["out"], case["tag_length"])
    number, runs, output, tag = answer
    return differences(case, number=number, runs=runs, output=shown(output), tag=shown(tag))


def check_open(case):
    key, iv, text, label, tag = (data(case[field]) for field in ("key", "iv", "text", "label", "tag"))
    number, runs, output = sealing.open_sealed(key, iv, text, label, tag, case["out"])
    return differences(case, number=number, runs=runs, output=shown(output))


def check_generator(case):
    state, found = generator.Generator(generator.CSHAKE), []
    for place, call in enumerate(case["calls"]):
        if call["call"] == "seed":
            answer = generator.seed(state, data(call["seed"]), data(call["personalisation"]))
            number, runs, state = answer
            fields = {}
        else:
            number, runs, output, state = generator.draw(state, data(call["additional"]), call["out"])
            fields = {"output": shown(output)}
        fields |= {"number": number, "runs": runs, "key": state.key.hex()}
        found += differences(call, f"call {place}: ", **fields)
    return found


def start(case):
    """(number, session) of a session's case."""
    if case["kind"] == "cshake":
        return sessions.start_cshake256(data(case["name"]), data(case["custom"]))
    return sessions.start_kmacxof256(data(case["key"]), data(case["custom"]))


def check_session(case):
    number, state = start(case)
    found = differences(case, start=number)
    for place, call in enumerate(case["calls"]):
        if call["call"] == "take":
            number, state = sessions.take(state, data(call["piece"]))
            fields = {"number": number}
        else:
            number, output, state = sessions.give(state, call["out"])
            fields = {"number": number, "output": shown(output)}
        found += differences(call, f"call {place}: ", **fields)
    return found


CHECKS = {
    "cshake256": check_cshake256,
    "kmac256": check_keyed,
    "kmacxof256": check_keyed,
    "seal": check_seal,
    "open": check_open,
    "generator": check_generator,
    "session": check_session,
    "plan": check_plan,
    "two_plans": check_two_plans,
}


def check(numbered_case):
    """The differences of one case, each with its line in the file and its entry."""
    line, case = numbered_case
    return [f"line {line}, {case['entry']}: {text}" for text in CHECKS[case["entry"]](case)]


def main(arguments):
    lines = CASES.read_text().splitlines()
    cases = list(enumerate(map(json.loads, lines), 1))
    if "small" in arguments:
        cases = [(line, case) for line, case in cases if case.get("runs", 0) <= LARGE]
    with Pool() as pool:
        found = [text for texts in pool.imap(check, cases) for text in texts]
    for text in found:
        print(text)
    if not found:
        left_out, through = len(lines) - len(cases), sum(bool(padded(case)) for _, case in cases)
        print(f"{len(cases)} cases agree, {through} of them through migration" + (f", {left_out} large ones left out" if left_out else ""))
    return 1 if found else 0


if __name__ == "__main__":
    sys.exit(main(sys.argv[1:]))
