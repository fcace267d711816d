#!/usr/bin/env python3
"""Write an AIGER file of many gates, the same at every call: the graph of a circuit that is deep near its outputs.

usage: aiger/large.py [-s] [GATES] > FILE.aag       (60,000 gates, about 1 MB, if no number is given)
-s numbers the variables as it likes, so that gates stand in no order.
"""
import random
import sys

INPUTS, LATCHES, OUTPUTS = 1_000, 2_000, 1_000


def main():
    words = sys.argv[1:]
    shuffled = words[:1] == ["-s"]
    words = words[shuffled:]
    if len(words) > 1 or not all(word.isdecimal() for word in words):
        print(__doc__, file=sys.stdout if words in (["-h"], ["--help"]) else sys.stderr)
        sys.exit(0 if words in (["-h"], ["--help"]) else 2)
    gates = int(words[0]) if words else 60_000
    chance = random.Random(2024)
    leaves = INPUTS + LATCHES
    variables = leaves + gates
    names = list(range(variables + 1))
    if shuffled:
        rest = names[1:]
        chance.shuffle(rest)
        names = [0] + rest

    def literal(variable):
        return 2 * names[variable] + chance.randrange(2)

    # most operands are of late gates, as after synthesis
    def operand(gate):
        return literal(chance.randrange(max(1, gate - 2_000), gate) if chance.randrange(4) else chance.randrange(1, gate))

    lines = [f"aag {variables} {INPUTS} {LATCHES} {OUTPUTS} {gates}"]
    lines += [f"{2 * names[pin]}" for pin in range(1, INPUTS + 1)]
    lines += [f"{2 * names[INPUTS + i]} {literal(chance.randrange(1, variables + 1))}" for i in range(1, LATCHES + 1)]
    lines += [f"{literal(chance.randrange(1, variables + 1))}" for _ in range(OUTPUTS)]
    lines += [f"{2 * names[pin]} {operand(pin)} {operand(pin)}" for pin in range(leaves + 1, variables + 1)]
    sys.stdout.write("\n".join(lines) + "\n")


if __name__ == "__main__":
    main()
