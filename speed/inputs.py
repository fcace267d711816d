#!/usr/bin/env python3
"""Write the inputs that speed/versions measures, a file each, always the same. The first six are those of oracle/bench, number for number.

usage: speed/inputs.py FOLDER
A file has 32-bit numbers, lowest byte first: how many numbers of gates, of records, of group indices and partitions it has (0 of the last
two for a build), then these lists. Its name says what it is.
"""
import array
import pathlib
import sys

sys.dont_write_bytecode = True
ROOT = pathlib.Path(__file__).resolve().parent.parent
sys.path.insert(0, str(ROOT / "aiger"))
import reader  # noqa: E402

EMPTY = 4294967295
WORD = 2**64 - 1


class Random:
    """Splitmix64, and the draws of oracle/src/random.rs."""

    def __init__(self, seed):
        self.state = seed

    def between(self, low, high):
        self.state = self.state + 0x9E3779B97F4A7C15 & WORD
        z = self.state
        z = (z ^ z >> 30) * 0xBF58476D1CE4E5B9 & WORD
        z = (z ^ z >> 27) * 0x94D049BB133111EB & WORD
        return low + (z ^ z >> 31) % (max(high, low) - low + 1)

    def chance(self, percent):
        return self.between(1, 100) <= percent

    def literal(self, pin):
        return 2 * pin + self.between(0, 1)


def scattered(r, leaves, gates, near, far):
    """Operands from the `near` pins before, or, so many in a hundred, from any; leaves may stand among the gates."""
    is_leaf = [True] * leaves + [False] * gates
    if r.chance(30):
        for i in range(leaves + gates - 2, 0, -1):
            j = r.between(0, i)
            is_leaf[1 + i], is_leaf[1 + j] = is_leaf[1 + j], is_leaf[1 + i]
    numbers = [EMPTY] * 2
    for pin, leaf in enumerate(is_leaf, 1):
        if leaf:
            numbers += [EMPTY] * 2
            continue
        a, b = (r.between(1 if r.chance(far) else max(1, pin - near), pin - 1) for _ in range(2))
        if r.chance(5):
            b = a
        numbers += [r.literal(a), r.literal(b)]
    return numbers


def chain(r, leaves, gates):
    """Each gate on the one before and a leaf, in either order."""
    numbers = [EMPTY] * (2 + 2 * leaves)
    for pin in range(leaves + 1, leaves + gates + 1):
        leaf = r.between(1, leaves)
        both = [r.literal(pin - 1), r.literal(leaf)]
        numbers += both if r.chance(50) else both[::-1]
    return numbers


def adders(bits, count):
    """Side by side: two leaves a bit, the carry runs through."""
    numbers = [EMPTY] * (2 + 4 * bits * count)

    def gate(a, b):
        numbers.extend((a, b))
        return len(numbers) - 2

    for adder in range(count):
        carry = None
        for bit in range(bits):
            a = 2 * (2 * (adder * bits + bit) + 1)
            both = gate(a, a + 2)
            half = gate(both ^ 1, gate(a ^ 1, a + 3) ^ 1)
            if carry is None:
                carry = both
                continue
            through = gate(half, carry)
            gate(through ^ 1, gate(half ^ 1, carry ^ 1) ^ 1)
            carry = gate(both ^ 1, through ^ 1) ^ 1
    return numbers


def tops(gates):
    """The gates that no gate uses."""
    used = {number // 2 for number in gates if number != EMPTY}
    return [pin for pin in range(1, len(gates) // 2) if pin not in used and gates[2 * pin] != EMPTY]


def outputs(gates, count, last=65535):
    return [number for pin in [pin for pin in tops(gates) if pin <= last][-count:] for number in (1, 2 * pin)]


def spread(r, records, parts):
    """The records, two numbers each, spread over partitions."""
    lists = [[] for _ in range(parts)]
    for record in range(len(records) // 2):
        lists[r.between(0, parts - 1)].append(record)
    lists = [part for part in lists if part]
    return [record for part in lists for record in part], [len(part) for part in lists]


def main():
    if len(sys.argv) != 2:
        sys.exit(__doc__)
    room = pathlib.Path(sys.argv[1])

    def put(name, gates, records, indices=(), lengths=()):
        lists = [list(gates), list(records), list(indices), list(lengths)]
        numbers = array.array("I", [len(part) for part in lists] + [number for part in lists for number in part])
        if sys.byteorder == "big":
            numbers.byteswap()
        (room / name).write_bytes(numbers.tobytes())

    # those of oracle/bench: one stream of draws, in its order
    r = Random(2024)
    for name, leaves, gates, near, far, last, count in (
        ("20,000 gates, near operands", 2000, 20_000, 1000, 0, 20_000, 200),
        ("20,000 gates, far operands", 2000, 20_000, 1000, 20, 20_000, 200),
        ("60,000 gates, near operands", 3000, 60_000, 3000, 0, 30_000, 100),
        ("60,000 gates, far operands", 3000, 60_000, 3000, 20, 40_000, 200),
    ):
        graph = scattered(r, leaves, gates, near, far)
        put(name, graph, outputs(graph, count, last))
    graph = chain(r, 64, 10_000)
    put("a chain of 10,000 gates", graph, outputs(graph, 1))
    graph = adders(16, 64)
    put("64 adders of 16 bits", graph, outputs(graph, 1000))
    # others
    r = Random(2025)
    for name, leaves, gates, near in (
        ("20,000 gates, near 2,000", 2000, 20_000, 2000),
        ("20,000 gates, near 300", 2000, 20_000, 300),
        ("60,000 gates, near 300", 3000, 60_000, 300),
    ):
        graph = scattered(r, leaves, gates, near, 0)
        put(name, graph, outputs(graph, 400))
    graph = adders(64, 112)
    put("ripple adders, 50,000 gates", graph, outputs(graph, 2000))
    for name in ("adder", "checksum", "dupfilter"):
        gates, records, _ = reader.read((ROOT / f"examples/{name}.aag").read_bytes())
        put(name, gates, records)
    graph = scattered(r, 2000, 20_000, 300, 0)
    records = outputs(graph, 3000)
    put("a merge of 200 partitions, 20,000 gates", graph, records, *spread(r, records, 200))


if __name__ == "__main__":
    main()
