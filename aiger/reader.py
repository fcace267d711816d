#!/usr/bin/env python3
"""An ASCII AIGER reader and writer of its own, to compare the library's with: written from the words of the request, not from its definitions.
Only 13's place, which the request leaves open, is the library's choice: the first byte of the first latch line with such a reset.

usage: aiger/reader.py [-l] [-a GATES RECORDS LATCHES] FILE ..     (says of each file what aiger/rounds says)
-l adds the lists, -a says how many numbers the areas hold: as many as are needed, if not given.
Exit status: 0 all are read, 1 one is refused, 2 one could not be tried.
"""
import re
import sys

EMPTY = 2**32 - 1  # each literal of a leaf
MOST_VARIABLES = 2**31 - 1
MOST_PINS = 65_535
MOST_NUMBERS = 65_536  # of records

NUMBER = rb"(0|[1-9][0-9]*)"
HEADER = re.compile(rb"aag" + (rb" " + NUMBER) * 5)
LINES = {
    "input": re.compile(NUMBER),
    "latch": re.compile(NUMBER + rb" " + NUMBER + rb"(?: " + NUMBER + rb")?"),
    "output": re.compile(NUMBER),
    "gate": re.compile(NUMBER + rb" " + NUMBER + rb" " + NUMBER),
}
SYMBOL = re.compile(rb"([ilo])" + NUMBER + rb" [^\n]*")

# a count of ten thousand digits is a number too
if hasattr(sys, "set_int_max_str_digits"):
    sys.set_int_max_str_digits(0)


class Refused(Exception):
    """A number other than 0, with the place or the pin that belongs to it."""

    def __init__(self, number, place=0, pin=0):
        super().__init__(number)
        self.number, self.place, self.pin = number, place, pin


def numbers(match):
    """The numbers of a line."""
    return [int(text) for text in match.groups() if text is not None]


def lines(data):
    """Each complete line with the place of its first byte, then None with the file's length where the last one is cut."""
    place = 0
    while place < len(data):
        end = data.find(b"\n", place)
        if end < 0:
            yield len(data), None
            return
        yield place, data[place:end]
        place = end + 1


def is_line(kind, found, most):
    """Are these the numbers of such a line, of no literal above `most`?"""
    if max(found) > most:
        return False
    if kind != "output" and (found[0] % 2 == 1 or found[0] == 0):
        return False
    return kind != "latch" or len(found) == 2 or found[2] in (0, 1, found[0])


class File:
    """The lines of a file that is neither malformed (12) nor has a reset value other than 0 (13, with its line)."""

    def __init__(self, data):
        rest = lines(data)
        place, text = next(rest, (len(data), None))
        if text is None:
            raise Refused(12, len(data))
        header = HEADER.fullmatch(text)
        if not header:
            raise Refused(12, place)
        self.variables, inputs, latches, outputs, gates = numbers(header)
        if self.variables > MOST_VARIABLES or inputs + latches + gates > self.variables:
            raise Refused(12, place)
        counts = {"input": inputs, "latch": latches, "output": outputs, "gate": gates}
        self.found = {kind: [] for kind in counts}
        bad, resets, uses, defined, cut = [], [], [], {0}, False

        for kind, count in counts.items():
            for _ in range(count):
                place, text = next(rest, (len(data), None))
                if text is None:
                    cut = True
                    break
                match = LINES[kind].fullmatch(text)
                if not match or not is_line(kind, numbers(match), 2 * self.variables + 1):
                    bad.append(place)
                    continue
                found = numbers(match)
                self.found[kind].append(found)
                if kind != "output":
                    if found[0] // 2 in defined:
                        bad.append(place)
                    defined.add(found[0] // 2)
                if kind == "latch" and found[2:] not in ([], [0]):
                    resets.append(place)
                uses += [(place, literal // 2) for literal in (found if kind == "output" else found[1:])]
            if cut:
                break

        below = {b"i": inputs, b"l": latches, b"o": outputs}
        for place, text in rest:
            if text is None:
                cut = True
            elif text == b"c":
                break
            else:
                match = SYMBOL.fullmatch(text)
                if not match or int(match[2]) >= below[match[1]]:
                    bad.append(place)

        if cut:
            bad.append(len(data))
        else:
            bad += [place for place, variable in uses if variable not in defined]
        if bad:
            raise Refused(12, min(bad))
        if resets:
            raise Refused(13, resets[0])


def first_on_loop(gates):
    """The smallest pin on a loop of gates, or None. `gates` has the pins that each gate takes."""
    waiting = {pin: {taken for taken in pins if taken in gates} for pin, pins in gates.items()}
    takers = {}
    for pin, pins in waiting.items():
        for taken in pins:
            takers.setdefault(taken, []).append(pin)
    free = [pin for pin, pins in waiting.items() if not pins]
    while free:
        done = free.pop()
        del waiting[done]
        for pin in takers.get(done, ()):
            waiting[pin].discard(done)
            if not waiting[pin]:
                free.append(pin)
    for pin in sorted(waiting):
        seen, front = set(), [pin]
        while front:
            for taken in waiting[front.pop()]:
                if taken == pin:
                    return pin
                if taken not in seen:
                    seen.add(taken)
                    front.append(taken)
    return None


def read(data, sizes=None):
    """Gates, records and latches of a file, for areas of so many numbers each."""
    file = File(data)
    latches, outputs, gates = file.found["latch"], file.found["output"], file.found["gate"]
    needed = (2 * (file.variables + 1), 3 * len(latches) + 2 * len(outputs), len(latches))
    if sizes is not None and any(has < needs for has, needs in zip(sizes, needed)):
        raise Refused(2)
    if file.variables > MOST_PINS or any(literal < 2 for gate in gates for literal in gate[1:]):
        raise Refused(3)
    pin = first_on_loop({gate[0] // 2: [literal // 2 for literal in gate[1:]] for gate in gates})
    if pin is not None:
        raise Refused(23, pin=pin)
    if needed[1] > MOST_NUMBERS:
        raise Refused(4)
    graph = [EMPTY] * needed[0]
    for defined, left, right in gates:
        graph[defined : defined + 2] = [left, right]
    records = [number for latch in latches for number in (2, 1, latch[1])]
    records += [number for output in outputs for number in (1, output[0])]
    return graph, records, [latch[0] // 2 for latch in latches]


def write(graph, given, records, latches, size=None):
    """The file of a job, for an area of so many bytes."""
    pins = len(graph) // 2 - 1
    most = 2 * pins + 1
    count = len(latches)
    flops, outputs = records[: 3 * count], records[3 * count :]
    gates = [pin for pin in range(pins + 1) if graph[2 * pin : 2 * pin + 2] != [EMPTY, EMPTY]]
    fine = (
        len(graph) % 2 == 0
        and 0 <= pins <= MOST_PINS
        and not given
        and 0 not in gates
        and all(2 <= literal <= most for pin in gates for literal in graph[2 * pin : 2 * pin + 2])
        and first_on_loop({pin: [graph[2 * pin] // 2, graph[2 * pin + 1] // 2] for pin in gates}) is None
        and len(records) <= MOST_NUMBERS
        and len(flops) == 3 * count
        and all(flops[3 * i : 3 * i + 2] == [2, 1] and flops[3 * i + 2] <= most for i in range(count))
        and len(outputs) % 2 == 0
        and all(kind == 1 for kind in outputs[::2])
        and all(literal <= most for literal in outputs[1::2])
        and len(set(latches)) == count
        and all(1 <= pin <= pins and pin not in set(gates) for pin in latches)
    )
    if not fine:
        raise Refused(14)
    taken = set(gates) | set(latches) | {0}
    inputs = [pin for pin in range(pins + 1) if pin not in taken]
    text = [f"aag {pins} {len(inputs)} {count} {len(outputs) // 2} {len(gates)}"]
    text += [f"{2 * pin}" for pin in inputs]
    text += [f"{2 * pin} {flops[3 * i + 2]}" for i, pin in enumerate(latches)]
    text += [f"{literal}" for literal in outputs[1::2]]
    text += [f"{2 * pin} {graph[2 * pin]} {graph[2 * pin + 1]}" for pin in gates]
    data = "".join(line + "\n" for line in text).encode()
    if size is not None and size < len(data):
        raise Refused(2)
    return data


def said(data, sizes=None, lists=False):
    """What aiger/rounds says of these bytes, as lines, and what was read or None."""
    try:
        found = read(data, sizes)
    except Refused as refused:
        return [f"number {refused.number} place {refused.place} pin {refused.pin} gates 0 records 0 latches 0"], None
    names = ("gates", "records", "latches")
    text = [" ".join(["number 0 place 0 pin 0", *(f"{name} {len(area)}" for name, area in zip(names, found))])]
    if lists:
        text += [" ".join([name, *map(str, area)]) for name, area in zip(names, found)]
    return text, found


def main():
    words, lists, sizes = sys.argv[1:], False, None
    if words[:1] in (["-h"], ["--help"]):
        print(__doc__)
        sys.exit(0)
    if words[:1] == ["-l"]:
        words, lists = words[1:], True
    if words[:1] == ["-a"]:
        if len(words) < 4 or not all(word.isdecimal() for word in words[1:4]):
            words = []
        else:
            words, sizes = words[4:], tuple(map(int, words[1:4]))
    if not words:
        print(__doc__, file=sys.stderr)
        sys.exit(2)
    worst = 0
    for name in words:
        try:
            with open(name, "rb") as file:
                data = file.read()
        except OSError as error:
            print(f"reader: {name}: {error.strerror}", file=sys.stderr)
            worst = 2
            continue
        text, found = said(data, sizes, lists)
        print("\n".join(text))
        if found is None:
            worst = max(worst, 1)
    sys.exit(worst)


if __name__ == "__main__":
    main()
