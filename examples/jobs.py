"""The job file and its text form: what examples/job writes, and what examples/why reads back to say where a job goes wrong.

The text form has one thing a line; '#' starts a comment; a line that begins with a number goes on with the line before it; L*N stands for
N times L.

    height K               first
    pins N                 second; each pin is a leaf unless a gate line names it
    gate P A B             pin P is the AND of the literals A and B
    given P                pin P is given
    output L               endpoint records, in the order in which they stand:
    flipflop E D               literals of enable and data
    memory L ..                91 literals: read enable; read and write address bit i for i = 0..12; write enable and data bit i for i = 0..31
    staged P                   a pin

A literal is 2 * pin + inversion. What fits the file's fields is written as it stands: whether it is a good job is the program's answer.
"""
import re

# the numbers of a line, each with its width in bits
FIELDS = {
    "height": [4],
    "pins": [16],
    "gate": [16, 17, 17],
    "given": [16],
    "output": [17],
    "flipflop": [17, 17],
    "memory": [17] * 91,
    "staged": [16],
}
KINDS = {"output": 1, "flipflop": 2, "memory": 3, "staged": 4}

# the sizes of the job program
BYTES, HEIGHT, PINS, NUMBERS = 8192, 10, 500, 512


class Wrong(Exception):
    """A text that is no job, and the line that says so."""

    def __init__(self, line, what):
        super().__init__(what)
        self.line = line


class Job:
    """A job. Beside each gate, given pin and record stands the line of its text, or None for one that was read from a file."""

    def __init__(self):
        self.height = self.pins = None
        self.gates = {}  # pin: (line, literals)
        self.given = []  # (line, pin)
        self.records = []  # (line, word, numbers)


def numbers(line, words):
    """The numbers that words stand for, with L*N written out."""
    found = []
    for word in words:
        match = re.fullmatch(r"([0-9]{1,9})(?:\*([0-9]{1,5}))?", word)
        if not match:
            raise Wrong(line, f"'{word}' is no number")
        found += [int(match[1])] * int(match[2] or 1)
    return found


def things(text):
    """(line, word, numbers) of each thing, a line that begins with a number joined to the one before."""
    found = []
    for line, written in enumerate(text.split("\n"), 1):
        words = written.split("#")[0].split()
        if not words:
            continue
        if words[0][0].isdigit():
            if not found:
                raise Wrong(line, "a number with no line before it")
            found[-1][2].extend(numbers(line, words))
        elif words[0] in FIELDS:
            found.append((line, words[0], numbers(line, words[1:])))
        else:
            raise Wrong(line, f"'{words[0]}' is none of {', '.join(FIELDS)}")
    return found


def checked(line, word, values):
    """The values, each fitting its field."""
    widths = FIELDS[word]
    if len(values) != len(widths):
        raise Wrong(line, f"{word} takes {len(widths)} numbers, here are {len(values)}")
    for value, width in zip(values, widths):
        if value >= 1 << width:
            raise Wrong(line, f"{value} does not fit {width} bits")
    return values


def parsed(text):
    """The job that a text describes."""
    job = Job()
    for line, word, values in things(text):
        values = checked(line, word, values)
        if word == "height":
            if job.height is not None:
                raise Wrong(line, "a second height")
            job.height = values[0]
        elif word == "pins":
            if job.pins is not None:
                raise Wrong(line, "pins a second time")
            job.pins = values[0]
        elif job.pins is None:
            raise Wrong(line, f"{word} before pins")
        elif word == "gate":
            pin = values[0]
            if not 1 <= pin <= job.pins:
                raise Wrong(line, f"gate at pin {pin}, of 1 to {job.pins}")
            if pin in job.gates:
                raise Wrong(line, f"a second gate at pin {pin}")
            job.gates[pin] = (line, values[1:])
        elif word == "given":
            job.given.append((line, values[0]))
        else:
            job.records.append((line, word, values))
    last = len(text.split("\n"))
    if job.height is None:
        raise Wrong(last, "no height")
    if job.pins is None:
        raise Wrong(last, "no pins")
    if len(job.given) >= 1 << 16 or len(job.records) >= 1 << 16:
        raise Wrong(last, "more given pins or records than 65535")
    return job


def bits(value, width):
    return format(value, f"0{width}b")


def written(job):
    """The job file's bytes."""
    out = [bits(job.height, 4), bits(job.pins, 16)]
    for pin in range(1, job.pins + 1):
        out.append("1" + "".join(bits(x, 17) for x in job.gates[pin][1]) if pin in job.gates else "0")
    out.append(bits(len(job.given), 16))
    out += [bits(pin, 16) for _, pin in job.given]
    out.append(bits(len(job.records), 16))
    for _, word, values in job.records:
        out.append(bits(KINDS[word], 3))
        out += [bits(x, w) for x, w in zip(values, FIELDS[word])]
    stream = "".join(out)
    stream += "0" * (-len(stream) % 8)
    return bytes(int(stream[i:i + 8], 2) for i in range(0, len(stream), 8))


class NoJob(Exception):
    """Bytes that are no job file, and why."""


class Bits:
    """The bits of bytes, most significant first."""

    def __init__(self, data):
        self.stream = "".join(bits(byte, 8) for byte in data)
        self.at = 0

    def take(self, width, what):
        if self.at + width > len(self.stream):
            raise NoJob(f"the file is cut: after {len(self.stream) // 8} bytes it ends in {what}")
        self.at += width
        return int(self.stream[self.at - width:self.at], 2)


def read(data):
    """The job in a file's bytes, whatever the program's sizes are; the checks in the order in which the program refuses."""
    if len(data) > BYTES:
        raise NoJob(f"the file is longer than {BYTES} bytes")
    job, stream = Job(), Bits(data)
    job.height = stream.take(4, "the height")
    job.pins = stream.take(16, "the number of pins")
    for pin in range(1, job.pins + 1):
        if stream.take(1, f"pin {pin} of {job.pins}"):
            job.gates[pin] = (None, [stream.take(17, f"the gate at pin {pin}") for _ in range(2)])
    count = stream.take(16, "the number of given pins")
    job.given = [(None, stream.take(16, f"given pin {i} of {count}")) for i in range(1, count + 1)]
    count = stream.take(16, "the number of records")
    words = {kind: word for word, kind in KINDS.items()}
    for i in range(1, count + 1):
        kind = stream.take(3, f"record {i} of {count}")
        if kind not in words:
            raise NoJob(f"record {i} has the unknown kind {kind}, of 1 to {len(words)}")
        word = words[kind]
        job.records.append((None, word, [stream.take(width, f"record {i} of {count}") for width in FIELDS[word]]))
    left = stream.stream[stream.at:]
    if len(left) >= 8:
        raise NoJob(f"{len(left) // 8} bytes are left over behind the last record")
    if "1" in left:
        raise NoJob("the padding of the last byte is not zero")
    return job


def too_large(job):
    """What of a job is over the program's sizes, or None."""
    many = sum(1 + len(values) for _, _, values in job.records)
    if job.height > HEIGHT:
        return f"height {job.height} is over the program's {HEIGHT}"
    if job.pins > PINS:
        return f"{job.pins} pins are over the program's {PINS}"
    if many > NUMBERS:
        return f"the records take {many} numbers, a kind and its literals each; the program holds {NUMBERS}"
    return None
