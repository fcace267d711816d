"""Plan sheets 1 and 2, read and written by a reading that shares nothing with the library or the tool.

A plan is (height, stages); a stage is (words, cells); cells go from a position to (pin, AND, first inversion, second). A graph is the list of two literals a
pin, as the library takes it, or None.
"""

LEAF = 4294967295  # each literal of a leaf


class Refused(Exception):
    """Bytes that are not read, with the number."""

    def __init__(self, number):
        super().__init__(number)
        self.number = number


def lower(position):
    """Where the first lower cell stands; the second is a row further."""
    return position + (1 << (position.bit_length() - 1))


def coded(height, pins, graph):
    """The cells of a stage's pins, with what the graph says of them: a cell above level 0 copies where its first lower cell holds its pin, else it ANDs."""
    cells = {}
    for position, pin in pins.items():
        if pin >= len(graph) // 2:
            raise Refused(15)
        if position >> height or pins.get(lower(position)) == pin:
            cells[position] = (pin, 0, 0, 0)
            continue
        gate = graph[2 * pin : 2 * pin + 2]
        if gate == [LEAF, LEAF]:
            raise Refused(15)
        cells[position] = (pin, 1, gate[0] % 2, gate[1] % 2)
    return cells


def is_cell(height, position, cell):
    """Does a cell say what a cell can do at its position?"""
    pin, ands, *inversions = cell
    return pin > 0 and (ands or not any(inversions)) and not (ands and position >> height)


def read(data, graph=None):
    """The plan of a sheet's bytes. Sheet 1 has pins alone, and is no known sheet without a graph."""
    if not data:
        raise Refused(15)
    if data[0] != 2 and (data[0] != 1 or graph is None):
        raise Refused(16)
    bits, at = "".join(f"{byte:08b}" for byte in data[1:]), 0

    def take(width):
        nonlocal at
        at += width
        if at > len(bits):
            raise Refused(15)
        return int(bits[at - width : at], 2)

    height, count = take(4), take(16)
    if not 6 <= height <= 13:
        raise Refused(15)
    stages = []
    for _ in range(count):
        words = [take(8) for _ in range(take(16))]
        if any(word >= 1 << (height - 5) for word in words):
            raise Refused(15)
        cells = {}
        for position in range(1, 2 << height):
            if take(1):
                cells[position] = (take(16), *((take(1), take(1), take(1)) if data[0] == 2 else (0, 0, 0)))
        if not all(is_cell(height, position, cell) for position, cell in cells.items()):
            raise Refused(15)
        stages.append((words, cells if data[0] == 2 else coded(height, pins(cells), graph)))
    if len(bits) - at >= 8 or "1" in bits[at:]:
        raise Refused(15)
    return height, stages


def write(number, height, stages):
    """The bytes of a plan as sheet 1 or 2, whether or not it can be one."""
    out = [f"{height:04b}{len(stages):016b}"]
    for words, cells in stages:
        out.append(f"{len(words):016b}" + "".join(f"{word:08b}" for word in words))
        for position in range(1, 2 << height):
            if position in cells:
                pin, *does = cells[position]
                out.append(f"1{pin:016b}" + "".join(map(str, does if number == 2 else [])))
            else:
                out.append("0")
    bits = "".join(out)
    bits += "0" * (-len(bits) % 8)
    return bytes([number]) + bytes(int(bits[at : at + 8], 2) for at in range(0, len(bits), 8))


def pins(cells):
    return {position: cell[0] for position, cell in cells.items()}


def listing(height, stages):
    lines = [f"plan height {height} stages {len(stages)}"]
    for number, (words, cells) in enumerate(stages, 1):
        lines.append(f"stage {number} cells {len(cells)} words {' '.join(map(str, words)) or '-'}")
        lines += [f"{position} {pin}" for position, pin in pins(cells).items()]
    return "\n".join([*lines, "end", ""])
