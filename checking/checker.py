"""Is a plan one of a graph, whoever made it? Written from request Q-10's words and the scope document; it shares nothing with the library.

A graph is a list of two literals a pin from pin 0 on, both LEAF for a leaf, as the library takes it; records are a list of numbers, kinds among them. A plan is a
list of stages; a stage is (words, cells), and cells go from a position to a number: pin + 65,536 where it ANDs + 131,072 and 262,144 for its inversions. An empty
cell isn't there, nor is a word that is missing: it stands as None.
"""
LEAF = 4294967295  # each literal of a leaf; as a cell the empty mark
SIZES = {1: 1, 2: 2, 3: 91, 4: 1}  # numbers of a record behind its kind


def number_of(pin, ands=0, first=0, second=0):
    """The number of a cell that sheets/plans.py has as a tuple."""
    return pin + (ands << 16) + (first << 17) + (second << 18)


def record_list(records):
    """Each record as its kind and numbers, or None where they are no records."""
    found, at = [], 0
    while at < len(records):
        size = SIZES.get(records[at])
        if size is None or at + size >= len(records):
            return None
        found.append((records[at], records[at + 1 : at + 1 + size]))
        at += 1 + size
    return found


def endpoints(records):
    """The pins that records name, in order."""
    return [number if kind == 4 else number // 2 for kind, numbers in record_list(records) for number in numbers]


def is_leaf(gates, pin):
    return gates[2 * pin] == LEAF and gates[2 * pin + 1] == LEAF


def looped(gates):
    """The smallest pin on any loop of gates, the first that reaches itself, or 0."""
    pins = len(gates) // 2
    needs = {pin: {gates[2 * pin] // 2, gates[2 * pin + 1] // 2} for pin in range(1, pins) if not is_leaf(gates, pin)}
    for pin in sorted(needs):
        seen, todo = set(), [pin]
        while todo:
            for below in needs.get(todo.pop(), ()):
                if below == pin:
                    return pin
                if below not in seen:
                    seen.add(below)
                    todo.append(below)
    return 0


def early(height, gates, given, records, plan_length, counts_length, stages):
    """The first of 1, 2, 3, 23, 4, 5 that applies, and the pin that 23 shows."""
    if not 6 <= height <= 13:
        return 1, 0
    rooms, over = divmod(plan_length, 2 << height)
    if over or rooms < stages or counts_length < stages:
        return 2, 0
    pins = len(gates) // 2
    if len(gates) % 2 or not 1 <= pins <= 65536 or not is_leaf(gates, 0):
        return 3, 0
    for pin in range(1, pins):
        if not is_leaf(gates, pin) and not all(1 <= literal // 2 < pins for literal in gates[2 * pin : 2 * pin + 2]):
            return 3, 0
    loop = looped(gates)
    if loop:
        return 23, loop
    found = record_list(records)
    if len(records) > 65536 or found is None or any(pin >= pins for pin in endpoints(records)):
        return 4, 0
    if any(pin >= pins for pin in given):
        return 5, 0
    return 0, 0


def reservation(records):
    """Memories and duplicates. An endpoint's activations are told apart by a number each."""
    memories, numbers = 0, {}
    for kind, values in record_list(records):
        if kind == 1:
            numbers.setdefault(values[0] // 2, set()).add(2 + values[0] % 2)
        elif kind == 2:
            numbers.setdefault(values[1] // 2, set()).add(2 * values[0] + values[1] % 2)
        elif kind == 3:
            memories += 1
        else:
            numbers.setdefault(values[0], set()).add(2)
    return memories, sum(len(distinct) - 1 for distinct in numbers.values())


def cell_right(height, gates, given, loads, cells, position):
    """Does a filled cell do what the graph says? `loads` has the pins that level 0 may load."""
    number = cells[position]
    pin, ands, first, second = number & 65535, number >> 16 & 1, number >> 17 & 1, number >> 18 & 1
    if number >> 19 or not 1 <= pin < len(gates) // 2 or (not ands and (first or second)):
        return False
    if position >> height:  # level 0
        return not ands and pin in loads
    width = 1 << position.bit_length() - 1
    lower = [cells.get(position + width), cells.get(position + 2 * width)]
    held = [None if below is None else below & 65535 for below in lower]
    if not ands:
        return held[0] == pin
    if pin in given or is_leaf(gates, pin):
        return False
    literals = gates[2 * pin : 2 * pin + 2]
    return [literal // 2 for literal in literals] == held and [literal % 2 for literal in literals] == [first, second]


def first_fault(height, gates, given, records, stages):
    """The place of the first fault, or None."""
    limit = 1 << height - 5
    memories, duplicates = reservation(records)
    reserved = memories + -(-duplicates // 32)
    left = max(0, limit - reserved)
    given = set(given)
    loads = given | {pin for pin in range(1, len(gates) // 2) if is_leaf(gates, pin)}
    written = set()
    for stage, (words, cells) in enumerate(stages, 1):
        for position in sorted(cells):
            if position and not cell_right(height, gates, given, loads, cells, position):
                return stage, position
        row = 1 << height - 1
        left -= len(words)
        full = all(position in cells for position in range(row, 2 * row))
        if 0 in cells or full or left < 0 or any(word is None or word >= limit for word in words):
            return stage, 0
        loads = {number & 65535 for position, number in cells.items() if 0 < position < 1 << height}
        for word in words:
            written |= {cells[position] & 65535 for position in range(32 * word, 32 * word + 32) if position in cells}
    if reserved >= limit or 4 * memories + duplicates > limit:
        return 0, 0
    if any(pin and pin not in written for pin in endpoints(records)):
        return 0, 0
    return None


def values(gates, given, bits):
    """The graph's value of each pin, from bits of leaves and given pins."""
    found = {0: 0}
    for top in range(1, len(gates) // 2):
        todo = [top]
        while todo:
            pin = todo[-1]
            if pin in found:
                todo.pop()
            elif pin in given or is_leaf(gates, pin):
                found[pin] = bits[pin]
            else:
                one, other = gates[2 * pin : 2 * pin + 2]
                lacking = [literal // 2 for literal in (one, other) if literal // 2 not in found]
                if lacking:
                    todo += lacking
                else:
                    found[pin] = (found[one // 2] ^ one % 2) & (found[other // 2] ^ other % 2)
    return found


def read_back(height, stages, bits):
    """What the written words of a plan hold, by pin: every bit that is read. The graph isn't asked."""
    found, before = {}, bits
    for words, cells in stages:
        folded = {}
        for position in sorted(cells, reverse=True):
            number, width = cells[position], 1 << position.bit_length() - 1
            if position >> height:
                folded[position] = before[number & 65535]
            elif number >> 16 & 1:
                folded[position] = (folded[position + width] ^ number >> 17 & 1) & (folded[position + 2 * width] ^ number >> 18 & 1)
            else:
                folded[position] = folded[position + width]
        for word in words:
            for position in range(32 * word, 32 * word + 32):
                if position in cells:
                    found.setdefault(cells[position] & 65535, set()).add(folded[position])
        before = {}
        for position in sorted(cells):
            if position < 1 << height:
                before.setdefault(cells[position] & 65535, folded[position])
    return found


def not_played(gates, given, records, driven, start, lines, recording, out):
    """The first of 18, 19, 20, 17 that applies to a replay, or 0; as many bytes are lent for the end bits as start has."""
    found = record_list(records)
    leaves = [pin for pin in range(1, len(gates) // 2) if is_leaf(gates, pin)]
    flops = sum(kind == 2 for kind, _ in found)
    if given or any(kind == 3 for kind, _ in found):
        return 18
    if len(set(driven)) < len(driven) or not set(driven) <= set(leaves):
        return 19
    if len(driven) != flops or len(start) != flops or len(recording) != lines * (len(leaves) - flops):
        return 20
    return 17 if out < lines * sum(len(numbers) for _, numbers in found) else 0


def played(gates, records, driven, start, lines, recording):
    """What comes out of the plain graph, clock after clock, and the end bits."""
    found = record_list(records)
    free = [pin for pin in range(1, len(gates) // 2) if is_leaf(gates, pin) and pin not in driven]
    state, out = [int(bit != 0) for bit in start], []
    for line in range(lines):
        bits = dict(zip(driven, state))
        bits.update((pin, int(recording[line * len(free) + at] != 0)) for at, pin in enumerate(free))
        value = values(gates, (), bits)
        taken = []
        for kind, numbers in found:
            handed = [value[number] if kind == 4 else value[number // 2] ^ number % 2 for number in numbers]
            out += handed
            if kind == 2:
                taken.append(handed)
        state = [data if enable else bit for bit, (enable, data) in zip(state, taken)]
    return out, state


def checked(height, gates, given, records, stages, plan_length, counts_length):
    """Number, stage, position and pin, as the library answers them."""
    number, pin = early(height, gates, given, records, plan_length, counts_length, len(stages))
    if number:
        return number, 0, 0, pin
    place = first_fault(height, gates, given, records, stages)
    return (22, *place, 0) if place else (0, 0, 0, 0)
