"""A damaged plan mended, written from request Q-12's words; it shares nothing with the library. Graph, records and stages are as in checking/checker.py."""
from checker import LEAF, is_leaf, number_of


def levels(gates, stop):
    """A pin's level, stopping at some pins, as a function that remembers."""
    known = {}

    def level(top):
        way = [top]
        while way:
            pin = way[-1]
            if pin in known:
                way.pop()
            elif pin in stop or is_leaf(gates, pin):
                known[pin] = 0
            else:
                under = [literal // 2 for literal in gates[2 * pin : 2 * pin + 2]]
                lacking = [one for one in under if one not in known]
                if not lacking:
                    known[pin] = 1 + max(known[one] for one in under)
                way += lacking
        return known[top]

    return level


def one_stage(height, gates, stop, cells):
    """The cells of a stage rebuilt from the top down, and the pins that a cell above fixes, by position."""
    level, made, fixed = levels(gates, stop), dict(cells), {}
    for position in range(1, 2 << height):
        pin = fixed.get(position, cells.get(position, 0) & 65535)
        if not 1 <= pin < len(gates) // 2 or (position not in fixed and position not in cells):
            continue
        width = 1 << position.bit_length() - 1
        here, deep = height - position.bit_length() + 1, level(pin)
        if deep < here:
            made[position] = number_of(pin)
            fixed[position + width] = pin
        elif deep == here == 0:
            made[position] = number_of(pin)
        elif deep == here:
            one, other = gates[2 * pin : 2 * pin + 2]
            made[position] = number_of(pin, 1, one % 2, other % 2)
            fixed[position + width], fixed[position + 2 * width] = one // 2, other // 2
    return made, fixed


def rebuilt(height, gates, given, stages):
    """Every stage, from the first on; and what is fixed in each."""
    stop, made, fixed = set(given), [], []
    for words, cells in stages:
        new, fixes = one_stage(height, gates, stop, cells)
        made.append((words, new))
        fixed.append(fixes)
        stop |= {number & 65535 for position, number in new.items() if 0 < position < 1 << height}
    return made, fixed


def changes(old, new):
    """Stage, position, old and new of exactly the places that differ, in that order."""
    return [
        (stage, position, one.get(position, LEAF), other.get(position, LEAF))
        for stage, ((_, one), (_, other)) in enumerate(zip(old, new), 1)
        for position in sorted({*one, *other})
        if one.get(position, LEAF) != other.get(position, LEAF)
    ]
