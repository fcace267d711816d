"""What the placer does with a job, and why it refuses one: rules 1 to 11 and the reservation, written from the scope document's words. It shares nothing with
the library, and is slow: for jobs of some hundred pins. It has both word rules: the library builds by the new one, and plans by the old one are still plans.

A job is as in checking/checker.py: two literals a pin from pin 0 on, both LEAF for a leaf; given pins; records as one list of numbers. It has passed the checks 1 to
5 and 23.
"""
from checker import endpoints, is_leaf, number_of, reservation

NEEDED_RUNS, EVERY_RUN = 0, 1  # the word rules
TAKEN_BACK = 1  # the first number of such a line


class Stage:
    """One stage: its cells go from a position to a pin."""

    def __init__(self, rule, height, gates, done, waiting):
        self.rule, self.height, self.gates, self.done, self.waiting = rule, height, gates, done, waiting
        self.cells = {}
        self.above = {}  # how many cells above level 0 hold a pin
        self.order = self.traversed()
        self.level = {}
        for pin in self.order:
            under = self.operands(pin)
            self.level[pin] = 1 + max(self.level[one] for one in under) if under else 0

    def operands(self, pin):
        """Those that are followed: none of leaves, given and realised pins."""
        return () if pin in self.done or is_leaf(self.gates, pin) else (self.gates[2 * pin] // 2, self.gates[2 * pin + 1] // 2)

    def traversed(self):
        """Rule 1."""
        order, met = [], set()
        for top in self.waiting:
            way = [(top, False)]
            while way:
                pin, under = way.pop()
                if under:
                    order.append(pin)
                elif pin not in met:
                    met.add(pin)
                    way.append((pin, True))
                    way += [(one, False) for one in reversed(self.operands(pin)) if one not in met]
        return order

    # ---- cells

    def row(self, level):
        return range(1 << self.height - level, 2 << self.height - level)

    def lowest_empty(self, level):
        return next((position for position in self.row(level) if position not in self.cells), None)

    def ones(self):
        return sum(position in self.cells for position in self.row(1))

    def place(self, pin, position, level):
        """Rule 5."""
        self.cells[position] = pin
        if level == 0:
            return
        self.above[pin] = self.above.get(pin, 0) + 1
        width = 1 << position.bit_length() - 1
        if self.level[pin] < level:
            self.place(pin, position + width, level - 1)
        else:
            one, other = self.operands(pin)
            self.place(one, position + width, level - 1)
            self.place(other, position + 2 * width, level - 1)

    def take_back(self, position, level):
        pin = self.cells.pop(position, None)
        if pin is None or level == 0:
            return
        self.above[pin] -= 1
        if not self.above[pin]:
            del self.above[pin]
        width = 1 << position.bit_length() - 1
        self.take_back(position + width, level - 1)
        self.take_back(position + 2 * width, level - 1)

    # ---- rules 3 to 7

    def reverse_levels(self):
        """Rule 3."""
        found = {pin: 0 for pin in self.waiting}
        for pin in reversed(self.order):
            if pin in found and pin not in self.done and pin not in self.above:
                for one in self.operands(pin):
                    found[one] = max(found.get(one, 0), found[pin] + 1)
        return found

    def needed(self):
        """Rule 6."""
        reverse, found = self.reverse_levels(), {}
        for pin in self.order:
            if pin in self.above or pin not in reverse:
                continue
            if self.level[pin] == 1 or (self.level[pin] == 0 and pin in self.waiting):
                found[pin] = True
            elif self.level[pin] >= 2:
                for one in self.operands(pin):
                    if self.level[one] == 0 and one not in self.above:
                        found[one] = True
        return list(found)

    def fill(self):
        """Rules 2 to 7; the pins taken back, each with its three counts."""
        back = []
        level = min(max(self.level.values()), self.height)
        while level >= 2:
            position, reverse = self.lowest_empty(level), self.reverse_levels()
            pins = [pin for pin in self.order if self.level[pin] == level and pin in reverse and pin not in self.above]
            if position is None or not pins:
                level -= 1
                continue
            pin = max(pins, key=reverse.get)  # the earliest on a tie
            self.place(pin, position, level)
            needed, ones, pins = len(self.needed()), self.ones(), len(self.above)
            if needed + max(ones, pins) >= 1 << self.height - 1:
                back.append((pin, needed, ones, pins))
                self.take_back(position, level)
                level -= 1
        return back

    # ---- rules 8 to 11

    def end(self, room):
        """What rules 8 to 11 come to: the words, or the numbers of a refusal's line behind its stage. Then `realised` has the endpoints that are."""
        needed = self.needed()
        tree = [pin for pin in self.waiting if pin in self.above]
        left = [pin for pin in self.waiting if pin not in self.above and pin in set(needed)]
        untouched = len(tree) + len(left) < len(self.waiting)
        self.realised, words = [], []
        row = 1 << self.height - 1
        sparse = []
        for start in range(0, row, 32):
            filled = sum(row + start + at in self.cells for at in range(32))
            if filled < 10:
                sparse.append((filled, start))
        for filled, start in sorted(sparse):
            if self.rule == NEEDED_RUNS and not left:
                break
            if untouched and len(left) < 32 - filled:
                break
            for position in range(row + start, row + start + 32):
                if not left:
                    break
                if position not in self.cells:
                    self.place(left[0], position, 1)
                    self.realise(left.pop(0))
                elif self.cells[position] in self.waiting:
                    self.realise(self.cells[position])
            words.append((row + start) // 32)
        if len(words) > room:
            return 7, (room, len(words), 0, 0)
        ones, more = self.ones(), [pin for pin in needed if pin not in self.above]
        if ones + len(more) > row - 1:
            return 8, (row - 1, ones + len(more), ones, len(more))
        for pin in more:
            self.place(pin, self.lowest_empty(1), 1)
        if not untouched:
            ends = set(tree) - set(self.realised)
            last = []
            for level in range(1, self.height + 1):
                for position in self.row(level):
                    if self.cells.get(position) in ends and position // 32 not in last:
                        last.append(position // 32)
            if len(words) + len(last) <= room:
                words += last
                for pin in tree:
                    self.realise(pin)
        return 0, words

    def realise(self, pin):
        if pin not in self.realised:
            self.realised.append(pin)


class Built:
    """A build: its number and refused stage, the lines that explain it, and the stages as (words, cells of pins), none where it is refused."""

    def __init__(self, rule, height, gates, given, records, rooms):
        self.gates = gates
        self.number = self.stage = 0
        self.lines, self.stages = [], []
        limit = 1 << height - 5
        memories, duplicates = reservation(records)
        reserved = memories + -(-duplicates // 32)
        if reserved >= limit:
            self.refused(6, 0, limit - 1, reserved, memories, duplicates)
            return
        if 4 * memories + duplicates > limit:
            self.refused(6, 0, limit, 4 * memories + duplicates, memories, duplicates)
            return
        waiting = list(dict.fromkeys(pin for pin in endpoints(records) if pin))
        done, room, at = set(given), limit - reserved, 0
        while waiting:
            at += 1
            if at > rooms:
                self.number, self.stage, self.stages = 9, at, []
                return
            stage = Stage(rule, height, gates, done, waiting)
            self.lines += [(TAKEN_BACK, at, *counts) for counts in stage.fill()]
            number, told = stage.end(room)
            if number:
                self.refused(number, at, *told)
                return
            self.stages.append((told, stage.cells))
            room -= len(told)
            done = done | set(stage.above)
            waiting = waiting[:]
            for pin in stage.realised:
                place = waiting.index(pin)
                waiting[place] = waiting[-1]
                waiting.pop()

    def plan(self):
        """The stages as (words, cells), each cell with what it does."""
        return [(words, {position: self.cell(pins, position) for position in sorted(pins)}) for words, pins in self.stages]

    def cell(self, pins, position):
        pin, lower = pins[position], position + (1 << position.bit_length() - 1)
        if pins.get(lower, pin) == pin:  # it loads or copies
            return number_of(pin)
        return number_of(pin, 1, self.gates[2 * pin] % 2, self.gates[2 * pin + 1] % 2)

    def refused(self, number, stage, *counts):
        self.number, self.stage, self.stages = number, stage, []
        self.lines.append((number, stage, *counts))
