"""A reader of waveforms (VCD), written from the standard's words and sharing nothing with the tool."""
import re


def read(text):
    """The signals as {(scope, .., name): {time: value}}, one bit of a vector a signal of its own, and the last time."""
    head, _, body = text.partition("$enddefinitions $end")
    scopes, signals, codes = [], {}, {}
    for keyword, words in re.findall(r"\$(\w+)\s+(.*?)\$end", head, re.S):
        inside = words.split()
        if keyword == "scope":
            scopes.append(inside[1])
        elif keyword == "upscope":
            scopes.pop()
        elif keyword == "var":
            width, code, name = int(inside[1]), inside[2], inside[3]
            index = re.fullmatch(r"\[(\d+)(?::(\d+))?\]", inside[4]) if len(inside) > 4 else None
            if index is None:
                names = [name]
            else:
                high, low = int(index[1]), int(index[2] or index[1])
                names = [f"{name}[{i}]" for i in range(high, low - 1, -1)]
            assert len(names) == width, f"{name} has {width} bits and {len(names)} names"
            assert code not in codes, f"the code {code} a second time"
            codes[code] = [(*scopes, each) for each in names]
            for each in codes[code]:
                assert each not in signals, f"{each} a second time"
                signals[each] = {}
    assert not scopes, "a scope that does not end"
    time = None
    for line in body.split("\n"):
        if not line or line.startswith("$"):
            continue
        if line.startswith("#"):
            assert time is None or int(line[1:]) > time, "time does not go on"
            time = int(line[1:])
            continue
        value, code = line[1:].split() if line[0] == "b" else (line[0], line[1:])
        names = codes[code]
        value = value.rjust(len(names), "0")
        assert len(value) == len(names) and set(value) <= set("01"), f"'{line}' has no value for {names}"
        for name, bit in zip(names, value):
            signals[name][time] = bit
    return signals, time


def rows(signals, last):
    """Each signal's bit at each time: what it was last set to."""
    found = {}
    for name, changes in signals.items():
        bit, row = "x", []
        for time in range(last + 1):
            bit = changes.get(time, bit)
            row.append(bit)
        found[name] = row
    return found
