"""Netlists of some hundred gates, of three kinds of circuit on which diagrams are often measured: one that corrects
an error of a word, one that serves interrupts by their priority, and one that reckons with words.

A builder answers the circuit and an order of its inputs, as those of checks/circuits.py do.
"""
from itertools import combinations

from circuits import Circuit, full_adder, in_turn, words


def tree(c, kind, signals):
    """All of the signals, or any, or their parity, two at a time."""
    signals = list(signals)
    while len(signals) > 1:
        signals = signals[2:] + [c.gate(kind, *signals[:2])]
    return signals[0]


def exclusive(c, a, b, by_nands):
    """The exclusive or of two signals, where it is wanted by four gates of one kind."""
    if not by_nands:
        return c.gate("xor", a, b)
    both = c.gate("nand", a, b)
    return c.gate("nand", c.gate("nand", a, both), c.gate("nand", b, both))


def parity(c, signals, by_nands):
    signals = list(signals)
    while len(signals) > 1:
        signals = signals[2:] + [exclusive(c, *signals[:2], by_nands)]
    return signals[0]


def corrector(n, by_nands):
    """A word of n bits, whose one wrong bit is mended where it is enabled, and whether two bits are wrong.

    Each bit counts for three of the check bits, no two for the same three; so one wrong bit makes three checks fail,
    a wrong check bit one, and two wrong bits an even number.
    """
    checks = next(k for k in range(4, 12) if k * (k - 1) * (k - 2) // 6 >= n)
    (a, b) = words(n, checks)
    c = Circuit(a + b + ["enable"])
    places = list(combinations(range(checks), 3))
    # Taken evenly from all of them.
    places = [places[k * len(places) // n] for k in range(n)]
    fails = [
        parity(c, [c.gate("and", b[k], "enable")] + [a[i] for i in range(n) if k in places[i]], by_nands)
        for k in range(checks)
    ]
    holds = [c.gate("not", signal) for signal in fails]
    for i in range(n):
        wrong = tree(c, "and", [fails[k] if k in places[i] else holds[k] for k in range(checks)])
        c.output(f"word[{i}]", exclusive(c, a[i], c.gate("and", wrong, "enable"), by_nands))
    even = c.gate("not", parity(c, fails, by_nands))
    c.output("two_wrong", c.gate("and", even, tree(c, "or", fails)))
    return c, ["enable"] + b + a


def interrupts(lines):
    """Three buses of so many lines, whose requests count where the line is enabled; the first bus that has one is
    acknowledged, and the number of its first line is told."""
    buses = [[f"{name}[{k}]" for k in range(lines)] for name in ("first", "second", "third")]
    enabled = [f"enabled[{k}]" for k in range(lines)]
    c = Circuit(enabled + sum(buses, []))
    free, served = c.gate("one"), []
    for number, bus in enumerate(buses):
        asks = [c.gate("and", request, line) for request, line in zip(bus, enabled)]
        some = c.gate("and", free, tree(c, "or", asks))
        c.output(f"acknowledge[{number}]", some)
        served.append([c.gate("and", some, ask) for ask in asks])
        free = c.gate("and", free, c.gate("not", some))
    asked = [tree(c, "or", line) for line in zip(*served)]
    none, first = c.gate("one"), []
    for line in asked:
        first.append(c.gate("and", none, line))
        none = c.gate("and", none, c.gate("not", line))
    for bit in range((lines - 1).bit_length()):
        c.output(f"line[{bit}]", tree(c, "or", [first[k] for k in range(lines) if k >> bit & 1]))
    return c, enabled + sum(buses, [])


def arithmetic(n):
    """A unit that adds, subtracts, shifts and joins two words of n bits, of which one is chosen from two, and tells
    whether the result is 0, whether it is odd, and its carry and overflow."""
    a, b, d = words(n, n, n)
    select = [f"select[{k}]" for k in range(4)]
    c = Circuit(select + ["carry_in"] + a + b + d)
    other = [c.gate("mux", select[3], y, z) for y, z in zip(b, d)]
    signed = [c.gate("xor", y, select[0]) for y in other]
    carries, sums = ["carry_in"], []
    for x, y in zip(a, signed):
        total, carry = full_adder(c, x, y, carries[-1], 0)
        sums.append(total)
        carries.append(carry)
    result = []
    for k in range(n):
        joined = c.gate("mux", select[0], c.gate("and", a[k], other[k]), c.gate("or", a[k], other[k]))
        moved = c.gate("mux", select[0], a[k - 1] if k else "carry_in", a[k + 1] if k + 1 < n else "carry_in")
        logic = c.gate("mux", select[1], c.gate("xor", a[k], other[k]), joined)
        result.append(c.gate("mux", select[2], sums[k], c.gate("mux", select[1], moved, logic)))
        c.output(f"result[{k}]", result[-1])
    c.output("zero", c.gate("not", tree(c, "or", result)))
    c.output("odd", tree(c, "xor", result))
    c.output("carry", c.gate("and", select[2], carries[-1]))
    c.output("overflow", c.gate("and", select[2], c.gate("xor", carries[-1], carries[-2])))
    return c, select + ["carry_in"] + in_turn(a, b, d)
