"""Netlists of circuits of any size, each in two ways, for checks and for measuring.

A builder answers the circuit and an order of its inputs in which its diagrams are small, where there is one.
"""
import random

# The rows of a gate, and their output. Each way in which a netlist writes one is among them.
ROWS = {
    "buf": (["1"], "1"),
    "not": (["0"], "1"),
    "and": (["11"], "1"),
    "or": (["1-", "-1"], "1"),
    "xor": (["10", "01"], "1"),
    "nand": (["11"], "0"),
    "nor": (["1-", "-1"], "0"),
    "xnor": (["11", "00"], "1"),
    "andnot": (["10"], "1"),
    "xor3": (["100", "010", "001", "111"], "1"),
    "xnor3": (["100", "010", "001", "111"], "0"),
    "maj": (["11-", "1-1", "-11"], "1"),
    "mux": (["11-", "0-1"], "1"),
    "zero": ([], "1"),
    "one": ([""], "1"),
}


class Circuit:
    """Inputs, gates in order, and outputs, each with the signal that it shows."""

    def __init__(self, inputs):
        self.inputs = list(inputs)
        self.gates = []
        self.outputs = []

    def gate(self, kind, *reads):
        name = f"n{len(self.gates)}"
        rows, value = ROWS[kind]
        self.gates.append([name, list(reads), list(rows), value])
        return name

    def output(self, name, signal):
        self.outputs.append(name)
        rows, value = ROWS["buf"]
        self.gates.append([name, [signal], list(rows), value])

    def change(self, chance):
        """Changes one character of one row of one gate."""
        changeable = [gate for gate in self.gates if gate[1] and gate[2] and gate[0] not in self.outputs]
        gate = chance.choice(changeable)
        row = chance.randrange(len(gate[2]))
        column = chance.randrange(len(gate[1]))
        old = gate[2][row]
        new = chance.choice([c for c in "01-" if c != old[column]])
        gate[2][row] = old[:column] + new + old[column + 1 :]

    def text(self):
        lines = [".model m", ".inputs " + " ".join(self.inputs), ".outputs " + " ".join(self.outputs)]
        for name, reads, rows, value in self.gates:
            lines.append(" ".join([".names", *reads, name]))
            lines += [f"{row} {value}".lstrip() for row in rows]
        return "\n".join(lines + [".end"]) + "\n"


def full_adder(c, a, b, carry, way):
    """The sum and the carry of three bits."""
    if way == 0:
        half = c.gate("xor", a, b)
        return c.gate("xor", half, carry), c.gate("or", c.gate("and", a, b), c.gate("and", half, carry))
    if way == 1:
        return c.gate("xor3", a, b, carry), c.gate("maj", a, b, carry)
    same = c.gate("xnor", a, b)
    return c.gate("xnor", same, carry), c.gate("mux", same, a, carry)


def words(*lengths):
    """Names of the bits of words a, b, .. from the lowest bit on."""
    return [[f"{letter}[{bit}]" for bit in range(length)] for letter, length in zip("abcd", lengths)]


def in_turn(*bits):
    """The bits of several words in turn, the highest first."""
    longest = max(len(word) for word in bits)
    return [word[k] for k in reversed(range(longest)) for word in bits if k < len(word)]


def adder(n, way):
    a, b = words(n, n)
    c = Circuit(a + b + ["carry_in"])
    if way == 0:
        carry = "carry_in"
        for k in range(n):
            total, carry = full_adder(c, a[k], b[k], carry, 0)
            c.output(f"sum[{k}]", total)
    else:
        # Each carry is of what the bits generate and propagate, in blocks that double.
        blocks = [(c.gate("and", x, y), c.gate("xor", x, y)) for x, y in zip(a, b)]
        half = [block[1] for block in blocks]
        step = 1
        while step < n:
            blocks = [
                blocks[k] if k < step else
                (c.gate("or", blocks[k][0], c.gate("and", blocks[k][1], blocks[k - step][0])),
                 c.gate("nor", c.gate("not", blocks[k][1]), c.gate("not", blocks[k - step][1])))
                for k in range(n)
            ]
            step *= 2
        carries = ["carry_in"] + [c.gate("or", g, c.gate("and", p, "carry_in")) for g, p in blocks]
        for k in range(n):
            c.output(f"sum[{k}]", c.gate("xor", carries[k], half[k]))
        carry = carries[n]
    c.output("carry", carry)
    return c, in_turn(a, b) + ["carry_in"]


def multiplier(n, way):
    a, b = words(n, n)
    c = Circuit(a + b)
    if way == 0:
        # Row by row, each row's carry rippling through.
        total = [c.gate("and", a[k], b[0]) for k in range(n)]
        for row in range(1, n):
            carry = c.gate("zero")
            for k in range(n):
                product = c.gate("and", a[k], b[row])
                old = total[row + k] if row + k < len(total) else c.gate("zero")
                new, carry = full_adder(c, old, product, carry, 0)
                total[row + k : row + k + 1] = [new]
            total.append(carry)
    else:
        # Column by column, each column's bits in threes.
        columns = [[] for _ in range(2 * n)]
        for i in range(n):
            for k in range(n):
                columns[i + k].append(c.gate("nor", c.gate("not", a[i]), c.gate("not", b[k])))
        total = []
        for k in range(2 * n):
            bits = columns[k]
            while len(bits) > 1:
                three = bits[:3] if len(bits) > 2 else bits[:2] + [c.gate("zero")]
                low, high = full_adder(c, *three, 1 + k % 2)
                bits = bits[3:] + [low]
                if k + 1 < 2 * n:
                    columns[k + 1].append(high)
            total.append(bits[0] if bits else c.gate("zero"))
    for k in range(2 * n):
        c.output(f"product[{k}]", total[k] if k < len(total) else c.gate("zero"))
    return c, in_turn(a, b)


def comparator(n, way):
    a, b = words(n, n)
    c = Circuit(a + b)
    if way == 0:
        less, equal = c.gate("zero"), c.gate("one")
        for x, y in zip(a, b):
            less = c.gate("or", c.gate("andnot", y, x), c.gate("and", c.gate("xnor", x, y), less))
            equal = c.gate("and", equal, c.gate("xnor", x, y))
    else:
        # By halves: the upper half decides, or is equal.
        def halves(low, high):
            if high - low == 1:
                return c.gate("andnot", b[low], a[low]), c.gate("not", c.gate("xor", a[low], b[low]))
            middle = (low + high) // 2
            (less0, equal0), (less1, equal1) = halves(low, middle), halves(middle, high)
            return c.gate("mux", equal1, less0, less1), c.gate("and", equal0, equal1)

        less, equal = halves(0, n)
    c.output("less", less)
    c.output("equal", equal)
    c.output("greater", c.gate("nor", less, equal))
    return c, in_turn(a, b)


def shifter(n, way):
    """A word of n bits rotated by a number, n a power of two."""
    stages = n.bit_length() - 1
    a, b = words(n, stages)
    c = Circuit(a + b)
    if way == 0:
        word = a
        for k in range(stages):
            word = [c.gate("mux", b[k], word[(i - 2**k) % n], word[i]) for i in range(n)]
    else:
        # Each amount is recognised by a gate of its own.
        chosen = []
        for amount in range(n):
            bits = [b[k] if amount >> k & 1 else c.gate("not", b[k]) for k in range(stages)]
            here = bits[0]
            for bit in bits[1:]:
                here = c.gate("and", here, bit)
            chosen.append(here)
        word = []
        for i in range(n):
            parts = [c.gate("nand", chosen[amount], a[(i - amount) % n]) for amount in range(n)]
            some = c.gate("not", parts[0])
            for part in parts[1:]:
                some = c.gate("nand", c.gate("not", some), part)
            word.append(some)
    for i in range(n):
        c.output(f"out[{i}]", word[i])
    return c, b + a


def parity(n, way):
    (a,) = words(n)
    c = Circuit(a)
    bits = list(a)
    while len(bits) > 1:
        if way == 0:
            bits = [c.gate("xor", bits[0], bits[1])] + bits[2:]
        else:
            last = len(bits) // 3 * 3
            bits = [c.gate("not", c.gate("xnor3", *bits[k : k + 3])) for k in range(0, last, 3)] + bits[last:]
            bits = bits if len(bits) != 2 else [c.gate("nand", c.gate("nand", bits[0], c.gate("not", bits[1])),
                                                       c.gate("nand", c.gate("not", bits[0]), bits[1]))]
    c.output("odd", bits[0])
    return c, a


def random_logic(n, seed):
    chance = random.Random(seed)
    (a,) = words(n)
    c = Circuit(a)
    signals = list(a)
    for _ in range(12 * n):
        kind = chance.choice(["and", "or", "xor", "nand", "nor", "xnor", "andnot", "maj", "mux", "xor3"])
        reads = chance.sample(signals[-3 * n :], len(ROWS[kind][0][0]))
        signals.append(c.gate(kind, *reads))
    for k in range(6):
        c.output(f"y{k}", signals[-1 - k])
    return c, a
