"""What docs/SCRIPTS.md and docs/NETLISTS.md say that an accepted script asks for, in Python, for checks."""

# How many operands the requests have that make a diagram of others.
TWO_PLACE = ("and", "or", "xor", "nand", "nor", "xnor", "imp")
# The kinds of steps that take one turn; the others sweep.
AT_ONCE = ("const", "var", "size", "drop")
KINDS = {"drop": 2, "same": 3, "leq": 3, "eval": 3, "size": 3}


class Step:
    """The kind of a step, the steps of its operands, its name, and where the bits of an evaluation stand."""

    def __init__(self, kind, operands=(), name=b"", bits=None):
        self.kind, self.operands, self.name, self.bits = kind, tuple(operands), name, bits

    def entry_kind(self):
        return KINDS.get(self.kind, 1)

    def sweeps(self):
        return self.kind not in AT_ONCE

    def answer(self, entry):
        """What a said line says of the step, by its entry."""
        if self.kind in ("same", "leq"):
            return b"yes" if entry.answer else b"no"
        if self.kind in ("drop", "eval"):
            return b"dropped" if self.kind == "drop" else b"%d" % entry.answer
        return b"nodes %d" % entry.count


class Line:
    """A said line: its number, the step that it shows, and the last step of its request."""

    def __init__(self, number, step, last):
        self.number, self.step, self.last = number, step, last


class Plan:
    """The number of variables, the steps and the said lines of a script over a netlist or none."""

    def __init__(self, script, netlist=None):
        self.steps, self.lines, self.named, self.variables = [], [], {}, []
        self.netlist = read_netlist(netlist) if netlist is not None else None
        at = 0
        for number, line in enumerate(script.split(b"\n"), 1):
            words = line.split(b"#")[0].split()
            if words:
                self.read(words, number, at + line.split(b"#")[0].rindex(words[-1]))
            at += len(line) + 1
        self.n = len(self.variables)

    def read(self, words, number, last_word):
        """One line of the script, whose last word stands at that byte."""
        if words[0] == b"vars":
            self.variables = words[1:]
        elif words[0] == b"inputs":
            self.variables = self.netlist[0]
        elif words[0] == b"net":
            self.read_net(words[1:], number)
        else:
            self.steps.append(self.step_of(words[0].decode(), words[1:], last_word))
            self.lines.append(Line(number, len(self.steps) - 1, len(self.steps) - 1))

    def step_of(self, request, words, last_word):
        found = self.named
        if request in ("const", "var"):
            step = Step(request, (), words[0])
        elif request in TWO_PLACE or request == "not":
            step = Step("pair", [found[words[1]], found[words[-1]]], words[0])
        elif request == "ite":
            step = Step(request, [found[word] for word in words[1:]], words[0])
        elif request in ("exists", "forall", "restrict"):
            step = Step("restrict" if request == "restrict" else "quantify", [found[words[1]]], words[0])
        elif request == "eval":
            return Step(request, [found[words[0]]], bits=last_word)
        else:
            return Step(request, [found[word] for word in words])
        found[step.name] = len(self.steps)
        return step

    def read_net(self, words, number):
        pairs = dict(zip(words[1::2], words[::2]))
        visited = self.visits(list(pairs))
        made = {}
        for signal in visited:
            made[signal] = self.signal(signal, made)
        for signal, step in made.items():
            if signal in pairs:
                self.steps[step].name = pairs[signal]
                self.named[pairs[signal]] = step
            else:
                self.steps.append(Step("drop", [step]))
        self.lines += [Line(number, made[signal], len(self.steps) - 1) for signal in words[1::2]]

    def visits(self, wanted):
        """What the wanted signals depend on and they themselves, depth first, each once."""
        inputs, blocks = self.netlist
        seen, order = set(), []
        waiting = [(signal, False) for signal in reversed(wanted)]
        while waiting:
            signal, is_done = waiting.pop()
            if is_done:
                order.append(signal)
            elif signal not in seen:
                seen.add(signal)
                waiting.append((signal, True))
                waiting += [(read, False) for read in reversed(blocks[signal][0] if signal in blocks else [])]
        return order

    def put(self, kind, *operands):
        self.steps.append(Step(kind, operands))
        return len(self.steps) - 1

    def signal(self, signal, made):
        """The steps of a signal, and which has its diagram."""
        if signal not in self.netlist[1]:
            return self.put("var")
        reads, rows, output = self.netlist[1][signal]
        total = self.put("const")
        for row in rows:
            cube = self.put("const")
            for read, value in zip(reads, row):
                if value != ord("-"):
                    old, cube = cube, self.put("pair", cube, made[read])
                    self.put("drop", old)
            old, total = total, self.put("pair", total, cube)
            self.put("drop", old)
            self.put("drop", cube)
        if output == b"0":
            old, total = total, self.put("pair", total, total)
            self.put("drop", old)
        return total

    def live(self, committed):
        """The steps whose diagrams are there once so many steps are committed."""
        dropped = {step.operands[0] for step in self.steps[:committed] if step.kind == "drop"}
        return [k for k in range(committed) if self.steps[k].entry_kind() == 1 and k not in dropped]

    def said_before(self, committed):
        return sum(line.last < committed for line in self.lines)


def read_netlist(text):
    """The inputs, and for each block's output what it reads, its rows, and the output of these."""
    inputs, blocks, block = [], {}, None
    for line in text.replace(b"\\\n", b" ").split(b"\n"):
        words = line.split(b"#")[0].split()
        if words[:1] == [b".inputs"]:
            inputs += words[1:]
        elif words[:1] == [b".names"]:
            block = blocks[words[-1]] = [words[1:-1], [], b"1"]
        elif words and not words[0].startswith(b"."):
            block[1].append(words[0] if len(words) == 2 else b"")
            block[2] = words[-1]
    return inputs, blocks


def example_script(size):
    """The script of `gen`."""
    both = [f"x{k}" for k in range(1, size + 1)] + [f"y{k}" for k in range(1, size + 1)]
    lines = ["vars " + " ".join(both), "const p0 1"]
    for k in range(1, size + 1):
        lines += [f"var a{k} x{k}", f"var b{k} y{k}", f"xnor e{k} a{k} b{k}", f"and p{k} p{k - 1} e{k}"]
    lines.append("const r0 1")
    lines += [f"and r{k} r{k - 1} e{size + 1 - k}" for k in range(1, size + 1)]
    lines += [f"same p{size} r{size}", f"size p{size}"]
    return "".join(line + "\n" for line in lines).encode()
