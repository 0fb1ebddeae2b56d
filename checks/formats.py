"""What docs/FORMATS.md says of the bytes of a folder, in Python, for checks.

A folder is a dictionary from names to bytes; a file that isn't there is empty. What the words of checkpoints are stands
in the pages of the sweeps, to which FORMATS leads.
"""
import re
import struct

PROGRAM_FILES = 4294967295
MOST_STEPS = 1048576
# The bytes of a node, an arc, an item of a run, an entry and a checkpoint.
NODE, ARC, ITEM, ENTRY, POINT = 24, 16, 64, 128, 16384
VALUES = (1 << 63, (1 << 63) + 1)
NO_NODE = 65535
# The parts of a step.
NODES, POINTS, POINT_GATE, INNER, ENDS, FIRST_RUN = range(6)


def name_of(step, part):
    return f"s{step}p{part}"


JOB, JOB_GATE, CATALOGUE, STEP_GATE = (name_of(PROGRAM_FILES, part) for part in range(4))


def number_of(name):
    """The step and the part of a file's name, or nothing where it is no name of a file."""
    found = re.fullmatch(r"s(0|[1-9]\d*)p(0|[1-9]\d*)", name)
    step, part = (int(found[1]), int(found[2])) if found else (1 << 32, 0)
    return (step, part) if step < 1 << 32 and part < 1 << 64 else None


def held(files, step, part):
    return files.get(name_of(step, part)) or b""


def words_of(data):
    return struct.unpack(f">{len(data) // 8}Q", data[: len(data) // 8 * 8])


# Pointers


def is_node(word):
    return word >> 63 == 0 and word >> 47 < NO_NODE


def is_pointer(word):
    return is_node(word) or word in VALUES


def level_of(pointer):
    """The level of a pointer; that of a truth value is deeper than any."""
    return pointer >> 47 if is_node(pointer) else NO_NODE


def node_word(level, number):
    return (level << 47) + number


# Node files


def is_node_record(words, n):
    """Whether three words are those of a node that may stand in a file for n variables."""
    node, low, high = words
    if not is_node(node) or level_of(node) >= n or low == high:
        return False
    return all(is_pointer(child) and level_of(child) > level_of(node) for child in (low, high))


def has_trailer(data, n):
    """Whether the bytes are whole records, the last of which is a trailer for n variables."""
    if not data or len(data) % NODE:
        return False
    words = words_of(data)
    root, count, variables = words[-3:]
    if count != len(data) // NODE - 1 or variables != n:
        return False
    return is_node(root) and words[-6] == root if count else root in VALUES


def is_missing_at(words, count, place):
    """Whether a node that another one or the root names, and that isn't there, had to stand at a place or behind it."""
    nodes = set(words[: 3 * count : 3])
    above = words[3 * place]
    below = words[3 * place + 3] if place + 1 < count else None
    named = {word for at in range(count) for word in words[3 * at + 1 : 3 * at + 3]} | set(words[3 * count : 3 * count + 1])
    for word in named - nodes:
        if is_node(word) and (place == 0 and word > above or below is not None and below < word < above):
            return True
    return False


def is_damaged_in_nodes(data, n, at):
    """Whether a node file for n variables is damaged at a byte."""
    if at == max(len(data) - NODE, 0) and not has_trailer(data, n):
        return True
    place, count = at // NODE, len(data) // NODE - 1
    if at % NODE or place >= count:
        return False
    words = words_of(data)
    if not is_node_record(words[3 * place : 3 * place + 3], n):
        return True
    if place and words[3 * place - 3] <= words[3 * place]:
        return True
    return is_missing_at(words, count, place)


# The job and the entries


def job_of(budget, script, netlist):
    """The bytes of a job."""
    lengths = struct.pack(">III", budget, len(script), 0xFFFFFFFF if netlist is None else len(netlist))
    return b"ADIARJ01" + lengths + script + (netlist or b"")


def without_budget(data):
    """The bytes of a job without the budget of the run that stored it, which is compared with nothing."""
    return data[:8] + bytes(len(data[8:12])) + data[12:]


def stored_job(files):
    """The bytes of the job that a folder stores, or nothing."""
    return files.get(JOB, b"") if files.get(JOB_GATE) else None


def steps_counted(files):
    """How many steps a folder counts as committed: none where it stores no job."""
    return len(files.get(STEP_GATE, b"")) if files.get(JOB_GATE) else 0


class Entry:
    """The fields of an entry."""

    def __init__(self, data):
        self.step, self.kind, self.answer, self.length, self.zero = struct.unpack(">IBBBB", data[:8])
        self.count, self.turns, self.next_part = struct.unpack(">QQQ", data[8:32])
        self.name = data[32 : 32 + min(self.length, 63)]
        self.rest = data[32 + min(self.length, 63) :]


def entry_at(files, step):
    """The entry of a step, or nothing where none of it stands whole at its place."""
    data = files.get(CATALOGUE, b"")[ENTRY * step : ENTRY * (step + 1)]
    if len(data) < ENTRY:
        return None
    entry = Entry(data)
    fits = entry.step == step and entry.kind in (1, 2, 3) and entry.turns > 0 and entry.zero == 0
    answers = entry.answer == 0 or entry.answer == 1 and entry.kind == 3 and entry.count == 0
    named = entry.length == 0 or entry.length <= 63 and entry.kind == 1
    return entry if fits and answers and named and not any(entry.rest) else None


def damage_of_counts(files, most):
    """The place at which the gate of steps or the catalogue is damaged, for a job of so many steps, or nothing."""
    counted, size = steps_counted(files), len(files.get(CATALOGUE, b""))
    if counted > most:
        return PROGRAM_FILES, 3, most
    return (PROGRAM_FILES, 2, size // ENTRY * ENTRY) if size < ENTRY * counted else None


def listing(files):
    """What a list of a folder has to say, and its status."""
    damage = damage_of_counts(files, MOST_STEPS)
    entries = [] if damage else [entry_at(files, step) for step in range(steps_counted(files))]
    if None in entries:
        damage = PROGRAM_FILES, 2, ENTRY * entries.index(None)
    if damage:
        return b"damaged %d %d %d\n" % damage, 10
    dropped = {entry.count for entry in entries if entry.kind == 2}
    live = (entry for entry in entries if entry.kind == 1 and entry.name and entry.step not in dropped)
    return b"".join(b"%s %d\n" % (entry.name, entry.count) for entry in live), 0


# Items of runs


def is_source(word):
    """Whether a word is 2^63 - 1 less the identifier of a node."""
    return word < 1 << 63 and is_node((1 << 63) - 1 - word)


def is_member(key, low, high):
    """Whether a member's two pointers are one from the key on, or both lie deeper than it."""
    return low >= key if low == high else min(level_of(low), level_of(high)) > level_of(key)


def is_ask(words):
    key, members, asker = words[0], [words[1:3], words[3:5], words[5:7]], words[7]
    if not is_node(key) or not all(map(is_pointer, words[1:7])):
        return False
    above = level_of(asker >> 1) < level_of(key) if is_node(asker >> 1) else asker == (1 << 64) - 1
    is_wanted = any(member == (key, key) for member in members)
    return above and is_wanted and all(is_member(key, low, high) for low, high in members)


def is_final_arc(words):
    return is_source(words[0]) and words[1] in (0, 1) and is_pointer(words[2]) and not any(words[3:])


# Checkpoints


class Point:
    """A checkpoint: the words in front, those that the sweep keeps, and its tables, each of slots."""

    def __init__(self, data):
        words = words_of(data)
        self.step, self.sweep, self.turns, self.next_part, self.budget, self.tables = words[:6]
        self.kept = words[6:256]
        slots = [words[at : at + 3] for at in range(256, 1984, 3)]
        self.slots = [slots[at : at + 64] for at in range(0, 576, 64)]

    def is_same(self, other, used):
        """Whether another one says the same, where a sweep uses so many of the words that it keeps."""
        heads = [(one.step, one.sweep, one.turns, one.next_part, one.budget, one.tables) for one in (self, other)]
        same = heads[0] == heads[1] and self.kept[:used] == other.kept[:used]
        return same and self.slots_in_use() == other.slots_in_use()

    def slots_in_use(self):
        return [slot for table in self.slots[: min(self.tables, 9)] for slot in table]

    def runs(self):
        """The runs of which records are left: the number of the table, the part and the end of each."""
        tables = enumerate(self.slots[: min(self.tables, 9)])
        return [(k, part, end) for k, table in tables for part, read, end in table if read < end]


class NoValue(Exception):
    """The words of a checkpoint are none of a sweep."""


class Kept:
    """The words that a sweep keeps, which are read one behind the other."""

    def __init__(self, words):
        self.words, self.at = words, 0

    def word(self):
        self.at += 1
        return self.words[self.at - 1]

    def that_is(self, is_value):
        word = self.word()
        if not is_value(word):
            raise NoValue
        return word

    def half(self):
        return self.that_is(lambda word: word < 1 << 32)

    def bit(self):
        return self.that_is(lambda word: word < 2)

    def pointer(self):
        return self.that_is(is_pointer)

    def node(self):
        return self.that_is(is_node)

    def file(self):
        return self.half(), self.word()

    def maybe(self, count, read):
        """What is read behind a 1; behind a 0 so many words 0 stand."""
        if self.bit():
            return read()
        for _ in range(count):
            self.that_is(lambda word: word == 0)
        return None

    def item(self, count, is_item):
        words = tuple(self.word() for _ in range(count))
        if not is_item(words + (0,) * (8 - count)):
            raise NoValue
        return words


class TopDown:
    """What a sweep from the root down keeps."""

    def __init__(self, point, kind):
        kept = Kept(point.kept)
        self.variables, self.has_one = kept.half(), kept.bit()
        self.operands = [(kept.file(), kept.maybe(1, kept.word)) for _ in range(3)]
        self.arcs = [(kept.file(), kept.word()) for _ in range(2)]
        self.number = None
        self.root = kept.maybe(1 + 9, lambda: self.asking(kept))
        self.taken = kept.maybe(8, lambda: kept.item(8, is_ask))
        if kind == "leq":
            self.operation = [kept.bit() for _ in range(4)]
        else:
            self.operation = [
                kept.maybe(4, lambda: [kept.bit() for _ in range(4)]),
                kept.maybe(2, lambda: [kept.bit(), kept.half()]),
                kept.maybe(2, lambda: [kept.half(), kept.bit()]),
            ]
            if sum(found is not None for found in self.operation) > 1:
                raise NoValue
        self.used = kept.at

    def asking(self, kept):
        root = kept.node()
        self.number = kept.maybe(8, lambda: self.numbered(kept))
        return root

    def numbered(self, kept):
        kept.node()
        for _ in range(6):
            kept.pointer()
        return kept.word()

    def rests(self):
        fronts = [(file, count * ARC) for file, count in self.arcs]
        return [(file, None) for file, _ in self.operands] + fronts


class Comparison:
    """What a comparison keeps."""

    def __init__(self, point, kind):
        kept = Kept(point.kept)
        self.variables = kept.half()
        self.first, self.first_left = kept.file(), kept.word()
        self.second, self.second_left = kept.file(), kept.word()
        self.ahead, self.answer = kept.bit(), kept.maybe(1, kept.bit)
        self.used = kept.at

    def rests(self):
        return [(self.first, None), (self.second, None)]


class Evaluation:
    """What an evaluation keeps."""

    def __init__(self, point, kind):
        kept = Kept(point.kept)
        self.variables, self.bits = kept.half(), kept.half()
        self.file, self.left = kept.file(), kept.word()
        self.pointer = kept.maybe(1, kept.pointer)
        self.passed, self.answer = kept.maybe(1, kept.word), kept.maybe(1, kept.bit)
        self.used = kept.at

    def rests(self):
        return [(self.file, None)]


class Copy:
    """What a copy keeps."""

    def __init__(self, point, kind):
        kept = Kept(point.kept)
        self.source, self.made = kept.file(), kept.file()
        self.pieces, self.stand, self.bytes = kept.word(), kept.word(), kept.word()
        self.used = kept.at

    def rests(self):
        return [(self.source, None), (self.made, self.bytes)]


class Reduction:
    """What a reduction keeps."""

    def __init__(self, point, kind):
        kept = Kept(point.kept)
        self.variables, self.level = kept.half(), kept.half()
        self.root, self.known = kept.pointer(), kept.pointer()
        self.arcs = [(kept.file(), kept.word()) for _ in range(2)]
        self.made, self.nodes = kept.file(), kept.word()
        side = lambda: kept.maybe(1, kept.pointer)
        self.collected = kept.maybe(5, lambda: (kept.node(), side(), side()))
        pair = lambda: kept.maybe(2, lambda: (kept.pointer(), kept.pointer()))
        self.rows = kept.maybe(4, lambda: (kept.word(), pair()))
        self.forwards, self.count = kept.bit(), kept.maybe(1, kept.word)
        self.last = kept.maybe(3, lambda: kept.item(3, is_final_arc))
        self.used = kept.at

    def rests(self):
        return [(file, None) for file, count in self.arcs if count] + [(self.made, self.nodes * NODE)]


def keeps_rules(point, step):
    """Whether a checkpoint is one of that step, and its words in front and its slots can be so."""
    if point.step != step or point.sweep > 1 or point.budget >= 1 << 32:
        return False
    if point.turns >= 1 << 62 or not 3 <= point.next_part <= 1 << 32 or point.tables > 9:
        return False
    slots = [slot for slot in point.slots_in_use() if any(slot)]
    return all(3 <= part < point.next_part and read <= end <= 1 << 44 for part, read, end in slots)


def sweep_of(point, kind):
    """What the sweep of a step of that kind keeps in a checkpoint."""
    if kind == "same" or kind == "eval":
        return (Comparison if kind == "same" else Evaluation)(point, kind)
    if point.sweep == 1 and kind != "leq":
        return Reduction(point, kind)
    return (Copy if point.tables == 0 and kind != "leq" else TopDown)(point, kind)


def last_point(files, step):
    """The last checkpoint of a step that is gated and where it stands, or nothing where it isn't whole."""
    at = POINT * (len(held(files, step, POINT_GATE)) - 1)
    data = held(files, step, POINTS)[at : at + POINT] if at >= 0 else b""
    return Point(data) if len(data) == POINT else None


def rests_on(point, kind):
    """The files on which a checkpoint rests, with how many first bytes of each, or with nothing where it is all of them.

    They are none where its words are none of a sweep of a step of that kind.
    """
    try:
        fronts = sweep_of(point, kind).rests()
    except NoValue:
        return []
    return fronts + [((point.step, part), end * ITEM) for _, part, end in point.runs()]
