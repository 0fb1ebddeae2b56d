"""Changes of stopped folders, for `checks/hostile`: each makes of a folder one that the program wouldn't have left."""
from formats import (
    ARC, CATALOGUE, ENDS, ENTRY, FIRST_RUN, INNER, ITEM, JOB_GATE, MOST_STEPS, NODE, NODES, POINT, POINT_GATE, POINTS,
    PROGRAM_FILES, STEP_GATE, VALUES, Point, held, last_point, name_of, node_word, number_of, rests_on, words_of,
)

# Where a checkpoint's tables begin and end, in bytes and in words.
TABLES, TABLES_END = 2048, 15872
SLOT_WORDS = range(TABLES // 8, TABLES_END // 8)
TABLE = 1536


class Change:
    """A stopped folder that is being changed. What a way to change it answers is whether it could."""

    def __init__(self, chance, stop, stops):
        self.chance, self.stop, self.files = chance, stop, dict(stop.files)
        self.counted, self.plan = stop.counted, stop.job.plan
        self.donors = [other for other in stops if other.has_point() and other is not stop] or stops

    def make(self):
        """One change, or several; answers its kind."""
        kinds, weights, ways = zip(*CHANGES)
        wanted = self.chance.randrange(2, 5) if self.chance.randrange(8) == 0 else 1
        made = []
        while len(made) < wanted:
            k = self.chance.choices(range(len(kinds)), weights)[0]
            if ways[k](self):
                made.append(kinds[k])
        return made[0] if wanted == 1 else SEVERAL

    def is_done(self):
        return self.counted >= len(self.plan.steps)

    def pick(self):
        """A file that isn't empty: of the program, of a live diagram, of the step at hand, or another."""
        live = {name_of(step, NODES) for step in self.plan.live(self.counted)}
        groups = [[], [], [], []]
        for name in sorted(name for name, data in self.files.items() if data):
            step = (number_of(name) or (-1, 0))[0]
            groups[0 if step == PROGRAM_FILES else 1 if name in live else 2 if step == self.counted else 3].append(name)
        groups = [group for group in groups if group]
        return self.chance.choice(self.chance.choice(groups)) if groups else None

    def record(self, name):
        """How many bytes a record of a file has."""
        step, part = number_of(name) or (0, 0)
        if step == PROGRAM_FILES:
            return ENTRY if name == CATALOGUE else 1
        return (NODE, POINT, 1, ARC, ARC)[part] if part < FIRST_RUN else ITEM

    def word(self, old=0):
        """A word that looks like one that stands somewhere."""
        chance, top = self.chance, (1 << 47) - 1
        node = node_word(chance.randrange(self.plan.n + 2), chance.choice([top - chance.randrange(8), chance.randrange(8)]))
        return chance.choice([
            node, node, chance.choice(VALUES), node | 1 << 63, (1 << 63) - 1 - node, 2 * node + chance.randrange(2),
            node_word(chance.choice([65534, 65535]), top), (1 << 64) - 1, chance.randrange(64), 1 << chance.randrange(64),
            old ^ 1 << chance.randrange(64), (old + chance.choice([-1, 1])) % (1 << 64),
        ])

    def change_word(self, name, at):
        data = self.files[name]
        word = self.word(words_of(data[at : at + 8])[0])
        self.files[name] = data[:at] + word.to_bytes(8, "big") + data[at + 8 :]

    def nothing(self):
        return True

    def bits(self):
        name = self.pick()
        if not name:
            return False
        data = bytearray(self.files[name])
        for _ in range(self.chance.choice([1, 1, 1, 2, 8])):
            data[self.chance.randrange(len(data))] ^= 1 << self.chance.randrange(8)
        self.files[name] = bytes(data)
        return True

    def pointer(self):
        name = self.pick()
        if not name or len(self.files[name]) < 8:
            return False
        self.change_word(name, self.chance.randrange(len(self.files[name]) // 8) * 8)
        return True

    def records(self):
        name = self.pick()
        size = self.record(name) if name else 1
        if not name or len(self.files[name]) < 2 * size:
            return False
        data = bytearray(self.files[name])
        count = len(data) // size
        one = self.chance.randrange(count)
        other = self.chance.choice([(one + 1) % count, self.chance.randrange(count)])
        first, second = (slice(at * size, at * size + size) for at in (one, other))
        data[first], data[second] = data[second], data[first]
        self.files[name] = bytes(data)
        return True

    def cut(self):
        name = self.pick()
        if not name:
            return False
        data, size = self.files[name], self.record(name)
        bound = self.chance.randrange(len(data) // size + 1) * size
        to = self.chance.choice([bound, self.chance.randrange(len(data)), max(len(data) - size, 0), len(data) - 1])
        self.files[name] = data[:to]
        return True

    def lengthen(self):
        name = self.pick()
        if not name:
            return False
        data, size = self.files[name], self.record(name)
        more = self.chance.choice([size, size, 3 * size, self.chance.randrange(1, 100)])
        self.files[name] = data + self.chance.choice([bytes(more), self.chance.randbytes(more), data[-more:], data[:more]])
        return True

    def exchange(self):
        one, other = self.pick(), self.pick()
        if one == other:
            return False
        self.files[one], self.files[other] = self.files[other], self.files[one]
        return True

    def gate(self):
        """Another length of a gate: of the job, of the steps, or of the checkpoints of a step about the one at hand."""
        chance, steps = self.chance, len(self.plan.steps)
        near = max(self.counted + chance.choice([0, 0, 0, -1, 1, chance.randrange(-5, 6)]), 0)
        name = chance.choice([JOB_GATE, STEP_GATE, STEP_GATE, name_of(near, POINT_GATE), name_of(near, POINT_GATE)])
        old = len(self.files.get(name) or b"")
        new = chance.choice([0, old - 1, old + 1, old + 2, chance.randrange(old + 4), steps, steps + 1])
        new = MOST_STEPS + 1 if chance.randrange(100) == 0 else new
        if new < 0 or new == old:
            return False
        self.files[name] = chance.choice([bytes(new), chance.randbytes(new)])
        return True

    def point_at(self):
        """Where the last gated checkpoint of the step at hand stands, or nothing."""
        at = POINT * (len(held(self.files, self.counted, POINT_GATE)) - 1)
        return at if 0 <= at <= len(held(self.files, self.counted, POINTS)) - POINT else None

    def point_words(self):
        """Some words of the last checkpoint: in front, of the sweep, or of a slot."""
        at, name = self.point_at(), name_of(self.counted, POINTS)
        if at is None:
            return False
        for _ in range(self.chance.choice([1, 1, 2, 3])):
            words = words_of(self.files[name][at : at + POINT])
            groups = [range(6), range(6, 60), [k for k in SLOT_WORDS if words[k]] or SLOT_WORDS]
            self.change_word(name, at + 8 * self.chance.choice(self.chance.choice(groups)))
        return True

    def put_point(self):
        """A checkpoint of another step or folder in the place of the last one, mostly with this one's step."""
        donor = self.chance.choice(self.donors)
        data = held(donor.files, donor.counted, POINTS)
        if not data or self.is_done():
            return False
        at = self.chance.randrange(len(data) // POINT) * POINT
        point = data[at : at + POINT]
        if self.chance.randrange(4):
            point = self.counted.to_bytes(8, "big") + point[8:]
        at = POINT * max(len(held(self.files, self.counted, POINT_GATE)) - 1, 0)
        self.files[name_of(self.counted, POINTS)] = held(self.files, self.counted, POINTS)[:at].ljust(at, b"\0") + point
        self.files[name_of(self.counted, POINT_GATE)] = bytes(at // POINT + 1)
        if self.chance.randrange(2):
            self.put_parts(donor)
        return True

    def put_parts(self, donor):
        """Some or all of the files behind the checkpoints of another folder's step at hand."""
        share = self.chance.choice([1, 1, 0.7])
        for name, data in sorted(donor.files.items()):
            step, part = number_of(name)
            if step == donor.counted and part not in (POINTS, POINT_GATE) and self.chance.random() < share:
                self.files[name_of(self.counted, part)] = data

    def put_run(self):
        """A run, or arcs, of another folder or step in the place of one of the step at hand."""
        donor = self.chance.choice(self.donors)
        parts = [name for name in sorted(donor.files) if donor.files[name] and number_of(name)[1] >= INNER]
        numbers = [number_of(name) or (-1, 0) for name in sorted(self.files)]
        own = [name_of(step, part) for step, part in numbers if step == self.counted and part >= INNER]
        if not parts or self.is_done():
            return False
        name = self.chance.choice(own or [name_of(self.counted, self.chance.randrange(INNER, 9))])
        self.files[name] = donor.files[self.chance.choice(parts)]
        return True

    def noise(self):
        name = self.pick()
        if not name:
            return False
        size = len(self.files[name])
        self.files[name] = self.chance.randbytes(self.chance.choice([size, self.chance.randrange(1, size + 200)]))
        return True

    def remove(self):
        name = self.pick()
        return bool(name) and self.files.pop(name) is not None

    def unknown(self):
        """A file or a folder with a name that none of the job's files has."""
        step, part, steps = self.chance.randrange(self.counted + 3), self.chance.randrange(9), len(self.plan.steps)
        name = self.chance.choice([
            f"s{step}p{part}x", f"s0{step}p{part}", f"S{step}p{part}", f"s{step}p", f"s-{step}p0", f"s+{step}p0",
            f"s{step}p0.old", f"s{step}p{1 << 64}", f"s4294967296p{part}", f"s{PROGRAM_FILES}p{4 + part}",
            f"s{steps + step}p{part}", f"{step}", "notes", ".hidden",
        ])
        if name in self.files:
            return False
        data = self.chance.choice([None, b"", self.chance.randbytes(self.chance.randrange(1, 300))])
        # No folder stands where a job may have a file.
        self.files[name] = b"" if data is None and number_of(name) else data
        return True

    def dead(self):
        """What means nothing: the bytes of gates, what is behind those that count, and files of committed and later steps."""
        chance, steps = self.chance, len(self.plan.steps)
        tail = chance.randbytes(chance.choice([1, 24, 64, 700]))
        gates = [name for name in (JOB_GATE, STEP_GATE, name_of(self.counted, POINT_GATE)) if self.files.get(name)]
        choice = chance.randrange(6)
        if choice == 0 and gates:
            name = chance.choice(gates)
            self.files[name] = chance.randbytes(len(self.files[name]))
        elif choice == 1 and self.counted:
            step = chance.randrange(self.counted)
            is_live = step in self.plan.live(self.counted)
            self.files[name_of(step, chance.choice([*range(is_live, 9), 63, 64, 200]))] = tail
        elif choice == 2 and self.counted + 1 < steps:
            step = chance.randrange(self.counted + 1, steps)
            self.files[name_of(step, chance.choice([0, 1, 3, 4, 5, 6, 63, 64, 200]))] = tail
        elif choice == 3 and self.files.get(JOB_GATE):
            self.files[CATALOGUE] = (self.files.get(CATALOGUE) or b"")[: ENTRY * self.counted] + tail
        elif not self.is_done():
            self.dead_of_step(tail)
        else:
            return False
        return True

    def dead_of_step(self, tail):
        """Files of the step at hand: any but its gate where it has no checkpoint, and else what is behind what counts."""
        chance, step, at = self.chance, self.counted, self.point_at()
        name = name_of(step, POINTS)
        if at is None:
            self.files[name_of(step, chance.choice([0, 1, 3, 4, 5, 6, 7, 40, 63, 64, 90]))] = tail
            return
        point = last_point(self.files, step)
        part = chance.choice([NODES, POINTS, INNER, ENDS, point.next_part + chance.randrange(3), chance.randrange(5, 99)])
        if part == POINTS and chance.randrange(2):
            self.files[name] = self.files[name][: at + POINT] + tail
        elif part == POINTS:
            unused = range(TABLES + TABLE * min(point.tables, 9), POINT, 8)
            places = [*range(0, at, 8), *(at + place for place in unused), at + 1900 // 8 * 8]
            self.change_word(name, chance.choice(places))
        else:
            end = dict(rests_on(point, self.plan.steps[step].kind)).get((step, part), 0)
            whole = self.files.get(name_of(step, part)) or b""
            self.files[name_of(step, part)] = whole[:end] + (tail if end is not None else b"")


SEVERAL = "several"
CHANGES = [
    ("nothing", 1, Change.nothing),
    ("bits", 10, Change.bits),
    ("a pointer", 10, Change.pointer),
    ("records exchanged", 5, Change.records),
    ("cut", 6, Change.cut),
    ("lengthened", 6, Change.lengthen),
    ("files exchanged", 5, Change.exchange),
    ("a gate", 8, Change.gate),
    ("words of a checkpoint", 8, Change.point_words),
    ("a checkpoint put in", 6, Change.put_point),
    ("a run put in", 4, Change.put_run),
    ("noise", 4, Change.noise),
    ("removed", 4, Change.remove),
    ("an unknown name", 3, Change.unknown),
    ("what is dead", 10, Change.dead),
]
