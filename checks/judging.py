"""What a run in a changed folder has to be, for `checks/hostile`, by docs/SCRIPTS.md, FORMATS.md and PROMISES.md."""
import os

from formats import (
    CATALOGUE, ENTRY, FIRST_RUN, JOB, JOB_GATE, NODE, NODES, POINT, POINT_GATE, POINTS, PROGRAM_FILES, STEP_GATE,
    damage_of_counts, entry_at, held, is_damaged_in_nodes, keeps_rules, last_point, listing, number_of, rests_on,
    steps_counted, stored_job, sweep_of, without_budget,
)

# How many steps behind those that it comes to a run may make node files for, which stay empty.
AHEAD = 64


class Judge:
    """Judges a run by the folder that it found, the one that it left, and how it ended.

    A folder within the folder stands for nothing. `faults` is what isn't as it should be, and `how` the way it ended.
    """

    def __init__(self, job, found, left, outcome):
        self.job, self.plan, self.found, self.left, self.outcome = job, job.plan, found, left, outcome
        self.faults, self.how = [], str(outcome.status)
        self.counted = steps_counted(found)
        self.after = len(left.get(STEP_GATE) or b"")
        self.is_stored = bool(found.get(JOB_GATE))

    def fault(self, what):
        self.faults.append(what)

    def judge_list(self):
        said, status = listing(self.found)
        self.expect(said, status)

    def judge_run(self):
        stored, most = stored_job(self.found), len(self.plan.steps)
        jobs = [without_budget(stored or b""), without_budget(self.job.bytes)]
        if self.is_stored and jobs[0] != jobs[1]:
            self.expect(b"other job at %d\n" % len(os.path.commonprefix(jobs)), 5)
        elif self.is_stored and damage_of_counts(self.found, most):
            self.expect(b"damaged %d %d %d\n" % damage_of_counts(self.found, most), 10)
        else:
            self.judge_files()
            self.judge_text()
            if self.is_sound():
                self.how += " sound"
                self.judge_end()

    def expect(self, said, status):
        """That a run ended so, and changed nothing."""
        if (self.outcome.said, self.outcome.status) != (said, status):
            self.fault(f"{said!r} and status {status} are wanted")
        if self.left != self.found:
            self.fault("a file was changed")

    # What was said

    def judge_text(self):
        before, end = (self.plan.said_before(steps) for steps in (self.counted, self.after))
        count = len(self.plan.lines)
        banner = b"resume %d of %d" % (before, count) if self.is_stored else b"start %d" % count
        lines = self.outcome.said.split(b"\n")
        last, said = lines[-2] if len(lines) > 2 else b"", lines[1:-2]
        wanted = [self.line(line) for line in self.plan.lines[before:end]]
        if lines[0] != banner or lines[-1] or said != wanted[: len(said)]:
            self.fault(f"the banner is {banner!r}, and the lines behind it are {wanted!r}")
        missing = self.plan.lines[before + len(said) : end]
        status = self.outcome.status
        if status == 0 and (missing or self.after != len(self.plan.steps) or last != b"done"):
            self.fault("not all was done")
        elif status == 10:
            self.judge_place(last, missing)
        elif status == 11:
            self.judge_spent(last, missing)
        elif status != 0:
            self.fault("there is no cause for this status")

    def line(self, line):
        """What a said line has to be, by the entry of its step; nothing where that has none."""
        entry, step = entry_at(self.left, line.step), self.plan.steps[line.step]
        return b"%d: %s" % (line.number, step.answer(entry)) if entry and entry.kind == step.entry_kind() else None

    def judge_spent(self, last, missing):
        point = last_point(self.found, self.after)
        if missing or last != b"runs spent at step %d" % self.after:
            self.fault("another line has to say of which step no part is left")
        if not point or point.next_part < (1 << 32) - 4096:
            self.fault("parts of this step are left")

    # What is damaged

    def judge_place(self, last, missing):
        words = last.split(b" ")
        if len(words) != 4 or words[0] != b"damaged" or not all(word.isdigit() for word in words[1:]):
            self.fault("the last line names no place")
            return
        step, part, at = map(int, words[1:])
        at_work = self.plan.steps[self.after] if self.after < len(self.plan.steps) else None
        if (step, part) == (PROGRAM_FILES, 2):
            self.judge_entry(at, at_work, missing)
        elif missing or not at_work or not at_work.sweeps():
            self.fault("a line is missing, or no step was at work that sweeps")
        elif part == NODES and step in at_work.operands:
            if not is_damaged_in_nodes(held(self.left, step, NODES), self.plan.n, at):
                self.fault("the node file isn't damaged there")
        elif (step, part) == (self.after, POINTS):
            if not self.has_damaged_point(at):
                self.fault("the last checkpoint isn't damaged, or doesn't stand there")
        else:
            self.fault("this file may not be named")

    def judge_entry(self, at, at_work, missing):
        """An entry that a size reads, or a line that is missing."""
        step, rest = divmod(at, ENTRY)
        read = [missing[0].step] if missing else at_work.operands if at_work and at_work.kind == "size" else []
        entry = entry_at(self.left, step)
        if rest or step not in read:
            self.fault("no such entry is read")
        elif entry and entry.kind == self.plan.steps[step].entry_kind():
            self.fault("this entry stands whole")

    def has_damaged_point(self, at):
        """Whether the last gated checkpoint of the step at work stands at a byte, and isn't whole or breaks the rules."""
        last = POINT * (len(held(self.found, self.after, POINT_GATE)) - 1)
        point = last_point(self.found, self.after)
        return last >= 0 and at == last and not (point and keeps_rules(point, self.after))

    # What was changed

    def judge_files(self):
        for name in self.found.keys() | self.left.keys():
            old, new = self.found.get(name), self.left.get(name)
            if old == new and (name in self.left) == (name in self.found):
                continue
            number = number_of(name)
            if name not in self.found and number and self.is_ahead(*number, new):
                continue
            if name not in self.left or not (number and self.may_change(*number, old or b"", new or b"")):
                self.fault(f"{name} was {'changed' if name in self.found else 'made'}")
        job = self.found.get(JOB) if self.is_stored else self.job.bytes
        if self.left.get(JOB) != job or not self.left.get(JOB_GATE) or self.after < self.counted:
            self.fault("the job isn't stored, or fewer steps are counted")
        for step in range(self.counted, self.after):
            self.judge_step(step)
        if self.outcome.status == 0 and self.counted:
            self.judge_last(self.counted - 1)

    def is_ahead(self, step, part, new):
        """Whether a file that was made is an empty node file, as a run makes them ahead of their steps."""
        return part == NODES and not new and self.counted < step <= self.after + AHEAD

    def may_change(self, step, part, old, new):
        """Whether a run may change a file so that ended behind its banner."""
        if step == PROGRAM_FILES:
            front = ENTRY * self.counted if part == 2 else self.counted
            grows = part in (2, 3) and self.after > self.counted and new[:front] == old[:front]
            return grows if self.is_stored else part < 4
        if step >= min(self.after + 1, len(self.plan.steps)):
            return False
        if step < self.counted:
            # What the last committed step left behind is cut once more.
            made = self.plan.steps[self.counted - 1 : self.after]
            if part == NODES:
                return not new and any(of.kind == "drop" and step in of.operands for of in made)
            return not new and step == self.counted - 1 and made[0].sweeps()
        planned = self.plan.steps[step]
        if part == NODES and planned.entry_kind() == 1:
            return True
        return planned.sweeps() and (part != NODES or old == new)

    def judge_step(self, number):
        """A step that this run committed."""
        entry, step = entry_at(self.left, number), self.plan.steps[number]
        if not entry or (entry.kind, entry.name) != (step.entry_kind(), step.name):
            self.fault(f"step {number} has no entry of its own")
            return
        if step.kind == "drop" and (entry.count != step.operands[0] or held(self.left, step.operands[0], NODES)):
            self.fault(f"step {number} didn't drop its diagram")
        if number in self.plan.live(self.after) and len(held(self.left, number, NODES)) != NODE * (entry.count + 1):
            self.fault(f"the file of step {number} has another number of nodes than its entry")
        if step.sweeps() and any(held(self.left, number, part) for part in self.parts_of(number, entry.next_part)):
            self.fault(f"step {number} wasn't tidied up")

    def judge_last(self, number):
        """The last step that was committed before this run, which had all calls it wanted."""
        entry, step = entry_at(self.found, number), self.plan.steps[number]
        if not entry or entry.kind != step.entry_kind():
            return
        if step.kind == "drop" and held(self.left, step.operands[0], NODES):
            self.fault(f"what step {number} dropped is still there")
        if step.sweeps() and any(held(self.left, number, part) for part in self.parts_of(number, FIRST_RUN)):
            self.fault(f"step {number} wasn't tidied up behind a stop")

    def parts_of(self, step, end):
        """The parts of a step that are there, behind its node file and below a number, 5 at least."""
        numbers = (number_of(name) for name in self.left)
        return [number[1] for number in numbers if number and number[0] == step and 0 < number[1] < max(end, FIRST_RUN)]

    # Whether all that counts is as the program wrote it

    def is_sound(self):
        counted, steps = self.counted, len(self.plan.steps)
        if any(held(self.found, step, POINT_GATE) for step in range(counted + self.is_stored, steps)):
            return False
        if any(self.entry_of(self.found, step) != self.entry_of(self.job.whole, step) for step in range(counted)):
            return False
        if any(held(self.found, step, NODES) != self.job.nodes.get(step) for step in self.plan.live(counted)):
            return False
        has_point = counted < steps and held(self.found, counted, POINT_GATE)
        return not has_point or self.is_genuine(counted)

    def entry_of(self, files, step, front=24):
        """The bytes of an entry without the next part number, and without the turns, which another budget may change,
        where its front ends before them."""
        data = files.get(CATALOGUE, b"")[ENTRY * step : ENTRY * (step + 1)]
        return data[:front] + data[32:]

    def is_genuine(self, number):
        """Whether the last gated checkpoint of a step is one that the program wrote, and all that it rests on is so too."""
        point, kind = last_point(self.found, number), self.plan.steps[number].kind
        for step, other, files in self.job.points if point else []:
            if step == number and point.is_same(other, sweep_of(other, kind).used):
                if all(self.is_same_front(files, file, end) for file, end in rests_on(other, kind)):
                    return True
        return False

    def is_same_front(self, files, file, end):
        """Whether a front of a file, or all of it, is as in other files, in which it is that long."""
        old, new = held(files, *file)[:end], held(self.found, *file)[:end]
        return old == new and end in (None, len(old))

    def judge_end(self):
        """That the run ended as the undisturbed one."""
        whole, steps = self.job.whole, len(self.plan.steps)
        lines = self.job.lines[self.plan.said_before(self.counted) :]
        if self.outcome.status != 0 or self.outcome.said.split(b"\n")[1:-2] != lines:
            self.fault("the undisturbed run says something else")
            return
        if any(self.entry_of(self.left, step, 16) != self.entry_of(whole, step, 16) for step in range(steps)):
            self.fault("an entry isn't that of the undisturbed run")
        for step in self.plan.live(steps):
            if held(self.left, step, NODES) != held(whole, step, NODES):
                self.fault(f"the node file of step {step} isn't that of the undisturbed run")
