"""Runs of the program that are killed and gone on with: how many calls of the system they make, and that a folder is as
it has to be in the end. For `checks/stop_cost` and `bench/stops`."""
import os
import re
import shutil
import subprocess
import sys
import time
from pathlib import Path

PROGRAM_FILES = 4294967295
JOB, JOB_GATE, CATALOGUE, STEP_GATE = (f"s{PROGRAM_FILES}p{part}" for part in range(4))
TICKS = os.sysconf("SC_CLK_TCK")
# The tracer is no parent of what it traces, and stops it at syncs alone.
TRACER = ["strace", "-D", "-f", "-q", "--seccomp-bpf", "-e", "trace=fsync,fdatasync", "-o"]


def fail(what):
    sys.exit(f"{Path(sys.argv[0]).name}: {what}")


def size(path):
    return path.stat().st_size if path.exists() else 0


class Calls:
    """How many reads, writes and syncs."""

    def __init__(self, reads, writes, syncs):
        self.reads, self.writes, self.syncs = reads, writes, syncs

    def __add__(self, other):
        return Calls(self.reads + other.reads, self.writes + other.writes, self.syncs + other.syncs)

    def sum(self):
        return self.reads + self.writes + self.syncs


class Run:
    """A run of a program, with its output and its trace in files of a folder; without a trace its syncs count as 0."""

    def __init__(self, words, work, is_traced):
        self.trace = work / "trace" if is_traced else None
        if is_traced:
            self.trace.unlink(missing_ok=True)
        with open(work / "said", "wb") as output:
            tracer = [*TRACER, self.trace] if is_traced else []
            self.process = subprocess.Popen([*tracer, *words], stdout=output)
        self.counts = os.open(f"/proc/{self.process.pid}/io", os.O_RDONLY)

    def has_ended(self):
        return os.waitid(os.P_PID, self.process.pid, os.WEXITED | os.WNOWAIT | os.WNOHANG) is not None

    def processor_time(self):
        fields = Path(f"/proc/{self.process.pid}/stat").read_text().rsplit(")", 1)[1].split()
        return (int(fields[11]) + int(fields[12])) / TICKS

    def end(self):
        """Waits for its end, and says its status, its processor time and its calls."""
        os.waitid(os.P_PID, self.process.pid, os.WEXITED | os.WNOWAIT)
        took = self.processor_time()
        counts = dict(re.findall(r"^(\w+): (\d+)$", os.pread(self.counts, 4096, 0).decode(), re.MULTILINE))
        os.close(self.counts)
        status = self.process.wait()
        return status, took, Calls(int(counts["syscr"]), int(counts["syscw"]), self.syncs())

    def syncs(self):
        """The syncs in the trace, once it tells the end."""
        until = time.monotonic() + 10
        while self.trace:
            text = self.trace.read_text()
            if re.search(r"\+\+\+ (exited|killed) .*\n\Z", text):
                return len(re.findall(r"\bf(?:data)?sync\(", text))
            if time.monotonic() > until:
                raise TimeoutError("the trace has no end")
            time.sleep(0.01)
        return 0


def tracing(work):
    """Whether runs can be traced, and the calls that the tracer makes before the program starts."""
    if not shutil.which("strace"):
        return False, Calls(0, 0, 0)
    try:
        status, _, traced = Run(["sleep", "0.3"], work, True).end()
        _, _, plain = Run(["sleep", "0.3"], work, False).end()
    except OSError:
        return False, Calls(0, 0, 0)
    return status == 0, Calls(traced.reads - plain.reads, traced.writes - plain.writes, 0)


def entries(folder):
    """The committed entries without the next part number of each step, which may be another behind a stop."""
    whole = (folder / CATALOGUE).read_bytes()
    return [whole[at : at + 24] + whole[at + 32 : at + 128] for at in range(0, len(whole), 128)]


def compare(whole, folder):
    """Compares what has to be equal in two folders, as `kill_and_resume` does. The file of a diagram that was dropped is
    empty in both: where a stop comes between the drop's commit and its cut the next run cuts it."""
    names = {JOB, *(path.name for place in (whole, folder) for path in place.glob("s*p0") if size(path))}
    for name in names:
        if size(whole / name) != size(folder / name) or (whole / name).read_bytes() != (folder / name).read_bytes():
            fail(f"{name} differs")
    if entries(whole) != entries(folder):
        fail("an entry differs")
    for name in (JOB_GATE, STEP_GATE):
        if size(whole / name) != size(folder / name):
            fail(f"the length of {name} differs")
