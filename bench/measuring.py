"""Measures the processor time and the peak memory of commands whose answers are known, for `run` beside this file."""
import collections
import ctypes
import os
import pathlib
import subprocess
import sys
import time

sys.path.insert(1, str(pathlib.Path(__file__).resolve().parent.parent / "checks"))
from checking import TOP  # noqa: E402
from coshalit import assembly  # noqa: E402

RUNS = 10
# Of a `Timing`.
FEW_RUNS = 3
# The program that measures layers of the house alone.
LAYERS = TOP / "crates/bench_layers/out/bench_layers"


class Wrong(Exception):
    """An answer isn't the expected one."""


def image_of(*texts):
    """The bytes of assembly texts, one after another. Each has its own labels."""
    return b"".join(assembly.assemble(text)[0] for text in texts)


def demand_layers(words):
    """Ends, with the line that builds it, if `LAYERS` isn't there."""
    if not LAYERS.is_file():
        sys.exit(f"bench: there is no program {LAYERS}\nbench: this proves and builds it: (cd crates/bench_layers && rt run -- {words})")


def print_head(words):
    print(f"{os.cpu_count()} processors, load {os.getloadavg()[0]:.1f}; {words}", flush=True)


def print_lines(lines):
    """Prints lines as they come, and gives the status: 1 if one says that an answer is another one than expected."""
    is_wrong = False
    for line in lines:
        is_wrong = is_wrong or "WRONG" in line
        print(line, flush=True)
    return int(is_wrong)


# Makes a process that becomes the command once there is a line on standard input; prints its id, and ends.
SHELL = 'source=$1 sink=$2; shift 2; exec 3<&0; { read -r go <&3 && exec "$@" <"$source" 3<&-; } >"$sink" & echo $!'
PR_SET_CHILD_SUBREAPER = 36


def adopt_orphans():
    """Makes this process the parent of those whose parent has ended, as `measured` takes it."""
    if ctypes.CDLL(None, use_errno=True).prctl(PR_SET_CHILD_SUBREAPER, 1, 0, 0, 0) != 0:
        sys.exit(f"bench: prctl: {os.strerror(ctypes.get_errno())}")


# How a command ended: its exit status, processor time and time by the clock in seconds, peak memory in bytes.
Ended = collections.namedtuple("Ended", "status processor clock peak")


def ended(command, source, sink):
    """Runs a command, its standard input from one file and its standard output to another.

    Linux counts what a process held before it became the command too. Python's child would hold more than the command
    does, so the process is made by a shell, which then ends and leaves it to this process to wait for. It becomes the
    command only after that: the shell might wait for a command that is over soon.
    """
    gate, opening = os.pipe()
    shell = subprocess.run(["sh", "-c", SHELL, "sh", source, sink, *command], stdin=gate, stdout=subprocess.PIPE, check=True)
    os.close(gate)
    start = time.monotonic()
    os.write(opening, b"\n")
    _, status, usage = os.wait4(int(shell.stdout), 0)
    clock = time.monotonic() - start
    os.close(opening)
    return Ended(os.waitstatus_to_exitcode(status), usage.ru_utime + usage.ru_stime, clock, usage.ru_maxrss * 1024)


def answered(command, source, sink, answer):
    """How a command ended that has to end in status 0 and print so many lines, and this one last."""
    end = ended(command, source, sink)
    lines = sink.read_bytes().splitlines(keepends=True)
    last = lines[-1] if lines else b""
    if end.status != 0 or (len(lines), last) != answer:
        found = f"exit status {end.status}, {len(lines)} lines and at last {last[:80]!r}"
        raise Wrong(f"{found} instead of 0, {answer[0]} and {answer[1][:80]!r}")
    return end


def measured(command, source, sink, answer):
    """The processor time of a command in seconds, and its peak memory in bytes. `answer` is how many lines it prints, and the last."""
    end = answered(command, source, sink, answer)
    return end.processor, end.peak


class Timing:
    """The least times of some runs, and the most memory. Each run has to print so many lines and the last one, as `answer` says."""

    def __init__(self, command, source, folder, answer):
        self.clock, self.processor, self.peak = float("inf"), float("inf"), 0
        for _ in range(FEW_RUNS):
            end = answered(command, source, folder / "answer", answer)
            self.clock = min(self.clock, end.clock)
            self.processor = min(self.processor, end.processor)
            self.peak = max(self.peak, end.peak)

    def __str__(self):
        return f"{self.clock:9.3f} s   {self.processor:9.3f} s of processors   {self.peak / 1e6:8.1f} MB"


class Figure:
    """What a command takes from a short to a long run, in which it does so many things more, and the long one's peak memory."""

    def __init__(self, count, short, long):
        self.shortest, self.longest = float("inf"), float("inf")
        self.peak = 0
        # In turn, so that other work on the machine weighs on both alike.
        for _ in range(RUNS):
            took, _ = measured(*short)
            self.shortest = min(self.shortest, took)
            took, peak = measured(*long)
            self.longest = min(self.longest, took)
            self.peak = max(self.peak, peak)
        self.took = self.longest - self.shortest
        self.count = count

    def speed(self, things):
        if self.took <= 0:
            return "too short to be timed"
        return f"{self.count / self.took / 1e6:8.3f} million {things} a second"

    def __str__(self):
        if self.took <= 0:
            return "too short to be timed"
        return f"{self.count / self.took / 1e6:8.1f} million steps a second {self.peak / 1e6:6.1f} MB"
