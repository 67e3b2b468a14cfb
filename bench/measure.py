"""Runs a program on some bytes, and tells what it took."""
import os
import subprocess
import tempfile
import time
from collections import namedtuple

CRATES = os.path.join(os.path.dirname(os.path.abspath(__file__)), "..", "crates")

# How a run ended: its status, what it wrote, its seconds by the clock, the processor's seconds in all
# its threads, and the greatest memory that it held, in bytes.
Run = namedtuple("Run", "status output clock processor peak")


def built(name):
    """Where `rt run` in a program's crate leaves the program."""
    return os.path.normpath(os.path.join(CRATES, name, "out", name))


def high_water(pid):
    """The greatest memory that a running process has held so far, in bytes; 0 where it has ended."""
    try:
        with open(f"/proc/{pid}/status") as file:
            held = [line for line in file if line.startswith("VmHWM:")]
    except OSError:
        return 0
    return int(held[0].split()[1]) * 1024 if held else 0


def watch(process):
    """Waits for a process, and gives its greatest memory, by looking every millisecond, with its
    status and its times. (What the system tells at the end counts this script's memory as well.)"""
    peak = 0
    while True:
        peak = max(peak, high_water(process.pid))
        pid, status, usage = os.wait4(process.pid, os.WNOHANG)
        if pid:
            process.returncode = os.waitstatus_to_exitcode(status)
            return peak, usage
        time.sleep(0.001)


def chosen(cores):
    """So many of the processors, from the first one on, or those with the indices in a list."""
    there = sorted(os.sched_getaffinity(0))
    return there[:cores] if isinstance(cores, int) else [there[index] for index in cores]


def run(command, text, cores=None):
    """Runs a command with these bytes as its input, on so many processors or on those in a list."""

    def settle():
        if cores is not None:
            os.sched_setaffinity(0, chosen(cores))

    with tempfile.TemporaryFile() as source, tempfile.TemporaryFile() as sink:
        source.write(text)
        source.seek(0)
        start = time.perf_counter()
        process = subprocess.Popen(
            command, stdin=source, stdout=sink, stderr=subprocess.DEVNULL, preexec_fn=settle
        )
        peak, usage = watch(process)
        clock = time.perf_counter() - start
        sink.seek(0)
        output = sink.read()
    return Run(process.returncode, output, clock, usage.ru_utime + usage.ru_stime, peak)


def fastest(times, command, text, cores=None):
    """Of so many runs the one that took the processor least, with the greatest memory of them all."""
    runs = [run(command, text, cores) for _ in range(times)]
    best = min(runs, key=lambda ran: ran.processor)
    return best._replace(peak=max(ran.peak for ran in runs))
