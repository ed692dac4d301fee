"""A child process with its time and memory, as tools/tasks and tools/bench measure it."""
import os
import resource
import signal
import subprocess
import time
from dataclasses import dataclass


@dataclass
class Run:
    """status is None where the time ran out; seconds by the clock; megabytes at most."""

    status: int | None
    seconds: float
    processor: float
    megabytes: float


def measured(words, seconds, output=subprocess.DEVNULL, megabytes=0, folder=None, processor=0):
    """Runs the words, for so many seconds by the clock at most.

    And within so many megabytes and for so many whole processor seconds at most, if not 0.
    """
    began = time.monotonic()
    child = subprocess.Popen(words, stdout=output, stderr=subprocess.DEVNULL, stdin=subprocess.DEVNULL,
                             start_new_session=True, cwd=folder)
    try:
        if megabytes:
            resource.prlimit(child.pid, resource.RLIMIT_AS, (megabytes << 20, megabytes << 20))
        if processor:
            resource.prlimit(child.pid, resource.RLIMIT_CPU, (processor, processor + 1))
    except ProcessLookupError:
        pass
    late, peak, found = False, 0, 0
    while not found:
        peak = max(peak, peak_of(child.pid))
        found, status, usage = os.wait4(child.pid, os.WNOHANG)
        passed = time.monotonic() - began
        if not found and passed > seconds and not late:
            late = True
            os.killpg(child.pid, signal.SIGKILL)
        if not found:
            time.sleep(min(0.02, 0.0003 + passed / 50))
    took = time.monotonic() - began
    child.returncode = os.waitstatus_to_exitcode(status)
    # Up to its exec a child counts the memory of this process as its own.
    if usage.ru_maxrss > resource.getrusage(resource.RUSAGE_SELF).ru_maxrss:
        peak = usage.ru_maxrss
    late = late or child.returncode == -signal.SIGXCPU
    spent = usage.ru_utime + usage.ru_stime
    return Run(None if late else child.returncode, took, spent, peak / 1024)


def peak_of(pid):
    """The peak of a running process in kilobytes, 0 where it has ended or does not run its own program yet."""
    try:
        with open(f"/proc/{pid}/status", encoding="ascii", errors="replace") as file:
            lines = dict(it.split(":", 1) for it in file.read().splitlines() if ":" in it)
        return 0 if lines["Name"].strip().startswith("python") else int(lines["VmHWM"].split()[0])
    except (OSError, KeyError, ValueError):
        return 0
