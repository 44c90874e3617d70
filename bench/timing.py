"""How long a program runs, and how much memory it takes."""
import os
import subprocess
import time


def timed(words, out):
    """The wall time and the exit status of a program whose output goes to a file."""
    start = time.monotonic()
    with open(out, "wb") as file:
        child = subprocess.Popen(words, stdout=file, stderr=subprocess.DEVNULL)
    status = child.wait()
    return time.monotonic() - start, status


def measured(words, out, limits=None):
    """The processor time, the exit status and the peak memory in bytes. GNU `time` starts the program, since the peak memory of a child that
    Python starts is never told as less than Python's own; what that takes to start counts as well."""
    with open(out, "wb") as file:
        child = subprocess.Popen(["time", "-f", "%M", *words], stdout=file, stderr=subprocess.PIPE, text=True, preexec_fn=limits)
    told = child.stderr.read()
    _, status, usage = os.wait4(child.pid, 0)
    return usage.ru_utime + usage.ru_stime, os.waitstatus_to_exitcode(status), int(told.split()[-1]) * 1024
