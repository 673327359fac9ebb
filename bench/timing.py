"""Runs of a program that the benches time."""
import math
import os
import resource
import subprocess
import sys
import time
from dataclasses import dataclass

TIME = "/usr/bin/time"
# The status of fz if a buffer would have passed the limit of --memory.
OVER_LIMIT = 6


@dataclass
class Took:
    """Seconds on the clock, and those of all processors together."""

    wall: float
    processor: float

    def least(self, other):
        return Took(min(self.wall, other.wall), min(self.processor, other.processor))


def processor_seconds():
    """What the commands that have ended took of processors."""
    used = resource.getrusage(resource.RUSAGE_CHILDREN)
    return used.ru_utime + used.ru_stime


def run(words):
    """Runs a command and returns what it took, which is infinite if fz would have passed its limit of memory."""
    before, begin = processor_seconds(), time.perf_counter()
    status = subprocess.call(words, stdout=subprocess.DEVNULL)
    took = Took(time.perf_counter() - begin, processor_seconds() - before)
    if status == OVER_LIMIT:
        return Took(math.inf, math.inf)
    if status:
        sys.exit(f"{' '.join(words)} ended with {status}")
    return took


def peak(words):
    """Runs a command and returns the megabytes that it had resident at most, or None without the command time."""
    if not os.path.exists(TIME):
        return None
    told = subprocess.run([TIME, "-f", "%M", *words], stdout=subprocess.DEVNULL, stderr=subprocess.PIPE, text=True, check=True)
    return int(told.stderr.split()[-1]) / 1024


def remove(*paths):
    """Removes those of the files that are there."""
    for it in paths:
        if os.path.exists(it):
            os.remove(it)
