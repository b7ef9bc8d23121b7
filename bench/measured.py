"""Runs a measurement of arc_bench, for the scripts beside this file."""
import os
import subprocess
import sys

PROGRAM = os.path.join(os.path.dirname(os.path.realpath(__file__)), "..", "crates", "arc_bench", "out", "arc_bench")


def runs(otherwise=15):
    """How often each measurement runs: the script's word, or so often if there is none."""
    return int(sys.argv[1]) if len(sys.argv) > 1 else otherwise


def measured(*words, count=None):
    """The seconds that one run took by the program's own clock, and how much it did, which has to be this where it is said."""
    said = subprocess.run([PROGRAM, *words], check=True, capture_output=True, text=True).stdout.split()
    seconds, done = int(said[1]) / 1e9, int(said[3])
    if done == 0 or count not in (None, done):
        sys.exit(f"{' '.join(words)}: it did {done}, and {count or 'more'} is wanted")
    return seconds, done


def least(*words, times, count=None):
    """The least seconds of so many runs, and how much one did."""
    found = [measured(*words, count=count) for _ in range(times)]
    return min(seconds for seconds, _ in found), found[0][1]
