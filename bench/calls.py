#!/usr/bin/env python3
"""Times calls that no command makes yet, by the program `bench_calls`. It builds nothing.

usage: bench/calls.py [PROGRAM [WORK..]]     PROGRAM is the built program; by default that of this
repository. Only the works that are named are done, or all.

The seconds are those of the whole run of the program. Where it tells the time of a part of it, that
stands behind as `alone`.
"""
import os
import re
import resource
import subprocess
import sys
import time

RUNS = 20

# Each work with its count, in the order of their memory, since the peak is that of all runs so far.
WORKS = [
    ("solve", 1_000_000),
    ("choices", 10),
    ("lex", 430_000),
    ("doubled", 25),
    ("layout", 430_000),
    ("values", 60_000),
    ("meanings", 100_000),
    ("print", 60_000),
    ("intern", 1_000_000),
    ("names", 1_000_000),
    ("store", 1_000_000),
]


def measure(program, work, count):
    """The best time of some runs in seconds, that of the part which they tell, and the greatest
    memory of any run so far in MiB."""
    times, parts = [], []
    for _ in range(RUNS):
        start = time.perf_counter()
        ran = subprocess.run([program, work, str(count)], stdout=subprocess.PIPE, text=True, check=True)
        times.append(time.perf_counter() - start)
        parts += [int(told) / 1e6 for told in re.findall(r"(\d+) microseconds", ran.stdout)]
    memory = resource.getrusage(resource.RUSAGE_CHILDREN).ru_maxrss / 1024
    return min(times), min(parts, default=None), memory


def main():
    here = os.path.dirname(os.path.abspath(__file__))
    default = os.path.join(here, "../crates/bench_calls/out/bench_calls")
    program = sys.argv[1] if len(sys.argv) > 1 else default
    if not os.access(program, os.X_OK):
        sys.exit(f"{program} isn't built: run `rt run` in crates/bench_calls once")
    print("work           count   seconds peak MiB     alone")
    for work, count in WORKS:
        if sys.argv[2:] and work not in sys.argv[2:]:
            continue
        seconds, part, memory = measure(program, work, count)
        alone = "" if part is None else f"{part:9.3f}"
        print(f"{work:10} {count:9} {seconds:9.3f} {memory:8.1f} {alone}".rstrip())


if __name__ == "__main__":
    main()
