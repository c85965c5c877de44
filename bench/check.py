#!/usr/bin/env python3
"""Times `irdl_opt check` on large definition files. It builds nothing.

usage: bench/check.py [PROGRAM]     PROGRAM is the built program; by default that of this repository
"""
import os
import resource
import subprocess
import sys
import tempfile
import time

SIZE = 16_777_216
RUNS = 5


# The files are written in pieces, since a child's peak memory counts from its parent's.


def operations(file):
    """One dialect whose operations fill the size to the byte, blanks at the end."""
    length, number = file.write(b"irdl.dialect @a {\n"), 0
    while True:
        part = b"  irdl.operation @o%d {\n    %%0 = irdl.any\n    %%1 = irdl.is i32\n  }\n" % number
        if length + len(part) + 2 > SIZE:
            break
        length += file.write(part)
        number += 1
    length += file.write(b"}\n")
    file.write(b" " * (SIZE - length))


def many_operations(file):
    """One dialect of 100,000 operations, each with an operand and a result."""
    file.write(b"irdl.dialect @a {\n")
    for number in range(100_000):
        body = b"%0 = irdl.any irdl.operands(x: %0) irdl.results(y: %0)"
        file.write(b"  irdl.operation @o%d { %s }\n" % (number, body))
    file.write(b"}\n")


def many_names(file):
    """One operation of 60,000 value names, of which each is an operand with a name of its own. It
    is refused for its number of variables, once all of it is judged.
    """
    file.write(b"irdl.dialect @a { irdl.operation @o {\n")
    for number in range(60_000):
        file.write(b"%%v%d = irdl.any\n" % number)
    entries = b", ".join(b"x%d: %%v%d" % (number, number) for number in range(60_000))
    file.write(b"irdl.operands(%s) } }\n" % entries)


def formats(file):
    """One dialect of 2,000 operations, each with a format of ten elements."""
    file.write(b"irdl.dialect @a {\n")
    form = b"$x `,` $y `with` int($n, i64) attr-dict `:` type($x) `->` functional-type($y, results)"
    for number in range(2_000):
        file.write(b"  irdl.operation @o%d { %%0 = irdl.any irdl.operands(x: %%0, y: %%0)\n" % number)
        file.write(b"    irdl.results(r: %0) irdl.attributes { \"n\" = %0 }\n")
        file.write(b"    irdl_opt.format \"%s\" }\n" % form)
    file.write(b"}\n")


def one_format(file):
    """One operation with a format of 20,000 elements, of which 5,000 are groups of two."""
    file.write(b"irdl.dialect @a { irdl.operation @o { %0 = irdl.any irdl_opt.terminator\n")
    entries = b", ".join(b"\"a%d\" = optional %%0" % number for number in range(5_000))
    file.write(b"irdl.attributes { %s }\n" % entries)
    groups = b" ".join(b"(`w%d` int($a%d, i64)^)? `,`" % (number, number) for number in range(5_000))
    file.write(b"irdl_opt.format \"%s attr-dict\" } }\n" % groups)


def spaces(file):
    """Layout alone, which is a file without dialects."""
    for _ in range(SIZE // 4096):
        file.write(b" " * 4096)


def measure(program, path, status):
    """The best time of some runs in seconds, and the greatest memory of any run so far in MiB."""
    best = None
    for _ in range(RUNS):
        start = time.perf_counter()
        done = subprocess.run([program, "check", path], stderr=subprocess.DEVNULL)
        elapsed = time.perf_counter() - start
        if done.returncode != status:
            sys.exit(f"{program} answered {done.returncode}, not {status}")
        best = elapsed if best is None else min(best, elapsed)
    return best, resource.getrusage(resource.RUSAGE_CHILDREN).ru_maxrss / 1024


# Each file with its status, in the order of their memory, since the peak is that of all runs so far.
FILES = [(formats, 0), (one_format, 0), (spaces, 0), (many_names, 1), (many_operations, 0), (operations, 0)]


def main():
    here = os.path.dirname(os.path.abspath(__file__))
    program = sys.argv[1] if len(sys.argv) > 1 else os.path.join(here, "../crates/irdl_opt/out/irdl_opt")
    if not os.access(program, os.X_OK):
        sys.exit(f"{program} isn't built: run ./irdl_opt once")
    print("file                  bytes status   seconds     MB/s peak MiB")
    with tempfile.TemporaryDirectory() as folder:
        for write, status in FILES:
            name = write.__name__
            path = os.path.join(folder, name)
            with open(path, "wb") as file:
                write(file)
            size = os.path.getsize(path)
            seconds, memory = measure(program, path, status)
            print(f"{name:16} {size:10} {status:6} {seconds:9.3f} {size / seconds / 1e6:8.1f} {memory:8.1f}")


if __name__ == "__main__":
    main()
