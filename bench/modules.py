#!/usr/bin/env python3
"""Times `irdl_opt verify` and `print generic` on large modules. It builds nothing.

usage: bench/modules.py [PROGRAM]     PROGRAM is the built program; by default that of this repository
"""
import os
import subprocess
import sys
import tempfile
import time

RUNS = 3
DEFINITIONS = b"""irdl.dialect @soak {
  irdl.operation @num {
    %0 = irdl.base "#builtin.integer"
    %1 = irdl.is i64
    irdl.attributes { "value" = %0 }
    irdl.results(r: %1)
  }
  irdl.operation @add {
    %0 = irdl.any
    irdl.operands(a: %0, b: %0)
    irdl.results(r: %0)
  }
  irdl.operation @body { %0 = irdl.region irdl.regions(body: %0) }
  irdl.operation @any {}
  irdl.operation @make { %0 = irdl.any irdl.results(r: %0) }
}
"""
NUM = b'%%v%d = "soak.num"() {value = %d : i64} : () -> i64\n'
ADD = b'%%v%d = "soak.add"(%%v%d, %%v%d) : (i64, i64) -> i64\n'


def soak(count, file):
    """Numbers and their sums."""
    for i in range(count):
        file.write(NUM % (i, i * 7919 % 100_003) if i % 3 == 0 else ADD % (i, i - 1, i // 2))


def forward(count, file):
    """One block whose operations use what is defined behind them."""
    file.write(b'"soak.body"() ({\n')
    for i in range(count):
        file.write(ADD % (i, min(i + 1, count - 1), count - 1 - i // 2))
    file.write(b"}) : () -> ()\n")


def nested(count, file):
    """64 regions in one another, each with its part of the operations before the next."""
    for depth in range(64):
        file.write(b'"soak.body"() ({\n')
        for i in range(depth * count // 64, (depth + 1) * count // 64):
            file.write(ADD % (i, max(i - 1, 0), i // 2))
    file.write(b"}) : () -> ()\n" * 64)


def dictionaries(count, file):
    """Ten dictionaries with all entries between them, their keys descending."""
    for _ in range(10):
        entries = b", ".join(b"k%07d = %d" % (i, i) for i in reversed(range(count // 10)))
        file.write(b'"soak.any"() {%s} : () -> ()\n' % entries)


def aliases(count, file):
    """Each alias is twice the one before, so the text of the last is past the limit."""
    file.write(b"!a0 = i32\n")
    for i in range(1, count + 1):
        file.write(b"!a%d = tuple<!a%d, !a%d>\n" % (i, i - 1, i - 1))
    file.write(b'%%0 = "soak.make"() : () -> !a%d\n' % count)


# Each shape with its count and the status of `print generic`; that of `verify` is 0.
SHAPES = [
    (aliases, 25, 8), (soak, 50_000, 0), (soak, 100_000, 0), (soak, 200_000, 0),
    (forward, 50_000, 0), (forward, 100_000, 0), (forward, 200_000, 0),
    (nested, 25_000, 0), (nested, 50_000, 0), (nested, 100_000, 0),
    (dictionaries, 50_000, 0), (dictionaries, 100_000, 0), (dictionaries, 200_000, 0),
]


def measure(words, status):
    """The best elapsed and processor seconds of some runs, and the greatest memory in MiB."""
    elapsed, processor, memory = [], [], []
    for _ in range(RUNS):
        start = time.perf_counter()
        child = subprocess.Popen(words, stdout=subprocess.DEVNULL, stderr=subprocess.DEVNULL)
        _, ended, used = os.wait4(child.pid, 0)
        elapsed.append(time.perf_counter() - start)
        child.returncode = os.waitstatus_to_exitcode(ended)
        if child.returncode != status:
            sys.exit(f"{words} answered {child.returncode}, not {status}")
        processor.append(used.ru_utime + used.ru_stime)
        memory.append(used.ru_maxrss / 1024)
    return min(elapsed), min(processor), max(memory)


def main():
    here = os.path.dirname(os.path.abspath(__file__))
    program = sys.argv[1] if len(sys.argv) > 1 else os.path.join(here, "../crates/irdl_opt/out/irdl_opt")
    if not os.access(program, os.X_OK):
        sys.exit(f"{program} isn't built: run ./irdl_opt once")
    print("module          count      bytes words          seconds processor peak MiB")
    with tempfile.TemporaryDirectory() as folder:
        definitions = os.path.join(folder, "soak.irdl")
        with open(definitions, "wb") as file:
            file.write(DEFINITIONS)
        for write, count, printed in SHAPES:
            path = os.path.join(folder, f"{write.__name__}.mlir")
            with open(path, "wb") as file:
                write(count, file)
            size = os.path.getsize(path)
            for verb, status in (["verify"], 0), (["print", "generic"], printed):
                times = measure([program, *verb, path, definitions], status)
                row = " ".join(f"{number:9.3f}" for number in times)
                print(f"{write.__name__:12} {count:8} {size:10} {' '.join(verb):13} {row}", flush=True)


if __name__ == "__main__":
    main()
