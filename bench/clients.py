#!/usr/bin/env python3
"""Times runs of publish, deliver and ack, and prints how the time grows with the number of events.

    bench/clients.py [PROGRAM]

PROGRAM is the proved program, crates/fedrun/out/fedrun where it is left out. Each run has one queue, one consumer and a
third of its events each of `publish`, `deliver` and `ack`. The times are of whole runs, the best of three.
"""
import os
import subprocess
import sys
import tempfile
import time

SIZES = (2000, 4000, 8000)


def schedule(events):
    """A schedule of about so many events."""
    copies = events // 3
    lines = ["broker a", "declare a 1 queue q durable", "consume a 1 q k"]
    lines += ["publish a 1 - q m persistent"] * copies
    lines += ["deliver a 1 k"] * copies
    lines += [f"ack a 1 {copy}" for copy in range(1, copies + 1)]
    return "\n".join(lines) + "\n"


def seconds(program, path):
    """The best of three runs, in seconds."""
    best = None
    for _ in range(3):
        start = time.monotonic()
        subprocess.run([program, "run", path], check=True, stdout=subprocess.DEVNULL)
        spent = time.monotonic() - start
        best = spent if best is None else min(best, spent)
    return best


def main(schedule=schedule, sizes=SIZES):
    top = os.path.join(os.path.dirname(os.path.abspath(__file__)), "..")
    program = sys.argv[1] if len(sys.argv) > 1 else os.path.join(top, "crates/fedrun/out/fedrun")
    before = None
    for events in sizes:
        with tempfile.NamedTemporaryFile("w", suffix=".schedule") as file:
            file.write(schedule(events))
            file.flush()
            spent = seconds(program, file.name)
        growth = "" if before is None else f", {spent / before:.1f} times the time of half as many"
        print(f"{events} events: {spent:.2f} s{growth}", flush=True)
        before = spent


if __name__ == "__main__":
    main()
