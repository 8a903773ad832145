#!/usr/bin/env python3
"""Times runs in which an on-confirm shovel moves messages, and prints how the time grows with the number of events.

    bench/links.py [PROGRAM]

PROGRAM is the proved program, crates/fedrun/out/fedrun where it is left out. Each run publishes its messages, has the
link take, send on and publish each, flushes the target once, and has each confirmed, acknowledged and removed. The link
holds at most 1,000 copies at a time, so there are no more messages. The times are of whole runs, the best of three.
"""
import sys

sys.dont_write_bytecode = True
import clients

SIZES = (700, 1400, 2800)


def schedule(events):
    """A schedule of about so many events, seven for each message."""
    messages = events // 7
    link = "s/b/s"
    lines = ["broker a", "broker b", "declare a 1 queue q durable", "flush a"]
    lines += ["shovel b s a q b t on-confirm", f"open {link}"]
    lines += ["publish a 1 - q m persistent"] * messages
    for step in ("take", "send", "accept"):
        lines += [f"{step} {link}"] * messages
    lines += ["flush b"]
    for step in ("confirm", "note", "settle"):
        lines += [f"{step} {link}"] * messages
    return "\n".join(lines) + "\n"


if __name__ == "__main__":
    clients.main(schedule, SIZES)
