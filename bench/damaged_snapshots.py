#!/usr/bin/env python3
"""Goes on from damaged snapshots: PROGRAM [COUNT]. Three small snapshots, of programs that wait, have ended or haven't begun, of one and of three programs, are
changed at each byte of their records and their memories' first bytes to 0, 1, 127, 128 and 255, each 32 and 64 bits of their records to the edges of their range, cut at each place of
their records, and then changed at random, COUNT times (100,000 where none is told). Each has to be refused (status 13) or hosted (status 0), within a minute; prints how many were either."""

import itertools
import os
import random
import struct
import subprocess
import sys
import tempfile
from concurrent.futures import ThreadPoolExecutor

ROWS = os.path.join(os.path.dirname(os.path.abspath(__file__)), "..", "tests", "rows", "snapshots_go_on", "given")
SAVES = [("sleep", 1), ("loop", 1), ("three", 1), ("three", 5), ("three", 7)]
EDGES = [0, 1, 127, 128, 255]


def played(program, words, folder):
    """Runs the program in a folder, and returns its status."""
    return subprocess.run([program, *words], cwd=folder, stdout=subprocess.DEVNULL, stderr=subprocess.DEVNULL, timeout=60).returncode


def heads(snap):
    """The places of a snapshot's bytes that belong to no memory, and the first few of each memory."""
    places, at = list(range(20)), 20
    for _ in range(struct.unpack_from("<I", snap, 16)[0]):
        begin = at
        if snap[at] != 1:
            at += 1
        else:
            count = struct.unpack_from("<I", snap, at + 29)[0]
            at += 33
            for _ in range(count):
                at += 5 if snap[at] == 0x7F else 9
            pages = struct.unpack_from("<I", snap, at)[0]
            at += 4
            places += list(range(at, at + 32))
            begin, end, at = begin, at, at + pages * 65536
            places += list(range(begin, end))
            continue
        places += list(range(begin, at))
    return sorted(set(places))


def changes(snap, count, chance):
    """Damaged snapshots."""
    places = heads(snap)
    for at in places:
        for byte in EDGES:
            yield snap[:at] + bytes([byte]) + snap[at + 1 :]
        yield snap[:at]
        for wide, edges in ((4, (0, 2**31 - 1, 2**31, 2**32 - 1)), (8, (0, 2**62 - 1, 2**62, 2**63, 2**64 - 1))):
            for edge in edges:
                yield snap[:at] + edge.to_bytes(wide, "little") + snap[at + wide :]
    for _ in range(count):
        damaged = bytearray(snap)
        for _ in range(chance.randint(1, 4)):
            at = chance.choice(places) if chance.random() < 0.8 else chance.randrange(len(damaged))
            damaged[at] = chance.randrange(256)
        if chance.random() < 0.1:
            damaged += bytes(chance.randrange(1, 9))
        yield bytes(damaged)


def main(program, count):
    chance, found = random.Random(1), {}
    with tempfile.TemporaryDirectory() as scratch:
        subprocess.run(["cp", "-r", ROWS + "/.", scratch], check=True)

        def gone_on(job):
            number, script, damaged = job
            path = os.path.join(scratch, "damaged%d" % number)
            with open(path, "wb") as file:
                file.write(damaged)
            status = played(program, ["continue", script, path], scratch)
            os.remove(path)
            return status

        for script, events in SAVES:
            if played(program, ["save", script, str(events), "snap"], scratch) != 0:
                sys.exit(f"{script} isn't saved")
            with open(os.path.join(scratch, "snap"), "rb") as file:
                snap = file.read()
            jobs = ((number, script, damaged) for number, damaged in enumerate(changes(snap, count // len(SAVES), chance)))
            with ThreadPoolExecutor(os.cpu_count()) as pool:
                while some := list(itertools.islice(jobs, 500)):
                    for status in pool.map(gone_on, some):
                        found[status] = found.get(status, 0) + 1
    print("status: how many:", dict(sorted(found.items())))
    return 0 if set(found) <= {0, 13} else 1


if __name__ == "__main__":
    sys.exit(main(os.path.abspath(sys.argv[1]), int(sys.argv[2]) if len(sys.argv) > 2 else 100_000))
