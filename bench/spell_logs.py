#!/usr/bin/env python3
"""Spells logs for bench/order.sh: `spell_logs.py KIND BYTES FILE` writes one of about that many bytes.

Kinds:
  valid           threads that lock, call and allocate in turn
  chunks          every chunk has one record
  shortest        the shortest records that there are
  one_key         one key in every record
  sixteen_keys    sixteen keys in every record
  distinct_keys   sixteen keys in every record, each for the first time
  wrong_tickets   every ticket is wrong, and the log is cut short
"""
import random
import struct
import sys

THREADS = 32
HEAD = b"R2LOG\x01"
UPRET, ALLOC, RET = 4, 5, 2
MUTEX, USER, POOL = 1, 2, 5


class Log:
    """A log of a run: tickets count up and each clock is 1 plus the greatest before it."""

    def __init__(self, chunk):
        self.chunk = chunk
        self.parts = [HEAD]
        self.size = len(HEAD)
        self.total = 0
        self.waiting = [[] for _ in range(THREADS)]
        self.clocks = [0] * THREADS
        self.tickets = {}
        self.key_clocks = {}

    def add(self, thread, kind, keys, body, steps):
        clock = self.clocks[thread]
        for key in keys:
            clock = max(clock, self.key_clocks.get(key, 0))
        clock += 1
        marks = []
        for key in keys:
            ticket = self.tickets.get(key, 0)
            self.tickets[key] = ticket + 1
            self.key_clocks[key] = clock
            marks.append(struct.pack(">BQI", key[0], key[1], ticket))
        self.clocks[thread] = clock
        self.put(thread, struct.pack(">BIIB", kind, steps, clock, len(keys)) + b"".join(marks) + body)

    def put(self, thread, record):
        waiting = self.waiting[thread]
        waiting.append(record)
        self.total += 1
        self.size += len(record)
        if len(waiting) == self.chunk:
            self.flush(thread)

    def flush(self, thread):
        waiting = self.waiting[thread]
        if waiting:
            head = b"C" + struct.pack(">BH", thread, len(waiting))
            self.size += len(head)
            self.parts.append(head + b"".join(waiting))
            waiting.clear()

    def text(self):
        for thread in range(THREADS):
            self.flush(thread)
        return b"".join(self.parts) + b"E" + struct.pack(">I", self.total)


def valid(log, size):
    rng = random.Random(1)
    while log.size < size:
        thread = rng.randrange(THREADS)
        kind = rng.randrange(4)
        steps = rng.randrange(1000)
        if kind == 0:
            log.add(thread, ALLOC, [(POOL, 0)], struct.pack(">QQ", 64, 0x30000000 + log.total * 16), steps)
        elif kind == 1:
            log.add(thread, 1, [(MUTEX, rng.randrange(8))], struct.pack(">HBQ", 5, 1, 3), steps)
        else:
            log.add(thread, UPRET, [], struct.pack(">Q", steps), steps)


def small_records(log, size, keys):
    while log.size < size:
        log.add(log.total % THREADS, RET, keys, b"\x01", 7)


def distinct_keys(log, size):
    while log.size < size:
        log.add(log.total % THREADS, RET, [(USER, 16 * log.total + at) for at in range(16)], b"\x01", 7)


def wrong_tickets(log, size):
    while log.size < size:
        mark = struct.pack(">BQI", USER, 0, 2 * log.total + 1)
        log.put(log.total % THREADS, struct.pack(">BIIB", RET, 7, 1, 1) + mark + b"\x01")


def main():
    kind, size, path = sys.argv[1], int(sys.argv[2]), sys.argv[3]
    size -= 4096
    log = Log(1 if kind == "chunks" else 1000)
    if kind == "valid":
        valid(log, size)
    elif kind == "chunks" or kind == "shortest":
        small_records(log, size, [])
    elif kind == "one_key":
        small_records(log, size, [(MUTEX, 0)])
    elif kind == "sixteen_keys":
        small_records(log, size, [(USER, value) for value in range(16)])
    elif kind == "distinct_keys":
        distinct_keys(log, size)
    elif kind == "wrong_tickets":
        wrong_tickets(log, size)
    else:
        sys.exit(__doc__)
    text = log.text()
    with open(path, "wb") as file:
        file.write(text[:-1] if kind == "wrong_tickets" else text)


main()
