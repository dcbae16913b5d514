"""`mq_kv_tool` beside a plain store: random groups of operations, cut at random events, recovered and cut again.

    python3 bench/kv_walk.py PROGRAM [STORES [CALLS [SEED]]]

Makes STORES stores (40) by SEED (1). Each gets CALLS calls (12) with a few groups, of which three in four are cut at a random event of
theirs, each with a random pick. What is printed has to be what a dictionary makes of the operations, with the numbers that the groups draw
and the events that they take. After each call another one reads all keys: the store has to be the one after the groups that were answered,
or, where the cut left a head that was stored and not flushed, the one with the next group, too.

The first call of a store that differs is printed with its groups, and the status is 1.
"""
import os
import random
import subprocess
import sys
import tempfile
from collections import Counter

BUCKETS, MOST = 64, 4096


def bucket_of(key):
    number = 0
    for byte in key.encode():
        number = (number * 31 + byte) % 2**32
    return number % BUCKETS


# Three keys of one bucket, and two alone; one that is too long
KEYS = [*[key for key in (a + b for a in "abcdefgh" for b in "mnopqrst") if bucket_of(key) == 9][:3], "a", "~", "k" * 256]


def records(store, bucket):
    return sorted((key, value) for key, value in store.items() if bucket_of(key) == bucket)


def reply(store, operation):
    """What an operation is answered; the store is changed."""
    verb, key, *value = operation
    if len(key) > 255:
        return "refused KeySize"
    if verb == "put":
        if len(value[0]) > 1024:
            return "refused ValueSize"
        changed = {**store, key: value[0]}
        if sum(4 + len(one) + len(other) for one, other in records(changed, bucket_of(key))) > MOST:
            return "refused BucketFull"
        store[key] = value[0]
        return "done"
    if key not in store:
        return "missing"
    if verb == "get":
        return f"value {store[key]}"
    del store[key]
    return "done"


class Store:
    """What stands, and the number at which a call begins."""

    def __init__(self):
        self.held, self.number = {}, 0

    def apply(self, groups, cut=None):
        """The lines that a call is to print, and the stores of which one then stands."""
        lines, left = [], float("inf") if cut is None else cut
        for group in groups:
            after = dict(self.held)
            replies = [reply(after, operation) for operation in group]
            writes = sum(records(after, bucket) != records(self.held, bucket) for bucket in range(BUCKETS))
            events = 2 * writes + 6 if writes else 0
            if events > left:
                # From the doorbell on the number is used, and the last event but one stores the head
                self.number += left >= writes + 3
                return [*lines, "off", f"cut {cut}"], [self.held] + [after] * (left == events - 1)
            left -= events
            self.held, self.number = after, self.number + bool(writes)
            lines += [*replies, f"synced {self.number}"]
        return [*lines, f"clean {self.number}" if cut is None else f"cut {cut - left}"], [self.held]


def group_of(draw):
    group = []
    for _ in range(draw.randrange(5)):
        key = draw.choice(KEYS)
        value = draw.choice((str(draw.randrange(100)), "w" * draw.choice((30, 900, 1024, 1025))))
        group.append(draw.choice((("put", key, value), ("put", key, value), ("del", key), ("get", key))))
    return group


def text_of(groups):
    return "".join(" ".join(words) + "\n" for group in groups for words in [*group, ("sync",)])


class Walk:
    def __init__(self, program, folder):
        self.program, self.image, self.file = program, os.path.join(folder, "d"), os.path.join(folder, "t")
        self.count = Counter()

    def call(self, *words):
        done = subprocess.run([self.program, *words], capture_output=True)
        return done.returncode, done.stdout.decode(errors="replace").split("\n")[:-1]

    def apply(self, groups, *options):
        with open(self.file, "w") as file:
            file.write(text_of(groups))
        self.count["calls"] += 1
        return self.call("apply", self.image, self.file, *options)

    def step(self, store, draw):
        """What is wrong with a call and with what it leaves, or None."""
        groups = [group_of(draw) for _ in range(draw.randrange(1, 5))]
        most = 16 * len(groups)
        cut = draw.choice((None, *[draw.randrange(most) for _ in range(3)]))
        options = ["--pick", str(draw.randrange(1 << 40)), *([] if cut is None else ["--cut", str(cut)])]
        wanted, stands = store.apply(groups, cut)
        found = self.apply(groups, *options)
        if found != (0, wanted):
            return f"{text_of(groups)}{options}: {found}, wanted {wanted}"
        self.count["with off"] += "off" in wanted
        self.count["with two stores"] += len(stands) > 1 and stands[0] != stands[1]
        reads = [("get", key) for key in KEYS]
        ends = [f"synced {store.number}", f"clean {store.number}"]
        status, found = self.apply([reads])
        for held in stands:
            if (status, found) == (0, [reply(held, read) for read in reads] + ends):
                store.held = held
                return None
        return f"{text_of(groups)}{options}, and then all keys: status {status}, {found}, wanted {stands}, {ends}"

    def follow(self, calls, draw):
        """Whether all calls on a new store are as they should be; the first that is not is printed."""
        store, made = Store(), self.call("new", self.image)
        wrong = None if made == (0, ["new"]) else f"new: {made}"
        for _ in range(calls):
            wrong = wrong or self.step(store, draw)
        if wrong:
            print(wrong, flush=True)
        return not wrong


def main(words):
    if not 1 <= len(words) <= 4:
        sys.exit(__doc__)
    stores, calls, seed = [*map(int, words[1:]), *(40, 12, 1)[len(words) - 1 :]]
    draw = random.Random(seed)
    memory = "/dev/shm" if os.path.isdir("/dev/shm") else None
    with tempfile.TemporaryDirectory(dir=memory) as folder:
        walk = Walk(os.path.abspath(words[0]), folder)
        good = [walk.follow(calls, draw) for _ in range(stores)]
    print(f"{sum(good)} of {stores} stores agree: " + ", ".join(f"{count} {what}" for what, count in walk.count.items()))
    sys.exit(not all(good))


if __name__ == "__main__":
    main(sys.argv[1:])
