"""`mqfs loose` beside a plain program: random walks of commits and drains over four queues, cut at random events.

    python3 bench/loose_walk.py PROGRAM [TEXTS [CUTS [SEED]]]

Makes TEXTS texts (200) by SEED (1). Their transactions depend on each other by a few common blocks. Each text is called to its end and with
CUTS cuts (8), each with a random pick; a third of them is right after a head was stored. With CUTS 0 it is cut at each of its events.

What is printed has to be what the plain program says of the text. It tries all subsets of the transactions that are done for the greatest
one that has all on which its members depend. Where the cut leaves a head that was stored and not flushed, what it says with and without
that `done` is allowed; which of the two the generator of docs/FORMATS.md chooses is counted.

Of each call the saved image is read, too. Its doorbells and heads, and its chains, with the blocks and dependences that each descriptor has
and the copies before it, have to be those of the text's transactions, and nothing may stand in the home blocks.

A call that differs is printed with its text, and the status is 1.
"""
import os
import random
import re
import struct
import subprocess
import sys
import tempfile
from collections import Counter
from itertools import combinations

from workload import Generator

QUEUES, AREA, META, ZONE, SLOTS, BLOCK = 4, 1024, 16, 60, 4096, 4096
# Above so many transactions the greatest closed set is not looked for among all subsets
FEW = 12
NUMBER = re.compile(rb"(0|[1-9][0-9]*)\Z")
ITEM = re.compile(rb"(0|[1-9][0-9]*)=([0-9a-f]{2})\Z|-(0|[1-9][0-9]*)\Z")


class Refused(Exception):
    """The first line that is not in its form."""


class Commit:
    """A line that commits: its queue, what it sets, and what it names to be freed."""

    def __init__(self, queue, sets, named):
        self.queue, self.sets, self.named = queue, sets, named
        self.events = len(sets) + 3


class Done:
    """A line that drains a queue."""

    def __init__(self, queue):
        self.queue = queue


def queue_of(word):
    """The queue that a word names, or None."""
    return int(word) if NUMBER.match(word) and int(word) < QUEUES else None


def items_of(words):
    """What the items of a line set, by block, and which blocks they free, or None."""
    sets, named = {}, set()
    for word in words:
        found = ITEM.match(word)
        block = found and int(found[1] or found[3])
        if not found or block > 255 or block in sets or block in named:
            return None
        if found[1]:
            sets[block] = int(found[2], 16)
        else:
            named.add(block)
    return (sets, named) if words else None


def step_of(line):
    """What a line asks, or None."""
    first, *words = line.split(b" ")
    if first == b"done":
        queue = queue_of(words[0]) if len(words) == 1 else None
        return None if queue is None else Done(queue)
    queue, items = queue_of(first), items_of(words)
    return None if queue is None or items is None else Commit(queue, *items)


def read(text):
    """What the lines of a text ask."""
    lines = text.split(b"\n")
    steps, places = [], Counter()
    for at, line in enumerate(lines if lines[-1] else lines[:-1], 1):
        step = step_of(line)
        if isinstance(step, Commit):
            places[step.queue] += len(step.sets) + 1
        if step is None or places[step.queue] > AREA:
            raise Refused(at)
        steps.append(step)
    return steps


class Transaction:
    """A commit's transaction: its number, what it frees that is live before it, and which ones before it changed its blocks last."""

    def __init__(self, number, commit, live, last):
        self.number, self.queue, self.sets = number, commit.queue, commit.sets
        self.frees = commit.named & live
        self.named = sorted({*self.sets, *self.frees})
        self.needs = {last[block] for block in self.named if block in last}


def transactions_of(steps):
    live, last, found = set(), {}, {}
    for commit in steps:
        if isinstance(commit, Commit):
            one = Transaction(len(found) + 1, commit, live, last)
            found[one.number] = one
            live = (live - one.frees) | set(one.sets)
            last.update((block, one.number) for block in one.named)
    return found


class Queue:
    """What has happened on a queue: which transactions are rung and done, and how many entries are not completed."""

    def __init__(self):
        self.rung, self.pending, self.done, self.head, self.doorbell = [], 0, set(), 0, 0


class Drive:
    """What happened of a text's steps in the first `cut` events, or in all of them. `maybe` are the numbers that count as done where the
    head of the queue `torn` is what was stored last; `events` is how many events happened, and `stores` after how many of them a head had
    just been stored."""

    def __init__(self, steps, transactions, cut=None):
        self.queues, self.torn, self.maybe = [Queue() for _ in range(QUEUES)], None, set()
        self.events, self.stores = 0, []
        self.left = float("inf") if cut is None else cut
        numbers = iter(transactions)
        for step in steps:
            if isinstance(step, Commit):
                self.commit(self.queues[step.queue], step, next(numbers))
            else:
                self.drain(step.queue)

    def happen(self, events):
        """Whether so many events happen; else all that are left of them do."""
        happened = min(events, self.left)
        self.events += happened
        self.left -= happened
        return happened == events

    def commit(self, queue, step, number):
        if self.happen(step.events):
            queue.rung.append(number)
            queue.pending += len(step.sets) + 1
            queue.doorbell += len(step.sets) + 1

    def drain(self, which):
        queue = self.queues[which]
        if not queue.pending:
            return
        if self.left == queue.pending + 1:
            self.torn, self.maybe = which, {*queue.rung} - queue.done
        if self.happen(queue.pending + 2):
            queue.done, queue.pending, queue.head = {*queue.rung}, 0, queue.doorbell
            self.stores.append(self.events - 1)

    def done(self):
        return set().union(*(queue.done for queue in self.queues))


def is_closed(numbers, transactions):
    return all(transactions[each].needs <= numbers for each in numbers)


def greatest_closed(numbers, transactions):
    """The greatest closed set of some numbers: of few by all subsets, of which it has all others; else by what must be left out."""
    if len(numbers) <= FEW:
        subsets = [{*each} for count in range(len(numbers) + 1) for each in combinations(sorted(numbers), count)]
        closed = [each for each in subsets if is_closed(each, transactions)]
        assert all(each <= closed[-1] for each in closed)
        return closed[-1]
    kept = set(numbers)
    while not is_closed(kept, transactions):
        kept = {each for each in kept if transactions[each].needs <= kept}
    return kept


def settled(numbers, transactions):
    """The numbers that are done, with all on which they depend, step by step."""
    found = set()
    for number in sorted(numbers):
        if transactions[number].needs <= found:
            found.add(number)
    return found


def live_blocks(numbers, transactions):
    """The map after the transactions of a set in their order, from the empty one."""
    blocks = {}
    for number in sorted(numbers):
        for block in transactions[number].frees:
            blocks.pop(block, None)
        blocks.update(transactions[number].sets)
    return blocks


def output(acknowledged, stands, transactions):
    lines = [" ".join([word, *map(str, sorted(numbers))]) for word, numbers in (("acknowledged", acknowledged), ("set", stands))]
    lines += [f"{block} {byte:02x}" for block, byte in sorted(live_blocks(stands, transactions).items())]
    return "".join(f"{line}\n" for line in lines)


class Model:
    """What a call with a text is to print and to save."""

    def __init__(self, text, cut=None):
        steps = read(text)
        self.transactions = transactions_of(steps)
        self.drive = Drive(steps, self.transactions, cut)
        done = self.drive.done()
        self.acknowledged = settled(done, self.transactions)
        self.without = self.output_of(done)
        self.with_torn = self.output_of(done | self.drive.maybe)

    def output_of(self, done):
        return output(self.acknowledged, greatest_closed(done, self.transactions), self.transactions)

    def chosen(self, pick):
        """What is printed where the generator of the torn queue's port chooses whether its head is the stored one."""
        torn = self.drive.torn
        return self.with_torn if torn is not None and Generator(pick + torn).next_word() % 2 else self.without


class Image:
    """The image of a drive: for each queue its doorbell, head and entries, and the blocks that are not all zeros, by their Lba."""

    def __init__(self, data):
        head = struct.unpack_from("<8s6IQ", data)
        assert head == (b"MQFSIMG1", 2, QUEUES, AREA, META, ZONE, 0, 0), head
        self.rings, self.blocks, at = [], {}, 40
        for _ in range(QUEUES):
            doorbell, tail = struct.unpack_from("<QQ", data, at)
            self.rings.append((doorbell, tail, data[at + 16 : at + 16 + 64 * SLOTS]))
            at += 16 + 64 * SLOTS
        (count,) = struct.unpack_from("<I", data, at)
        for each in range(count):
            (lba,) = struct.unpack_from("<I", data, at + 4 + each * (BLOCK + 4))
            self.blocks[lba] = data[at + 8 + each * (BLOCK + 4) :][:BLOCK]

    def block(self, queue, place):
        return self.blocks.get(queue * AREA + place % AREA, bytes(BLOCK))

    def chain(self, queue):
        """The transactions of a queue's chain, the last one first: number, place, blocks with their bytes, and dependences."""
        _, tail, entries = self.rings[queue]
        if not tail:
            return
        dwords = struct.unpack_from("<16I", entries, (tail - 1) % SLOTS * 64)
        number, place = dwords[2] | dwords[3] << 32, dwords[10] - queue * AREA
        while number:
            block = self.block(queue, place)
            assert block[:16] == struct.pack("<8sII", b"MQFSLSE1", 1, queue), block[:16]
            own, here, before, number_before, logged, depends = struct.unpack_from("<4Q2I", block, 16)
            assert (own, here) == (number, place) and logged <= min(256, place) and depends <= 256 and number_before < number
            lists = struct.unpack_from(f"<{logged}I{depends}Q", block, 56)
            assert not any(block[56 + 4 * logged + 8 * depends :]), "the rest"
            copies = [self.block(queue, place - logged + each) for each in range(logged)]
            assert all(len({*copy}) == 1 for copy in copies), "a copy"
            yield number, place, list(zip(lists[:logged], (copy[0] for copy in copies))), list(lists[logged:])
            number, place = number_before, before


def wrong_image(model, image, with_torn):
    """What is wrong with an image, or None."""
    for which, (queue, (doorbell, tail, _)) in enumerate(zip(model.drive.queues, image.rings)):
        is_stored = with_torn and which == model.drive.torn
        done = {*queue.rung} if is_stored else queue.done
        if (doorbell, tail) != (queue.doorbell, queue.doorbell if is_stored else queue.head):
            return f"queue {which}: doorbell {doorbell}, head {tail}"
        place, wanted = -1, []
        for one in (model.transactions[number] for number in sorted(done)):
            place += len(one.sets) + 1
            wanted.insert(0, (one.number, place, sorted(one.sets.items()), sorted(one.needs)))
        try:
            found = list(image.chain(which))
        except (AssertionError, struct.error) as wrong:
            return f"queue {which}: chain: {wrong}"
        if found != wanted:
            return f"queue {which}: chain {found}, wanted {wanted}"
    at_home = [lba for lba in image.blocks if lba >= QUEUES * AREA]
    return f"home blocks {at_home}" if at_home else None


def text_of(draw):
    """A text of 3 to 12 lines, whose transactions share a few blocks."""
    blocks = draw.sample(range(256), draw.randrange(2, 7))
    share, lines = draw.choice((0.2, 0.35, 0.5)), []
    for _ in range(draw.randrange(3, 13)):
        if draw.random() < share:
            lines.append(f"done {draw.randrange(QUEUES)}")
            continue
        named = draw.sample(blocks, min(len(blocks), draw.choice((1, 1, 1, 2, 2, 3))))
        items = [f"-{block}" if draw.random() < 0.25 else f"{block}={draw.randrange(256):02x}" for block in named]
        lines.append(" ".join([str(draw.randrange(QUEUES)), *items]))
    return "\n".join(lines).encode() + b"\n" * (draw.random() < 0.9)


class Walk:
    """Calls of the program beside the model."""

    def __init__(self, program, folder):
        self.program, self.text, self.image = program, os.path.join(folder, "t"), os.path.join(folder, "d")
        self.count = Counter()

    def call(self, *words):
        done = subprocess.run([self.program, "loose", self.text, "--save", self.image, *words], capture_output=True)
        return done.returncode, done.stdout.decode(errors="replace")

    def wrong(self, text, cut, pick):
        """What is wrong with a call, or None."""
        model = Model(text, cut)
        status, said = self.call(*([] if cut is None else ["--cut", str(cut)]), "--pick", str(pick))
        self.count["calls"] += 1
        if status or said not in (model.without, model.with_torn):
            return f"status {status}, {said!r}; wanted {model.without!r} or {model.with_torn!r}"
        with open(self.image, "rb") as file:
            image = Image(file.read())
        torn = model.drive.torn
        with_torn = torn is not None and image.rings[torn][1] == model.drive.queues[torn].doorbell
        if said != (model.with_torn if with_torn else model.without):
            return f"{said!r} does not fit to the head that was saved"
        if model.without != model.with_torn:
            self.count["with two outputs"] += 1
            self.count["with the later one"] += with_torn
            self.count["as the generator chooses"] += said == model.chosen(pick)
        self.count["with a number that is done and not settled"] += model.drive.done() != model.acknowledged
        return wrong_image(model, image, with_torn)

    def follow(self, text, draw, cuts):
        """Whether all calls with a text are as they should be; the first that is not is printed."""
        with open(self.text, "wb") as file:
            file.write(text)
        drive = Model(text).drive
        cut_at = range(drive.events + 2)
        if cuts:
            cut_at = [draw.choice(drive.stores if drive.stores and draw.random() < 0.3 else cut_at) for _ in range(cuts)]
        for cut in [None, *cut_at]:
            pick = draw.randrange(1 << 40)
            wrong = self.wrong(text, cut, pick)
            if wrong:
                print(f"{text.decode()}\n--cut {cut} --pick {pick}: {wrong}", flush=True)
                return False
        return True


def main(words):
    if not 1 <= len(words) <= 4:
        sys.exit(__doc__)
    texts, cuts, seed = [*map(int, words[1:]), *(200, 8, 1)[len(words) - 1 :]]
    draw = random.Random(seed)
    memory = "/dev/shm" if os.path.isdir("/dev/shm") else None
    with tempfile.TemporaryDirectory(dir=memory) as folder:
        walk = Walk(os.path.abspath(words[0]), folder)
        good = [walk.follow(text_of(draw), draw, cuts) for _ in range(texts)]
    print(f"{sum(good)} of {texts} texts agree: " + ", ".join(f"{count} {what}" for what, count in walk.count.items()))
    sys.exit(not all(good))


if __name__ == "__main__":
    main(sys.argv[1:])
