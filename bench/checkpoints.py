"""A run of one session that fills its journal area three times over, cut at each of its events.

    python3 bench/checkpoints.py PROGRAM [STEP [FROM [TO]]]

A file of 15 blocks is overwritten 200 times, each time by an `fsync` of its own, so that checkpoints are made before the area of 1,024
places is full. The run is cut after each STEP-th event (each) from FROM (0) to TO (the end). Each time a recovery has to reach a number
that is not below the last that was acknowledged, and the file has to be whole as the group of that number left it.
"""
import os
import subprocess
import sys
import tempfile

SIZE = 15 * 4096
TIMES = 210


def main(words):
    program = os.path.abspath(words[0])
    step, begin, end = [int(w) for w in words[1:4]] + [1, 0, 0][len(words) - 1:]
    memory = "/dev/shm" if os.path.isdir("/dev/shm") else None
    with tempfile.TemporaryDirectory(dir=memory) as folder:
        image, empty, script, reads = [os.path.join(folder, name) for name in ("image", "empty", "script", "reads")]

        def call(*args):
            return subprocess.run([program, *args], capture_output=True, text=True, check=True).stdout

        def at_first():
            with open(empty, "rb") as old, open(image, "wb") as new:
                new.write(old.read())

        call("format", empty, "1", "1024", "64", "256")
        with open(script, "w") as file:
            file.write(f"create /f\nwrite /f 0 fill:01:{SIZE}\nfsync\n")
            for number in range(2, TIMES):
                file.write(f"write /f 0 fill:{number % 256:02x}:{SIZE}\nfsync\n")
        with open(reads, "w") as file:
            file.write("".join(f"read /f {at} 1\n" for at in range(0, SIZE, 4095)) + "ask\n")
        at_first()
        most = int(call("run", image, script, "--cut", "4000000000").rsplit(" ", 1)[1])
        bases, checked = set(), 0
        for events in range(begin, end or most + 2, step):
            at_first()
            report = call("run", image, script, "--cut", str(events), "--pick", str(events))
            done = max([int(l.split(" ")[4]) for l in report.splitlines() if l.startswith("answer") and " ok " in l], default=0)
            base = int(call("dump", image).split("\n", 1)[0].split(" ")[1])
            reached = base + int(call("recover", image).split("\n", 1)[0].split(" ")[1])
            assert done <= reached <= done + 1, (events, done, reached)
            told = [l for l in call("run", image, reads).splitlines() if l.startswith("  ")]
            wanted = f"  data 1 {reached % 256:02x}" if reached else "  refused NotFound"
            assert told and all(l == wanted for l in told), (events, reached, set(told))
            bases.add(base)
            checked += 1
        print(f"{most} events in the run; {checked} cuts, each whole and with all that was acknowledged; bases seen: {sorted(bases)}")


main(sys.argv[1:])
