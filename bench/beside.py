#!/usr/bin/env python3
"""Times rechecks with questions beside them, over a pipe.

    bench/beside.py                 both of what follows
    bench/beside.py longer [COUNT]  a recheck of about 100 ms by itself and with questions beside it, over so many generated modules:
                                    where COUNT isn't said, as many as make it about that
    bench/beside.py waits [COUNT]   how long a question for a module's errors waits while so many generated modules are loaded, 4,096
                                    where COUNT isn't said

There are as many lanes as there are processors less one, and one worker. The recheck is behind an edit of the type of the module that
most others reach. The least, the median and the most of ten rechecks are told, and how much longer the median is than without
questions. What is asked on each lane takes less than the recheck: what it takes by itself is told too, beside a recheck that
changes nothing. A client has the answers once the recheck's line is there. So how long a question waited is seen by the thread of
its lane, which ends once it has answered: the kernel tells `perf` when it starts and when it ends. Alone is beside a recheck of nothing.

FLOWD names another program in the place of crates/flowd/out/flowd, which ./build builds.
"""

import json
import os
import re
import statistics
import subprocess
import sys
import tempfile
import time

sys.path.insert(0, os.path.dirname(os.path.abspath(__file__)))
from modules import FLOWD, generated, words_of, write
from recheck import Session

ROUNDS, WANTED = 10, 100  # milliseconds of a recheck
MOST_ASKS = 64
WAITS = 20  # loads
LANES = max(1, min(16, len(os.sched_getaffinity(0)) - 1))
SIZES = (64, 128, 256, 512, 1024, 2048, 4096)


def line(**parts):
    return json.dumps(parts).encode() + b"\n"


class Beside(Session):
    """flowd, with questions beside its rechecks."""

    def send(self, script):
        self.child.stdin.write(script)
        self.child.stdin.flush()

    def answers(self, count):
        """Reads so many answers and the lines below them; behind them stands a question whose answer ends them."""
        lines = []
        while not (told := self.child.stdout.readline()).endswith(b" unknown path no/such.js\n"):
            if not told:
                sys.exit(f"flowd ended behind {b''.join(lines)[-200:]}")
            lines.append(told)
        if (heads := sum(not it.startswith(b"  ") for it in lines)) != count:
            sys.exit(f"there are {heads} answers, and not {count}")
        return lines

    def recheck_beside(self, edits, asks):
        """Rechecks behind these edits, and returns its line and the milliseconds until it was there."""
        self.send(b"".join(line(do="edit", path=path, text=text) for path, text in edits))
        begin = time.perf_counter()
        self.send(line(do="recheck", asks=asks) + line(do="ask", ask={"what": "errors", "path": "no/such.js"}))
        told = self.child.stdout.readline()
        spent = (time.perf_counter() - begin) * 1000
        self.answers(len(asks))
        return told, spent


def edit_of(text, number):
    """The first module with another type: those that reach it are checked again."""
    kind = "number" if number % 2 else "number | string"
    return "m0.js", text.replace("{a: number", "{a: " + kind)


def timed(session, text, asks):
    """The milliseconds of some rechecks behind an edit, and those that the same questions take beside one that changes nothing."""
    session.recheck_beside([edit_of(text, 1)], asks)
    found = [session.recheck_beside([edit_of(text, number)], asks) for number in range(ROUNDS)]
    nothing = [session.recheck_beside([], asks)[1] for _ in range(ROUNDS)]
    return found[-1][0], [ms for _, ms in found], nothing


def opened(room, count, lanes=LANES):
    write(f"{room}/{count}", "generated", count, False)
    return Beside(f"{room}/{count}", [*words_of(count), "--workers=1", f"--lanes={lanes}"])


def kinds_of(text, count):
    """What is asked beside a recheck: nothing, and on each lane one question or as many as there may be."""
    errors = [{"what": "errors", "path": f"m{number % count}.js"} for number in range(MOST_ASKS)]
    contents = [{"what": "check-contents", "path": "m0.js", "text": text + f"export const more{number}: number = 1;\n"} for number in range(MOST_ASKS)]
    status = [{"what": "status"}] * MOST_ASKS
    rows = {"errors": errors, "check-contents": contents, "status": status}
    return {"nothing": [], **{f"{len(asks[:many])} {kind}": asks[:many] for kind, asks in rows.items() for many in (LANES, MOST_ASKS)}}


def ended(session):
    status, peak = session.end()
    if status not in (0, 2):
        sys.exit(f"flowd ended with status {status}")
    return peak


def size_for(text):
    """The number of modules with which the recheck takes about what is wanted."""
    taken = {}
    with tempfile.TemporaryDirectory(prefix="flowd-bench-") as room:
        for count in SIZES:
            session = opened(room, count)
            taken[count] = statistics.median(timed(session, text, [])[1])
            ended(session)
            if taken[count] > WANTED:
                break
    return min(taken, key=lambda count: abs(taken[count] - WANTED))


def longer(count=None):
    text = dict(generated(1, False))["m0"]
    count = count or size_for(text)
    with tempfile.TemporaryDirectory(prefix="flowd-bench-") as room:
        session = opened(room, count)
        print(f"{count} generated modules, 1 worker, {LANES} lanes{' ' * 24}least    median      most")
        alone = None
        for kind, asks in kinds_of(text, count).items():
            told, times, nothing = timed(session, text, asks)
            middle = statistics.median(times)
            alone = alone or middle
            print(f"  beside it {kind:20} {min(times):25.2f} {middle:9.2f} {max(times):9.2f} ms, {middle / alone:.3f} of the time; the questions {statistics.median(nothing):.2f} ms", flush=True)
        print(f"  {told.decode().strip()}; {ended(session):.0f} MB at the most")


def life_of_lane(room, words, script):
    """The milliseconds that the lane's thread of the script's one recheck with a question lives, and what is printed. The kernel tells when
    threads start and end: the first one is the thread that does all work, and the second one the lane's, which starts before all workers."""
    events = ["-e", "sched:sched_process_fork", "-e", "sched:sched_process_exit"]
    ran = subprocess.run(["perf", "record", "-q", *events, "-o", f"{room}/threads", FLOWD, *words], input=script, stdout=subprocess.PIPE, check=False)
    told = subprocess.run(["perf", "script", "-i", f"{room}/threads"], stdout=subprocess.PIPE, stderr=subprocess.DEVNULL, check=True).stdout.decode()
    if ran.returncode not in (0, 2):
        sys.exit(f"flowd ended with status {ran.returncode}")
    begun = re.findall(r" ([\d.]+): +sched:sched_process_fork: .* child_pid=(\d+)", told)
    ended = {thread: float(at) for at, thread in re.findall(r" ([\d.]+): +sched:sched_process_exit: .* pid=(\d+)", told)}
    at, thread = begun[1]
    return (ended[thread] - float(at)) * 1000, ran.stdout.decode().splitlines()


def waits(count=4096):
    rows = [(f"{name}.js", text) for name, text in generated(count, False)]
    wrong = rows[0][0], rows[0][1].replace("a: 0", "a: '0'")
    edits = b"".join(line(do="edit", path=path, text=text) for path, text in rows[1:])
    asking = line(do="recheck", asks=[{"what": "errors", "path": wrong[0]}])
    print(f"a load of {count} generated modules, 1 lane, `errors` of a module that was there before, {WAITS} times each")
    with tempfile.TemporaryDirectory(prefix="flowd-bench-") as room:
        os.mkdir(f"{room}/js")
        with open(f"{room}/js/{wrong[0]}", "w", encoding="utf-8") as file:
            file.write(wrong[1])
        for workers, script in ((1, b""), (1, edits), (len(os.sched_getaffinity(0)), edits)):
            words = [*words_of(count), f"--workers={workers}", "--lanes=1", f"{room}/js"]
            lives = [life_of_lane(room, words, script + asking) for _ in range(WAITS)]
            taken = sorted(it for it, _ in lives)
            kind = f"beside a load by {workers} workers" if script else "alone"
            print(f"  {kind:28} least {taken[0]:.3f}, median {statistics.median(taken):.3f}, most {taken[-1]:.3f} ms; {lives[0][1][1]}; {lives[0][1][2]}", flush=True)


def main(words):
    counts = [int(it) for it in words[1:]]
    if words[:1] in ([], ["longer"]):
        longer(*counts)
    if words[:1] in ([], ["waits"]):
        waits(*counts)


if __name__ == "__main__":
    main(sys.argv[1:])
