#!/usr/bin/env python3
"""Kills ./flowd at any moment, and closes its pipes on either side, and reads what came through.

    tests/kills.py [WORD]       (only the cases whose name has this word)

What came through is always a front of what a run to the end prints. It ends with a line's end, but where the system took a part
of a piece: that is never a line of a version that isn't committed. Where the script breaks off, the lines that are whole are
answered, and the part of a line that is left is one that is no command. SEED in the environment draws other moments. The last
line is 'N passed, M failed'.
"""

import fcntl
import os
import random
import re
import select
import subprocess
import sys
import termios
import time

sys.path.insert(0, os.path.dirname(os.path.abspath(__file__)))
import real_folders
from real_folders import CLEAN, ERRORS, FLOWD, SINK_FAULT, go_straight, recheck, run, write
from scripts import BAD_LINE, END, PATIENCE, RECHECK, STATUS, Talk, delete, done, edit, touch, with_errors

KILLS = 120  # in a case
PIPE = 4096  # bytes that a narrow pipe takes while nobody reads
RANDOM = random.Random(os.environ.get("SEED", "1"))
CASES = real_folders.CASES = []


def case(test):
    CASES.append(test)
    return test


# A script over three modules, line by line, each with its answer and the number of errors behind it.

THREE = {"a": b"export type T = number;", "b": b"import type {T} from './a';\nexport type U = {t: T};", "c": b"import type {U} from './b';\nexport const u: U = {t: 1};"}
ERROR = b"  c.js:2:25 incompatible-type 1 T\n"
LINES = [
    (STATUS, b"1 status: 0 errors\n", 0),
    (edit("a.js", b"export type T = string;"), b"", 0),
    (RECHECK, done(2, 1, 3, 1), 1),
    (STATUS, b"2 status: 1 errors\n" + ERROR, 1),
    (b"\n", b"", 1),
    (delete("c.js"), b"", 1),
    (STATUS, b"2 status: 1 errors\n" + ERROR, 1),
    (RECHECK, done(3, 0, 0), 0),
    (touch("c.js"), b"", 0),
    (RECHECK, done(4, 1, 1, 1), 1),
    (STATUS, b"4 status: 1 errors\n" + ERROR, 1),
    (touch("a.js"), b"", 1),
    (RECHECK, done(5, 1, 3), 0),
    (STATUS, b"5 status: 0 errors\n", 0),
]
SCRIPT = b"".join(line for line, _, _ in LINES)
WHOLE = recheck(3) + b"".join(answer for _, answer, _ in LINES)


def three(root):
    for name, text in THREE.items():
        write(f"{root}/{name}.js", text)
    return root


def expect_front(got, whole):
    """That it is a front, at a line's end or in a line of a version that is committed: such a line stands behind that of its recheck."""
    if not whole.startswith(got):
        raise AssertionError(f"it printed {got[-300:]}, which is no front of {whole[:300]}")
    lines, _, part = got.rpartition(b"\n")
    if part and (part[:1] == b"r" or not re.search(rb"(?m)^recheck \d+:", lines)):
        raise AssertionError(f"it printed {part}, a part of a line whose version is not committed, behind {lines[-300:]}")


def killed(talk):
    """Kills the program, and returns what is left to be read."""
    talk.flowd.kill()
    left = talk.flowd.stdout.read()
    talk.flowd.wait(PATIENCE)
    talk.flowd.stdout.close()
    talk.flowd.stdin.close()
    return left


@case
def killed_between_two_lines(root):
    """All lines that it was told are answered, and no other one."""
    for count in range(len(LINES) + 1):
        talk = Talk(three(root))
        talk.expect(recheck(3))
        for line, answer, _ in LINES[:count]:
            talk.say(line)
            talk.expect(answer)
        left = killed(talk)
        if left:
            raise AssertionError(f"behind {count} lines it printed {left} besides")


@case
def killed_in_a_line(root):
    """It was told a part of a line, and does nothing."""
    three(root)
    for count, (line, _, _) in enumerate(LINES):
        talk = Talk(root)
        talk.expect(recheck(3))
        talk.say(b"".join(it for it, _, _ in LINES[:count]) + line[: len(line) // 2])
        talk.expect(b"".join(it for _, it, _ in LINES[:count]))
        left = killed(talk)
        if left:
            raise AssertionError(f"behind {count} lines and a half it printed {left} besides")


@case
def killed_at_any_moment(root):
    """The whole script is there from the start."""
    started = time.monotonic()
    three(root)
    status, whole, complained = run(root, stdin=None, input=SCRIPT)
    if (status, whole, complained) != (CLEAN, WHOLE, b""):
        raise AssertionError(f"it ended with {status} and printed {whole} and {complained}")
    takes = time.monotonic() - started
    lengths = set()
    for _ in range(KILLS):
        talk = Talk(root)
        talk.say(SCRIPT)
        time.sleep(RANDOM.random() * takes)
        got = killed(talk)
        expect_front(got, WHOLE)
        lengths.add(len(got))
    print(f"   ({len(lengths)} lengths)")


@case
def killed_while_it_answers_line_by_line(root):
    """It is told line by line, and killed at some moment behind one of them."""
    three(root)
    for number in range(KILLS):
        count = number % len(LINES)
        talk = Talk(root)
        talk.expect(recheck(3))
        for line, answer, _ in LINES[:count]:
            talk.say(line)
            talk.expect(answer)
        talk.say(LINES[count][0])
        time.sleep(RANDOM.random() * 0.004)
        left, answer = killed(talk), LINES[count][1]
        if left not in (b"", answer):
            raise AssertionError(f"behind {count} lines it printed {left}, and not {answer} or nothing")


def many_errors(root):
    """A folder whose status is longer than a narrow pipe, a script, and what it prints."""
    whole = with_errors(root, 300)
    return STATUS + edit("a.js", b"") + RECHECK + STATUS, whole + done(2, 1, 1) + b"2 status: 0 errors\n"


def narrow(root):
    """A talk whose answers have room for PIPE bytes while nobody reads."""
    talk = Talk(root)
    fcntl.fcntl(talk.flowd.stdout, fcntl.F_SETPIPE_SZ, PIPE)
    return talk


def waiting(pipe):
    """How many bytes wait in a pipe."""
    return int.from_bytes(fcntl.ioctl(pipe, termios.FIONREAD, bytes(4)), sys.byteorder)


@case
def killed_while_nobody_reads(root):
    """It waits for room in a line of errors."""
    script, whole = many_errors(root)
    for _ in range(3):
        talk, until = narrow(root), time.monotonic() + PATIENCE
        talk.say(script)
        while waiting(talk.flowd.stdout) < PIPE // 2 and time.monotonic() < until:
            time.sleep(0.01)
        time.sleep(RANDOM.random() * 0.1)
        got = killed(talk)
        expect_front(got, whole)
        if len(got) < PIPE // 2:
            raise AssertionError(f"it was killed behind {len(got)} bytes")


@case
def killed_while_it_prints_much(root):
    script, whole = many_errors(root)
    for number in range(KILLS // 3):
        talk, got, started = narrow(root), b"", time.monotonic()
        talk.say(script)
        until = started + (RANDOM.random() * takes if number else PATIENCE)
        while time.monotonic() < until and len(got) < len(whole):
            if select.select([talk.flowd.stdout], [], [], max(0, until - time.monotonic()))[0]:
                got += os.read(talk.flowd.stdout.fileno(), RANDOM.randint(1, 2000))
        if number == 0:
            takes = time.monotonic() - started
        expect_front(got + killed(talk), whole)


@case
def killed_with_its_output_in_a_file(root):
    script, whole = many_errors(f"{root}/d")
    write(f"{root}/script", script)
    started = time.monotonic()
    for number in range(KILLS // 3):
        with open(f"{root}/script", "rb") as lines, open(f"{root}/out", "wb") as out:
            flowd = subprocess.Popen([FLOWD, f"{root}/d"], stdin=lines, stdout=out)
            if number == 0:
                flowd.wait(PATIENCE)
                takes = time.monotonic() - started
            else:
                time.sleep(RANDOM.random() * takes)
            flowd.kill()
            flowd.wait(PATIENCE)
        with open(f"{root}/out", "rb") as out:
            expect_front(out.read(), whole)


@case
def a_reader_that_goes_away(root):
    """It has read some bytes. What is printed then is no one's, and the status says so, unless all was printed before."""
    script, whole = many_errors(root)
    for _ in range(KILLS // 6):
        size = RANDOM.randint(0, len(whole) - 2 * PIPE)
        talk = narrow(root)
        talk.say(script)
        got = b""
        while len(got) < size:
            got += os.read(talk.flowd.stdout.fileno(), size - len(got)) or b"?" * size
        talk.flowd.stdout.close()
        status = talk.flowd.wait(PATIENCE)
        talk.flowd.stdin.close()
        expect_front(got[: got.rfind(b"\n") + 1], whole)
        if not whole.startswith(got) or status != SINK_FAULT:
            raise AssertionError(f"behind {size} bytes it ended with {status}")


def broken_off(size):
    """The status of the first bytes of the script, and what they print."""
    printed, errors, left = recheck(3), 0, SCRIPT[:size]
    for number, (line, answer, count) in enumerate(LINES, 1):
        if not left:
            break
        if len(left) < len(line) - 1:
            return BAD_LINE, printed + b"bad line %d\n" % number
        printed, errors, left = printed + answer, count, left[len(line) :]
    return ERRORS if errors else CLEAN, printed


@case
def a_script_that_breaks_off(root):
    """Its writer goes away at a byte of it; a whole command that lacks its line's end is one."""
    three(root)
    ends = [sum(len(it) for it, _, _ in LINES[:count]) for count in range(len(LINES) + 1)]
    sizes = {*ends, *(it - 1 for it in ends[1:]), *(it + 1 for it in ends[:-1]), *RANDOM.sample(range(len(SCRIPT)), 60)}
    for size in sorted(sizes):
        status, printed = broken_off(size)
        given = run(root, stdin=None, input=SCRIPT[:size])
        if given != (status, printed, b""):
            raise AssertionError(f"of {SCRIPT[:size][-80:]} it ended with {given}, and not with {status} and {printed}")


@case
def a_writer_that_goes_away_at_the_end(root):
    """Its writer goes away once the end is said, and is there no more when it answers."""
    three(root)
    talk = Talk(root)
    talk.say(STATUS + RECHECK + END)
    talk.flowd.stdin.close()
    talk.expect(recheck(3) + b"1 status: 0 errors\n" + done(2, 0, 0))
    talk.expect_end(CLEAN)


if __name__ == "__main__":
    go_straight()
    sys.exit(real_folders.main())
