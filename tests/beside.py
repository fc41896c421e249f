#!/usr/bin/env python3
"""Runs ./flowd with questions beside rechecks, and compares each byte that it writes.

    tests/beside.py [WORD]       (only the cases whose name has this word)

What is asked beside a recheck is answered from the version before it or from the one that it commits. What each of them answers
is told by runs that ask the same between rechecks. The last line is 'N passed, M failed'.
"""

import os
import random
import re
import sys
from concurrent.futures import ThreadPoolExecutor

sys.path.insert(0, os.path.dirname(os.path.abspath(__file__)))
import real_folders
from asks import SHOP, ask, write_all
from real_folders import CLEAN, ERRORS, GOOD, MOST_BYTES, expect, recheck, run, write
from scripts import BAD_LINE, LIMIT, RECHECK, STATUS, Talk, delete, done, edit, expect_script, line, stop_at, touch

MOST_ASKS = 64
LANES = (1, 2, 4, 16)
ITEM = re.compile(rb"[^ ].*\n(?:  .*\n)*")  # the line of a recheck, or an answer
CASES = real_folders.CASES = []


def case(test):
    CASES.append(test)
    return test


def what(kind, **parts):
    return {"what": kind, **parts}


STATUS_ASK, LS = what("status"), what("ls")


def beside(*asks, **parts):
    """A recheck with these questions beside it."""
    return line(do="recheck", **parts, asks=list(asks))


def alone(asks):
    """The same questions between rechecks."""
    return b"".join(line(do="ask", ask=it) for it in asks)


def version_of(answer):
    return int(answer.partition(b" ")[0])


def expect_answers(answers, before, after, lanes):
    """Each of the answers is the one of before the recheck or the one of behind it, and on no lane a version follows a later one."""
    wrong = [(number, *its) for number, its in enumerate(zip(answers, before, after, strict=True)) if its[0] not in its[1:]]
    if wrong:
        number, given, first, last = wrong[0]
        raise AssertionError(f"with {lanes} lanes {len(wrong)} answers are wrong; answer {number} is {given}, and neither {first} nor {last}")
    for lane in range(lanes):
        versions = [version_of(it) for it in answers[lane::lanes]]
        if versions != sorted(versions):
            raise AssertionError(f"lane {lane} of {lanes} answered from the versions {versions}")


def items(printed):
    """The lines of rechecks and the answers, one by one."""
    found = ITEM.findall(printed)
    if b"".join(found) != printed:
        raise AssertionError(f"{printed[:1000]} is no whole output")
    return found


# What a line may say.


@case
def no_question_beside_a_recheck(root):
    """A list of none is as no list."""
    write(f"{root}/a.js")
    expect_script(root, beside() + edit("a.js", b"") + beside(stop=3) + beside(stop=99), CLEAN, recheck(1) + done(2, 0, 0) + b"recheck cancelled at poll 3, still 2\n" + done(3, 1, 1))


@case
def a_recheck_that_changes_nothing(root):
    """Its line comes first, and then the answers in the order of the questions."""
    write_all(root, SHOP)
    told = [b"2 ls: 3 modules\n  main.js\n  types.js\n  users.js\n", b"2 errors main.js: 0 errors\n", b"2 find-module users.js: types.js\n", b"2 unknown path z.js\n", b"2 status: 0 errors\n"]
    asks = LS, what("errors", path="main.js"), what("find-module", path="users.js", spec="./types"), what("importers", path="z.js"), STATUS_ASK
    for lanes in (1, 2, 5, 16):
        status, printed, complained = run(f"--lanes={lanes}", root, stdin=None, input=beside(*asks))
        expect((status, printed[: len(recheck(3) + done(2, 0, 0))], complained), CLEAN, recheck(3) + done(2, 0, 0))
        expect_answers(items(printed)[2:], [b"1" + it[1:] for it in told], told, lanes)


@case
def as_many_questions_as_there_may_be(root):
    write(f"{root}/a.js")
    for count in (1, 2, MOST_ASKS):
        status, printed, complained = run(root, stdin=None, input=edit("a.js", b"1;") + beside(*[STATUS_ASK] * count))
        found = items(printed)
        expect((status, b"".join(found[:2]), complained), CLEAN, recheck(1) + done(2, 1, 1))
        expect_answers(found[2:], [b"1 status: 0 errors\n"] * count, [b"2 status: 0 errors\n"] * count, 2)


@case
def too_many_questions(root):
    """The script ends there, whatever else the line says; what came before it was done."""
    write(f"{root}/a.js")
    before = edit("b.js", GOOD) + RECHECK
    for count in (MOST_ASKS + 1, MOST_ASKS + 2, 1_000, 100_000):
        told = recheck(1) + done(2, 1, 1) + b"limit asks %d\n" % count
        for parts in ({}, {"stop": 1}, {"stop": 2**64 - 1, "more": [1]}):
            expect_script(root, before + beside(*[LS] * count, **parts) + STATUS, LIMIT, told)


@case
def questions_that_are_none(root):
    """A line with one of them is no command, however many stand there."""
    write(f"{root}/a.js")
    bad = [
        None,
        {},
        "status",
        0,
        True,
        STATUS_ASK,
        [None],
        [[]],
        [{}],
        ["status"],
        [[STATUS_ASK]],
        [what(None)],
        [what("types")],
        [what("errors")],
        [what("errors", path="a.ts")],
        [what("type-at-pos", path="a.js", line=1.0, col=1)],
        [what("check-contents", path="a.js")],
        [STATUS_ASK, what("find-module", path="a.js"), STATUS_ASK],
        [STATUS_ASK] * (MOST_ASKS - 1) + [{}],
        [STATUS_ASK] * MOST_ASKS + [{}],
        [{}] + [STATUS_ASK] * 1_000,
    ]
    for asks in bad:
        expect_script(root, STATUS + line(do="recheck", asks=asks), BAD_LINE, recheck(1) + b"1 status: 0 errors\nbad line 2\n")
        expect_script(root, line(do="recheck", stop=3, asks=asks) + STATUS, BAD_LINE, recheck(1) + b"bad line 1\n")
    for stop in (0, -1, 1.5, 2**64, None, "1", []):
        expect_script(root, beside(STATUS_ASK, stop=stop), BAD_LINE, recheck(1) + b"bad line 1\n")
        expect_script(root, beside(*[STATUS_ASK] * (MOST_ASKS + 1), stop=stop), BAD_LINE, recheck(1) + b"bad line 1\n")


@case
def keys_that_are_repeated_or_of_no_use(root):
    """Of a key that stands twice the last one counts; `asks` is a key of a recheck alone."""
    write(f"{root}/a.js")
    expect_script(root, b'{"asks":5,"do":"recheck","asks":[]}\n', CLEAN, recheck(1) + done(2, 0, 0))
    expect_script(root, b'{"asks":[{"what":"status"}],"do":"recheck","asks":null}\n', BAD_LINE, recheck(1) + b"bad line 1\n")
    others = line(do="ask", ask=STATUS_ASK, asks=7) + line(do="edit", path="a.js", text="", asks=[{}]) + line(do="delete", path="a.js", asks=[{}] * 65)
    others += line(do="touch", path="a.js", asks=0) + line(do="end", asks=[STATUS_ASK] * 65)
    expect_script(root, others, CLEAN, recheck(1) + b"1 status: 0 errors\n")


# Rechecks that commit nothing.

NUMBER = "export const n: number = %d;"


@case
def a_recheck_that_is_cancelled(root):
    write(f"{root}/a.js", (NUMBER % 1).encode())
    told = recheck(1) + b"recheck cancelled at poll 5, still 1\n" + b"1 status: 0 errors\n" * 2
    for lanes in LANES:
        script = edit("a.js", (NUMBER % 2).encode()) + beside(STATUS_ASK, STATUS_ASK, stop=5)
        expect(run(f"--lanes={lanes}", root, stdin=None, input=script), CLEAN, told)
        expect(run(f"--lanes={lanes}", root, stdin=None, input=script + RECHECK + STATUS), CLEAN, told + done(2, 1, 1) + b"2 status: 0 errors\n")


@case
def a_recheck_that_cannot_read_a_file(root):
    write(f"{root}/a.js")
    write(f"{root}/b.js")
    os.truncate(f"{root}/b.js", MOST_BYTES + 1)
    refused = b"recheck cannot read b.js, still 0\n"
    asks = STATUS_ASK, what("errors", path="a.js"), LS, what("signature", path="b.js")
    told = b"0 status: 0 errors\n0 unknown path a.js\n0 ls: 0 modules\n0 unknown path b.js\n"
    expect_script(root, beside(*asks) + alone(asks), CLEAN, refused * 2 + told * 2)
    behind = b"1 status: 0 errors\n1 errors a.js: 0 errors\n1 ls: 1 modules\n  a.js\n1 unknown path b.js\n"
    script = beside(*asks) + delete("b.js") + RECHECK + touch("b.js") + beside(*asks) + beside(*asks, stop=1)
    expect_script(root, script, CLEAN, refused * 2 + told + done(1, 1, 1) + (b"recheck cannot read b.js, still 1\n" + behind) * 2)


# Small rechecks, with all that can be asked.

BOX = {
    "a.js": "export type T = {p: number};\nexport const v: T = {p: 1};\n",
    "b.js": "import type {T} from './a';\nexport type U = {t: ?T};\nexport function f(u: U): number { return u.t != null ? u.t.p : 0; }\n",
    "c.js": "import {f} from './b';\nimport {v} from './a';\nexport const n: number = f({t: v});\n",
}
BOX_EDITS = {
    "what a type has": [("a.js", "export type T = {p: string};\nexport const v: T = {p: 'a'};\n")],
    "a body": [("c.js", "import {f} from './b';\nimport {v} from './a';\nexport const n: number = f({t: null}) + v.p;\n")],
    "a module that goes": [("a.js", None)],
    "a module that comes": [("b/index.js", "export const f: string = 'a';"), ("d.js", "import {n} from './c';\nn();")],
    "no module that can be read": [("b.js", "export type U = {")],
    "nothing": [],
}
BOX_ASKS = [
    STATUS_ASK,
    LS,
    *(what("errors", path=it) for it in ("a.js", "b.js", "c.js", "d.js")),
    *(what("signature", path=it) for it in ("a.js", "b.js", "c.js")),
    *(what("importers", path=it) for it in ("a.js", "c.js", "b/index.js")),
    *(what("find-module", path="c.js", spec=it) for it in ("./b", "./a", "./b/index")),
    *(what("type-at-pos", path="c.js", line=3, col=it) for it in (26, 28, 30, 40)),
    what("check-contents", path="c.js", text="import {v} from './a';\nconst s: string = v.p;\n"),
]


def edits_of(changes):
    return b"".join(delete(path) if text is None else edit(path, text.encode()) for path, text in changes)


@case
def each_answer_is_of_one_version(root):
    """All that can be asked beside small rechecks, on any number of lanes; an ask line behind answers from the current version."""
    write_all(root, BOX)
    count = len(BOX_ASKS)
    for name, changes in BOX_EDITS.items():
        asked = alone(BOX_ASKS)
        status, printed, _ = run(root, stdin=None, input=asked + edits_of(changes) + RECHECK + asked)
        found = items(printed)
        before, line_of, after = found[1 : 1 + count], found[1 + count], found[2 + count :]
        for lanes in range(1, 17):
            given = run(f"--lanes={lanes}", root, stdin=None, input=edits_of(changes) + beside(*BOX_ASKS) + asked)
            told = items(given[1])
            expect((given[0], b"".join([*told[:2], *told[2 + count :]]), given[2]), status, b"".join([found[0], line_of, *after]))
            try:
                expect_answers(told[2 : 2 + count], before, after, lanes)
            except AssertionError as why:
                raise AssertionError(f"{name}: {why}") from why


@case
def an_editor_asks_beside_each_recheck(root):
    """The answers are there before the next line is read."""
    talk = Talk(root)
    talk.expect(recheck(0))
    for version in range(2, 40):
        talk.say(edit("a.js", GOOD) + beside(STATUS_ASK, STATUS_ASK, STATUS_ASK, stop=1))
        talk.expect(b"recheck cancelled at poll 1, still %d\n" % (version - 1) + b"%d status: 0 errors\n" % (version - 1) * 3)
        talk.say(delete("a.js") + beside() + STATUS)
        talk.expect(done(version, 0, 0) + b"%d status: 0 errors\n" % version)
    talk.end(CLEAN)


# Under each stop.

WIDTH = 130


def wide():
    """A chain of types, and many modules that use the last one: some polls behind waves, and some behind batches."""
    yield "t0.js", "export type T = number;\n"
    for number in range(1, 5):
        yield f"t{number}.js", f"import type {{T as U}} from './t{number - 1}';\nexport type T = {{p: U}};\n"
    for number in range(WIDTH):
        yield f"m{number}.js", f"import type {{T}} from './t4';\nexport const v: T = {{p: {{p: {{p: {{p: {number}}}}}}}}};\n"


@case
def a_stop_at_each_poll(root):
    """Cancelled anywhere, a recheck leaves nothing: all is answered from the version before it. Behind the last poll it is done."""
    write_all(root, dict(wide()))
    change = edit("t0.js", b"export type T = string;\n")
    kinds = [STATUS_ASK, LS, what("errors", path="m7.js"), what("signature", path="t4.js"), what("importers", path="t4.js"), what("type-at-pos", path="m7.js", line=2, col=38)]
    asks = (kinds * MOST_ASKS)[:MOST_ASKS]
    found = items(run(root, stdin=None, input=alone(asks) + change + RECHECK + alone(asks))[1])
    before, last, after = found[1 : 1 + MOST_ASKS], found[1 + MOST_ASKS], found[2 + MOST_ASKS :]
    polls = run(root, stdin=None, input=change + b"".join(map(stop_at, range(1, 40))))[1].count(b"cancelled")
    if polls < 4 + 5 + (WIDTH + 5) // 64:
        raise AssertionError(f"there are {polls} polls")
    cancelled = b"".join(b"recheck cancelled at poll %d, still 1\n" % poll + b"".join(before) for poll in range(1, polls + 1))
    for lanes in LANES:
        script = change + b"".join(beside(*asks, stop=poll) for poll in range(1, polls + 2))
        status, printed, complained = run("--workers=4", f"--lanes={lanes}", root, stdin=None, input=script)
        expect((status, printed[: len(found[0] + cancelled + last)], complained), ERRORS, found[0] + cancelled + last)
        expect_answers(items(printed)[-MOST_ASKS:], before, after, lanes)


# A long history.

MODULES, ROUNDS = 300, 200
PATIENCE = 3600  # seconds


class History:
    """Modules that lead to one another, edits of them, and what is asked beside each recheck."""

    def __init__(self, seed):
        self.random = random.Random(seed)
        self.leads = [None, *(self.random.randrange(number) for number in range(1, MODULES))]
        self.there = set(range(MODULES))
        self.rounds = [self.round() for _ in range(ROUNDS)]

    def first(self):
        return {f"m{number}.js": self.text(number, "number", 0) for number in range(MODULES)}

    def text(self, number, kind, more):
        lead = self.leads[number]
        value = more if kind == "number" else f"'{more}'"
        lines = [f"export type T{number} = {{a: {kind}, b: {'null' if lead is None else f'?T{lead}'}}};"]
        lines += [f"export const v{number}: T{number} = {{a: {value}, b: {'null' if lead is None else f'v{lead}'}}};"]
        lines += [f"export function f{number}(x: T{number}): {kind} {{ return x.a; }}"]
        if lead is not None:
            lines = [f"import type {{T{lead}}} from './m{lead}';", f"import {{v{lead}, f{lead}}} from './m{lead}';", *lines]
            lines += [f"const n{number}: number = f{lead}(v{lead}) + {more};"]
        return "".join(f"{it}\n" for it in lines)

    def round(self):
        """The modules that are edited, the poll to stop at or 0, and what is asked."""
        changes = dict(self.change() for _ in range(self.random.randint(1, 3)))
        stop = self.random.randint(1, 20) if self.random.random() < 0.1 else 0
        return list(changes.items()), stop, [self.ask(list(changes)) for _ in range(MOST_ASKS)]

    def change(self):
        number = self.random.randrange(MODULES) if self.random.random() < 0.7 else self.random.randrange(10)
        path = f"m{number}.js"
        if self.random.random() < 0.1:
            return path, None
        text = self.text(number, self.random.choice(("number", "number", "string")), self.random.randrange(1000))
        return path, text[: self.random.randrange(len(text))] if self.random.random() < 0.03 else text

    def ask(self, edited):
        path = self.random.choice(edited) if self.random.random() < 0.7 else f"m{self.random.randrange(MODULES)}.js"
        kinds = [
            lambda: what("errors", path=path),
            lambda: what("errors", path=path),
            lambda: what("signature", path=path),
            lambda: what("importers", path=path),
            lambda: what("type-at-pos", path=path, line=self.random.randint(3, 6), col=self.random.randint(20, 50)),
            lambda: what("find-module", path=path, spec=f"./m{self.random.randrange(MODULES)}"),
            lambda: what("check-contents", path=path, text=self.text(int(path[1:-3]), "number", 0)),
            lambda: self.random.choice((STATUS_ASK, LS)),
        ]
        return self.random.choice(kinds)()

    def script_alone(self):
        rows = [alone(asks) + edits_of(changes) + (stop_at(stop) if stop else RECHECK) + alone(asks) for changes, stop, asks in self.rounds]
        return b"".join(rows)

    def script_beside(self):
        """Behind each third recheck stands a question by itself."""
        rows = []
        for number, (changes, stop, asks) in enumerate(self.rounds):
            rows += [edits_of(changes), beside(*asks, **({"stop": stop} if stop else {})), *([STATUS] if number % 3 == 0 else [])]
        return b"".join(rows)


def told_alone(history, root):
    """The first line, what each round answers before its recheck, its line, and what it answers behind it, and the last status."""
    status, printed, _ = run("--workers=4", root, stdin=None, input=history.script_alone(), timeout=PATIENCE)
    found, each = items(printed), 2 * MOST_ASKS + 1
    rows = [found[at : at + each] for at in range(1, len(found), each)]
    return status, found[0], [(row[:MOST_ASKS], row[MOST_ASKS], row[MOST_ASKS + 1 :]) for row in rows]


def expect_history(history, root, lanes, wanted):
    """Returns how many answers can tell the version before the recheck from the one behind it, and how many of them are of the latter."""
    status, loaded, rounds = wanted
    given = run("--workers=4", f"--lanes={lanes}", root, stdin=None, input=history.script_beside(), timeout=PATIENCE)
    expect((given[0], b"", given[2]), status, b"")
    found = iter(items(given[1]))
    if next(found) != loaded:
        raise AssertionError("the load's line differs")
    counts = [0, 0]
    for number, (before, line_of, after) in enumerate(rounds):
        if (told := next(found, None)) != line_of:
            raise AssertionError(f"with {lanes} lanes the recheck {number} told {told}, and not {line_of}")
        answers = [next(found, b"") for _ in range(MOST_ASKS)]
        expect_answers(answers, before, after, lanes)
        if number % 3 == 0 and version_of(next(found, b"0 ")) != version_of(after[0]):
            raise AssertionError(f"with {lanes} lanes the question behind recheck {number} was not answered from the current version")
        if before[0] != after[0]:
            counts[0] += len(answers)
            counts[1] += sum(version_of(it) == version_of(after[0]) for it in answers)
    return counts


@case
def a_long_history(root):
    """Many rechecks of many modules, with as many questions beside each as there may be, on 1, 2, 4 and 16 lanes."""
    history = History(1)
    write_all(root, history.first())
    wanted = told_alone(history, root)
    for lanes in LANES:
        answers, new = expect_history(history, root, lanes, wanted)
        print(f"   ({lanes} lanes: {answers} answers, {new} of them from the version that the recheck commits)", flush=True)


@case
def many_short_histories_at_once(root):
    """The machine is busy, so that threads are held up at any place."""
    histories = []
    for seed in range(2, 10):
        history = History(seed)
        history.rounds = history.rounds[:20]
        write_all(f"{root}/{seed}", history.first())
        histories.append((history, f"{root}/{seed}"))
    with ThreadPoolExecutor(8) as pool:
        wanted = list(pool.map(lambda it: told_alone(*it), histories))
        jobs = [pool.submit(expect_history, *it, lanes, told) for it, told in zip(histories, wanted, strict=True) for lanes in LANES]
        for job in jobs:
            job.result()


if __name__ == "__main__":
    real_folders.go_straight()
    sys.exit(real_folders.main())
