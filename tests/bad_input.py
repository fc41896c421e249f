#!/usr/bin/env python3
"""Runs ./flowd on a table of inputs that are wrong, or nearly so: lines, paths, texts, lengths and folders.

    tests/bad_input.py [--million] [WORD]       (only the cases whose name has this word)

Each row has a name, an input, all that is printed behind the load's line, and the status. Expected values come from what the
README says of a script and a folder, and from JSON. What takes a client that talks, or another user, stands in scripts.py and
real_folders.py. With --million there is a folder of a million modules besides. The last line is 'N passed, M failed'.
"""

import json
import os
import sys

sys.path.insert(0, os.path.dirname(os.path.abspath(__file__)))
import real_folders
from programs import run_cases
from real_folders import CLEAN, ERRORS, FOLDER_FAULT, MOST_ENTRIES, expect, go_straight, recheck, room_for_many, run, write
from scripts import BAD_LINE, LIMIT, LONGEST_LINE, RECHECK, STATUS, delete, done, edit, touch

MOST_LINES = 1_048_576
MOST_BYTES = 1_048_576  # of a source
SECONDS = 600  # for a run, at the most
DEEPEST = 127  # arrays and objects in one another, in a line


# Lines over an empty folder. Of each: its name, the line, and what it prints.

BAD, DONE = b"bad line 1\n", done(2, 0, 0)


def deep(levels, opens=b"[", closes=b"]"):
    """A recheck with a key that has this many levels in it, its own object counted."""
    return b'{"x":' + opens * (levels - 1) + b"1" * (opens != b"[") + closes * (levels - 1) + b',"do":"recheck"}'


LINES = [
    # A key twice: the last one counts.
    ("a command twice", b'{"do":"end","do":"recheck"}', DONE),
    ("a command twice, the last one unknown", b'{"do":"recheck","do":"rechek"}', BAD),
    ("a command twice, the last one no string", b'{"do":"recheck","do":1}', BAD),
    ("a command twice, once in escapes", b'{"do":"end","\\u0064o":"recheck"}', DONE),
    ("a path twice", b'{"do":"delete","path":"..","path":"a.js"}', b""),
    ("a path twice, the last one none", b'{"do":"delete","path":"a.js","path":".."}', BAD),
    ("a text twice", b'{"do":"edit","path":"a.js","text":1,"text":""}', b""),
    ("a text twice, the last one none", b'{"do":"edit","path":"a.js","text":"","text":1}', BAD),
    ("a question twice", b'{"do":"ask","ask":1,"ask":{"what":"status"}}', b"1 status: 0 errors\n"),
    ("a question's word twice", b'{"do":"ask","ask":{"what":1,"what":"status"}}', b"1 status: 0 errors\n"),
    ("a question's word twice, the last one none", b'{"do":"ask","ask":{"what":"status","what":1}}', BAD),
    # Numbers, in keys that no command has.
    *((f"the number {it.decode()[:30]}", b'{"do":"recheck","n":%s}' % it, DONE) for it in (b"0", b"-0", b"-1", b"1.5", b"1E+2", b"1e-999")),
    ("a number of 64 bits", b'{"do":"recheck","n":18446744073709551615}', DONE),
    ("one more", b'{"do":"recheck","n":18446744073709551616}', DONE),
    ("a number below those of 64 bits", b'{"do":"recheck","n":-9223372036854775809}', DONE),
    ("the largest power of ten", b'{"do":"recheck","n":1e308}', DONE),
    ("a power of ten past all numbers", b'{"do":"recheck","n":1e400}', BAD),
    ("a number of 400 digits", b'{"do":"recheck","n":1%s}' % (b"0" * 400), BAD),
    ("a fraction of 10,000 digits", b'{"do":"recheck","n":0.%s}' % (b"3" * 10_000), DONE),
    *((f"no number: {it.decode()}", b'{"do":"recheck","n":%s}' % it, BAD) for it in (b"01", b"-01", b"+1", b".5", b"1.", b"1e", b"1e+", b"-", b"0x1", b"1_0", b"1n")),
    *((f"no value: {it.decode()}", b'{"do":"recheck","n":%s}' % it, BAD) for it in (b"NaN", b"Infinity", b"-Infinity", b"undefined", b"True", b"nul", b"nulll", b"'a'", b"a", b"")),
    # A number for where a recheck is to stop: a whole one from 1 to 2^64 - 1.
    *((f"a stop of {it.decode()}", b'{"do":"recheck","stop":%s}' % it, BAD) for it in (b"0", b"-0", b"-1", b"1.0", b"1e0", b"18446744073709551616", b"1e400", b'"1"', b"null", b"[]")),
    # Bytes that are no UTF-8.
    *(
        (f"{name} in {where}", line % it, BAD)
        for name, it in (
            ("the byte FF", b"\xff"),
            ("a byte that goes on with no character", b"\x80"),
            ("a character that is cut off", b"\xe2\x82"),
            ("a longer form of a character", b"\xc0\x80"),
            ("a surrogate in three bytes", b"\xed\xa0\x80"),
            ("a character past the last one", b"\xf4\x90\x80\x80"),
        )
        for where, line in (
            ("a text", b'{"do":"edit","path":"a.js","text":"%s"}'),
            ("a path", b'{"do":"delete","path":"%s.js"}'),
            ("a command", b'{"do":"recheck%s"}'),
            ("a key", b'{"do":"recheck","%s":1}'),
            ("a value that is not named", b'{"do":"recheck","x":["%s"]}'),
            ("a line", b"%s"),
            ("a line's end", b'{"do":"recheck"}%s'),
        )
    ),
    # Escapes.
    ("a command in escapes", b'{"\\u0064\\u006F":"\\u0072echeck"}', DONE),
    ("two halves of a character", b'{"do":"recheck","x":"\\ud83d\\ude00"}', DONE),
    ("the escape of each", b'{"do":"recheck","x":"\\"\\\\\\/\\b\\f\\n\\r\\t\\u0000\\uffff"}', DONE),
    *(
        (f"{name} in {where}", line % it, BAD)
        for name, it in (("a first half alone", b"\\ud800"), ("a second half alone", b"\\uDFFF"), ("two first halves", b"\\ud83d\\ud83d"))
        for where, line in (
            ("a text", b'{"do":"edit","path":"a.js","text":"%s"}'),
            ("a text with more", b'{"do":"edit","path":"a.js","text":"a%sb"}'),
            ("a path", b'{"do":"delete","path":"%s.js"}'),
            ("a key", b'{"do":"recheck","%s":1}'),
            ("a value that is not named", b'{"do":"recheck","x":"%s"}'),
        )
    ),
    *((f"no escape: {it.decode()}", b'{"do":"recheck","x":"%s"}' % it, BAD) for it in (b"\\", b"\\x41", b"\\0", b"\\'", b"\\u12", b"\\u{41}", b"\\u12g4", b"\\U0041", b"\\v")),
    # Control characters in a string.
    *((f"the control character {it:02x} in a string", b'{"do":"recheck","x":"a%cb"}' % it, BAD) for it in (0, 1, 9, 13, 31)),
    ("the character 7f in a string", b'{"do":"recheck","x":"\x7f"}', DONE),
    # Depth.
    ("as many arrays as may be", deep(DEEPEST), DONE),
    ("one array more", deep(DEEPEST + 1), BAD),
    ("as many objects as may be", deep(DEEPEST, b'{"x":', b"}"), DONE),
    ("one object more", deep(DEEPEST + 1, b'{"x":', b"}"), BAD),
    ("200 arrays", deep(200), BAD),
    ("200 objects", deep(200, b'{"x":', b"}"), BAD),
    ("a million arrays", deep(1_000_000), BAD),
    ("a million arrays that are not closed", b"[" * 1_000_000, BAD),
    ("a million objects that are not closed", b'{"a":' * 800_000, BAD),
    ("many arrays beside one another", b'{"do":"recheck","x":[%s[]]}' % (b"[[]]," * 100_000), DONE),
    # Blanks.
    *((f"a line of {name}", it, b"") for name, it in (("nothing", b""), ("blanks", b" \t \r\r ")) ),
    *((f"a line of {name}", it, BAD) for name, it in (("a vertical tab", b"\x0b"), ("a form feed", b" \x0c"), ("a wide blank", "\u00a0".encode()), ("a mark of order", b"\xef\xbb\xbf"), ("a zero", b"\0"))),
    ("blanks round each part", b' \t{ "do"\t:\r"recheck" , "x" : [ 1 , { } ] } \r', DONE),
    *((f"{name} before a command", it + b'{"do":"recheck"}', BAD) for name, it in (("a mark of order", b"\xef\xbb\xbf"), ("a form feed", b"\x0c"), ("a zero", b"\0"))),
    *((f"{name} behind a command", b'{"do":"recheck"}' + it, BAD) for name, it in (("a form feed", b"\x0c"), ("a zero", b"\0"), ("a comma", b","), ("a remark", b" // x"), ("a brace", b"}"))),
    ("two commands with a CR between", b'{"do":"recheck"}\r{"do":"recheck"}', BAD),
    # Values that are no command.
    *((f"no command: {it.decode()}", it, BAD) for it in (b"{}", b"[]", b'"end"', b"1", b"null", b"true", b"end", b'[{"do":"end"}]', b"'end'", b"{do:1}", b"{'do':'end'}")),
    *((f"no command's word: {it.decode()}", b'{"do":%s}' % it, BAD) for it in (b"null", b'""', b'"End"', b'" end"', b'"end\\u0000"', b'["end"]', b'{"do":"end"}', b'"turns"')),
    *((f"no object: {it.decode()}", it, BAD) for it in (b'{"do":"end",}', b'{,"do":"end"}', b'{"do":"end"', b'{"do":"end"]', b'{"do" "end"}', b'{"do":"end" "x":1}', b'{"do"}', b'{"do":}', b'{"do":"end}', b"{")),
    *((f"no question: {it.decode()}", b'{"do":"ask","ask":%s}' % it, BAD) for it in (b"null", b"[]", b"{}", b'{"what":null}', b'{"what":"Status"}', b'{"what":["status"]}', b'[{"what":"status"}]')),
]


# Paths in a script.


def longest(character, more=0):
    """A path of 1,024 bytes and so many more, of this character."""
    size = 1024 + more - len(".js")
    many, odd = divmod(size, len(character.encode()))
    return "x" * odd + character * many + ".js"


PATHS = [".js", "..js", "...js", "a/.js", ".hidden/a.js", "node_modules/a.js", "a.js/b.js", ".../a.js", "..a/b.js", " .js", "a b.js", "a .js/b.js", "\u00e9\u4e2d\U0001f600.js", "a\\b.js"]
PATHS += ["a\u007f.js", "a\u0080.js", "a\u2028.js", "\ufeff.js", "C:/a.js", "a.JS.js", "-.js", "~.js", "*?.js", longest("x"), longest("\u00e9"), longest("\U0001f600"), "a/" * 510 + "a.js"]
NO_PATHS = ["", ".", "..", "a", "js", "a.JS", "a.jsx", "a.js ", "a.js/", "a.js/.", "/a.js", "/.js", "./a.js", "../a.js", "a/../b.js", "a//b.js", "a/./b.js", "a/..", "a.js\u0000", "\u0000.js"]
NO_PATHS += ["a\n.js", "a\t.js", "a\u001f.js", "a\r/b.js", longest("x", 1), longest("\u00e9", 1), longest("\U0001f600", 1), "a/" * 511 + "a.js", "x" * 1_000_000 + ".js"]


def can_be(path):
    """Whether a folder can have this path: a name has 255 bytes at most."""
    return all(len(it.encode()) <= 255 for it in path.split("/"))


def named(path):
    return json.dumps(path) if len(path) < 40 else f"{json.dumps(path[:8])} .. of {len(path.encode()):,} bytes"


# Scripts over an empty folder: name, script, what is printed, status.


def told(*errors):
    """What an edit of one module prints at its recheck and when its status is asked."""
    return done(2, 1, 1, len(errors)) + b"2 status: %d errors\n" % len(errors) + b"".join(b"  a.js:%s\n" % it for it in errors)


def of_text(text):
    return edit("a.js", text.encode()) + RECHECK + STATUS


TOO_LONG = b"limit line %d\n" % (LONGEST_LINE + 1)
LONG_EDIT = edit("a.js", b"")[:-2]
TEXTS = [
    ("a text of nothing", "", []),
    ("a text with a zero", "\0", [b"1:1 bad-token"]),
    ("a text of a character that is none", "\uffff", [b"1:1 bad-token"]),
    ("a text of a mark of order", "\ufeff", []),
    ("a text of the longest size", " " * MOST_BYTES, []),
    ("a text that is too long", " " * (MOST_BYTES + 1), [b"1:1 source-too-long"]),
    ("a text that is too long in bytes", "\u00e9" * (MOST_BYTES // 2 + 1), [b"1:1 source-too-long"]),
    ("a text that is too long and wrong", "#" * (MOST_BYTES + 1), [b"1:1 source-too-long"]),
    ("a text that breaks off", "export const x: number = (", [b"1:27 parse"]),
    ("a string that does not end", '"abc', [b"1:1 bad-token"]),
    ("a character of two halves", 'const x: number = "\U0001f600";', ['1:19 incompatible-type "\U0001f600" number'.encode()]),
]
SCRIPTS = [
    *((f"the path {named(it)}", edit(it, b"") + RECHECK + delete(it) + RECHECK + edit(it, b"") + delete(it) + RECHECK, done(2, 1, 1) + done(3, 0, 0) + done(4, 0, 0), CLEAN) for it in PATHS),
    *((f"a touch of the path {named(it)}", edit(it, b"") + RECHECK + touch(it) + RECHECK, done(2, 1, 1) + done(3, 0, 0), CLEAN) for it in PATHS if can_be(it)),
    *((f"no path in {name}: {named(it)}", do(it), BAD, BAD_LINE) for it in NO_PATHS for name, do in (("an edit", lambda it: edit(it, b"")), ("a delete", delete), ("a touch", touch))),
    *((name, of_text(text), told(*errors), ERRORS if errors else CLEAN) for name, text, errors in TEXTS),
    # Lengths.
    ("a text as long as a line lets it be", LONG_EDIT[:-1] + b"#" * (LONGEST_LINE - len(LONG_EDIT) - 1) + b'"}\n' + RECHECK + STATUS, told(b"1:1 source-too-long"), ERRORS),
    ("one character more", LONG_EDIT[:-1] + b"#" * (LONGEST_LINE - len(LONG_EDIT)) + b'"}\n' + RECHECK, TOO_LONG, LIMIT),
    ("the longest line at the end", RECHECK[:-1] + b" " * (LONGEST_LINE - len(RECHECK) + 1), DONE, CLEAN),
    ("the longest line with a CR", RECHECK[:-1] + b" " * (LONGEST_LINE - len(RECHECK)) + b"\r\n", DONE, CLEAN),
    ("a CR more", RECHECK[:-1] + b" " * (LONGEST_LINE - len(RECHECK) + 1) + b"\r\n", TOO_LONG, LIMIT),
    ("a line that is too long, at the end", b"x" * (LONGEST_LINE + 1), TOO_LONG, LIMIT),
    ("a blank line that is too long", b" " * (LONGEST_LINE + 1) + b"\n", TOO_LONG, LIMIT),
    ("a line that is much too long", RECHECK + b"x" * (3 * LONGEST_LINE), DONE + TOO_LONG, LIMIT),
    ("a line of the longest size that is no command", b"x" * LONGEST_LINE + b"\n", BAD, BAD_LINE),
    ("a line behind the longest one", b" " * LONGEST_LINE + b"\n" + RECHECK, DONE, CLEAN),
    # Numbers of lines. Blank ones count, and so does the last one, unless nothing stands behind the LF.
    ("the most lines", b"\n" * (MOST_LINES - 1) + RECHECK, DONE, CLEAN),
    ("one line more at the end", b"\n" * MOST_LINES + b" ", b"limit lines 1048577\n", LIMIT),
    ("one line more that is no command", b"\n" * MOST_LINES + b"x\n", b"limit lines 1048577\n", LIMIT),
    ("one line more that is too long", b"\n" * MOST_LINES + b" " * (LONGEST_LINE + 1), b"limit lines 1048577\n", LIMIT),
    # The number of a line that is none.
    ("no command in line 3", b"\n \n{\n", b"bad line 3\n", BAD_LINE),
    ("no command in the last of the most lines", b"\n" * (MOST_LINES - 1) + b"{", b"bad line 1048576\n", BAD_LINE),
    ("a bad line behind the end", b'{"do":"end"}\n{\n' + RECHECK, b"", CLEAN),
]


# Folders: name, files, what is printed by the load and at a status, status.

ODD = ["-.js", ".js", " .js", "A.js", "a b.js", "a-b.js", "a.js", "a/b.js", "a\\b.js", "a\u007f.js", "a.js.js", "x.js/y.js", "\u00e9.js", "\U0001f600.js", "\uffff.js"]
NO_MODULES = ["a.JS", "a.Js", "b.js ", "b.jsx", "js", "b.js.", ".js/.a", "node_modules/b.js", ".b/b.js", "b/.js.swp"]


def modules(count):
    return {f"d{number % 7}/m{number}.js": b"" for number in range(count)}


def shown(paths):
    """What is printed of modules that each have an error."""
    paths = sorted(it.encode() for it in paths)
    return recheck(len(paths), len(paths)) + b"1 status: %d errors\n" % len(paths) + b"".join(b"  %s:1:1 parse\n" % it for it in paths)


FOLDERS = [
    ("each odd name that is a module's", {it: b"=" for it in ODD}, shown(ODD), ERRORS),
    ("odd names that are no module's", {**{it: b"=" for it in NO_MODULES}, "c.js": b""}, recheck(1) + b"1 status: 0 errors\n", CLEAN),
    ("modules in the order of their bytes", {it: b"=" for it in ("b.js", "a/c.js", "a.js", "a-.js", "B.js", "a/b/c.js", "\u00e9.js", "z.js")}, shown(["B.js", "a-.js", "a.js", "a/b/c.js", "a/c.js", "b.js", "z.js", "\u00e9.js"]), ERRORS),
    ("a path of 1,024 bytes", {"a/" * 510 + "a.js": b"="}, shown(["a/" * 510 + "a.js"]), ERRORS),
    ("a path of one byte more", {"a/" * 510 + "aa.js": b"=", "a.js": b""}, b"", FOLDER_FAULT),
    ("a path of 1,026 bytes that is no module's", {"a/" * 510 + "aaa.ts": b"=", "a.js": b"="}, shown(["a.js"]), ERRORS),
    ("the most modules, and other files", {**modules(1024), **{f"d/{number}.ts": b"" for number in range(2000)}}, recheck(1024) + b"1 status: 0 errors\n", CLEAN),
    ("4,097 modules", modules(4097), b"limit files 4097\n", LIMIT),
    ("too many modules, one of which is wrong", {**modules(1030), "a.js": b"\xff"}, b"limit files 1031\n", LIMIT),
    ("too many modules and a path that is none", {**modules(1030), "a\n.js": b""}, b"", FOLDER_FAULT),
]


def expect_printed(root, what, printed, status):
    """What is printed of a folder, or of a script over an empty one."""
    is_folder = isinstance(what, dict)
    os.makedirs(root)
    for path, text in what.items() if is_folder else ():
        write(f"{root}/{path}", text)
    script, before = (STATUS, b"") if is_folder else (what, recheck(0))
    expect(run(root, stdin=None, input=script, timeout=SECONDS), status, before + printed)


def a_million_modules(root):
    """As many entries as may be, of which each is a module; and one more."""
    with room_for_many(root) as room:
        for number in range(MOST_ENTRIES):
            if number % 50_000 == 0:
                write(f"{room}/{number}.js", b"")
            else:
                os.link(f"{room}/{number // 50_000 * 50_000}.js", f"{room}/{number}.js")
        expect(run(room, timeout=SECONDS), LIMIT, b"limit files %d\n" % MOST_ENTRIES)
        write(f"{room}/more", b"")
        expect(run(room, timeout=SECONDS), FOLDER_FAULT, b"")


def cases():
    for name, line, printed in LINES:
        is_bad = printed == BAD
        yield name, line + b"\n" + RECHECK * is_bad, printed, BAD_LINE if is_bad else CLEAN
    yield from SCRIPTS
    yield from FOLDERS


def main():
    if sys.argv[1:2] == ["--million"]:
        real_folders.CASES = [a_million_modules]
        del sys.argv[1]
        return real_folders.main()
    return run_cases(list(cases()), expect_printed)


if __name__ == "__main__":
    go_straight()
    sys.exit(main())
