#!/usr/bin/env python3
"""How an editor talks to flowd, over pipes. FLOWD is the program, PATH a module of the folder ROOT.

    examples/client.py FLOWD ROOT PATH FILE     sends an edit and a recheck, and prints what changed; FILE has the module's
                                                new text, as an editor has it before it is saved
    examples/client.py FLOWD ROOT types PATH    what the module exports, each with its type
    examples/client.py FLOWD ROOT who PATH      the modules that import it
"""

import json
import subprocess
import sys


class Server:
    """flowd on a folder. Each command is a line; its answer is there before the next line is written."""

    def __init__(self, program, root):
        pipe = subprocess.PIPE
        self.flowd = subprocess.Popen([program, root], stdin=pipe, stdout=pipe, encoding="utf-8")
        self.load = self.line()

    def say(self, **command):
        print(json.dumps(command), file=self.flowd.stdin, flush=True)

    def line(self):
        return self.flowd.stdout.readline().rstrip("\n")

    def ask(self, what, **parts):
        """The first line of the answer, and then the others."""
        self.say(do="ask", ask={"what": what, **parts})
        return self.line()

    def errors(self):
        """The errors of the committed version: a line that counts them, and then one for each."""
        count = int(self.ask("status").split()[2])
        return {self.line().strip() for _ in range(count)}

    def end(self):
        self.say(do="end")
        for line in self.flowd.stdout:
            print(line, end="")
        return self.flowd.wait()


def edit(server, path, file):
    print(server.load)
    before = server.errors()
    with open(file, encoding="utf-8") as text:
        server.say(do="edit", path=path, text=text.read())
    server.say(do="recheck")
    print(server.line())
    after = server.errors()
    for sign, lines in (("-", before - after), ("+", after - before)):
        for line in sorted(lines):
            print(sign, line)


def main(program, root, first, last):
    server = Server(program, root)
    if first == "types":
        print(server.ask("signature", path=last))
    elif first == "who":
        print(server.ask("importers", path=last))
    else:
        edit(server, first, last)
    return server.end()


if __name__ == "__main__":
    if len(sys.argv) != 5:
        sys.exit(__doc__.strip())
    sys.exit(main(*sys.argv[1:]))
