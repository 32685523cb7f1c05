#!/usr/bin/env python3
"""Runs the commands of the pages that a user reads against a server that was built, and compares what they print; then makes
the same requests by urllib and compares their replies. All of it twice, where the page's server has no --concurrent: of a
server that serves one connection after another, and of one that serves many at once. The commands of the programs that play
scripts are run by themselves.

    tools/newcomer.py [PROGRAM]

PROGRAM is crates/ssa_server/out/ssa_server where none is named. The commands are the lines "$ COMMAND" of the code blocks that
begin with such a line, in the order of the page; the lines behind one are what it prints. A command of ./ssa-server starts a
fresh server, on a free port in place of the page's; the next ones set variables (NAME=VALUE), the first of them the server's
address; those after them are run by bash.
A page's filter behind " | " makes of a reply what is compared, also of urllib's.
urllib leaves out the commands of curl -si, whose replies are shown with their heads: it can't make some of these requests.
Each command has to end with status 0, with each one of a pipe, and a server may not end by itself. A page has to have so
many commands at the least, and no line "$ COMMAND" outside of such blocks. The last line counts the commands, `N passed, M
failed`; the status is 1 where something differs.
"""
import itertools
import json
import os
import re
import shlex
import subprocess
import sys
import urllib.error
import urllib.request

TOP = os.path.dirname(os.path.dirname(os.path.realpath(__file__)))
# The pages, each with the least number of its commands.
PAGES = {"README.md": 5, "docs/API.md": 20, "docs/REPLAY.md": 1, "examples/crd.md": 3}
PORT = "8001"
SETTING = re.compile(r"[A-Z]+=\S+$")
# The commands, and the pages, of which something differs.
different = set()


def commands(page):
    """Each command of the page with the text that it prints."""
    with open(f"{TOP}/{page}", encoding="utf-8") as it:
        blocks = it.read().split("```\n")[1::2]
    found = []
    for block in blocks:
        if not block.startswith("$ "):
            continue
        for line in block.splitlines():
            if line.startswith("$ "):
                found.append((line[2:], []))
            else:
                found[-1][1].append(line)
    return [(command, "\n".join(lines)) for command, lines in found]


def missing():
    """Tells of pages with commands that this script wouldn't find."""
    for page, least in PAGES.items():
        with open(f"{TOP}/{page}", encoding="utf-8") as it:
            written = len(re.findall(r"^\s*\$ ", it.read(), re.M))
        found = len(commands(page))
        differs(page, f"{page}: lines that begin with $", found, written)
        if found < least:
            differs(page, f"{page}: commands", found, f"{least} or more")


def sessions():
    """The commands of each fresh server, from the one that starts it on."""
    found = []
    for page in PAGES:
        for row in commands(page):
            if row[0].startswith("./ssa-server "):
                found.append([])
            elif row[0].startswith("./"):
                continue
            found[-1].append(row)
    return found


def plays():
    """The commands that play scripts."""
    return [row for page in PAGES for row in commands(page) if row[0].startswith(("./ssa-replay ", "./ssa-loop "))]


def settings(rows, port):
    """The variables that a session's first commands set, of a server on this port."""
    names = {}
    for command, _ in itertools.takewhile(lambda row: SETTING.match(row[0]), rows):
        name, _, value = command.partition("=")
        names[name] = expanded(value.replace(PORT, port), names)
    return names


def expanded(text, names):
    for name, value in names.items():
        text = text.replace("$" + name, value)
    return text


class Server:
    """The server that a page's command starts, on a free port."""

    def __init__(self, program, command, mode):
        self.command = command
        words = [program, *shlex.split(command)[1:], *mode]
        words[words.index(PORT)] = "0"
        self.process = subprocess.Popen(words, cwd=TOP, stdout=subprocess.PIPE, text=True)
        self.said = self.process.stdout.readline().rstrip("\n")
        self.port = self.said.rpartition(":")[2]

    def __enter__(self):
        return self

    def __exit__(self, *_):
        differs(self.command, f"the server's status before its end: {self.command}", self.process.poll(), None)
        self.process.kill()
        self.process.wait()


def differs(command, what, got, wanted):
    """Tells where something of a command isn't what it should be."""
    if got != wanted:
        print(f"{what}\n  is     {got}\n  wanted {wanted}")
        different.add(command)


def compare_run(command, wanted, seconds, names=None):
    """Runs a command and compares what it prints."""
    words, env = ["bash", "-o", "pipefail", "-c", command], {**os.environ, **(names or {})}
    try:
        done = subprocess.run(words, cwd=TOP, env=env, stdout=subprocess.PIPE, text=True, timeout=seconds, check=False)
        differs(command, command, done.stdout.rstrip("\n"), wanted)
        differs(command, f"status of {command}", done.returncode, 0)
    except subprocess.TimeoutExpired:
        differs(command, command, f"no end in {seconds} seconds", wanted)


def by_curl(names, rows):
    """Runs a session's commands."""
    for command, wanted in rows:
        compare_run(command, wanted, 30, names)


def request_of(words):
    """The request that curl makes of these words."""
    method, headers, body, url = None, {}, None, None
    words = iter(words)
    for word in words:
        if word == "-X":
            method = next(words)
        elif word == "-H":
            name, _, value = next(words).partition(":")
            headers[name] = value.strip()
        elif word == "-d":
            body = next(words).encode()
        elif word in ("-o", "--max-time"):
            next(words)
        elif word.startswith("http"):
            url = word
    return urllib.request.Request(url, data=body, headers=headers, method=method)


def opened(request):
    try:
        return urllib.request.urlopen(request, timeout=30)
    except urllib.error.HTTPError as refusal:
        return refusal


def status_of(body):
    """The code that a Status names."""
    value = json.loads(body)
    return value["code"] if value.get("kind") == "Status" else None


def filtered(command, text):
    """What a filter of a page makes of a text."""
    if not command:
        return text
    return subprocess.run(["bash", "-c", command], input=text, stdout=subprocess.PIPE, text=True, check=False).stdout.rstrip("\n")


def by_urllib(names, rows):
    """Makes a session's requests. Of a command with a watch in the background that is opened, then the other request is
    made, and the watch's lines are read."""
    for command, wanted in rows:
        if " -si " in command:
            continue
        steps = [step for part in command.split(" & ") for step in part.split("; ") if step.startswith("curl ")]
        calls, _, by = zip(*(step.partition(" | ") for step in steps))
        asked = [request_of(shlex.split(expanded(call, names))) for call in calls]
        replies = [opened(request) for request in asked]
        if len(replies) > 1:
            body = "".join(replies[0].readline().decode() for _ in wanted.splitlines()).rstrip("\n")
        else:
            body = replies[0].read().decode().rstrip("\n")
            differs(command, f"urllib: status of {command}", replies[0].status if status_of(body) else None, status_of(body))
        differs(command, f"urllib: {command}", filtered(by[0], body), wanted)
        for reply in replies:
            reply.close()


def main(words):
    program = words[0] if words else f"{TOP}/crates/ssa_server/out/ssa_server"
    if not os.access(program, os.X_OK):
        sys.exit(f"newcomer: {program} isn't built: run `rt run` in crates/ssa_server")
    os.environ["no_proxy"] = "127.0.0.1"
    missing()
    played = [row[0] for row in plays()]
    for command, wanted in plays():
        # A program that isn't built is compiled first.
        compare_run(command, wanted, 600)
    for (start, said), *rows in sessions():
        modes = [[]] if " --concurrent" in start else [[], ["--concurrent"]]
        asked = rows[len(settings(rows, PORT)):]
        played += [start, *(command for command, _ in asked)]
        for mode, ask in itertools.product(modes, (by_curl, by_urllib)):
            with Server(os.path.realpath(program), start, mode) as server:
                differs(start, start, server.said.replace(server.port, PORT), said)
                ask(settings(rows, server.port), asked)
    print(f"{len(played)} commands, those of servers by curl and by urllib")
    print(f"{len(played) - len(different & {*played})} passed, {len(different)} failed")
    return int(bool(different))


if __name__ == "__main__":
    if set(sys.argv[1:]) & {"-h", "--help"}:
        sys.exit(__doc__)
    sys.exit(main(sys.argv[1:]))
