"""Lets `hfsx sessions` serve lines of a stream beside a machine (handles.py), on new volumes, and kills it.

    serve(room, stream, 500)             # the replies are the machine's, and so is what is seen behind each run
    kill(room, stream, 7)                # what a killed run leaves is the machine's tree after a prefix of the lines

A stream has the call `line(machine)`, which makes the next line. The program is bin/hfsx, or what HFSX names.
"""

import os
import random
import subprocess
import threading
import time

import handles
import links
import plain

ROOT = os.path.dirname(os.path.dirname(os.path.abspath(__file__)))
PROGRAM = os.environ.get("HFSX", f"{ROOT}/bin/hfsx")
KEEPING = b"/" + plain.print_name(handles.KEEPING)
# So many lines are one run.
PIECE = 500


class Wrong(Exception):
    """What the program did otherwise."""


def made(path):
    subprocess.run([PROGRAM, "format", path, "16384"], stdin=subprocess.DEVNULL, stdout=subprocess.DEVNULL, check=True)


def run(path, lines, mode="sessions"):
    done = subprocess.run([PROGRAM, mode, path], input=b"".join(it + b"\n" for it in lines), capture_output=True, timeout=600)
    if done.returncode:
        raise Wrong(f"status {done.returncode}: {done.stdout[-300:]!r} {done.stderr[:200]!r}")
    return done.stdout.split(b"\n")[:-1]


def held(lines, replies, wanted):
    for line, now, want in zip(lines, replies, wanted):
        if want is not None and now != want:
            raise Wrong(f"{line[:200]!r} is told {now[:200]!r} and not {want[:200]!r}")
    if len(replies) != len(wanted):
        raise Wrong(f"{len(wanted)} lines have {len(replies)} replies")


def play(path, row):
    """Serves a row of lines with their replies."""
    lines = [it.encode() for it, _ in row]
    held(lines, run(path, lines), [it.encode() for _, it in row])


# ---- what is seen


def whole(path, verb, at):
    """The bytes of a fork, piece by piece."""
    found = b""
    while True:
        told = run(path, [b"1 %s %s %d %d" % (verb, at, len(found), plain.READ)])[0]
        if not told.startswith(b"ok "):
            raise Wrong(f"{verb.decode()} {at!r} is told {told[:200]!r}")
        piece = plain.read_value(told[3:])
        found += piece
        if len(piece) < plain.READ:
            return found


def fork_bytes(path, verb, files):
    """The bytes of a fork of each of these files."""
    found = []
    for at, told in zip(files, run(path, [b"1 %s %s 0 %d" % (verb, it, plain.READ) for it in files])):
        if not told.startswith(b"ok "):
            raise Wrong(f"{verb.decode()} {at!r} is told {told[:200]!r}")
        piece = plain.read_value(told[3:])
        found.append(piece if len(piece) < plain.READ else whole(path, verb, at))
    return found


def seen(path):
    """What a session sees of a volume, as `seen` of a machine gives it."""
    found, folders = {}, [b"/"]
    while folders:
        paths = []
        for folder, told in zip(folders, run(path, [b"1 ls " + it for it in folders])):
            paths += [(folder if folder != b"/" else b"") + b"/" + name.rstrip(b"/") for name in told.split(b" ")[2:]]
        facts = [it.split(b" ") for it in run(path, [b"1 stat " + it for it in paths])]
        names = run(path, [b"1 lsattr " + it for it in paths])
        files = [at for at, words in zip(paths, facts) if words[1] != b"folder"]
        links_to = run(path, [b"1 readlink " + it for it in files])
        forks = dict(zip(files, zip((it != b"no NotLink" for it in links_to), fork_bytes(path, b"read", files), fork_bytes(path, b"rread", files))))
        for at, words, own in zip(paths, facts, names):
            folder = words[1] == b"folder"
            keys = own.split(b" ")[2:]
            values = run(path, [b"1 getattr " + at + b" " + it for it in keys]) if keys else []
            attributes = tuple(sorted((plain.read_name(key.decode()), plain.read_value(value[3:])) for key, value in zip(keys, values)))
            mode, created = words[4:6] if folder else words[5:7]
            found[at] = (folder, int(words[2]), int(mode, 8), int(created), attributes, *forks.get(at, (False, b"", b"")))
        folders = [at for at, words in zip(paths, facts) if words[1] == b"folder"]
    return found


def checked(path):
    """The volume is sound, and the keeping folder holds nothing."""
    if run(path, [b"ls " + KEEPING], "run")[0] not in (b"ok 0", b"no NotFound"):
        raise Wrong("the keeping folder holds something between two runs")
    done = subprocess.run([PROGRAM, "check", path], stdin=subprocess.DEVNULL, capture_output=True)
    if done.returncode:
        raise Wrong(f"check: {done.stdout[:300]!r}")


# ---- streams


def lines_of(stream, machine, count):
    """Lines, each with its reply."""
    found, told = [], []
    for _ in range(count):
        found.append(stream.line(machine))
        told.append(machine.answer(found[-1]))
    return found, told


def serve(room, stream, lines):
    """Serves so many lines, in several runs."""
    path = f"{room}/stream.img"
    made(path)
    machine = handles.Machine(links.Links())
    for done in range(0, lines, PIECE):
        asked, told = lines_of(stream, machine, min(PIECE, lines - done))
        held(asked, run(path, asked), told)
        machine = handles.Machine(machine.tree)
        if seen(path) != machine.seen():
            raise Wrong(f"behind {done + len(asked)} lines another tree is seen")
        checked(path)
    return lines


def cut_off(path, lines, wanted, pause):
    """The replies of a run that was killed so many seconds behind so many of them."""
    process = subprocess.Popen([PROGRAM, "sessions", path], stdin=subprocess.PIPE, stdout=subprocess.PIPE, stderr=subprocess.DEVNULL)
    answers = bytearray()

    def read():
        while piece := process.stdout.read1(65536):
            answers.extend(piece)

    def write():
        try:
            for at in range(0, len(lines), 20):
                process.stdin.write(b"".join(it + b"\n" for it in lines[at : at + 20]))
                process.stdin.flush()
                time.sleep(0.002)
        except OSError:
            pass

    both = [threading.Thread(target=it) for it in (read, write)]
    for it in both:
        it.start()
    while answers.count(b"\n") < wanted and process.poll() is None:
        time.sleep(0.0005)
    time.sleep(pause)
    process.kill()
    process.wait()
    for it in both:
        it.join()
    return bytes(answers).split(b"\n")[:-1]


def kill(room, stream, seed):
    """A run that is killed at an arbitrary moment: how many lines it had answered."""
    path = f"{room}/killed.img"
    made(path)
    machine = handles.Machine(links.Links())
    asked, told = lines_of(stream, machine, 200)
    held(asked, run(path, asked), told)
    machine = handles.Machine(machine.tree)
    run(path, [])
    lines, told, trees = [], [], [machine.seen()]
    for _ in range(400):
        lines.append(stream.line(machine))
        told.append(machine.answer(lines[-1]))
        trees.append(machine.seen())
    # At least so many lines are answered first, and some milliseconds go by.
    chance = random.Random(seed)
    replies = cut_off(path, lines, chance.randrange(len(lines)), chance.random() * 0.004)
    held(lines, replies, told[: len(replies)])
    now = seen(path)
    checked(path)
    if not any(now == it for it in trees[len(replies) :]):
        raise Wrong(f"killed with {len(replies)} lines of seed {seed} answered, another tree is seen than after these or more")
    return len(replies)


class Trial:
    """Counts what the program did otherwise, and says it."""

    def __init__(self):
        self.failed = 0

    def hold(self, work, *words):
        """Does a part of the trial, and gives what came of it, or None where it failed."""
        try:
            return work(*words)
        except Wrong as why:
            print(f"FAILED: {why}", flush=True)
            self.failed += 1
            return None

    def streams(self, room, stream, lines, seed, kills):
        """Serves lines of a stream, and kills runs of it; `stream` makes one from a seed."""
        done = self.hold(serve, room, stream(seed), lines)
        if done is not None:
            print(f"{done} lines of seed {seed} are told what the machine says, and seen as it sees them", flush=True)
        answered = [self.hold(kill, room, stream(seed * 1000 + it), seed * 1000 + it) for it in range(kills)]
        if kills:
            print(f"{kills} runs were killed, behind {sorted(it for it in answered if it is not None)} answered lines")

    def ended(self):
        print(f"{self.failed} failures")
        return int(self.failed > 0)
