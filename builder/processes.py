"""Commands that end when the one that began them does, however that is: by Ctrl-C, by a signal, or killed."""

import os
import re
import shutil
import signal
import subprocess
import sys
import tempfile
import time


class Commands:
    """Commands in a process group of their own, so that Ctrl-C at a terminal reaches only this process. A guard in the group waits at a
    pipe whose other end this process holds: where this one ends without a word, the guard ends the group."""

    def __init__(self):
        ends, self.held = os.pipe()
        how = {"stdin": ends, "stdout": subprocess.DEVNULL, "stderr": subprocess.DEVNULL}
        self.guard = subprocess.Popen(["sh", "-c", "read _; kill -9 0"], preexec_fn=os.setpgrp, **how)
        os.close(ends)

    def start(self, words, niceness=0, **how):
        """Starts a command; a niceness above 0 has it yield the processors to the others."""

        def join():
            os.setpgid(0, self.guard.pid)
            os.nice(niceness)

        how = {"stdin": subprocess.DEVNULL, **how}
        return subprocess.Popen(words, preexec_fn=join, **how)

    def __enter__(self):
        return self

    def __exit__(self, *_):
        end_all()
        os.close(self.held)


def room():
    """Returns a new temporary folder, to be used by `with`. It removes those of processes that were killed."""
    at = tempfile.gettempdir()
    for name in os.listdir(at):
        of = re.match(r"hfsx-room-(\d+)-", name)
        if of and not os.path.exists(f"/proc/{of[1]}"):
            shutil.rmtree(f"{at}/{name}", ignore_errors=True)
    return tempfile.TemporaryDirectory(prefix=f"hfsx-room-{os.getpid()}-")


def parents():
    """Returns the parent of each process that runs."""
    found = {}
    for name in filter(str.isdigit, os.listdir("/proc")):
        try:
            with open(f"/proc/{name}/stat", encoding="utf-8", errors="replace") as file:
                state, parent = file.read().rpartition(")")[2].split()[:2]
        except OSError:
            continue
        if state not in "ZX":
            found[int(name)] = int(parent)
    return found


def begun_by(pid):
    """Returns the processes that this one began, and those that they began."""
    of, found = parents(), [pid]
    for it in found:
        found += [child for child, parent in of.items() if parent == it and child not in found]
    return found[1:]


def end_all():
    """Ends all that this process began. Each process is stopped before any is ended, so that none begins another meanwhile."""
    stopped = set()
    while True:
        new = [it for it in begun_by(os.getpid()) if it not in stopped]
        if not new:
            break
        for it in new:
            send(it, signal.SIGSTOP)
        stopped.update(new)
    for it in stopped:
        send(it, signal.SIGKILL)
    for _ in range(100):
        if not begun_by(os.getpid()):
            break
        time.sleep(0.02)


def send(pid, number):
    try:
        os.kill(pid, number)
    except OSError:
        pass


def end_on_signals():
    """Has Ctrl-C, SIGTERM and SIGHUP end this process by way of what its `with` and `finally` do."""

    def leave(number, _):
        for it in (signal.SIGINT, signal.SIGTERM, signal.SIGHUP):
            signal.signal(it, signal.SIG_IGN)
        sys.exit(128 + number)

    for it in (signal.SIGINT, signal.SIGTERM, signal.SIGHUP):
        if signal.getsignal(it) is not signal.SIG_IGN:
            signal.signal(it, leave)
