"""Programs that are compiled with run-time checks, and not proved: to look at in the first minutes, and to try bodies before they are proved.

The kit's `rt try` compiles such a program into a folder of its own, runs it, and removes it. So the program is asked for work that takes
longer than that, and is taken from there as soon as it stands; then `rt try` is told to stop.
"""

import glob
import os
import shutil
import signal
import subprocess
import sys
import time

from . import processes
from .sources import Refused

# Work without an end, or nothing: then the program has to be taken in the moment in which it stands.
BUSY = {"hfsx": ["gen", "7", "4294967295"]}
# Between two looks, in seconds.
PAUSE = 0.01


def path_of(root, program):
    return f"{root}/bin/{program}-unproved"


def warn(root):
    """Says of each program that stands in bin/ without a proof that it is one."""
    for path in sorted(glob.glob(f"{root}/bin/*-unproved")):
        print(f"build: bin/{os.path.basename(path)} is not proved: it is compiled with run-time checks, for a first look and for trials", file=sys.stderr)


def link(root, program):
    """Gives the unproved program the proved one's name, in a folder bin/unproved/ that a path may begin with."""
    os.makedirs(f"{root}/bin/unproved", exist_ok=True)
    to = f"{root}/bin/unproved/{program}"
    if os.path.lexists(to):
        os.remove(to)
    os.symlink(f"../{program}-unproved", to)


def take(room, to):
    """Gives the program that was compiled in this folder a second name, where it stands there by now."""
    for path in glob.glob(f"{room}/tmp/*/*/program"):
        try:
            os.link(path, to)
            return True
        except OSError:
            pass
    return False


def compile(sources, program):
    """Leaves the program in bin/, compiled from the sources as they stand, and returns how many seconds that took."""
    crate, start = sources.crate_of(program), time.monotonic()
    with processes.room() as room, processes.Commands() as commands:
        sources.copy(sources.needed([crate]), f"{room}/sources")
        os.mkdir(f"{room}/tmp")
        with open(f"{room}/said", "w+", encoding="utf-8", errors="replace") as said:
            how = {"cwd": f"{room}/sources/crates/{crate}", "stdout": said, "stderr": subprocess.STDOUT}
            words = ["rt", "try", *(["--", *BUSY[program]] if program in BUSY else [])]
            ran = commands.start(words, env={**os.environ, "TMPDIR": f"{room}/tmp"}, **how)
            found = f"{room}/program"
            while ran.poll() is None and not os.path.exists(found):
                if take(room, found):
                    ran.send_signal(signal.SIGTERM)
                time.sleep(PAUSE)
            said.seek(0)
            told = said.read()
        if not os.path.exists(found):
            print(told, end="", file=sys.stderr)
            raise Refused(f"{program} was not compiled", 1)
        ran.wait()
        made = path_of(sources.root, program)
        os.makedirs(os.path.dirname(made), exist_ok=True)
        shutil.copyfile(found, f"{made}.new")
        os.chmod(f"{made}.new", 0o755)
        os.replace(f"{made}.new", made)
    link(sources.root, program)
    return time.monotonic() - start
