"""The sources: which crates there are, what each stands on, the files that it is proved from, and sums of them."""

import hashlib
import os
import re
import shutil
import subprocess

ROOT = os.path.dirname(os.path.dirname(os.path.abspath(__file__)))
# The programs whose crate has another name than `-` for `_` gives.
CRATES = {"hfsx": "hfsx_cli"}
# What a crate is proved from, and what its program is run on once it is built.
PARTS = ("src", "specs", "proofs", "data", "stdin", "stdout", "args", "status")


class Refused(Exception):
    """What was asked for can't be done, and why: a sentence for the user, and the exit status."""

    def __init__(self, why, status=2):
        super().__init__(why)
        self.status = status


class Sources:
    """The crates that a folder's crates.txt lists."""

    def __init__(self, root=ROOT):
        self.root, self.lines, self.uses = root, {}, {}
        with open(f"{root}/crates.txt", encoding="utf-8") as file:
            for line in file:
                head, colon, below = line.partition("#")[0].partition(":")
                if colon:
                    name = head.split()[0]
                    self.lines[name], self.uses[name] = line, below.split()

    def crate_of(self, program):
        """Returns the crate of a program."""
        crate = CRATES.get(program, program.replace("-", "_"))
        if crate not in self.lines or not os.path.isfile(f"{self.root}/crates/{crate}/src/main.rt"):
            raise Refused(f"there is no program {program}")
        return crate

    def programs(self):
        """Returns the programs that are released: hfsx, and hfsx-files where it is there."""
        return ["hfsx", *[it for it in ("hfsx-files",) if it.replace("-", "_") in self.lines]]

    def below(self, crate):
        """Returns the crates of the repository that this one names."""
        return [it for it in self.uses[crate] if it in self.uses]

    def needed(self, crates):
        """Returns these crates and those of the repository below them, lowest first."""
        found = []

        def visit(crate):
            for below in self.below(crate):
                if below not in found:
                    visit(below)
            if crate not in found:
                found.append(crate)

        for it in crates:
            visit(it)
        return found

    def files(self, crate):
        """Returns the files that the crate is proved from, in order."""
        found = []
        for part in PARTS:
            path = f"{self.root}/crates/{crate}/{part}"
            found += [path] if os.path.isfile(path) else []
            for at, folders, files in os.walk(path):
                folders.sort()
                found += [f"{at}/{name}" for name in sorted(files)]
        return found

    def sum(self, crates, kit):
        """Returns a sum of all that the crates are made from, with a kit of this identity."""
        text = hashlib.sha256(repr((kit, [self.lines[it] for it in crates])).encode())
        for crate in crates:
            for path in self.files(crate):
                with open(path, "rb") as file:
                    text.update(repr((os.path.relpath(path, self.root), file.read())).encode())
        return text.hexdigest()

    def copy(self, crates, room, edited=()):
        """Copies the crates into a folder that is to be a repository of its own, some with their must-fail edits."""
        os.makedirs(f"{room}/.git")
        shutil.copyfile(f"{self.root}/HANDLES", f"{room}/HANDLES")
        with open(f"{room}/crates.txt", "w", encoding="utf-8") as file:
            file.writelines(self.lines[it] for it in crates)
        for crate in crates:
            for path in self.files(crate):
                to = f"{room}/{os.path.relpath(path, self.root)}"
                os.makedirs(os.path.dirname(to), exist_ok=True)
                shutil.copyfile(path, to)
        for crate in edited:
            if os.path.isdir(f"{self.root}/crates/{crate}/must-fail"):
                shutil.copytree(f"{self.root}/crates/{crate}/must-fail", f"{room}/crates/{crate}/must-fail")


def kit():
    """Returns the kit's one-line identity."""
    if not shutil.which("rt"):
        raise Refused("rt isn't on the path: it is the command of Rattle's kit")
    return subprocess.run(["rt", "version"], capture_output=True, text=True, check=False).stdout


def keeps_proofs():
    """Whether the kit keeps what `rt ci` proved, for later runs: what its usage says of that command then names a flag that takes nothing of it."""
    told = subprocess.run(["rt", "help"], stdout=subprocess.PIPE, stderr=subprocess.STDOUT, text=True, check=False).stdout
    said = re.search(r"^ *rt ci\b.*?(?=^ *rt (?!ci\b)|\Z)", told, re.DOTALL | re.MULTILINE)
    return said is not None and "--anew" in said[0]


def sum_of(path):
    """Returns the sum of a file."""
    with open(path, "rb") as file:
        return hashlib.sha256(file.read()).hexdigest()
