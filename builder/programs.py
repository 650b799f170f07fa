"""Proved programs: what stands in bin/, and whether it was built from the sources as they are."""

import os
import shutil
import sys

from . import processes
from .proving import Prover
from .sources import Refused, keeps_proofs, kit, sum_of

# The exit status where a proof failed, of `./build --prove`.
UNPROVED = 3


def stamp_of(folder, program):
    return f"{folder}/.{program}.sum"


def is_stamped(folder, program, text):
    """Whether the folder has this program, made from files of this sum."""
    made, stamp = f"{folder}/{program}", stamp_of(folder, program)
    if not (os.path.isfile(made) and os.path.isfile(stamp)):
        return False
    with open(stamp, encoding="utf-8") as file:
        return file.read() == f"{text} {sum_of(made)}"


def place(found, folder, program, text):
    """Puts a program into a folder, and beside it the sum of what it was made from and its own."""
    os.makedirs(folder, exist_ok=True)
    made = f"{folder}/{program}"
    shutil.copyfile(found, f"{made}.new")
    os.chmod(f"{made}.new", 0o755)
    os.replace(f"{made}.new", made)
    with open(stamp_of(folder, program), "w", encoding="utf-8") as file:
        file.write(f"{text} {sum_of(made)}")


def sum_for(sources, program, identity):
    """Returns the sum of all that a program is made from."""
    return sources.sum(sources.needed([sources.crate_of(program)]), identity)


def build(sources, programs):
    """Leaves the programs in bin/, proved and built from the sources as they stand, and returns the exit status."""
    identity, folder, wanted = kit(), f"{sources.root}/bin", {}
    for program in programs:
        text = sum_for(sources, program, identity)
        kept = os.environ.get("HFSX_PROVED", "")
        if is_stamped(folder, program, text):
            print(f"bin/{program} is built from these sources")
            continue
        for path in (f"{folder}/{program}", stamp_of(folder, program)):
            if os.path.lexists(path):
                os.remove(path)
        if kept and is_stamped(kept, program, text):
            place(f"{kept}/{program}", folder, program, text)
            print(f"bin/{program} is taken from {kept}/{program}, which was proved and built from these sources")
        else:
            wanted[program] = text
    if not wanted:
        return 0
    built = {program: sources.crate_of(program) for program in wanted}
    crates = sources.needed(built.values())
    print(f"{', '.join(wanted)}: proving {len(crates)} crates; this takes a while", flush=True)
    with processes.room() as room:
        is_proved = Prover(sources, crates, room).prove(built.values())
        for program, text in wanted.items():
            found = f"{room}/{built[program]}/crates/{built[program]}/out/{built[program]}"
            if not is_proved or not os.path.isfile(found):
                print(f"build: {program} is not built", file=sys.stderr)
                return 1
            place(found, folder, program, text)
            print(f"bin/{program} is built")
    return 0


def keep(sources, wanted, built, folder):
    """Puts the program hfsx that was built from files of the wanted sum into a folder, from which a build may take it."""
    text = sum_for(sources, "hfsx", kit())
    if text != wanted:
        raise Refused("the files have changed since that sum was told", 1)
    place(built, folder, "hfsx", text)
    return 0


def prove_all(sources):
    """Proves every crate and its tests, and tries its must-fail edits, ahead of the gate, which then takes what the kit kept of that.
    Where the kit keeps nothing, the gate's own run would prove all of it again, so nothing is proved ahead. Returns the exit status."""
    if not keeps_proofs():
        print("build: the kit keeps nothing here, so nothing is proved ahead of the gate", flush=True)
        return 0
    crates = sources.needed(sources.uses)
    with processes.room() as room:
        return 0 if Prover(sources, crates, room).prove(edits=True) else UNPROVED
