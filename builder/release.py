"""Releases: an archive of the proved programs with what was proved of them, the same byte for byte for the same programs and sources."""

import glob
import hashlib
import io
import lzma
import os
import re
import subprocess
import sys
import tarfile

from . import programs
from .sources import Refused, kit

# The file of an archive that says what was proved.
PROVED = "PROVED"


def headline(sources):
    """Returns the page of the contract of the top call and of all that it rests on, which is made from the sources."""
    if subprocess.run([f"{sources.root}/.ci/headline", "--check"], cwd=sources.root, stdout=sys.stderr, check=False).returncode:
        raise Refused("docs/headline.md isn't what the sources say: run .ci/headline", 1)
    with open(f"{sources.root}/docs/headline.md", encoding="utf-8") as file:
        return file.read()


def report(sources, identity, made):
    """Returns the text that says what was proved: the sums of the programs and of each crate's sources, and the contract."""
    lines = ["What was proved, from which sources, and which programs were built of it. `./build --check-release` reads these lines.", ""]
    lines += [f"kit {identity.strip()}"]
    with open(f"{sources.root}/HANDLES", encoding="utf-8") as file:
        lines += [f"handles {file.read().strip()}"]
    crates = sources.needed([sources.crate_of(it) for it in made])
    for program, text in made.items():
        lines += [f"program {program} {text}", f"sources {program} {programs.sum_for(sources, program, identity)}"]
    lines += [f"crate {it} {sources.sum([it], identity)}" for it in crates]
    return "\n".join([*lines, "", headline(sources)])


def version(sources):
    """Returns the version that the first heading of CHANGELOG.md names."""
    with open(f"{sources.root}/CHANGELOG.md", encoding="utf-8") as file:
        found = re.search(r"^## (\d[\w.]*)", file.read(), re.M)
    if not found:
        raise Refused("CHANGELOG.md names no version")
    return found[1]


def contents(sources, identity, names):
    """Returns what an archive of these programs holds: mode and bytes by path."""
    found, made = {}, {}

    def add(path, file, mode=0o644):
        with open(file, "rb") as it:
            found[path] = mode, it.read()

    for program in names:
        path = f"{sources.root}/bin/{program}"
        if not programs.is_stamped(os.path.dirname(path), program, programs.sum_for(sources, program, identity)):
            raise Refused(f"bin/{program} isn't the program that was proved and built from these sources", 1)
        add(f"bin/{program}", path, 0o755)
        made[program] = hashlib.sha256(found[f"bin/{program}"][1]).hexdigest()
    for name in ("LICENSE-APACHE", "LICENSE-MIT", "README.md", "CHANGELOG.md"):
        add(name, f"{sources.root}/{name}")
    for path in glob.glob(f"{sources.root}/docs/*.1"):
        add(f"share/man/man1/{os.path.basename(path)}", path)
    for path in glob.glob(f"{sources.root}/completions/*"):
        add(f"share/completions/{os.path.basename(path)}", path)
    found[PROVED] = 0o644, report(sources, identity, made).encode()
    return found


def packed(top, found, moment):
    """Returns the bytes of an archive of these files below a folder of this name."""
    bare = io.BytesIO()
    with tarfile.open(fileobj=bare, mode="w", format=tarfile.USTAR_FORMAT) as archive:
        for path in sorted(found):
            mode, text = found[path]
            it = tarfile.TarInfo(f"{top}/{path}")
            it.size, it.mode, it.mtime, it.uname, it.gname = len(text), mode, moment, "root", "root"
            archive.addfile(it, io.BytesIO(text))
    return lzma.compress(bare.getvalue(), preset=6)


def release(sources, folder):
    """Puts an archive of the proved programs into a folder, and returns the exit status."""
    names, identity = sources.programs(), kit()
    status = programs.build(sources, names)
    if status:
        return status
    top = f"hfsx-{version(sources)}-x86_64-linux"
    os.makedirs(folder, exist_ok=True)
    path = f"{folder}/{top}.tar.xz"
    with open(f"{path}.new", "wb") as file:
        file.write(packed(top, contents(sources, identity, names), int(os.environ.get("SOURCE_DATE_EPOCH") or 0)))
    os.replace(f"{path}.new", path)
    print(f"{path} has {', '.join(names)}, proved and built from these sources")
    return 0


def members(path):
    """Returns the files of an archive by their paths below its one folder."""
    try:
        with tarfile.open(path) as archive:
            return {it.name.partition("/")[2]: archive.extractfile(it).read() for it in archive.getmembers() if it.isfile()}
    except (OSError, tarfile.TarError, EOFError, lzma.LZMAError) as error:
        raise Refused(f"{path} can't be read as an archive: {error}") from error


def check(sources, path):
    """Says whether these sources are those from which an archive's programs were proved and built. Returns 0 if so, and else 1."""
    found = members(path)
    if PROVED not in found:
        raise Refused(f"{path} is no release: it has no file {PROVED}")
    said = [it.split() for it in found[PROVED].decode(errors="replace").splitlines()]
    identity = next((" ".join(it[1:]) for it in said if it[:1] == ["kit"]), "") + "\n"
    sums = {(it[0], it[1]): it[2] for it in said if len(it) == 3 and it[0] in ("program", "sources", "crate")}
    flaws = []
    names = [name for kind, name in sums if kind == "program"]
    if not names:
        flaws.append("it names no program")
    for name in names:
        if hashlib.sha256(found.get(f"bin/{name}", b"")).hexdigest() != sums["program", name]:
            flaws.append(f"its bin/{name} is another program than the one that was proved")
    for crate in [name for kind, name in sums if kind == "crate"]:
        if crate not in sources.lines:
            flaws.append(f"it has a crate {crate}, which these sources lack")
        elif sources.sum([crate], identity) != sums["crate", crate]:
            flaws.append(f"the crate {crate} is another one")
    try:
        if not flaws and report(sources, identity, {it: sums["program", it] for it in names}).encode() != found[PROVED]:
            flaws.append(f"its {PROVED} isn't what these sources say")
    except Refused as why:
        flaws.append(str(why))
    for it in flaws:
        print(f"{path}: {it}")
    if not flaws:
        print(f"{path}: proved and built from these sources, with {identity.strip()}: {', '.join(names)}")
    return int(bool(flaws))
