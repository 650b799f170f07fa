"""Symbolic links and resource forks on the plain tree, written from their description and not from the program.

    tree = Links()
    tree.answer(b"symlink /l =d/f")      # b"ok"; a file of mode 0755 whose bytes are the target, and whose type bits are a link's
    tree.answer(b"follow /l")            # the path without links to which it leads, or why it leads nowhere

Run by itself it plays the rows below and streams of its own, in which each `follow` is answered in two ways.
"""

import random
import sys

import plain
from plain import No, Node, Plain

LINK, FILE, FOLDER = 0o120000, 0o100000, 0o040000
STEPS, TARGET = 16, 1023
KEPT = "\0HFSX Open Files".encode("utf-16-be")
# what the words behind a verb are
plain.KINDS.update({"symlink": "pv", "readlink": "p", "follow": "p", "rwrite": "pnv", "rread": "pnn"})


def bits_of(node):
    """The type bits of a folder or file."""
    return getattr(node, "bits", FOLDER if node.folder else FILE)


def components(target):
    """The names of a link's target, or None where it is none."""
    if not 1 <= len(target) <= TARGET:
        return None
    try:
        text = target.decode("utf-8", "strict")
    except UnicodeDecodeError:
        return None
    names = [plain.unicodedata.normalize("NFD", it).encode("utf-16-be") for it in text.split("/")]
    return names if all(len(it) <= 2 * plain.NAME for it in names) else None


class Links(Plain):
    """The plain tree with the commands on links and resource forks."""

    def answer(self, line, ahead=False):
        reply = super().answer(line, ahead)
        # to what follows links the volume's own names are absent
        hidden = line.split(b" ")[0] in (b"readlink", b"follow") and reply == b"no Private"
        return b"no NotFound" if hidden else reply

    # ---- walks through links

    def seen(self, folder, name):
        """What stands under a name in a folder; the volume's own names in the root count as absent."""
        return None if folder is self.root and name in plain.PRIVATE + (KEPT,) else folder.entries.get(name)

    def resolved(self, path):
        """The names, from the root, of the folder or file without a link to which a path leads."""
        way, left, steps = [], list(path), 0
        while left:
            name = left.pop(0)
            if name in (b"", ".".encode("utf-16-be")):
                continue
            if name == "..".encode("utf-16-be"):
                del way[-1:]
                continue
            it = self.seen(way[-1][1] if way else self.root, name)
            if it is None:
                raise No("NotFound")
            if it.folder:
                way.append((name, it))
            elif bits_of(it) != LINK:
                if left:
                    raise No("NotFolder")
                return [one for one, _ in way] + [name]
            else:
                if steps == STEPS:
                    raise No("TooManySteps 16")
                names = components(it.data)
                if names is None:
                    raise No("BadTarget")
                if it.data[:1] == b"/":
                    way = []
                left, steps = names + left, steps + 1
        return [one for one, _ in way]

    def resolved_again(self, path, way=(), steps=0):
        """The same by recursion over one text after another."""
        for at, name in enumerate(path):
            rest = path[at + 1 :]
            if name in (b"", b"\0."):
                continue
            if name == b"\0.\0.":
                way = way[:-1]
                continue
            folder = self.root
            for one in way:
                folder = folder.entries[one]
            it = self.seen(folder, name)
            if it is None:
                raise No("NotFound")
            if it.folder:
                way = (*way, name)
                continue
            if bits_of(it) != LINK:
                if rest:
                    raise No("NotFolder")
                return [*way, name]
            if steps == STEPS:
                raise No("TooManySteps 16")
            names = components(it.data)
            if names is None:
                raise No("BadTarget")
            return self.resolved_again([*names, *rest], () if it.data.startswith(b"/") else way, steps + 1)
        return list(way)

    # ---- commands

    def symlink(self, path, value):
        reply, change = self.make(path, False)
        if components(value) is None:
            raise No("BadTarget")

        def both():
            change()
            link = self.reached(path)
            link.bits, link.mode, link.data = LINK, 0o755, value

        return reply, both

    def readlink(self, path):
        if path and path[0] == KEPT:
            raise No("NotFound")
        file = self.file(path)
        if bits_of(file) != LINK:
            raise No("NotLink")
        return b"ok " + plain.print_value(file.data[: plain.READ]), lambda: None

    def follow(self, path):
        return b"ok " + plain.print_path(self.resolved(path)), lambda: None

    def rwrite(self, path, start, value):
        file = self.file(path)
        if start + len(value) > plain.SIZE or len(value) > plain.READ:
            raise No("TooLarge")
        if not value:
            return b"ok", lambda: None

        def change():
            old = getattr(file, "resource", b"").ljust(start, b"\0")
            file.resource = old[:start] + value + old[start + len(value) :]
            self.touch(file)

        return b"ok", change

    def rread(self, path, start, size):
        file = self.file(path)
        if size > plain.READ:
            raise No("TooLarge")
        return b"ok " + plain.print_value(getattr(file, "resource", b"")[start : start + size]), lambda: None

    def chmod(self, path, mode):
        reply, change = super().chmod(path, mode)

        def both():
            change()
            node = self.reached(path)
            node.bits = bits_of(node) or (FOLDER if node.folder else FILE)

        return reply, both

    def extras(self):
        """The type bits and the resource bytes of each file, by its id."""
        found, left = {}, [self.root]
        while left:
            it = left.pop()
            if it.folder:
                left += it.entries.values()
            else:
                found[it.id] = (bits_of(it), getattr(it, "resource", b""))
        return found


ROWS = [
    [
        ("mkdir /d", "ok"),
        ("create /d/f", "ok"),
        ("symlink /l =d/../d/f", "ok"),
        ("follow /l", "ok /d/f"),
        ("readlink /l", "ok =d/../d/f"),
        ("symlink /m =/m", "ok"),
        ("follow /m", "no TooManySteps 16"),
        ("readlink /d/f", "no NotLink"),
        ("symlink /e =", "no BadTarget"),
    ],
    [
        ("create /f", "ok"),
        ("rwrite /f 3 =ab", "ok"),
        ("rread /f 0 9", "ok =%00%00%00ab"),
        ("stat /f", "ok file 18 0 1 0644 0 0 0"),
        ("rread /f 0 65537", "no TooLarge"),
        ("follow /f/x", "no NotFolder"),
        ("follow /q", "no NotFound"),
    ],
    [
        ("symlink /up =../../..", "ok"),
        ("follow /up", "ok /"),
        ("mkdir /d", "ok"),
        ("symlink /d/a =b/", "ok"),
        ("create /d/b", "ok"),
        ("follow /d/a", "no NotFolder"),
        ("symlink /x =%FF", "no BadTarget"),
        ("rwrite /d 0 =a", "no IsFolder"),
        ("rwrite /.journal 0 =a", "no Private"),
        ("symlink /.journal =a", "no Private"),
        ("follow /.journal", "no NotFound"),
        ("readlink /.journal", "no NotFound"),
        ("readlink /d", "no IsFolder"),
        ("symlink /d/q/r =a", "no NotFound"),
        ("symlink /d/b/r =a", "no NotFolder"),
        ("symlink /d =a", "no Exists"),
        ("symlink / =a", "no Root"),
    ],
]


def play(tree, line):
    return tree.answer(line.encode()).decode()


NAMES = ["a", "b", "é", "%u0000x", "l", "m"]
TEXTS = ["a", "b/a", "../a", "/l", "l/..", "m//b", ".", "é", "/", "..", "b/./l", "n" * 300, "m/a/b"]
VERBS = ("symlink", "readlink", "follow", "rwrite", "rread")


def some_line(chance, far=9):
    """A line on few names, so that links lead somewhere; `rwrite` puts bytes at most so far from a resource fork's front."""
    path = "/" + "/".join(chance.choices(NAMES, k=chance.randint(1, 3)))
    value = plain.print_value(bytes(chance.choices(b"abc%", k=chance.choice([0, 1, 2, 700]) if far > 9 else 2))).decode()
    return chance.choice(
        [
            f"mkdir {path}",
            f"create {path}",
            f"symlink {path} {plain.print_value(chance.choice(TEXTS).encode()).decode()}",
            f"rm {path}",
            f"rwrite {path} {chance.randint(0, far)} {value}",
            f"rread {path} {chance.randint(0, far)} 20",
            f"readlink {path}",
            f"follow {path}",
            f"follow {path}",
            f"chmod {path} 700",
        ]
    )


def main(seed, many):
    for row in ROWS:
        tree = Links()
        for line, reply in row:
            told = play(tree, line)
            assert told == reply, (line, told, reply)
    chance = random.Random(seed)
    tree, alike = Links(), 0
    for _ in range(many):
        line = some_line(chance)
        before = tree.extras()
        told = play(tree, line)
        if line.startswith("follow"):
            try:
                again = "ok " + plain.print_path(tree.resolved_again(plain.read_line(line.encode())[1][0])).decode()
            except No as why:
                again = f"no {why}"
            assert again == told, (line, told, again)
            alike += 1
        if not line.startswith(("rwrite", "symlink")):
            after = tree.extras()
            assert all(after[it] == before[it] for it in before.keys() & after.keys()), line
    print(f"links: {many} lines, {alike} paths followed in two ways")


if __name__ == "__main__":
    main(int(sys.argv[1]) if len(sys.argv) > 1 else 1, int(sys.argv[2]) if len(sys.argv) > 2 else 20000)
