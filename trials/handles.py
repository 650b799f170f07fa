"""The machine of sessions, written from the page docs/commands.md and not from the program: a plain tree, and which files are open.

    machine = Machine(links.Links())
    machine.answer(b"2 open /f")         # b"ok 1"; the file stays until the handle is closed, whatever becomes of its names
"""

import re

import links
import plain

KEEPING = links.KEPT
MOST_OPEN, MOST_SESSIONS = 256, 64


def digits(number):
    return str(number).encode("utf-16-be")


def number_of(word, limit=2**64):
    if not plain.NUMBER.fullmatch(word) or int(word) >= limit:
        raise plain.No("BadCommand")
    return int(word)


class Machine:
    def __init__(self, tree):
        self.tree, self.open = tree, {}
        # what an earlier run kept is released
        for name in sorted(self.kept()):
            self.command("rm", [KEEPING, name])

    # ---- the keeping folder

    def kept(self):
        """The entries of the keeping folder."""
        folder = self.tree.root.entries.get(KEEPING)
        return folder.entries if folder else {}

    def command(self, verb, *words):
        """Does a command on the tree, and gives its reply."""
        try:
            reply, change = getattr(self.tree, verb)(*words)
        except plain.No as why:
            return b"no " + str(why).encode()
        change()
        return reply

    def seen_names(self, file):
        return file.names - (digits(file.id) in self.kept())

    def save(self, path, file):
        if KEEPING not in self.tree.root.entries:
            self.command("mkdir", [KEEPING])
        if digits(file.id) not in self.kept():
            self.command("ln", path, [KEEPING, digits(file.id)])

    def release(self, file):
        """Releases a file that is open no more, where the keeping folder has its only entry."""
        if file not in self.open.values() and digits(file.id) in self.kept() and file.names == 1:
            self.command("rm", [KEEPING, digits(file.id)])

    # ---- lines

    def answer(self, line):
        try:
            return self.do(line)
        except plain.No as why:
            return b"no " + str(why).encode()

    def do(self, line):
        if len(line) > plain.LINE:
            raise plain.No("TooLong")
        found = re.match(rb"([1-9][0-9]?) ", line)
        if not found or int(found[1]) > MOST_SESSIONS:
            raise plain.No("BadCommand")
        session, part = int(found[1]), line[found.end() :]
        words = part.split(b" ")
        try:
            part.decode()
        except UnicodeDecodeError:
            raise plain.No("BadCommand") from None
        if words[0] == b"open" and len(words) == 2:
            return self.open_file(session, words[1])
        if words[0] == b"hread" and len(words) == 4:
            handle, start, size = number_of(words[1], 2**32), number_of(words[2]), number_of(words[3])
            file = self.file(session, handle)
            if size > plain.READ:
                raise plain.No("TooLarge")
            return b"ok " + plain.print_value(file.data[start : start + size])
        if words[0] == b"close" and len(words) == 2:
            handle = number_of(words[1], 2**32)
            file = self.file(session, handle)
            del self.open[session, handle]
            self.release(file)
            return b"ok"
        if part == b"end":
            for one, handle in sorted(self.open):
                if one == session:
                    self.release(self.open.pop((one, handle)))
            return b"ok"
        return self.plain(part)

    def file(self, session, handle):
        if (session, handle) not in self.open:
            raise plain.No(f"NoHandle {handle}")
        return self.open[session, handle]

    def open_file(self, session, word):
        _, (path,) = plain.read_line(b"stat " + word)
        if path[:1] == [KEEPING]:
            raise plain.No("Private")
        file = self.tree.file(path)
        free = [it for it in range(1, MOST_OPEN + 1) if (session, it) not in self.open]
        if not free:
            raise plain.No(f"TooManyOpen {MOST_OPEN}")
        self.open[session, free[0]] = file
        return b"ok %d" % free[0]

    def plain(self, part):
        # what follows links changes nothing, and sees nothing of the keeping folder
        if part.split(b" ")[0] in (b"readlink", b"follow"):
            return self.tree.answer(part)
        verb, words = plain.read_line(part)
        if any(isinstance(it, list) and it[:1] == [KEEPING] for it in words):
            raise plain.No("Private")
        if verb == "df":
            return None
        reply, change = self.tree.answer(part, ahead=True)
        if reply.startswith(b"no "):
            return reply
        if verb == "ls" and not words[0]:
            shown = [(name, it) for name, it in sorted(self.tree.root.entries.items()) if name != KEEPING]
            names = [plain.print_name(name) + (b"/" if it.folder else b"") for name, it in shown]
            return b" ".join([b"ok", b"%d" % len(names), *names])
        if verb == "stat":
            it = self.tree.reached(words[0])
            fields = reply.split(b" ")
            if it.folder:
                fields[3] = b"%d" % (len(it.entries) - (it is self.tree.root and KEEPING in it.entries))
            else:
                fields[4] = b"%d" % self.seen_names(it)
            return b" ".join(fields)
        if verb in ("rm", "mv"):
            path = words[-1]
            taken = self.tree.place(path)[1] if path else None
            moved = self.tree.reached(words[0])
            if taken and not taken.folder and (verb == "rm" or taken is not moved) and taken in self.open.values() and self.seen_names(taken) == 1:
                self.save(path, taken)
        return self.command(verb, *words)

    # ---- what is seen

    def seen(self):
        """Of each folder and file that is seen: its path, kind, id, mode, create date, attributes, whether it is a symbolic link, and the bytes of both forks."""
        found = {}

        def walk(path, node):
            for name, it in node.entries.items():
                if not path and name == KEEPING:
                    continue
                found[plain.print_path(path + [name])] = (it.folder, it.id, it.mode, it.created, tuple(sorted(it.attributes.items())), links.bits_of(it) == links.LINK, bytes(it.data), getattr(it, "resource", b""))
                if it.folder:
                    walk(path + [name], it)

        walk([], self.tree.root)
        return found
