"""The plain tree that lines are about, written from the page docs/commands.md and not from the program.

    tree = Plain()
    tree.answer(b"mkdir /a")             # b"ok"; the tree has the folder from now on
    tree.answer(b"stat /a")              # b"ok folder 18 0 0755 0 0 0"

A name is its UTF-16 code units as big-endian bytes, which stand in the order of the units. `df` is no question to a tree: its answer is None.
"""

import codecs
import functools
import pickle
import re
import struct
import unicodedata

LINE, READ, SIZE, LINKS, VALUE = 140000, 65536, 2**40, 32767, 131072
NAME, ATTRIBUTE_NAME = 255, 127
PRIVATE = ("\0\0\0\0HFS+ Private Data".encode("utf-16-be"), ".journal".encode("utf-16-be"), ".journal_info_block".encode("utf-16-be"))
NUMBER, MODE, VALUE_TEXT = re.compile(rb"0|[1-9][0-9]*"), re.compile(rb"[0-7]{1,4}"), re.compile(rb"=(?:[!-$&-~]++|%(?:[01][0-9A-F]|20|25|7F|[89A-F][0-9A-F]))*+")


class No(Exception):
    """A refusal, as the text behind `no`."""


class Vast(Exception):
    """A file that grows past what this tree holds in memory."""


# ---- names


@functools.lru_cache(maxsize=4096)
def read_name(text):
    """The name that a text spells."""
    if text in ("", ".", "..") or "/" in text:
        raise No("BadName")
    pieces, at, escaped = [], 0, False
    while at < len(text):
        if text[at] != "%":
            pieces.append(text[at])
            at += 1
        elif text[at : at + 2] == "%%":
            pieces.append("%")
            at += 2
        elif re.fullmatch("%u[0-9A-F]{4}", text[at : at + 6]):
            pieces.append(struct.pack(">H", int(text[at + 2 : at + 6], 16)))
            at, escaped = at + 6, True
        else:
            raise No("BadName")
    if not escaped:
        return unicodedata.normalize("NFD", "".join(pieces)).encode("utf-16-be")
    return b"".join(it if isinstance(it, bytes) else it.encode("utf-16-be") for it in pieces)


def units_of(name):
    return struct.unpack(f">{len(name) // 2}H", name)


@functools.lru_cache(maxsize=4096)
def print_name(name):
    """The text of a name, which spells it."""
    units = units_of(name)
    try:
        text = name.decode("utf-16-be")
        plain = unicodedata.normalize("NFD", text) == text and text not in (".", "..")
    except UnicodeDecodeError:
        plain = False
    if plain and not any(it <= 0x20 or it in (0x7F, 0x2F) for it in units):
        return text.replace("%", "%%").encode()
    found = []
    for place, unit in enumerate(units):
        if unit == 0x25:
            found.append("%%")
        elif 0x20 < unit < 0x7F and unit != 0x2F and not (place == 0 and set(units) == {0x2E} and len(units) < 3):
            found.append(chr(unit))
        else:
            found.append(f"%u{unit:04X}")
    return "".join(found).encode()


def print_path(path):
    return b"".join(b"/" + print_name(it) for it in path) or b"/"


# How each byte of a value is spelled.
SPELLED = [bytes([it]) if 0x21 <= it <= 0x7E and it != 0x25 else b"%%%02X" % it for it in range(256)]


@functools.lru_cache(maxsize=256)
def print_value(value):
    return b"=" + b"".join(map(SPELLED.__getitem__, value))


@functools.lru_cache(maxsize=256)
def read_value(word):
    """The bytes of a value that is spelled right."""
    return codecs.escape_decode(word[1:].replace(b"\\", b"\\\\").replace(b"%", b"\\x"))[0]


# ---- lines

KINDS = {
    "mkdir": "p", "create": "p", "rm": "p", "rmdir": "p", "mv": "pp", "ln": "pp", "write": "pnv", "read": "pnn", "trunc": "pn", "ls": "p",
    "stat": "p", "chmod": "pm", "setattr": "pav", "getattr": "pa", "delattr": "pa", "lsattr": "p", "at": "n", "df": "", "sync": "",
}  # fmt: skip


def read_line(line):
    """The verb of a line and its words, or the refusal that comes before any tree is looked at."""
    if len(line) > LINE:
        raise No("TooLong")
    try:
        words = line.decode().split(" ")
    except UnicodeDecodeError:
        raise No("BadCommand") from None
    verb, words = words[0], words[1:]
    kinds = KINDS.get(verb)
    if kinds is None or len(words) != len(kinds):
        raise No("BadCommand")
    for kind, word in zip(kinds, words):
        spelled = word.encode()
        fits = {
            "p": word.startswith("/"),
            "a": word != "",
            "n": NUMBER.fullmatch(spelled) and int(word) < 2**64,
            "m": MODE.fullmatch(spelled),
            "v": VALUE_TEXT.fullmatch(spelled),
        }[kind]
        if not fits:
            raise No("BadCommand")
    if verb == "at" and int(words[0]) >= 2**32:
        raise No("BadCommand")
    names = []
    for kind, word in zip(kinds, words):
        if kind == "p":
            names.append([read_name(it) for it in word[1:].split("/")] if word != "/" else [])
        elif kind == "a":
            names.append([read_name(word)])
    for kind, found in zip((it for it in kinds if it in "pa"), names):
        if any(len(it) > 2 * (NAME if kind == "p" else ATTRIBUTE_NAME) for it in found):
            raise No("NameTooLong")
    found, names = [], iter(names)
    for kind, word in zip(kinds, words):
        if kind == "p":
            found.append(next(names))
        elif kind == "a":
            found.append(next(names)[0])
        else:
            found.append(int(word, 8) if kind == "m" else int(word) if kind == "n" else read_value(word.encode()))
    for kind, it in zip(kinds, found):
        if kind == "p" and it and it[0] in PRIVATE:
            raise No("Private")
    return verb, found


# ---- the tree


class Node:
    """A folder or a file: what is known of it, and a folder's entries or a file's bytes."""

    def __init__(self, number, folder, moment=0, mode=None):
        self.id, self.folder, self.mode = number, folder, mode if mode is not None else (0o755 if folder else 0o644)
        self.created = self.content = self.attribute = moment
        self.attributes, self.entries, self.data = {}, {}, b""
        self.names, self.linked = 1, False


class Plain:
    def __init__(self, next_id=18, has_private=False):
        self.root = Node(2, True)
        self.next, self.has_private, self.moment = next_id, has_private, 0
        # the most bytes of a file that are held
        self.most = 2**30

    def copied(self):
        """Another tree that is the same."""
        return pickle.loads(pickle.dumps(self, pickle.HIGHEST_PROTOCOL))

    def answer(self, line, ahead=False):
        """The reply to a line; the tree is what it is behind it. With `ahead` the tree stays, and the call that changes it is given too."""
        try:
            verb, words = read_line(line)
            reply, change = getattr(self, verb)(*words)
        except No as why:
            reply, change = b"no " + str(why).encode(), lambda: None
        if ahead:
            return reply, change
        change()
        return reply

    # ---- walks

    def reached(self, path):
        at = self.root
        for name in path:
            if not at.folder:
                raise No("NotFolder")
            at = at.entries.get(name)
            if at is None:
                raise No("NotFound")
        return at

    def place(self, path):
        """The folder in which a path's last name stands, and what stands there."""
        folder = self.reached(path[:-1])
        if not folder.folder:
            raise No("NotFolder")
        return folder, folder.entries.get(path[-1])

    def touch(self, folder):
        folder.content = folder.attribute = self.moment

    def draw(self):
        self.next += 1
        return self.next - 1

    def keep_private(self):
        if not self.has_private:
            self.has_private = True
            self.draw()

    # ---- commands that change it: what is answered, and the change

    def make(self, path, folder):
        if not path:
            raise No("Root")
        above, found = self.place(path)
        if found:
            raise No("Exists")

        def change():
            above.entries[path[-1]] = Node(self.draw(), folder, self.moment)
            self.touch(above)

        return b"ok", change

    def mkdir(self, path):
        return self.make(path, True)

    def create(self, path):
        return self.make(path, False)

    def rm(self, path):
        if not path:
            raise No("Root")
        file = self.reached(path)
        if file.folder:
            raise No("IsFolder")

        return b"ok", lambda: self.unname(path, file)

    def unname(self, path, file):
        """A file loses the name that a path ends in."""
        above, _ = self.place(path)
        del above.entries[path[-1]]
        file.names -= 1
        file.attribute = self.moment
        if not file.names:
            self.keep_private()
        self.touch(above)

    def rmdir(self, path):
        if not path:
            raise No("Root")
        folder = self.reached(path)
        if not folder.folder:
            raise No("NotFolder")
        if folder.entries:
            raise No("NotEmpty")

        def change():
            above, _ = self.place(path)
            del above.entries[path[-1]]
            self.touch(above)

        return b"ok", change

    def mv(self, one, other):
        if not one or not other:
            raise No("Root")
        it = self.reached(one)
        above, found = self.place(other)
        if found and (it.folder or found.folder):
            raise No("Exists")
        if other[: len(one)] == one and len(other) > len(one):
            raise No("Inside")
        if found is it:
            return b"ok", lambda: None

        def change():
            if found:
                self.unname(other, found)
            old, _ = self.place(one)
            del old.entries[one[-1]]
            above.entries[other[-1]] = it
            self.touch(old)
            self.touch(above)
            it.attribute = self.moment

        return b"ok", change

    def ln(self, one, other):
        if not one or not other:
            raise No("Root")
        file = self.reached(one)
        above, found = self.place(other)
        if file.folder:
            raise No("IsFolder")
        if found:
            raise No("Exists")
        if file.names >= LINKS:
            raise No("TooManyLinks")

        def change():
            self.keep_private()
            for _ in range(1 if file.linked else 2):
                self.draw()
            file.linked = True
            file.names += 1
            above.entries[other[-1]] = file
            file.attribute = self.moment
            self.touch(above)

        return b"ok", change

    def file(self, path):
        file = self.reached(path)
        if file.folder:
            raise No("IsFolder")
        return file

    def sized(self, file, size, data):
        def change():
            if size > self.most:
                raise Vast
            file.data = data()
            self.touch(file)

        return b"ok", change

    def write(self, path, start, value):
        file = self.file(path)
        if start + len(value) > SIZE or len(value) > READ:
            raise No("TooLarge")
        if not value:
            return b"ok", lambda: None
        return self.sized(file, start + len(value), lambda: file.data[:start].ljust(start, b"\0") + value + file.data[start + len(value) :])

    def trunc(self, path, size):
        file = self.file(path)
        if size > SIZE:
            raise No("TooLarge")
        return self.sized(file, size, lambda: file.data[:size].ljust(size, b"\0"))

    def chmod(self, path, mode):
        node = self.reached(path)

        def change():
            node.mode, node.attribute = mode, self.moment

        return b"ok", change

    def setattr(self, path, name, value):
        node = self.reached(path)
        if len(value) > VALUE:
            raise No("AttributeTooLarge")

        def change():
            node.attributes[name] = value
            node.attribute = self.moment

        return b"ok", change

    def delattr(self, path, name):
        node = self.reached(path)
        if name not in node.attributes:
            raise No("NoAttribute")

        def change():
            del node.attributes[name]
            node.attribute = self.moment

        return b"ok", change

    def at(self, moment):
        def change():
            self.moment = moment

        return b"ok", change

    # ---- commands that change nothing

    def read(self, path, start, size):
        file = self.file(path)
        if size > READ:
            raise No("TooLarge")
        return b"ok " + print_value(file.data[start : start + size]), lambda: None

    def ls(self, path):
        folder = self.reached(path)
        if not folder.folder:
            raise No("NotFolder")
        names = [print_name(name) + (b"/" if it.folder else b"") for name, it in sorted(folder.entries.items())]
        return b" ".join([b"ok", b"%d" % len(names), *names]), lambda: None

    def stat(self, path):
        it = self.reached(path)
        if it.folder:
            found = f"ok folder {it.id} {len(it.entries)} {it.mode:04o} {it.created} {it.content} {it.attribute}"
        else:
            found = f"ok file {it.id} {len(it.data)} {it.names} {it.mode:04o} {it.created} {it.content} {it.attribute}"
        return found.encode(), lambda: None

    def getattr(self, path, name):
        node = self.reached(path)
        if name not in node.attributes:
            raise No("NoAttribute")
        # Another system may have written a longer one.
        if len(node.attributes[name]) > VALUE:
            raise No("TooLarge")
        return b"ok " + print_value(node.attributes[name]), lambda: None

    def lsattr(self, path):
        names = [print_name(name) for name in sorted(self.reached(path).attributes)]
        return b" ".join([b"ok", b"%d" % len(names), *names]), lambda: None

    def df(self):
        return None, lambda: None

    def sync(self):
        return b"ok", lambda: None

    # ---- the whole tree

    def each(self):
        """Each path with what stands there, folders before what they hold."""
        rest = [([], self.root)]
        while rest:
            path, it = rest.pop()
            yield path, it
            rest += [(path + [name], below) for name, below in sorted(it.entries.items(), reverse=True)]

    def questions(self):
        """The lines that read the whole tree: all that commands tell of each folder and file."""
        seen = set()
        for path, it in self.each():
            text = print_path(path)
            yield b"stat " + text
            yield b"lsattr " + text
            if it.folder:
                yield b"ls " + text
            if it.id in seen:
                continue
            seen.add(it.id)
            for name in it.attributes:
                yield b"getattr " + text + b" " + print_name(name)
            for start in range(0, len(it.data), READ):
                yield b"read %s %d %d" % (text, start, READ)
