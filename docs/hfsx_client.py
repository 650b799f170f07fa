"""A client of `hfsx run`: a volume is asked line by line, as docs/co-process.md says."""

import subprocess
import unicodedata
from urllib.parse import unquote_to_bytes

PIECE = 45056  # so many bytes fit a line, whatever they are
EPOCH = 2082844800  # the first moment of 1970, in seconds since 1904
BYTES = [bytes([b]) if 0x21 <= b <= 0x7E and b != 0x25 else b"%%%02X" % b for b in range(256)]


def name(text):
    """Returns how a line spells a name."""
    found = []
    for c in unicodedata.normalize("NFD", text):
        plain = c.isprintable() and not c.isspace() and c != "/"
        found.append(c.replace("%", "%%") if plain else "".join(f"%u{ord(u):04X}" for u in units(c)))
    return "".join(found)


def units(c):
    """Returns the UTF-16 units of a character."""
    data = c.encode("utf-16-be", "surrogatepass")
    return [chr(int.from_bytes(data[i : i + 2], "big")) for i in range(0, len(data), 2)]


def path(*names):
    """Returns how a line spells a path; that of no names is the root."""
    return "".join("/" + name(n) for n in names) or "/"


class Refused(Exception):
    """What hfsx answered in place of `ok`."""


class Volume:
    def __init__(self, image, program="hfsx"):
        self.server = subprocess.Popen([program, "run", image], stdin=subprocess.PIPE, stdout=subprocess.PIPE)

    def ask(self, line, value=None):
        """Asks a line, with bytes as its last word where they are given, and returns what stands behind `ok`."""
        text = line.encode() + (b"" if value is None else b" =" + b"".join(BYTES[b] for b in value))
        self.server.stdin.write(text + b"\n")
        self.server.stdin.flush()
        reply = self.server.stdout.readline().rstrip(b"\n")
        if reply != b"ok" and not reply.startswith(b"ok "):
            raise Refused(reply.decode() or "hfsx ended")
        return reply[3:].decode()

    def write(self, where, data):
        """Writes a file's bytes from its first on."""
        for at in range(0, len(data), PIECE):
            self.ask(f"write {where} {at}", data[at : at + PIECE])

    def read(self, where):
        """Returns a file's bytes."""
        size = int(self.ask(f"stat {where}").split()[2])
        pieces = (self.ask(f"read {where} {at} {PIECE}") for at in range(0, size, PIECE))
        return b"".join(unquote_to_bytes(piece[1:]) for piece in pieces)

    def close(self):
        """Unmounts the volume, and returns the status of hfsx."""
        self.server.stdin.close()
        self.server.stdout.read()
        return self.server.wait()
