"""A writer of volumes as macOS writes them: of journals, records and attributes that `hfsx` never makes.

By Apple's published structures (`hfs_format.h`, `vfs_journal.h` and `vfs_journal.c` of its open sources); no image that a Mac wrote was to be had, so
nothing of this is checked against one. What TN1150 states comes from `volume.py`.

    volume = Mac(sectors=2097152, node=8192, journal=16384)
    file = volume.file(2, "notes", b"text")
    volume.mark(file, owner_flags=0x02, flags=0x01)                  # locked
    volume.symbolic_link(2, "there", b"notes")
    volume.forked_attribute(file, "com.apple.big", bytes(70000))     # a value in blocks of its own
    volume.compressed(2, "packed", b"text" * 1000)                   # decmpfs: its bytes are in an attribute
    volume.folder_link(2, "again", folder)
    volume.live([[(2, sector), ..], ..], order="<")                  # transactions in the journal, each of sectors and the bytes that belong there
    volume.write("v.img")
"""

import struct
import zlib

from volume import Volume, checksum

# A transaction buffer of 3 MiB is 6,144 blocks of 512 bytes, and a list has 16 bytes for each.
LIST = 98304
MAGIC, ENDIAN, JOURNAL_HEADER = 0x4A4E4C78, 0x12345678, 512
# Flags of a list: its entries have checksums, and it is the first of its transaction.
HAS_SUMS, IS_FIRST = 1, 2
# Flags of a file's record.
LOCKED, HAS_THREAD, HAS_ATTRIBUTES, HAS_CHAIN = 0x01, 0x02, 0x04, 0x20
# Owner flags.
IMMUTABLE, COMPRESSED = 0x02, 0x20
# Finder flags.
IS_ALIAS, IS_INVISIBLE = 0x8000, 0x4000
FOLDERS = ".HFS+ Private Directory Data\r"


def finder(kind=bytes(4), creator=bytes(4), flags=0):
    return kind + creator + struct.pack(">H", flags) + bytes(22)


def journal_header(order, start, end, size, blhdr, number):
    """The header of a journal: 44 bytes, over which its checksum goes, and the number of the next transaction."""
    head = struct.pack(order + "IIQQQIII", MAGIC, ENDIAN, start, end, size, blhdr, 0, JOURNAL_HEADER)
    return head[:36] + struct.pack(order + "I", checksum(head)) + head[40:] + struct.pack(order + "I", number)


def journal_list(order, number, blocks, blhdr=LIST, first=True, sums=True):
    """A list of a transaction with this number, and its blocks: pairs of a sector, or None for bytes that are skipped, and bytes."""
    most = blhdr // 16 - 1
    assert len(blocks) < most
    used = blhdr + sum(len(data) for _, data in blocks)
    flags = (HAS_SUMS if sums else 0) | (IS_FIRST if first else 0)
    entries = struct.pack(order + "QII", 0, 0, number)
    for sector, data in blocks:
        entries += struct.pack(order + "QII", 2**64 - 1 if sector is None else sector, len(data), checksum(data) if sums else 0)
    head = struct.pack(order + "HHIII", most, len(blocks) + 1, used, 0, flags) + entries
    head = head[:8] + struct.pack(order + "I", checksum(head[:32])) + head[12:]
    return head + bytes(blhdr - len(head)) + b"".join(data for _, data in blocks)


class Mac(Volume):
    def __init__(self, **words):
        super().__init__(**words)
        self.marks, self.order, self.blhdr, self.transactions, self.begin, self.number = {}, "<", LIST, [], JOURNAL_HEADER, 7
        self.folders = None
        # The byte that each free node of the catalog holds, where the header says (bit 31) that they are zero.
        self.erased = None
        # The journal's files are invisible, and their type is the journal's.
        for number in (self.info_file, self.journal_file):
            self.entries[number]["finder"] = finder(b"jrnl", b"hfs+", IS_INVISIBLE | 0x1000)

    def mark(self, number, **fields):
        """What a record says besides: flags, owner_flags, owner, group, dates, first (the first link of a chain), encoding."""
        self.marks.setdefault(number, {}).update(fields)

    def symbolic_link(self, parent, name, path):
        number = self.file(parent, name, path)
        self.entries[number].update(mode=0o120755, finder=finder(b"slnk", b"rhap"))
        return number

    def inline_attribute(self, number, name, value):
        self.attribute(number, name, value)
        self.flag(number, HAS_ATTRIBUTES)

    def flag(self, number, flags):
        known = self.marks.get(number, {}).get("flags", 0)
        self.mark(number, flags=known | flags)

    def forked_attribute(self, number, name, value, pieces=1):
        self.attribute(number, name, value, pieces)
        self.flag(number, HAS_ATTRIBUTES)

    def compressed(self, parent, name, data, in_resources=False):
        """A file whose bytes are packed: in an attribute, or in the resource fork. Its data fork is empty."""
        packed = zlib.compress(data)
        if in_resources:
            # The resource of type `cmpf`: a header, the packed blocks of 64 KiB, and an empty map.
            blocks = [zlib.compress(data[at : at + 65536]) for at in range(0, len(data), 65536)]
            table, at = struct.pack("<I", len(blocks)), 4 + 8 * len(blocks)
            for block in blocks:
                table += struct.pack("<II", at, len(block))
                at += len(block)
            body = table + b"".join(blocks)
            resources = struct.pack(">IIII", 256, 260 + len(body), 4 + len(body), 50) + bytes(240) + struct.pack(">I", len(body)) + body + bytes(24)
            resources += struct.pack(">HHHHHHHHHI", 28, 50, 0, 0x636D, 0x7066, 0, 10, 1, 0xFFFF, 0) + bytes(4)
            number = self.file(parent, name, b"", resources=resources)
            value = b"fpmc" + struct.pack("<IQ", 4, len(data))
        else:
            number = self.file(parent, name, b"")
            value = b"fpmc" + struct.pack("<IQ", 3, len(data)) + packed
        self.inline_attribute(number, "com.apple.decmpfs", value)
        self.mark(number, owner_flags=COMPRESSED)
        return number

    def link(self, parent, name, file):
        """A further name of a file, whose links form a chain: each knows the one before it and the one behind it."""
        super().link(parent, name, file)
        links = [number for number, it in self.entries.items() if it["finder"][:8] == b"hlnkhfs+" and it["special"] == file]
        for place, number in enumerate(links):
            before = links[place - 1] if place else 0
            behind = links[place + 1] if place + 1 < len(links) else 0
            self.entries[number]["finder"] = finder(b"hlnk", b"hfs+")
            self.mark(number, owner=before, group=behind)
            self.flag(number, HAS_CHAIN)
        self.mark(file, first=links[0])
        self.flag(file, HAS_CHAIN)

    def folder_link(self, parent, name, folder):
        """A further name of a folder: the folder goes to a private folder of its own, and its names are files of type `fdrp`."""
        if self.folders is None:
            self.folders = self.folder(2, FOLDERS)
            self.entries[self.folders]["finder"] = finder(flags=IS_INVISIBLE | 0x1000)
        it = self.entries[folder]
        names = [(parent, name)]
        if it["parent"] != self.folders:
            names.insert(0, (it["parent"], it["name"]))
            it["parent"], it["name"], it["special"] = self.folders, f"dir_{folder}", 0
        for where, what in names:
            link = self.file(where, what, b"", resources=bytes(400))
            self.entries[link].update(finder=finder(b"fdrp", b"MACS", IS_ALIAS), special=folder)
            self.flag(link, HAS_CHAIN | LOCKED)
            self.mark(link, owner_flags=IMMUTABLE)
            it["special"] += 1
        self.flag(folder, HAS_CHAIN)

    def live(self, transactions, order="<", begin=JOURNAL_HEADER, blhdr=LIST):
        """Leaves transactions in the journal, from an offset on. With number 0 each list is the last of a transaction, as TN1150 has it."""
        self.transactions, self.order, self.begin, self.blhdr = transactions, order, begin, blhdr

    def catalog(self):
        pairs = super().catalog()
        for place, (key, value) in enumerate(pairs):
            kind = struct.unpack(">H", value[:2])[0]
            marks = self.marks.get(struct.unpack(">I", value[8:12])[0]) if kind in (1, 2) else None
            if marks is None:
                continue
            value = bytearray(value)
            put = lambda form, at, what: struct.pack_into(form, value, at, what)
            if "flags" in marks:
                put(">H", 2, struct.unpack_from(">H", value, 2)[0] | marks["flags"])
            if "dates" in marks:
                struct.pack_into(">5I", value, 12, *marks["dates"])
            for word, form, at in (("first", ">I", 4), ("owner", ">I", 32), ("group", ">I", 36), ("owner_flags", ">B", 41), ("encoding", ">I", 80)):
                if word in marks:
                    put(form, at, marks[word])
            pairs[place] = key, bytes(value)
        return pairs

    def spelled(self):
        parts = super().spelled()
        at, size = self.ring[0] * self.block, self.journal * 512
        text, number = b"", self.number
        for blocks in self.transactions:
            most = self.blhdr // 16 - 2
            for place in range(0, len(blocks), most):
                text += journal_list(self.order, number, blocks[place : place + most], self.blhdr, first=place == 0)
            number += 1 if number else 0
        room = size - JOURNAL_HEADER
        assert len(text) < room, "the journal is too small"
        end = JOURNAL_HEADER + (self.begin - JOURNAL_HEADER + len(text)) % room
        head = journal_header(self.order, self.begin, end, size, self.blhdr, number)
        parts = [(place, head if place == at else data) for place, data in parts]
        first = text[: size - self.begin]
        parts.append((at + self.begin, first))
        if len(text) > len(first):
            parts.append((at + JOURNAL_HEADER, text[len(first) :]))
        return parts if self.erased is None else self.with_erased_nodes(parts)

    def with_erased_nodes(self, parts):
        """The parts of a volume whose header says that free nodes of the catalog are zero, and these nodes with their byte."""
        headers = {1024, self.sectors * 512 - 1024}
        parts = [(place, data[:4] + bytes([data[4] | 0x80]) + data[5:] if place in headers else data) for place, data in parts]
        header = next(data for place, data in parts if place == 1024)
        first = struct.unpack_from(">I", header, 288)[0] * self.block
        node = next(data for place, data in parts if place == first)
        nodes = struct.unpack_from(">I", node, 36)[0]
        free = [it for it in range(nodes) if not node[248 + it // 8] & 0x80 >> it % 8]
        assert free, "the catalog has no free node"
        return parts + [(first + it * self.node, self.erased * self.node) for it in free]

    def take_home(self, pieces):
        """The bytes that the volume has in these pairs of a sector and a length, as blocks of a transaction; in their places stand zeros."""
        image = {}
        for place, data in self.parts():
            image[place] = data
        blocks = []
        for sector, length in pieces:
            found = bytearray(length)
            for place, data in image.items():
                one, other = max(place, sector * 512), min(place + len(data), sector * 512 + length)
                if one < other:
                    found[one - sector * 512 : other - sector * 512] = data[one - place : other - place]
            blocks.append((sector, bytes(found)))
        return blocks
