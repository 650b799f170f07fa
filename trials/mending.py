"""A second writing of `hfsx repair`: what of a volume is counted anew, and when, over plain bytes.

It was written from the page docs/repair.md and not from the program, and shares no line with it. `recovered(image)` is what an image stands for,
with its journal replayed; `mended(content)` is the repair of that; `differing(one, other)` are the sectors in which two of them differ.
"""

import struct

from rules import PRIVATE, Broken, Header, Node, Reading, extents_of, in_use, key_of, number, text, units, want

SKIPPED = 2**64 - 1


class Mending(Reading):
    """A content, and the bytes of its repair."""

    def is_mendable(self):
        """Whether the volume can be counted: the header, the trees and the kinds of records are sound, and what may be written has no other use."""
        try:
            self.header_holds()
            pairs, attributes = self.trees_hold()
            self.kinds_hold(pairs)
            want(self.head.total <= 8 * self.head.allocation.size, 3, "the length of the bitmap")
        except Broken:
            return False
        bitmap, catalog = self.whole(6, 0, self.head.allocation), self.whole(4, 0, self.head.catalog)
        self.used = self.uses() + [extent for _, value in attributes for extent in value_extents(value)]
        return all(sum(it) <= self.head.total for it in bitmap) and not overlap(self.used, bitmap + catalog + self.reserved())

    def reserved(self):
        """The blocks of the first 1,536 bytes and of the last 1,024, as extents."""
        last = (self.sectors * 512 - 1024) // self.head.block
        return [(0, -(-1536 // self.head.block))] + ([(last, self.head.total - last)] if last < self.head.total else [])

    def uses(self):
        """All that uses blocks but values of attributes, as extents, with repeats: the reserved areas, five special forks, bad blocks, and both
        forks of each file."""
        head = self.head
        found = self.reserved() + in_use(head.extents.extents)
        for owner, fork in ((4, head.catalog), (6, head.allocation), (7, head.startup), (8, head.attributes_file)):
            found += self.whole(owner, 0, fork)
        found += [extent for it in self.overflow if it[0] == 5 for extent in in_use(it[3])]
        return found + [extent for it in self.entries for kind, fork in it["forks"] for extent in self.whole(it["id"], kind, fork)]

    # ---- what is counted

    def counts(self):
        """How many entries have each parent, and how many links have each reference."""
        held, links = {}, {}
        for entry in self.entries:
            held[entry["parent"]] = held.get(entry["parent"], 0) + 1
            if entry["link"]:
                links[entry["special"]] = links.get(entry["special"], 0) + 1
        return held, links

    def reference(self, parent, name):
        """The reference that leads to a record of this key, where it is one of the private folder."""
        private = self.at.get((2, text(PRIVATE)))
        if not private or private["file"] or parent != private["id"] or name[:5] != text("iNode"):
            return None
        digits = name[5:]
        if not digits or any(not 48 <= it <= 57 for it in digits) or digits[0] == 48 and len(digits) > 1:
            return None
        found = int("".join(map(chr, digits)))
        return found if found < 2**32 else None

    # ---- what is written

    def put(self, extents, at, data):
        """Writes bytes of a fork; those past its blocks, or in a block outside the volume, are nowhere."""
        block, place = self.head.block, 0
        for first, count in extents:
            one, other = max(at, place), min(at + len(data), place + count * block)
            if one < other:
                start = first * block + one - place
                other = min(other, one + max(0, self.head.total * block - start))
                self.made[start : start + max(0, other - one)] = data[one - at : max(one, other) - at]
            place += count * block

    def repaired(self):
        """The bytes of the repair of a volume that can be counted."""
        self.made = bytearray(self.image)
        self.count_records()
        self.count_bits()
        files = sum(it["file"] for it in self.entries)
        folders = max(0, len(self.entries) - files - 1)
        self.made[1056:1064] = struct.pack(">II", files, folders)
        self.made[1072:1076] = (self.head.total - len(self.blocks)).to_bytes(4, "big")
        if not self.agrees():
            self.made[512 * (self.sectors - 2) : 512 * (self.sectors - 1)] = self.made[1024:1536]
        return bytes(self.made)

    def records(self):
        """Each record of the catalog's leaves: its key's parent and name, its value, and where the value stands in the catalog file."""
        extents = self.whole(4, 0, self.head.catalog)
        head = self.fork_bytes(extents, 0, 512)
        at, size = number(head, 24, 4), number(head, 32, 2)
        while at:
            node = Node(self.fork_bytes(extents, at * size, size))
            offsets = struct.unpack(f">{node.count + 1}H", node.data[size - 2 * (node.count + 1) :])[::-1]
            for start, item in zip(offsets, node.items(5)):
                key = key_of(item)
                yield number(key, 2, 4), units(key[8:]), item[len(key) :], at * size + start + len(key)
            at = node.next

    def count_records(self):
        """Writes the number of entries into each folder's record, and the number of links into that of each file with several names."""
        (held, links), extents = self.counts(), self.whole(4, 0, self.head.catalog)
        for parent, name, value, at in self.records():
            kind = number(value, 0, 2)
            if kind == 1:
                self.put(extents, at + 4, held.get(number(value, 8, 4), 0).to_bytes(4, "big"))
            reference = self.reference(parent, name) if kind == 2 else None
            if reference is not None:
                self.put(extents, at + 44, links.get(reference, 0).to_bytes(4, "big"))

    def count_bits(self):
        """Writes the bitmap: a bit for each block that something uses."""
        total, fork = self.head.total, self.head.allocation
        self.blocks = set()
        for first, count in self.used:
            self.blocks.update(range(first, min(first + count, total)))
        extents = self.whole(6, 0, fork)
        # (a bit past the blocks of the file is nowhere)
        bits = bytearray(min(fork.size, sum(count for _, count in extents) * self.head.block))
        for at in self.blocks:
            if at // 8 < len(bits):
                bits[at // 8] |= 128 >> at % 8
        self.put(extents, 0, bits)


def value_extents(record):
    """The extents in use of a record of the attributes: one of a value's fork, or of its further extents."""
    kind = number(record, 0, 4) if len(record) >= 4 else 0
    place = {(0x20, 88): 24, (0x30, 72): 8}.get((kind, len(record)))
    return in_use(extents_of(record[place : place + 64])) if place else []


def overlap(used, written):
    """Whether a block of what is written stands twice in what is used."""
    events = sorted([(first, 0, 1) for first, count in used] + [(first + count, 0, -1) for first, count in used] + [(at, 1, step) for first, count in written for at, step in ((first, 1), (first + count, -1))])
    depth, place = [0, 0], 0
    for at, which, step in events:
        if at > place and depth[0] > 1 and depth[1]:
            return True
        depth[which] += step
        place = at
    return False


def mended(content):
    """The repair of a content: it with all that can be counted counted anew, or itself."""
    mending = Mending(content)
    return mending.repaired() if mending.is_mendable() else bytes(content)


def differing(one, other):
    """The sectors in which two contents differ."""
    parts = [at for at in range(0, len(one), 65536) if one[at : at + 65536] != other[at : at + 65536]]
    return [at // 512 for start in parts for at in range(start, min(start + 65536, len(one)), 512) if one[at : at + 512] != other[at : at + 512]]


# ---- the journal


def journal_of(image):
    """Where an image's info block stands, whether the journal needs initialising, and where it stands and how long it is."""
    head = Header(image[1024:1536])
    info = head.info * head.block
    return info, number(image, info, 4) & 4, number(image, info + 36, 8), number(image, info + 44, 8)


def journal_head(image):
    """The order of a journal's bytes, and the fields of its header: start, end, size, size of a list's header."""
    at = journal_of(image)[2]
    order = "<" if image[at : at + 4] == bytes.fromhex("784c4e4a") else ">"
    return order, struct.unpack(order + "QQQI", image[at + 8 : at + 36])


def recovered(image):
    """What an image stands for: its sectors with those in its journal's lists, in order. The journal is taken as one that can be replayed."""
    content, (_, needs, ring, size) = bytearray(image), journal_of(image)
    if needs:
        return bytes(content)
    order, (start, end, _, long) = journal_head(image)
    buffer = bytes(image[ring + 512 : ring + size])
    wrap = lambda at: 512 + (at - 512) % (size - 512)
    take = lambda at, many: (buffer[at - 512 :] + buffer)[:many]
    at, end = wrap(start), wrap(end)
    while at != end:
        _, count, used = struct.unpack(order + "HHI", take(at, 8))
        place = wrap(at + long)
        for number_of in range(1, count):
            sector, many = struct.unpack(order + "QI", take(wrap(at + 16 + 16 * number_of), 12))
            if sector != SKIPPED:
                content[512 * sector : 512 * sector + many] = take(place, many)
            place = wrap(place + many)
        at = wrap(at + used)
    return bytes(content)


def capacity(image):
    """How many sectors a transaction of an image's journal holds."""
    (_, _, _, size), (_, (_, _, _, long)) = journal_of(image), journal_head(image)
    room, head, each = size // 512 - 2, long // 512, long // 16 - 2
    found = room
    while found > 0 and found + head * -(-found // each) > room:
        found -= 1
    return found
