"""A second reading of the rules by which a volume is sound (docs/format.md, "What makes a volume sound"), over plain tables.

It was written from the page and not from the checker, and shares no line with it. `unsound(image)` gives the first rule that it
finds broken, in an order of its own, or None. It speaks of an image whose journal is empty.
"""

import struct

PRIVATE = "\0\0\0\0HFS+ Private Data"

# The eight bits of each byte, the highest first, a byte for each.
BITS = [bytes(byte >> (7 - place) & 1 for place in range(8)) for byte in range(256)]


class Broken(Exception):
    """A rule that doesn't hold, as text."""


def want(holds, rule, why):
    if not holds:
        raise Broken(f"S{rule}: {why}")


def number(data, at, size):
    """A big-endian number; bytes past the end are zeros."""
    part = data[at : at + size]
    return int.from_bytes(part + bytes(size - len(part)), "big")


def units(data):
    return tuple(struct.unpack(f">{len(data) // 2}H", data[: len(data) // 2 * 2]))


def text(name):
    return tuple(ord(it) for it in name)


class Fork:
    def __init__(self, data):
        self.size, self.clump, self.blocks = struct.unpack(">QII", data[:16])
        self.extents = extents_of(data[16:80])


def extents_of(data):
    return [struct.unpack(">II", data[at : at + 8]) for at in range(0, 64, 8)]


def in_use(extents):
    return [it for it in extents if it[1]]


def is_full(extents):
    return all(count for _, count in extents)


class Header:
    def __init__(self, sector):
        (self.signature, self.version, self.attributes) = struct.unpack(">HHI", sector[:8])
        self.info = number(sector, 12, 4)
        self.files, self.folders, self.block, self.total, self.free = struct.unpack(">5I", sector[32:52])
        self.next = number(sector, 64, 4)
        names = ("allocation", "extents", "catalog", "attributes_file", "startup")
        for place, name in enumerate(names):
            setattr(self, name, Fork(sector[112 + 80 * place : 192 + 80 * place]))


class Node:
    def __init__(self, data):
        self.data = data
        self.next, self.back = struct.unpack(">II", data[:8])
        self.kind = int.from_bytes(data[8:9], "big", signed=True)
        self.height = data[9]
        self.count = number(data, 10, 2)

    def items(self, rule):
        size, data = len(self.data), self.data
        want(2 * (self.count + 1) <= size, rule, "more records than a node has offsets for")
        offsets = struct.unpack(f">{self.count + 1}H", data[size - 2 * (self.count + 1) :])[::-1]
        want(offsets[0] >= 14, rule, "a record in the descriptor")
        want(all(one <= other for one, other in zip(offsets, offsets[1:])), rule, "offsets that fall")
        want(offsets[-1] + 2 * (self.count + 1) <= size, rule, "records over the offsets")
        return [data[one:other] for one, other in zip(offsets, offsets[1:])]


def key_of(item):
    return item[: number(item, 0, 2) + 2]


def catalog_key(key):
    if len(key) < 8 or len(key) != number(key, 0, 2) + 2 or number(key, 0, 2) != 6 + 2 * number(key, 6, 2) or number(key, 6, 2) > 255:
        return None
    return number(key, 2, 4), units(key[8:])


def extent_key(key):
    if len(key) != 12 or number(key, 0, 2) != 10 or key[2] not in (0, 255):
        return None
    return number(key, 4, 4), key[2], number(key, 8, 4)


def attribute_key(key):
    if len(key) < 14 or len(key) != number(key, 0, 2) + 2 or number(key, 0, 2) != 12 + 2 * number(key, 12, 2) or number(key, 12, 2) > 127:
        return None
    return number(key, 4, 4), units(key[14:]), number(key, 8, 4)


class Reading:
    def __init__(self, image):
        self.image = image
        self.sectors = len(image) // 512

    def sector(self, at):
        return bytes(self.image[512 * at : 512 * at + 512]) if at < self.sectors else bytes(512)

    def fork_bytes(self, extents, start, size):
        """The bytes of a fork from a place on; past its blocks, and outside the volume's, there are zeros."""
        block, found, place = self.head.block, bytearray(size), 0
        for first, count in extents:
            one, other = max(start, place), min(start + size, place + count * block)
            if one < other:
                at = first * block + one - place
                most = max(0, min(other - one, self.head.total * block - at, len(self.image) - at))
                found[one - start : one - start + most] = self.image[at : at + most]
            place += count * block
            if place >= start + size:
                break
        return bytes(found)

    def check(self):
        self.header_holds()
        want(self.agrees(), 2, "the alternate header")
        pairs, attributes = self.trees_hold()
        self.kinds_hold(pairs)
        self.entries_hold()
        self.links_hold()
        self.attributes_hold(attributes)
        self.blocks_hold()

    def header_holds(self):
        want(2048 <= self.sectors <= 2**31, 1, "the size of the image")
        head = self.head = Header(self.sector(2))
        want((head.signature, head.version) == (0x4858, 5), 1, "signature and version")
        want(512 <= head.block <= 65536 and head.block & head.block - 1 == 0, 1, "the block size")
        want(head.total == self.sectors * 512 // head.block and head.total <= 268435456, 1, "the number of blocks")
        want(head.attributes >> 13 & 1 and not head.attributes >> 12 & 1, 1, "a journal, and ids that weren't used again")
        want(head.info < head.total, 1, "the place of the info block")
        want(head.next >= 16, 1, "the next CNID")

    def agrees(self):
        """Whether the alternate header says what volume this is."""
        same = lambda it: (it.signature, it.version, it.block, it.total)
        return same(self.head) == same(Header(self.sector(self.sectors - 2)))

    def trees_hold(self):
        """The pairs of the catalog and of the attributes."""
        head = self.head
        overflow = self.tree(3, in_use(head.extents.extents), head.extents, extent_key, 10, 2, 512)
        for _, value in overflow:
            want(len(value) == 64, 5, "an overflow record of another length")
        self.overflow = [(key[0], key[1], key[2], extents_of(value)) for key, value in overflow]
        pairs = self.tree(4, self.whole(4, 0, head.catalog), head.catalog, catalog_key, 516, 6, 4096)
        attributes = []
        if head.attributes_file.size:
            attributes = self.tree(8, self.whole(8, 0, head.attributes_file), head.attributes_file, attribute_key, 266, 6, 4096)
        return pairs, attributes

    def of(self, owner, kind):
        return [] if owner == 3 else [it for it in self.overflow if (it[0], it[1]) == (owner, kind)]

    def whole(self, owner, kind, fork):
        """All extents in use of a fork."""
        return in_use(fork.extents) + [extent for it in self.of(owner, kind) for extent in in_use(it[3])]

    # ---- trees

    def tree(self, owner, extents, fork, read_key, longest, attributes, least):
        start = self.fork_bytes(extents, 0, 512)
        depth, root, records, first, last, size, most, total, free = struct.unpack(">HIIIIHHII", start[14:44])
        want(size in (512, 1024, 2048, 4096, 8192, 16384, 32768) and size >= least, 4, f"the node size of {owner}")
        want(number(start, 52, 4) == attributes and most == longest, 4, f"attributes or longest key of {owner}")
        want(owner != 4 or start[51] == 0xBC, 4, "the compare type")
        want(fork.size == fork.blocks * self.head.block and fork.size == total * size, 3, f"the size of {owner}")
        # No node stands past the fork's blocks: each is then a node of zeros, and no node of zeros is one.
        node = lambda at: Node(self.fork_bytes(extents, at * size, size))
        header = node(0)
        want((header.kind, header.height, header.count) == (1, 0, 3), 5, f"the header node of {owner}")
        header.items(5)
        chain, at, bits = [], header.next, header.data[248 : size - 8]
        while at:
            want(at < total and at not in chain and len(chain) + 1 < total, 5, f"the chain of map nodes of {owner}")
            chain.append(at)
            map_node = node(at)
            want((map_node.kind, map_node.height) == (2, 0) and map_node.count, 5, f"a map node of {owner}")
            bits += map_node.items(5)[0]
            at = map_node.next
        want(total > 0 or not chain, 5, "map nodes of no node")
        want(len(chain) < total, 5, "as many map nodes as nodes")
        want(total <= 8 * len(bits), 4, f"the length of the map of {owner}")
        want(depth <= 12, 4, f"the depth of {owner}")
        reached, leaves = set(), []
        if depth == 0:
            want((root, first, last, records) == (0, 0, 0, 0), 4, f"the header of the empty tree {owner}")
        level, named = [root], None
        for below in range(depth):
            height, entries, firsts = depth - below, [], []
            want(level, 5, f"an index of {owner} that names no node")
            want(len(level) <= total, 6, f"more nodes than {owner} has")
            for place, at in enumerate(level):
                want(at < total and at not in reached and at != 0 and at not in chain, 6, f"a node of {owner} twice or outside")
                reached.add(at)
                here = node(at)
                want((here.kind, here.height) == (-1 if height == 1 else 0, height), 5, f"kind or height of a node of {owner}")
                want(here.next == (level[place + 1] if place + 1 < len(level) else 0), 6, f"a next node of {owner}")
                want(here.back == (level[place - 1] if place else 0), 6, f"a node before of {owner}")
                items = here.items(5)
                want(items or below == 0, 5, f"a node of {owner} without records")
                entries += items
                firsts.append(key_of(items[0]) + at.to_bytes(4, "big") if items else b"")
            if named is not None:
                want(named == firsts, 6, f"an index record of {owner}")
            keys = [read_key(key_of(it)) for it in entries]
            want(None not in keys, 5, f"a key of {owner}")
            want(all(one < other for one, other in zip(keys, keys[1:])), 6, f"the order of keys of {owner}")
            if height == 1:
                want(all(len(it) <= size // 2 - 10 for it in entries), 5, f"a record of {owner} that is too long")
                want((first, last, records) == (level[0], level[-1], len(entries)), 4, f"first, last and number of leaves of {owner}")
                leaves = [(key, item[len(key_of(item)) :]) for key, item in zip(keys, entries)]
            else:
                named = entries
                level = [number(it, len(key_of(it)), 4) for it in entries]
        used = {8 * at + place for at, byte in enumerate(bits) if byte for place, bit in enumerate(BITS[byte]) if bit}
        want(used == reached | {0} | set(chain), 7, f"the map of {owner}")
        want(free + len(used) == total, 4, f"the free nodes of {owner}")
        return leaves

    # ---- entries

    def kinds_hold(self, pairs):
        self.entries, self.at, self.threads = [], {}, {}
        for (parent, name), value in pairs:
            kind = number(value, 0, 2) if len(value) >= 2 else 0
            long = {1: 88, 2: 248}.get(kind)
            if kind in (3, 4):
                want(len(value) >= 10 and len(value) == 10 + 2 * number(value, 8, 2), 8, "the length of a thread")
                want(not name, 8, "a thread with a name")
                self.threads[parent] = number(value, 4, 4), units(value[10:]), kind == 4
                continue
            want(long is not None and len(value) == long and name, 8, "a record of its type under a name")
            entry = {"parent": parent, "name": name, "file": kind == 2, "id": number(value, 8, 4), "count": number(value, 4, 4)}
            entry["special"] = number(value, 44, 4)
            entry["link"] = kind == 2 and value[48:56] == b"hlnkhfs+"
            entry["forks"] = [(0, Fork(value[88:168])), (255, Fork(value[168:248]))] if kind == 2 else []
            self.entries.append(entry)
            self.at[parent, name] = entry

    def entries_hold(self):
        threads = self.threads
        ids = [it["id"] for it in self.entries]
        want(len(set(ids)) == len(ids), 15, "a CNID twice")
        want(all(it == 2 or 16 <= it < self.head.next for it in ids), 15, "a CNID that wasn't given")
        for entry in self.entries:
            want(threads.pop(entry["id"], None) == (entry["parent"], entry["name"], entry["file"]), 9, "the thread of an entry")
        want(not threads, 9, "a thread of nothing")
        self.folders = {it["id"]: it["parent"] for it in self.entries if not it["file"]}
        want(self.folders.get(2) == 1, 10, "the root")
        held = {}
        for entry in self.entries:
            held[entry["parent"]] = held.get(entry["parent"], 0) + 1
            want(entry["id"] == 2 and not entry["file"] and entry["parent"] == 1 or self.lies_in(2, entry["parent"]), 10, "a parent that doesn't lead to the root")
        for entry in self.entries:
            want(entry["file"] or entry["count"] == held.get(entry["id"], 0), 11, "a valence")
        want(self.head.files == sum(it["file"] for it in self.entries), 12, "the number of files")
        want(self.head.folders + 1 == len(self.folders), 12, "the number of folders")

    def lies_in(self, top, folder):
        """Whether a folder is this one, or lies below it."""
        seen = set()
        while folder != top:
            if folder in seen or folder not in self.folders:
                return False
            seen.add(folder)
            folder = self.folders[folder]
        return True

    def links_hold(self):
        private = self.at.get((2, text(PRIVATE)))
        want(private is None or not private["file"], 19, "the private folder")
        place = private["id"] if private else None
        links = {}
        for entry in self.entries:
            if entry["link"]:
                links[entry["special"]] = links.get(entry["special"], 0) + 1
                want(place is None or not self.lies_in(place, entry["parent"]), 19, "a link in the private folder")
                want(not any(self.whole(entry["id"], kind, fork) for kind, fork in entry["forks"]), 19, "a link with blocks")
                shared = self.at.get((place, text(f"iNode{entry['special']}"))) if private else None
                want(shared is not None and shared["file"], 19, "a link to nothing")
        for entry in self.entries:
            if private and entry["parent"] == place and entry["file"]:
                name = "".join(map(chr, entry["name"]))
                reference = name[5:] if name.startswith("iNode") else ""
                if reference.isascii() and reference.isdigit() and str(int(reference)) == reference and int(reference) < 2**32:
                    want(entry["special"] == links.get(int(reference), 0), 19, "the number of links")

    def attributes_hold(self, pairs):
        owners, self.values, last = {it["id"] for it in self.entries if not it["link"]}, [], None
        for (owner, name, start), value in pairs:
            want(name and owner in owners, 20, "an attribute's name or owner")
            kind = number(value, 0, 4) if len(value) >= 4 else 0
            if kind == 0x30:
                # Records of one attribute stand behind one another, in the order of their places.
                want(len(value) == 72, 20, "the length of a record of further extents")
                want(last and last["of"] == (owner, name), 20, "further extents of no fork")
                extents = extents_of(value[8:])
                want(start == last["place"] and last["full"] and in_use(extents), 20, "further extents that don't go on")
                last["extents"].append(extents)
            else:
                want(start == 0, 20, "an attribute that doesn't begin at 0")
                last = None
                if kind == 0x20:
                    want(len(value) == 88, 20, "the length of an attribute's fork")
                    last = {"of": (owner, name), "fork": Fork(value[8:]), "place": 0}
                    last["extents"] = [last["fork"].extents]
                    self.values.append(last)
                else:
                    size = number(value, 12, 4)
                    want(kind == 0x10 and len(value) >= 16 and len(value) == 16 + size + size % 2, 20, "an attribute's record")
            if last:
                last["place"] += sum(count for _, count in last["extents"][-1])
                last["full"] = is_full(last["extents"][-1])
        block, info = self.head.block, self.sector(self.head.info * (self.head.block // 512))
        offset, size = number(info, 36, 8), number(info, 44, 8)
        journal = offset // block, -(-(offset + size) // block) - offset // block
        for name, wanted in ((".journal", journal), (".journal_info_block", (self.head.info, 1))):
            entry = self.at.get((2, text(name)))
            want(entry is not None and entry["file"], 20, name)
            want(self.whole(entry["id"], 0, entry["forks"][0][1]) == [wanted], 20, f"the extent of {name}")

    # ---- blocks

    def blocks_hold(self):
        head = self.head
        special = [(3, head.extents), (4, head.catalog), (6, head.allocation), (7, head.startup), (8, head.attributes_file)]
        forks = [(owner, 0, fork) for owner, fork in special]
        forks += [(it["id"], kind, fork) for it in self.entries for kind, fork in it["forks"]]
        uses = [(0, -(-1536 // head.block))]
        last = (self.sectors * 512 - 1024) // head.block
        uses += [(last, head.total - last)] if last < head.total else []
        inside = lambda extents: all(first + count <= head.total for first, count in in_use(extents))
        of = {}
        for more in self.overflow:
            of.setdefault(more[:2], []).append(more)
        for owner, kind, fork in forks:
            want(inside(fork.extents), 16, "an extent outside")
            extents = self.whole(owner, kind, fork)
            want(sum(count for _, count in extents) == fork.blocks, 16, f"the number of blocks of {owner}")
            want(fork.size <= fork.blocks * head.block, 16, f"the bytes of {owner}")
            uses += extents
            self.go_on(sum(count for _, count in fork.extents), is_full(fork.extents), self.of(owner, kind))
            if owner != 3:
                of.pop((owner, kind), None)
        for kind in (0, 255):
            self.go_on(0, True, self.of(5, kind))
            uses += [extent for it in of.pop((5, kind), []) for extent in in_use(it[3])]
        want(all(inside(it[3]) for it in self.overflow), 16, "an overflow extent outside")
        want(not of, 17, "overflow records of no fork")
        for it in self.values:
            want(all(map(inside, it["extents"])), 16, "an extent of an attribute outside")
            extents = [extent for more in it["extents"] for extent in in_use(more)]
            want(sum(count for _, count in extents) == it["fork"].blocks, 16, "the number of blocks of an attribute")
            want(it["fork"].size <= it["fork"].blocks * head.block, 16, "the bytes of an attribute")
            uses += extents
        used, marks = 0, bytearray(head.total)
        for first, count in uses:
            want(not any(marks[first : first + count]), 18, "a block used twice")
            marks[first : first + count] = b"\1" * count
            used += count
        bits = head.allocation.size * 8
        want(head.total <= bits, 3, "the length of the bitmap")
        data = self.fork_bytes(self.whole(6, 0, head.allocation), 0, min(head.allocation.size, len(self.image)))
        found = b"".join(BITS[byte] for byte in data)
        found += bytes(max(0, head.total - len(found)))
        want(not any(found[head.total :]), 3, "bits behind those of blocks")
        want(found[: head.total] == marks, 13, "a bit of the bitmap")
        want(head.free + used == head.total, 14, "the free blocks")
        self.marks = marks

    def go_on(self, place, full, records):
        for _, _, start, extents in records:
            want(start == place and full, 17, "an overflow record that doesn't go on")
            want(in_use(extents), 17, "an overflow record without an extent in use")
            place += sum(count for _, count in extents)
            full = is_full(extents)


def unsound(image):
    """The first rule that this reading finds broken, or None."""
    try:
        Reading(image).check()
    except Broken as why:
        return str(why)
    return None
