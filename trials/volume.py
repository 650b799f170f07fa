"""A second writer of volumes: sound volumes of any contents, made from the page docs/format.md and not by the program.

    volume = Volume(sectors=65536, block=4096)
    folder = volume.folder(2, "projects")
    file = volume.file(folder, "notes", b"text", pieces=3)       # its blocks in three extents
    volume.link(2, "other", file)                                # a further name of the file
    volume.attribute(file, "user.tag", b"red")
    volume.attribute(file, "user.long", bytes(70000), pieces=9)  # in a fork of its own
    volume.write("v.img")                                        # a sparse file
"""

import struct

HEAD = 512


def units(name):
    return name.encode("utf-16-be")


def catalog_key(parent, name):
    data = units(name)
    return struct.pack(">HIH", 6 + len(data), parent, len(data) // 2) + data


def extent_bytes(extents):
    extents = (list(extents) + [(0, 0)] * 8)[:8]
    return b"".join(struct.pack(">II", *it) for it in extents)


def fork_bytes(size, clump, extents):
    return struct.pack(">QII", size, clump, sum(count for _, count in extents)) + extent_bytes(extents)


def checksum(data):
    found = 0
    for byte in data:
        found = (found << 8 ^ found + byte) & 0xFFFFFFFF
    return ~found & 0xFFFFFFFF


class Tree:
    """The nodes of a tree from its sorted pairs, each leaf filled up to a part."""

    def __init__(self, pairs, size, longest, attributes, compare, clump, spare, filled):
        self.size, self.nodes = size, []
        levels, at = [], 1
        entries, height = [key + value for key, value in pairs], 1
        # In reverse the map nodes would come last: the levels stand behind one another, leaves first.
        while entries:
            groups, room = [[]], size - 16
            for entry in entries:
                if groups[-1] and room - len(entry) - 2 < (size - 16) * (1 - filled) or groups[-1] and room < len(entry) + 2:
                    groups.append([])
                    room = size - 16
                groups[-1].append(entry)
                room -= len(entry) + 2
            numbers = list(range(at, at + len(groups)))
            levels.append((height, numbers, groups))
            at += len(groups)
            if len(groups) == 1:
                break
            key = lambda entry: entry[: int.from_bytes(entry[:2], "big") + 2]
            entries = [key(group[0]) + number.to_bytes(4, "big") for group, number in zip(groups, numbers)]
            height += 1
        count = at + spare
        bits_here, bits_each, chain = 8 * (size - 256), 8 * (size - 20), []
        while bits_here + bits_each * len(chain) < count:
            chain.append(at + len(chain))
            count += 1
        used = at + len(chain)
        bits = bytearray(size - 256 + (size - 20) * len(chain))
        for number in range(used):
            bits[number // 8] |= 0x80 >> number % 8
        depth = len(levels)
        leaves = levels[0][1] if levels else [0]
        head = struct.pack(">HIIIIHHIIHIBBI", depth, levels[-1][1][0] if levels else 0, len(pairs), leaves[0], leaves[-1], size, longest, count, count - used, 0, clump, 0, compare, attributes)
        record = head + bytes(64)
        assert len(record) == 106
        self.put(0, 1, 0, chain[0] if chain else 0, 0, [record, bytes(128), bytes(bits[: size - 256])])
        for height, numbers, groups in levels:
            for place, (number, group) in enumerate(zip(numbers, groups)):
                back = numbers[place - 1] if place else 0
                behind = numbers[place + 1] if place + 1 < len(numbers) else 0
                self.put(number, -1 if height == 1 else 0, height, behind, back, group)
        for place, number in enumerate(chain):
            start = size - 256 + place * (size - 20)
            self.put(number, 2, 0, chain[place + 1] if place + 1 < len(chain) else 0, 0, [bytes(bits[start : start + size - 20])])
        self.count = count

    def put(self, number, kind, height, behind, back, records):
        data = struct.pack(">IIbBHH", behind, back, kind, height, len(records), 0) + b"".join(records)
        offsets, at = [], 14
        for record in records:
            offsets.append(at)
            at += len(record)
        offsets.append(at)
        assert len(data) + 2 * len(offsets) <= self.size
        data += bytes(self.size - len(data) - 2 * len(offsets)) + struct.pack(f">{len(offsets)}H", *reversed(offsets))
        self.nodes.append((number, data))


class Volume:
    def __init__(self, sectors=16384, block=4096, journal=2048, node=4096, spare=16, filled=1.0, name="untitled", bare=False, mounted=b"HFSJ", pieces=1, moment=0, emptied=False):
        # A bare volume has no attributes file. `mounted` is the version that mounted it last; one of another system wasn't unmounted cleanly,
        # as bit 8 says. The tree files are in so many pieces, and all dates are the moment. An emptied volume has, behind each
        # fork whose extents fill its records to the last, an overflow record that has no extent in use, which makes it unsound.
        self.bare, self.mounted, self.pieces, self.moment, self.emptied = bare, mounted, pieces, moment, emptied
        self.sectors, self.block, self.journal, self.node, self.spare, self.filled = sectors, block, journal, node, spare, filled
        self.total = sectors * 512 // block
        self.next, self.entries, self.attributes, self.overflow, self.data = 16, {}, [], [], []
        # What the attributes are: of each folder or file, by name, the value and its extents.
        self.values = {}
        # The extents of the startup file and of values of attributes, and the startup file's bytes.
        self.kept, self.startup = [], b""
        self.front = -(-1536 // block)
        self.bitmap = (self.front, -(-self.total // (8 * block)))
        self.info = (sum(self.bitmap), 1)
        self.ring = (sum(self.info), journal * 512 // block)
        self.free = sum(self.ring)
        self.entries[2] = {"parent": 1, "name": name, "forks": None, "special": 0, "finder": bytes(32), "mode": 0o40755}
        self.info_file = self.entry(2, ".journal_info_block", [([self.info], block), ([], 0)])
        self.journal_file = self.entry(2, ".journal", [([self.ring], journal * 512), ([], 0)])
        self.private = None
        self.made = None

    def entry(self, parent, name, forks, special=0, finder=bytes(32), mode=None):
        number = self.next
        self.next += 1
        mode = mode or (0o40755 if forks is None else 0o100644)
        self.entries[number] = {"parent": parent, "name": name, "forks": forks, "special": special, "finder": finder, "mode": mode}
        return number

    def take(self, count, gap=0):
        start = self.free
        self.free += count + gap
        return start, count

    def folder(self, parent, name):
        return self.entry(parent, name, None)

    def fork(self, data, pieces):
        count = -(-len(data) // self.block)
        pieces = max(1, min(pieces, count)) if count else 0
        extents = [self.take(count // pieces + (it < count % pieces), 1 if pieces > 1 else 0) for it in range(pieces)]
        place = 0
        for start, blocks in extents:
            self.data.append((start, data[place : place + blocks * self.block]))
            place += blocks * self.block
        return extents, len(data)

    def file(self, parent, name, data=b"", pieces=1, resources=b""):
        forks = [self.fork(data, pieces), self.fork(resources, pieces)]
        number = self.entry(parent, name, forks)
        for kind, (extents, _) in zip((0, 255), forks):
            self.behind(number, kind, extents)
        return number

    def ahead(self, number, size):
        """Lets a file end before its blocks do."""
        extents, _ = self.entries[number]["forks"][0]
        self.entries[number]["forks"][0] = (extents, size)

    def behind(self, number, kind, extents):
        """The overflow records of a fork."""
        place = sum(count for _, count in extents[:8])
        for at in range(8, len(extents), 8):
            self.overflow.append(((number, kind, place), extents[at : at + 8]))
            place += sum(count for _, count in extents[at : at + 8])
        if self.emptied and extents and len(extents) % 8 == 0:
            self.overflow.append(((number, kind, place), []))

    def bad_blocks(self, count):
        self.overflow.append(((5, 0, 0), [self.take(count)]))

    def keep_private(self):
        if self.private is None:
            self.private = self.folder(2, "\0\0\0\0HFS+ Private Data")

    def orphan(self, data, number):
        """A file that no name leads to any more, as a loss of power leaves it."""
        self.keep_private()
        return self.file(self.private, f"iNode{number + 1000000}", data, pieces=3)

    def link(self, parent, name, file):
        """A further name of a file; at the first one the file goes to the private folder, and its old name becomes a link."""
        self.keep_private()
        it = self.entries[file]
        if it["parent"] != self.private:
            old = it["parent"], it["name"]
            it["parent"], it["name"] = self.private, f"iNode{file}"
            self.entry(*old, [([], 0), ([], 0)], file, b"hlnkhfs+" + bytes(24))
            it["special"] = 1
        self.entry(parent, name, [([], 0), ([], 0)], file, b"hlnkhfs+" + bytes(24))
        it["special"] += 1

    def attribute(self, number, name, value, pieces=None):
        """An attribute whose value stands in its record, or in a fork of its own in so many pieces; over eight of them stand in further records."""
        data = units(name)
        put = lambda start, record: self.attributes.append(((number, data, start), struct.pack(">HHIIH", 12 + len(data), 0, number, start, len(data) // 2) + data, record))
        self.values.setdefault(number, {})[data] = value, []
        if pieces is None:
            put(0, struct.pack(">III", 0x10, 0, 0) + len(value).to_bytes(4, "big") + value + bytes(len(value) % 2))
            return
        extents, size = self.fork(value, pieces)
        self.kept += extents
        self.values[number][data] = value, extents
        blocks = lambda part: sum(count for _, count in part)
        fork = fork_bytes(size, 0, extents[:8])
        put(0, struct.pack(">II", 0x20, 0) + fork[:12] + struct.pack(">I", blocks(extents)) + fork[16:])
        for at in range(8, len(extents), 8):
            put(blocks(extents[:at]), struct.pack(">II", 0x30, 0) + extent_bytes(extents[at : at + 8]))

    # ---- bytes

    def catalog(self):
        held, pairs = {}, []
        for it in self.entries.values():
            held[it["parent"]] = held.get(it["parent"], 0) + 1
        for number, it in self.entries.items():
            kind = 1 if it["forks"] is None else 2
            flags, count = (0, held.get(number, 0)) if kind == 1 else (2, 0)
            value = struct.pack(">HHII5IIIBBHI", kind, flags, count, number, *[self.moment] * 4, 0, 0, 0, 0, 0, it["mode"], it["special"])
            value += it["finder"] + bytes(8)
            for extents, size in it["forks"] or []:
                value += fork_bytes(size, 0, extents[:8]) if size or extents else bytes(80)
                if len(extents) > 8:
                    value = value[:-68] + struct.pack(">I", sum(count for _, count in extents)) + value[-64:]
            name = units(it["name"])
            pairs.append(((it["parent"], name), catalog_key(it["parent"], it["name"]), value))
            thread = struct.pack(">HHIH", 3 if kind == 1 else 4, 0, it["parent"], len(name) // 2) + name
            pairs.append(((number, b""), catalog_key(number, ""), thread))
        # Big-endian units compare as their bytes do, a name that begins another one first.
        return [it[1:] for it in sorted(pairs, key=lambda it: it[0])]

    def parts(self):
        """The parts of the volume, as pairs of a byte's place and bytes; from here on the volume stays as it is."""
        self.made = self.made or self.spelled()
        return self.made

    def spelled(self):
        overflow = sorted(self.overflow)
        extents = [(struct.pack(">HBBII", 10, key[1], 0, key[0], key[2]), extent_bytes(value)) for key, value in overflow]
        attributes = [it[1:] for it in sorted(self.attributes)]
        spare = self.spare
        trees = [
            Tree(extents, self.node, 10, 2, 0, self.block, spare, self.filled),
            Tree(attributes, self.node, 266, 6, 0, self.block, spare, self.filled),
            Tree(self.catalog(), self.node, 516, 6, 0xBC, self.block, spare, self.filled),
        ]
        found, forks = [], []
        if self.bare:
            trees[1] = None
        for tree in trees:
            if tree is None:
                forks.append(fork_bytes(0, 0, []))
                continue
            # Whole blocks and whole nodes: nodes that no record reaches fill what is left.
            each = max(self.node, self.block)
            size = -(-tree.count * self.node // each) * each
            if size != tree.count * self.node:
                more = size // self.node - tree.count
                number, head = tree.nodes[0]
                total, free = struct.unpack(">II", head[36:44])
                tree.nodes[0] = number, head[:36] + struct.pack(">II", total + more, free + more) + head[44:]
            count = size // self.block
            pieces = min(self.pieces, count)
            extents = [self.take(count // pieces + (it < count % pieces), 1 if pieces > 1 else 0) for it in range(pieces)]
            forks.append(fork_bytes(size, self.block, extents))
            for number, data in tree.nodes:
                found += self.spread(extents, number * self.node, data)
        startup = fork_bytes(0, self.block, [])
        if self.startup:
            extents, size = self.fork(self.startup, 1)
            self.kept += extents
            startup = fork_bytes(size, self.block, extents)
        found += [(place * self.block, data) for place, data in self.data]
        last = (self.sectors * 512 - 1024) // self.block
        assert self.free <= last, "the volume is full"
        bits = bytearray(self.bitmap[1] * self.block)
        used = [(0, self.front), self.bitmap, self.info, self.ring, (last, self.total - last) if last < self.total else (0, 0)]
        used += [struct.unpack(">II", fork[at : at + 8]) for fork in forks for at in range(16, 80, 8) if any(fork[at + 4 : at + 8])]
        for it in self.entries.values():
            for extents, _ in it["forks"] or []:
                used += extents
        used += [extent for key, value in self.overflow if key[0] == 5 for extent in value]
        used += self.kept
        used = sorted(set(used))
        count = 0
        for start, blocks in used:
            count += blocks
            for block in range(start, start + blocks):
                bits[block // 8] |= 0x80 >> block % 8
        self.free_blocks = self.total - count
        found.append((self.bitmap[0] * self.block, bytes(bits)))
        offset, size = self.ring[0] * self.block, self.journal * 512
        found.append((self.info[0] * self.block, struct.pack(">I", 1) + bytes(32) + struct.pack(">QQ", offset, size) + bytes(128)))
        head = struct.pack("<IIQQQII", 0x4A4E4C78, 0x12345678, HEAD, HEAD, size, 4096, 0) + struct.pack("<I", HEAD)
        head = head[:36] + struct.pack("<I", checksum(head)) + head[40:]
        found.append((offset, head))
        files = sum(it["forks"] is not None for it in self.entries.values())
        header = struct.pack(">HHI4sI4I", 0x4858, 5, 0x2100 if self.mounted == b"HFSJ" else 0x2000, self.mounted, self.info[0], self.moment, self.moment, 0, 0)
        header += struct.pack(">9I", files, len(self.entries) - files - 1, self.block, self.total, self.free_blocks, self.free, self.block, self.block, self.next)
        header += struct.pack(">IQ", 0, 1) + bytes(32)
        header += fork_bytes(self.bitmap[1] * self.block, self.block, [self.bitmap]) + forks[0] + forks[2] + forks[1] + startup
        assert len(header) == 512
        found += [(1024, header), (self.sectors * 512 - 1024, header)]
        return found

    def spread(self, extents, at, data):
        """Bytes from a place of a fork on, as they stand in its extents."""
        found, place = [], 0
        for start, count in extents:
            size = count * self.block
            one, other = max(at, place), min(at + len(data), place + size)
            if one < other:
                found.append((start * self.block + one - place, data[one - at : other - at]))
            place += size
        return found

    def write(self, path):
        with open(path, "wb") as file:
            file.truncate(self.sectors * 512)
            for at, data in self.parts():
                file.seek(at)
                file.write(data)

    def image(self):
        found = bytearray(self.sectors * 512)
        for at, data in self.parts():
            found[at : at + len(data)] = data
        return found
