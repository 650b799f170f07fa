"""What a command takes of a volume, written from the page docs/commands.md ("What a command takes") and not from the program.

For commands that put no bytes into files the numbers that `df` tells are enough; for the others the free runs and the file's extents are asked for.
"""

import copy

KEYS = (10, 516, 266)
# The most bytes of a value that stands in its record; a longer one has blocks of its own.
INLINE = 1700


def up(number, by):
    return -(-number // by)


class Gauge:
    """The numbers of `df`, and the node sizes of the three trees."""

    def __init__(self, reply, nodes):
        found = list(map(int, reply.split()[1:]))
        self.block, self.total, self.free, self.longest, self.capacity = found[:5]
        self.trees = [(size, *found[at : at + 3]) for size, at in zip(nodes, (5, 8, 11))]
        assert len(found) == 14

    def __eq__(self, other):
        return self.__dict__ == other.__dict__


def edits_of(plain, verb, words):
    """The ids that a command draws, its edits of the catalog and of the attributes, and its updates in place; further records of values come to that."""
    private = 0 if plain.has_private else 1
    if verb in ("mkdir", "create"):
        return 1, 2, 0, 1
    if verb == "rmdir":
        return 0, 2, len(plain.reached(words[0]).attributes), 1
    if verb == "rm":
        file = plain.reached(words[0])
        if file.names > 1:
            return 0, 2, 0, 4
        return (0, 5, 0, 4) if file.linked else (private, 3 + 2 * private, 0, 4)
    if verb == "mv":
        file, found = plain.reached(words[0]), plain.place(words[1])[1]
        if found is None:
            return 0, 3, 0, 3
        if found is file:
            return 0, 0, 0, 0
        if found.names > 1:
            return 0, 5, 0, 6
        return (0, 8, 0, 6) if found.linked else (private, 6 + 2 * private, 0, 6)
    if verb == "ln":
        return (1, 2, 0, 4) if plain.reached(words[0]).linked else (2 + private, 7 + 2 * private, 0, 4)
    return {"chmod": (0, 0, 0, 1), "setattr": (0, 0, 2, 1), "delattr": (0, 0, 1, 1), "write": (0, 0, 0, 1), "trunc": (0, 0, 0, 1)}.get(verb, (0, 0, 0, 0))


def growth(tree, key, edits, block):
    """What edits need of a tree beside its free nodes, and the nodes by which it grows."""
    size, depth, nodes, free = tree
    if not edits:
        return 0, 0, 0
    rises = edits // ((size - 16) // (key + 8) - 2)
    missing = max(0, edits * (max(depth, 1) + 2 + rises) - free)
    if not missing:
        return rises, 0, 0
    bits, each, unit = 8 * (size - 256), 8 * (size - 20), max(1, block // size)
    while bits < nodes:
        bits += each
    least = up(max(missing, nodes // 4), unit)
    maps = lambda more: up(max(0, nodes + more - bits), each)
    while least * unit - maps(least * unit) < missing:
        least += 1
    return rises, least * unit, maps(least * unit)


class Data:
    """Where a `write` or a `trunc` puts data: how many new blocks it takes, and how many of those that the file has they replace."""

    def __init__(self, size, start, end, block):
        first = min(start, size) // block
        self.new, self.grows = up(end, block) - first, end > size
        self.old = min(up(end, block), up(size, block)) - first


def data_of(plain, verb, words, block):
    """The data that a command puts into a file, or None."""
    if verb not in ("write", "trunc"):
        return None
    size = len(plain.reached(words[0]).data)
    start, end = (int(words[1]), int(words[1]) + len(words[2])) if verb == "write" else (size, int(words[1]))
    return Data(size, start, end, block) if end > start else None


def records(extents):
    """How many overflow records a fork of so many extents has."""
    return up(max(0, extents - 8), 8)


def attributes_gone(plain, verb, words):
    """The folder or file of which a command removes attributes, and their names."""
    if verb not in ("setattr", "delattr", "rmdir"):
        return None, []
    node = plain.reached(words[0])
    return node, list(node.attributes) if verb == "rmdir" else [words[1]]


def blocks_of_value(verb, words, block):
    """How many blocks the value takes that a command sets."""
    return up(len(words[2]), block) if verb == "setattr" and len(words[2]) > INLINE else 0


class Fork:
    """What is known of the forks that a command makes longer: the extents of the file's data and whether it has blocks past its size, the lengths of the free
    runs, and the extents of the trees' forks; and the same behind the cuts of these blocks, where it is known. Of each value of an attribute that the command
    removes it has the extents and the blocks."""

    def __init__(self, extents, surplus, runs, trees, behind=None, values=()):
        self.extents, self.surplus, self.runs, self.trees, self.behind = extents, surplus, sorted(runs, reverse=True), trees, behind
        self.values = values

    def fewest(self, many):
        """The least number of free runs that hold so many blocks, or of all of them."""
        for count, long in enumerate(self.runs):
            if many <= 0:
                return count
            many -= long
        return len(self.runs)


class Weight:
    """What a command takes: the refusal for want of a resource, or None."""

    def __init__(self, refused=None):
        self.refused = refused


def weigh(gauge, plain, verb, words, fork):
    """The weight of a command that the plain tree doesn't refuse, or None where too little is known of the cuts ahead of it."""
    if verb == "setattr" and not gauge.trees[2][2]:
        return Weight(b"no NoTree")
    trees, data = gauge.trees, data_of(plain, verb, words, gauge.block)
    sectors = [size // 512 for size, _, _, _ in trees]
    if data and data.grows and fork.surplus:
        load = 1 + sectors[1] + min(up(gauge.total, 4096), 24) + sectors[0] * min(4 * (trees[0][1] + 1) + 4, trees[0][2])
        if load > gauge.capacity:
            return Weight(b"no TooBig %d %d" % (load, gauge.capacity))
        if not fork.behind:
            return None
        # Its cuts go first; then it weighs what it does behind them.
        gauge, fork = copy.copy(gauge), fork.behind
        gauge.free, gauge.longest = sum(fork.runs), max(fork.runs, default=0)
    ids, catalog, attributes, updates = edits_of(plain, verb, words)
    new, old = (data.new, data.old) if data else (blocks_of_value(verb, words, gauge.block), sum(blocks for _, blocks in fork.values))
    runs = fork.fewest(new)
    attributes += sum(records(extents) for extents, _ in fork.values) + (0 if data else records(runs))
    edits = [records(fork.extents) + records(fork.extents + 1 + runs) if data else 0, catalog, attributes]
    if plain.next + ids > 4294967295:
        return Weight(b"no NoIds %d" % plain.next)
    grown = [None] + [growth(trees[it], KEYS[it], edits[it], gauge.block) for it in (1, 2)]
    edits[0] += sum(grown[it][1] > 0 and fork.trees[it] >= 8 for it in (1, 2))
    grown[0] = growth(trees[0], KEYS[0], edits[0], gauge.block)
    load, blocks = 1 + updates * sectors[1], 0
    for (size, depth, nodes, _), many, (rises, more, maps) in zip(trees, edits, grown):
        if many and (depth >= 8 or max(depth, 1) + 1 + rises > 11):
            return Weight(b"no TooDeep %d" % depth)
        blocks += more * size // gauge.block
        if many or more:
            load += size // 512 * min(many * (4 * (max(depth, 1) + 2 + rises) + 4) + (2 + maps if more else 0), nodes + more)
    if grown[0][1] and fork.trees[0] == 8:
        return Weight(b"no OverflowFull 8")
    wanted = blocks + new
    if gauge.free < wanted:
        return Weight(b"no NoSpace %d %d" % (gauge.free, wanted))
    if blocks and gauge.longest < wanted:
        return Weight(b"no NoRun %d %d" % (gauge.longest, wanted))
    bits = new // 4096 + 2 * runs + old + (blocks // 4096 + 2 if blocks else 0)
    load += min(up(gauge.total, 4096), bits)
    if verb not in ("at", *CHANGES):
        load = 0
    return Weight(b"no TooBig %d %d" % (load, gauge.capacity) if load > gauge.capacity else None)


CHANGES = ("mkdir", "create", "rm", "rmdir", "mv", "ln", "chmod", "setattr", "delattr", "write", "trunc")
