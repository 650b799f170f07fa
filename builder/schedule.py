"""In which order crates are proved: first what the longest way to the end leads through."""

import os

# Seconds of one processor that a crate's proof takes, and of its tests, by crate; what isn't there is told by the size of its files.
TIMES = os.path.join(os.path.dirname(os.path.abspath(__file__)), "times")
# What a crate takes at least, and the share of the longest way from which on a way is a long one.
LEAST, LONG = 10, 0.7


def told_times():
    """Returns the seconds that the table has, by crate."""
    found = {}
    with open(TIMES, encoding="utf-8") as file:
        for line in file:
            words = line.partition("#")[0].split()
            if len(words) == 2:
                found[words[0]] = float(words[1])
    return found


def lengths(sources, crates):
    """Returns how many bytes of Rattle and of proofs each crate has."""
    return {it: sum(os.path.getsize(path) for path in sources.files(it) if path.endswith((".rt", ".antt"))) for it in crates}


def seconds(sources, crates):
    """Returns what each of the crates is expected to take: as the table says, or by its length at the rate of those in the table."""
    told, long = told_times(), lengths(sources, crates)
    known = [it for it in crates if it in told]
    rate = sum(told[it] for it in known) / max(1, sum(long[it] for it in known)) if known else 1e-3
    return {it: told.get(it, LEAST + rate * long[it]) for it in crates}


def ways(sources, crates, times):
    """Returns, for each crate, the seconds of the longest way from its beginning to the end of all, and of the longest way through it."""
    ahead, behind = {}, dict.fromkeys(crates, 0)
    for it in crates:
        ahead[it] = max([ahead[below] + times[below] for below in sources.below(it)], default=0)
    for it in reversed(crates):
        behind[it] += times[it]
        for below in sources.below(it):
            behind[below] = max(behind[below], behind[it])
    return behind, {it: ahead[it] + behind[it] for it in crates}


def on_a_long_way(through):
    """Returns the crates through which a way leads that is nearly as long as the longest."""
    longest = max(through.values(), default=0)
    return {it for it in through if through[it] >= LONG * longest}
