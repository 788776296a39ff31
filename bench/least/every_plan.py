#!/usr/bin/env python3
"""Prints rows of small access lists with the fewest loads that any plan for them makes. All plans are tried, by going through
every set of pages that can be held after each access; nothing here knows of next accesses. Only lists are kept for which more
loads are made where the page goes that was not accessed for longest. The tests of least_reloads have these rows."""
import itertools
import random


def fewest_loads(accesses, frames):
    pages = sorted(set(accesses))
    sets = [frozenset(some) for size in range(frames + 1) for some in itertools.combinations(pages, size)]
    loads = {frozenset(): 0}
    for page in accesses:
        after = {}
        for old, made in loads.items():
            for new in sets:
                if page in new:
                    count = made + len(new - old)
                    after[new] = min(count, after.get(new, count))
        loads = after
    return min(loads.values())


def oldest_goes(accesses, frames):
    held, loads = [], 0
    for page in accesses:
        if page in held:
            held.remove(page)
        else:
            loads += 1
            held = held[-(frames - 1):] if frames > 1 else []
        held.append(page)
    return loads


def rows(seed, count):
    chance = random.Random(seed)
    while count > 0:
        pages = chance.randint(3, 7)
        accesses = [chance.randrange(pages) for _ in range(chance.randint(6, 14))]
        frames = chance.randint(1, 4)
        fewest = fewest_loads(accesses, frames)
        if fewest < oldest_goes(accesses, frames):
            yield accesses, frames, fewest
            count -= 1


if __name__ == "__main__":
    assert fewest_loads([1, 2, 3, 4, 1, 2, 5, 1, 2, 3, 4, 5], 3) == 7
    assert fewest_loads([1, 1, 2], 1) == 2
    assert fewest_loads([], 1) == 0
    for accesses, frames, fewest in rows(20, 40):
        print(f"    (&{accesses}, {frames}, {fewest}),")
