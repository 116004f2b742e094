#!/usr/bin/env python3
"""Times a link whose objects come in batches, beside the same objects as one batch.

    python3 bench/batches.py [PROGRAM] [COUNT..]

PROGRAM is the built program, crates/link_program/out/link_program by default (./wolzhyke builds it). COUNT is a number
of objects, by default 102400, so that 256 batches have 400 each. The links are those of bench.py: a chain and a fan of
archive members with ten references each, and a mixed link. Each runs with one worker, as 1, 16 and 256 batches of
neighbouring objects; the numbers of batches run in turn, three times, and the figures are the least of these runs.
Prints a line for each: the seconds from the bytes of the manifest to the report, the most memory held, and the time to
that of one batch.
"""

from bench import chain, fan, mixed, run
from words import program_and_counts


def in_batches(manifest, count):
    """The manifest with its objects in so many batches."""
    objects = manifest["objects"]
    size = -(-len(objects) // count)
    parts = [objects[at:at + size] for at in range(0, len(objects), size)]
    return {**manifest, "objects": parts[0], "batches": [{"objects": part} for part in parts[1:]]}


def main():
    program, counts = program_and_counts("link_program", [102400])
    print(f"{'shape':>6} {'objects':>8} {'batches':>7} {'s':>7} {'MB held':>8} {'to one':>6}")
    for name, shape, references in (("chain", chain, 10), ("fan", fan, 10), ("mixed", mixed, 20)):
        for count in counts:
            manifest = shape(count, references)
            links = {batches: in_batches(manifest, batches) for batches in (1, 16, 256)}
            rounds = [{batches: run(program, ["link", "1"], link) for batches, link in links.items()} for _ in range(3)]
            least = {batches: min(each[batches][0] for each in rounds) for batches in links}
            for batches in links:
                held = max(each[batches][1] for each in rounds)
                print(f"{name:>6} {count:8} {batches:7} {least[batches]:7.3f} {held / 1024:8.1f} {least[batches] / least[1]:6.2f}",
                      flush=True)


if __name__ == "__main__":
    main()
