#!/usr/bin/env python3
"""Compares `why` with `link` on the links of bench.py, and prints what the explanation of a link takes on top of it.

    python3 bench/why.py [PROGRAM] [COUNT..]

PROGRAM and COUNT are those of bench.py, with 100000 members by default. Each command runs three times with one worker,
in turn. Prints a line for each link: its symbols, the least seconds of either command, that of `why` to that of `link`,
and the most memory that each held.
"""
from bench import chain, fan, mixed, run
from words import program_and_counts


def main():
    program, counts = program_and_counts("link_program", [100000])
    print(f"{'shape':>6} {'refs':>4} {'members':>8} {'symbols':>8} {'link s':>7} {'why s':>7} {'to link':>7} {'link MB':>8} {'why MB':>8}")
    for name, shape, each in (("chain", chain, (1, 10)), ("fan", fan, (1, 10)), ("mixed", mixed, (20,))):
        for references in each:
            for count in counts:
                manifest = shape(count, references)
                symbols = 1 + sum(1 + len(o["symbols"]) for o in manifest["objects"])
                runs = [[run(program, [command, "1"], manifest) for command in ("link", "why")] for _ in range(3)]
                (link, link_held), (why, why_held) = [(min(r[at][0] for r in runs), max(r[at][1] for r in runs)) for at in (0, 1)]
                print(f"{name:>6} {references:4} {count:8} {symbols:8} {link:7.3f} {why:7.3f} {why / link:7.2f} "
                      f"{link_held / 1024:8.1f} {why_held / 1024:8.1f}", flush=True)


if __name__ == "__main__":
    main()
